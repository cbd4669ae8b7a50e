"""goo-people-who as a process: one loop answers each question from the file, a few microseconds
after it came. What takes longer is done by threads beside it: passwords of programs are compared,
and the last use of a session or a token is noted.

usage: goo-people-who [--file FILE] [--listen PATH]
"""
import argparse
import asyncio
import os
import sqlite3
import sys
from collections.abc import Awaitable
from concurrent.futures import ThreadPoolExecutor
from dataclasses import dataclass
from dataclasses import field
from pathlib import Path

from goo_service.people import store
from goo_service.people.serving import Reply
from goo_service.people.serving import Request
from goo_service.people.serving import Server
from goo_service.people.serving import served
from goo_service.people.who import Asked
from goo_service.people.who import Door
from goo_service.people.who import Work
from goo_service.people.who import shown_in

COMPARED = 4
"""Passwords that are compared at once."""
NOTES = 1000
"""Notes that wait to be written at most. More are left out, as where they can't be written."""


@dataclass
class Notes:
    """Writes notes one after another, in a thread of its own."""

    thread: ThreadPoolExecutor = field(default_factory=lambda: ThreadPoolExecutor(1))
    waiting: int = 0

    def add(self, work: Work) -> None:
        """From the loop alone, as is what `waiting` counts."""
        if self.waiting < NOTES:
            self.waiting += 1
            done = asyncio.get_running_loop().run_in_executor(self.thread, work)
            done.add_done_callback(self.written)

    def written(self, _: 'asyncio.Future[None]') -> None:
        self.waiting -= 1


class Questions:
    """Answers over one file."""

    def __init__(self, path: Path) -> None:
        self.notes = Notes()
        self.door, self.slow = Door(path, self.notes.add), ThreadPoolExecutor(COMPARED)

    def answer(self, request: Request) -> Reply | Awaitable[Reply]:
        """The answer to one question: at once, unless a password is compared."""
        asked = Asked.of(request.fields)
        shown = shown_in(asked.authorization) if asked.authorization else None
        if shown is None or shown.is_token:
            return self.answered(asked)
        return asyncio.get_running_loop().run_in_executor(self.slow, self.answered, asked)

    def answered(self, asked: Asked) -> Reply:
        try:
            of = self.door.answer(asked)
            return Reply(of.status, of.fields())
        except (store.Fault, sqlite3.Error, OSError) as fault:
            self.door.forget()
            print(f'people: {fault}', file=sys.stderr, flush=True)
            return Reply(503)


async def serve(path: Path, listen: str) -> None:
    """Answers until the process is told to end."""
    async with served('who', Server(Questions(path).answer), listen):
        pass


def main() -> int:
    parser = argparse.ArgumentParser(prog='goo-people-who',
                                     description='Answers nginx who is there, for each request.')
    parser.add_argument('--file', type=Path, default=os.environ.get('GOO_PEOPLE') or store.FILE,
                        help='the file of people')
    parser.add_argument('--listen', default='', help='the path of a socket, unless systemd has '
                                                     'opened one')
    given = parser.parse_args()
    asyncio.run(serve(given.file, given.listen))
    return 0


if __name__ == '__main__':
    sys.exit(main())
