"""goo-people-gate: stands between the front door and the log, for writes.

It holds each write against the token's scope, the user's access and the rules of four eyes. What is
allowed goes on to the log as it came, and the log's answer comes back as it is. What has to wait is
kept in the file, and sent once a second user has confirmed it. Nothing here reads what the log
answers to anybody else.
"""
import argparse
import asyncio
import contextlib
import os
import re
import sqlite3
import sys
from collections.abc import Awaitable
from collections.abc import Callable
from collections.abc import Coroutine
from collections.abc import Mapping
from concurrent.futures import ThreadPoolExecutor
from dataclasses import dataclass
from dataclasses import field
from pathlib import Path
from typing import Any
from typing import TypeVar

from goo_service.people import asked
from goo_service.people import log_line
from goo_service.people import outcomes
from goo_service.people import store
from goo_service.people.judge import Call
from goo_service.people.judge import Judge
from goo_service.people.judge import Refused
from goo_service.people.judge import Verdict
from goo_service.people.judge import Waiting
from goo_service.people.sender import Sender
from goo_service.people.sender import time_of
from goo_service.people.serving import Reply
from goo_service.people.serving import Request
from goo_service.people.serving import Server
from goo_service.people.serving import served
from goo_service.people.store import changing
from goo_service.people.token_use import Fate
from goo_service.people.token_use import Reserved
from goo_service.people.waiting import Waits

FIELDS = ('GOO-Caller', 'GOO-User', 'GOO-Role', 'GOO-Way', 'GOO-Hold', 'GOO-Address')
"""What the front door sends with a write."""
SMALL = 16 << 10
"""Bytes of a body that is read at once, while others wait."""
ENDS = 30
"""Seconds for what is under way when the service ends."""
TOLD = {
    400: 'this is no request that can be read: a head has 8,192 bytes at most',
    413: 'a body has 1,048,576 bytes at most',
    502: 'the registry does not answer: send the same again, under the same key',
    503: 'this cannot be answered now: send the same again, under the same key',
    504: 'no answer came in time: send the same again, under the same key'}
"""As the front door words it."""
RETRY = 10
JSON = {'Content-Type': 'application/json'}
NUMBER = re.compile(r'/waiting/([1-9][0-9]{0,14})')
"""By which goo-people-web has a confirmed request sent. The front door passes on /v1/ alone."""
T = TypeVar('T')


def told(status: int) -> Reply:
    """An answer of the gate itself."""
    return shown(Refused(status, {'error': TOLD[status]},
                         RETRY if status in (502, 503, 504) else 0))


def shown(refused: Refused) -> Reply:
    fields = {'Retry-After': str(refused.wait)} if refused.wait else {}
    return Reply(refused.status, {**JSON, **fields}, refused.body + b'\n')


def shown_waiting(waits: Waits) -> Reply:
    """202: it waits for a second user."""
    members = {'outcome': 'waiting', 'number': waits.id, 'ends': time_of(waits.ends),
               'why': waits.why}
    return shown(Refused(202, members))


@dataclass
class Gate:
    """The gate over one file and one log."""

    path: Path
    log: str
    """The path of the log's socket."""
    judge: Judge = field(default_factory=Judge)
    thread: ThreadPoolExecutor = field(default_factory=lambda: ThreadPoolExecutor(1))
    """Reads and changes the file, one after another."""
    db: sqlite3.Connection | None = None
    """The thread's."""
    reader: sqlite3.Connection | None = None
    """The loop's, which changes nothing."""
    tasks: set[asyncio.Task[Any]] = field(default_factory=set)
    sender: Sender = field(init=False)

    def __post_init__(self) -> None:
        self.sender = Sender(self.log, self.of_file)

    # -------------------------------------------------------------- the file

    async def of_file(self, work: Callable[[sqlite3.Connection], T]) -> T:
        """What a piece of work over the file comes to."""
        def done() -> T:
            if self.db is None:
                self.db = store.open_file(self.path)
            try:
                return work(self.db)
            except sqlite3.Error:
                self.db.close()         # the next one begins with a connection of its own
                self.db = None
                raise
        return await asyncio.get_running_loop().run_in_executor(self.thread, done)

    def seen(self, call: Call) -> Verdict | None:
        """The verdict of most writes, without the way to the thread and back: of a small body for
        which nothing is changed. None where the thread has to look."""
        if len(call.body) > SMALL:
            return None
        try:
            if self.reader is None:
                self.reader = store.open_file(self.path)
                self.reader.execute('PRAGMA busy_timeout = 0')
            return self.judge.at_once(self.reader, call)
        except (store.Fault, sqlite3.Error):
            self.reader = None
            return None

    def keep(self, work: Coroutine[Any, Any, T]) -> 'asyncio.Task[T]':
        """Goes on with work, whoever waits for it."""
        task = asyncio.get_running_loop().create_task(work)
        self.tasks.add(task)
        task.add_done_callback(self.tasks.discard)
        return task

    # -------------------------------------------------------------- requests

    def answer(self, request: Request) -> Reply | Awaitable[Reply]:
        """The answer to one request. A write goes on where the client has gone."""
        if request.method == 'POST' and (number := NUMBER.fullmatch(request.target)):
            return self.keep(self.answered(self.confirmed(int(number[1]))))
        fields = [request.fields.getall(name, ['']) for name in FIELDS]
        if request.method != 'POST' or any(len(values) > 1 for values in fields):
            return told(400)
        caller, user, role, way, hold, address = (values[0] for values in fields)
        call = Call(request.target, caller, user, role, way, hold, address, request.body)
        return self.keep(self.answered(self.handled(call)))

    async def answered(self, work: Coroutine[Any, Any, Reply]) -> Reply:
        try:
            return await work
        except (store.Fault, sqlite3.Error, OSError) as fault:
            print(f'gate: {fault}', file=sys.stderr, flush=True)
            return told(503)

    async def handled(self, call: Call) -> Reply:
        """What a verdict has for an answer."""
        if call.target not in asked.WRITES:     # the log answers 404, and changes nothing
            return await self.passed(call, None)
        verdict = self.seen(call)
        if verdict is None:
            verdict = await self.of_file(lambda db: self.judge.verdict(db, call))
        if isinstance(verdict, Refused):
            return shown(verdict)
        if isinstance(verdict, Waiting):
            return shown_waiting(verdict.waits)
        return await self.passed(call, verdict.reserved)

    async def passed(self, call: Call, reserved: Reserved | None) -> Reply:
        """The log's answer. Where none came it counts as if the request had moved all."""
        fates: Mapping[str, Fate] = {}
        try:
            answer = await log_line.ask(self.log, text_of(call))
            if reserved:
                fates = outcomes.fates_in(call.target, call.body, answer.status, answer.body)
            return Reply(answer.status, answer.fields, answer.body)
        except log_line.Away:
            fates = dict.fromkeys(reserved.before if reserved else (), Fate.NOTHING)
            return told(502)
        except log_line.TooLate:
            return told(504)
        except (log_line.NoAnswer, ValueError):
            return told(502)
        finally:
            if reserved:
                await self.settle(reserved, fates)

    async def settle(self, reserved: Reserved, fates: Mapping[str, Fate]) -> None:
        """Gives back what of a token's day was not used. Where that can't be written it stays
        counted."""
        def work(db: sqlite3.Connection) -> None:
            with changing(db):
                self.judge.uses.settle(db, reserved, fates)
        with contextlib.suppress(store.Fault, sqlite3.Error, OSError):
            await self.of_file(work)

    async def confirmed(self, number: int) -> Reply:
        """Sends what was confirmed, for goo-people-web. Nothing else is sent by it."""
        came = await self.keep(self.sender.send(number))
        return Reply(200 if came.state != 'sending' else 202, JSON, came.body)


def text_of(call: Call) -> bytes:
    """A write as the log takes it. GOO-Confirmed is the gate's own to say."""
    fields = {'GOO-Caller': call.caller, 'GOO-User': call.user, 'GOO-Role': call.role,
              'GOO-Way': call.way, 'GOO-Address': call.address}
    return log_line.text_of('POST', call.target, fields, call.body)


# ------------------------------------------------------------------ the process

async def serve(gate: Gate, listen: str) -> None:
    """Serves until the process is told to end; then what is under way is finished."""
    rounds = asyncio.get_running_loop().create_task(gate.sender.rounds())
    async with served('gate', Server(gate.answer, told), listen):
        rounds.cancel()
        if gate.tasks:
            await asyncio.wait(gate.tasks, timeout=ENDS)


def main() -> int:
    parser = argparse.ArgumentParser(prog='goo-people-gate', description='Holds writes against '
                                     'scopes, access and rules before the log takes them.')
    parser.add_argument('--file', type=Path, default=os.environ.get('GOO_PEOPLE') or store.FILE,
                        help='the file of people')
    parser.add_argument('--log', default='/run/goo/door.sock', help="the log's socket")
    parser.add_argument('--listen', default='', help='the path of a socket, unless systemd has '
                                                     'opened one')
    given = parser.parse_args()
    try:
        asyncio.run(serve(Gate(given.file, given.log), given.listen))
    except store.Fault as fault:
        sys.exit(str(fault))
    return 0


if __name__ == '__main__':
    sys.exit(main())
