"""Sends what is told to people and to their programs: mails and webhooks.

usage: goo-people-post [--check] [--file FILE] [--config FILE]

Three parts run side by side over one file, each with bounded work a turn: one reads the feed of the
records, the deadlines and what became of notices; one reads the acts of people and hands mails to
the mailer; one sends webhooks, some at once, of each hook one at a time.

A mail is sent at least once. The try is counted before it is made, and the row is marked once the
mailer has it. A crash between the two sends it again after its pause, with the same Message-ID, by
which a reader's mailer shows it once. A webhook has the same number at each try (GOO-Delivery).

With --check it sends nothing. It prints a line for each thing that is wrong with mails: those that
were given up in the last seven days, and those that have waited for an hour.

Exit status 1: the file of people or the settings cannot be used, another one runs, or --check has
printed something. 2: wrong command line.
"""
import argparse
import contextlib
import fcntl
import os
import signal
import sqlite3
import sys
import threading
import time
from collections.abc import Callable
from collections.abc import Iterator
from concurrent.futures import Future
from concurrent.futures import ThreadPoolExecutor
from dataclasses import dataclass
from dataclasses import field
from pathlib import Path

from goo_service.common.owner import become_owner_of
from goo_service.people import deadlines
from goo_service.people import hooks
from goo_service.people import mails
from goo_service.people import people_reader
from goo_service.people import post_check
from goo_service.people import store
from goo_service.people.feed_reader import Feed
from goo_service.people.hook_sender import NotTaken as HookNotTaken
from goo_service.people.hook_sender import send
from goo_service.people.mailer import Away
from goo_service.people.mailer import Connection
from goo_service.people.mailer import NotTaken
from goo_service.people.post_settings import FILE as CONFIG
from goo_service.people.post_settings import Fault
from goo_service.people.post_settings import Settings
from goo_service.people.post_settings import read_settings
from goo_service.people.records_client import Records
from goo_service.people.refused_notices import Refusals
from goo_service.people.turns import Part
from goo_service.people.turns import say

MINUTES, HOUR = 300.0, 3600.0
MAILS = 100
"""Mails of a turn, over one connection."""
AT_ONCE, OF_CALLER = 16, 2
"""Webhooks that are sent at once, and of one holder: slow receivers of a few hold up nobody else.
"""


class Running(Exception):
    """Another one runs over this file."""


@contextlib.contextmanager
def alone(file: Path) -> Iterator[None]:
    """Has nobody else send what waits in this file."""
    lock = os.open(file.with_name('post.lock'), os.O_RDWR | os.O_CREAT | os.O_NOFOLLOW, 0o600)
    try:
        fcntl.flock(lock, fcntl.LOCK_EX | fcntl.LOCK_NB)
        yield
    except BlockingIOError as fault:
        raise Running(f'another one sends what waits in {file}') from fault
    finally:
        os.close(lock)


# -------------------------------------------------------------------- the records

@dataclass
class Reader:
    """Reads the records: the feed, and beside it deadlines and what became of notices."""

    db: sqlite3.Connection
    records: Records
    feed: Feed = field(init=False)
    refusals: Refusals = field(init=False)
    looked: float = float('-inf')

    def __post_init__(self) -> None:
        self.feed = Feed(self.records, self.db)
        self.refusals = Refusals(self.records, self.db)

    def turn(self) -> bool:
        more = bool(self.feed.today) and deadlines.turn(self.db, self.records, self.feed.today)
        if time.monotonic() - self.looked > MINUTES:
            self.refusals.turn()
            self.looked = time.monotonic()
        if said := self.feed.turn(0 if more else 30):
            say(said)
        return True


# -------------------------------------------------------------------- mails

@dataclass
class Post:
    """Reads the acts of people, and hands over mails."""

    db: sqlite3.Connection
    settings: Settings
    taken: dict[int, int] = field(default_factory=dict)
    """Mails that the mailer has and that could not be marked so: the disk is full."""
    pruned: float = float('-inf')

    def turn(self) -> bool:
        more = people_reader.turn(self.db)
        self.mark_taken()
        numbers = [number for number in mails.due(self.db, store.now(), MAILS)
                   if number not in self.taken]
        if numbers:
            with Connection(self.settings) as connection:
                for number in numbers:
                    self.send(connection, number)
        if time.monotonic() - self.pruned > HOUR:
            self.prune()
        return more or len(numbers) == MAILS

    def send(self, connection: Connection, number: int) -> None:
        """One mail. Away where the mailer takes none."""
        at = store.now()
        with store.changing(self.db):
            letter = mails.claim(self.db, number, at)
            if letter and not self.settings.mailer.host:
                mails.give_up(self.db, number, mails.NO_MAILER, at)
                return
        if letter is None:
            return
        try:
            connection.send(letter)
        except NotTaken as fault:
            self.not_taken(number, fault)
        except Away as fault:
            with store.changing(self.db):
                mails.mark_failed(self.db, number, str(fault))
            raise
        else:
            self.taken[number] = store.now()
            self.mark_taken()

    def not_taken(self, number: int, fault: NotTaken) -> None:
        with store.changing(self.db):
            if fault.is_final:
                mails.give_up(self.db, number, str(fault), store.now())
                say(f'mail {number} is given up: {fault}')
            else:
                mails.mark_failed(self.db, number, str(fault))

    def mark_taken(self) -> None:
        """Marks what the mailer has."""
        if self.taken:
            with store.changing(self.db):
                for number, at in self.taken.items():
                    mails.mark_sent(self.db, number, at)
            self.taken.clear()

    def prune(self) -> None:
        with store.changing(self.db):
            mails.prune(self.db, store.now())
            hooks.prune(self.db, store.now())
        self.pruned = time.monotonic()


# -------------------------------------------------------------------- webhooks

@dataclass
class Sender:
    """Sends webhooks, some at once."""

    db: sqlite3.Connection
    settings: Settings
    pool: ThreadPoolExecutor = field(default_factory=lambda: ThreadPoolExecutor(AT_ONCE))
    under_way: dict[int, tuple[str, hooks.Delivery, 'Future[HookNotTaken | None]']] = field(
        default_factory=dict)
    """By its hook: the caller, the delivery, and what becomes of it."""

    def turn(self) -> bool:
        ended = [hook for hook, (_, _, future) in self.under_way.items() if future.done()]
        for hook in ended:
            self.mark(hook)
        begun = [self.begin(*one) for one in hooks.due(self.db, store.now()) if self.may(*one)]
        return bool(ended or any(begun))

    def may(self, hook: int, caller: str, _: int) -> bool:
        """Whether a delivery is begun: of a hook one at a time, of a caller a few."""
        callers = [other for other, _, _ in self.under_way.values()]
        return (hook not in self.under_way and len(callers) < AT_ONCE
                and callers.count(caller) < OF_CALLER)

    def begin(self, hook: int, caller: str, number: int) -> bool:
        at = store.now()
        with store.changing(self.db):
            of = hooks.claim(self.db, number, at)
        if of:
            self.under_way[hook] = caller, of, self.pool.submit(self.send, of)
        return bool(of)

    def send(self, of: hooks.Delivery) -> HookNotTaken | None:
        """In a thread of its own: what became of it."""
        try:
            send(of, self.settings.ways, store.now())
        except HookNotTaken as fault:
            return fault
        except Exception as fault:      # whatever a receiver brings about is told of its hook
            return HookNotTaken(f'{type(fault).__name__}: {fault}')
        return None

    def mark(self, hook: int) -> None:
        _, of, future = self.under_way[hook]
        fault = future.result()
        with store.changing(self.db):
            if fault is None:
                hooks.mark_sent(self.db, of, store.now())
            else:
                hooks.mark_failed(self.db, of, str(fault), fault.is_alone, store.now())
        del self.under_way[hook]


# -------------------------------------------------------------------- all of it

def run(file: Path, settings: Settings, ended: threading.Event) -> None:
    """Runs until it is told to end."""
    def of(name: str, made: Callable[[sqlite3.Connection], Callable[[], bool]]) -> threading.Thread:
        def work() -> None:
            try:
                with contextlib.closing(store.open_file(file)) as db:
                    Part(name, made(db), ended).run()
            finally:
                ended.set()

        return threading.Thread(target=work, name=name, daemon=True)

    parts = [of('records', lambda db: Reader(db, Records(settings.records)).turn),
             of('mail', lambda db: Post(db, settings).turn),
             of('webhooks', lambda db: Sender(db, settings).turn)]
    say(f'sends what waits in {file}')
    for part in parts:
        part.start()
    ended.wait()


def words() -> argparse.ArgumentParser:
    parser = argparse.ArgumentParser(prog='goo-people-post', description=__doc__,
                                     formatter_class=argparse.RawDescriptionHelpFormatter)
    parser.add_argument('--check', action='store_true', help='tell what is wrong with mails')
    parser.add_argument('--file', type=Path, default=store.FILE, metavar='FILE')
    parser.add_argument('--config', type=Path, default=CONFIG, metavar='FILE')
    return parser


def check(file: Path) -> int:
    """Tells what is wrong with mails. Root opens nothing in a service's folder."""
    become_owner_of(file.parent)
    with contextlib.closing(store.open_file(file)) as db:
        lines = list(post_check.faults(db, store.now()))
    print(*lines, sep='\n', end='\n' if lines else '')
    return 1 if lines else 0


def main() -> int:
    given = words().parse_args()
    ended, told = threading.Event(), threading.Event()

    def end(*_: object) -> None:
        told.set()
        ended.set()

    signal.signal(signal.SIGTERM, end)
    signal.signal(signal.SIGINT, end)
    try:
        if given.check:
            return check(given.file)
        store.open_file(given.file).close()
        with alone(given.file):
            run(given.file, read_settings(given.config), ended)
    except (store.Fault, Fault, Running) as fault:
        print(f'people-post: {fault}', file=sys.stderr)
        return 1
    sys.stdout.flush()
    os._exit(0 if told.is_set() else 1)      # threads that wait for an answer are not waited for


if __name__ == '__main__':
    sys.exit(main())
