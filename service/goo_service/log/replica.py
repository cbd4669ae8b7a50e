"""Puts each write into one log before the registry sees it, and applies the log to the registry.

usage: goo-replica --store FOLDER [--listen PATH|HOST:PORT] [--registry PATH|HOST:PORT] ..
       goo-replica --code 7 --name a --etcd URL,URL,.. [--ca F --cert F --cert-key F] ..

The second form is for three hosts. `goo-replica-log found` begins the log.

The registry is a state machine: an answer, and the records after it, are a function of the request
and the records before. So replicas that apply the same requests in the same order are the same, and
the log is the registry's memory.

(I1) Entry n is the same everywhere and for ever. The store sees to that: a synced file on one host,
     Raft on three.
(I2) The records after n are those of applying entries 1..n. The registry is sent nothing but
     entries, in their order, and reads that are written here. The place (n, hash) is kept in a
     file, and an entry is begun when the one before is in place. A second process sees to that
     (log/apply.py). It alone sends entries, one after another, and writes archive and place.
(I3) An answer to a request is the registry's outcome for the request's own entry, known by its id.
(I4) A request whose client was told 503 or has gone gets into no further append. So no copy of a
     request enters the log after a later copy of it was answered.

A crash between the registry's commit and the record of n has entry n applied again at once: what
was accepted is `repeated`, what was refused is refused again. So the client of an accepted request
may be told once it is archived, before n is recorded. An older entry must never be applied again:
what was refused then might be accepted now. An accepted one might, being `repeated` at any time; so
archive and place are synced to the disk after the others only.
"""
import asyncio
import collections
import socket
import sys
from collections.abc import Callable
from pathlib import Path
from typing import Any

from goo_service.log import apply
from goo_service.log import day
from goo_service.log import entries
from goo_service.log.appender import Appender
from goo_service.log.digests import Digests
from goo_service.log.door import Door
from goo_service.log.feeder import Feeder
from goo_service.log.file_store import FileStore
from goo_service.log.file_store import ShippedLog
from goo_service.log.journal import Journal
from goo_service.log.journal import write
from goo_service.log.known import Known
from goo_service.log.options import Options
from goo_service.log.options import parse_words
from goo_service.log.pair import Pair
from goo_service.log.position import Position
from goo_service.log.progress import Progress
from goo_service.log.registry import Registry
from goo_service.log.service import Service
from goo_service.log.store import Store
from goo_service.log.upkeep import Upkeep
from goo_service.log.waiting import Requests


class Replica:
    """The first process: what is taken into the log, and what of it is applied."""

    def __init__(self, options: Options, key: bytes, pair: socket.socket) -> None:
        self.options, self.key = options, key
        self.place = apply.first_place(pair)        # as the second process has told it
        self.journal = Journal(Path(options.state) / 'aside')
        self.registry, self.version = Registry(options.registry), ''
        self.store = store_of(options, key, self.place)
        self.known = Known()
        self.requests = Requests(day.read(Path(options.state) / 'sent', self.place.n))
        self.counts: collections.Counter[str] = collections.Counter()
        self.progress = Progress(self)
        self.applier = Pair(pair, self.progress)
        self.digests = Digests(options.rows, self.progress.go)
        self.appender, self.feeder = Appender(self), Feeder(self)
        self.service, self.upkeep = Service(self), Upkeep(self)
        self.halted = self.outvoted = self.waits = ''
        self.begun = False                          # what was in the log at the start is applied
        self.down = True                            # the registry does not answer

    # -------------------------------------------------------------- how it is

    def halt(self, why: str) -> None:
        """For good: an operator begins this replica from a copy."""
        self.halted = why
        write(f'HALTED at entry {self.place.n}: {why}')

    def warn(self, words: str) -> None:
        self.journal.warn(words)

    def trouble(self) -> str:
        """Why no request is taken, if so. What is told so was never put into the log."""
        return (self.halted or self.outvoted or self.waits
                or ('' if self.begun else 'it has just started and applies the log')
                or self.other_version()
                or ('the registry does not answer' if self.is_unwell() else '')
                or self.store.trouble()
                or ('too many requests wait' if self.requests.is_full() else ''))

    def other_version(self) -> str:
        logged = self.store.last.version
        if not logged or logged == self.version:
            return ''
        own = self.version or 'of no version that is known'
        return f'the log is at version {logged}, and the program here is {own}'

    def is_unwell(self) -> bool:
        return self.down or self.progress.is_unwell()

    # -------------------------------------------------------------- what a store needs

    @property
    def heard(self) -> int:
        return self.known.heard

    def is_failing(self, patience: float) -> bool:
        return not self.down and self.progress.is_failing(patience)

    def learn(self, n: int, line: bytes) -> None:
        """An entry that is in the log for certain, as somebody else put it there."""
        self.feeder.learn(n, (line,))

    def wake(self) -> None:
        self.feeder.news.set()

    # -------------------------------------------------------------- its tasks

    def save_sent(self) -> None:
        """The bytes of the day, so that a start counts on."""
        sent = self.requests.sent
        try:
            sent.save()
        except OSError as fault:
            self.warn(f'{sent.path}: {fault.strerror}: what holders have sent today is not kept')

    async def run(self) -> None:
        await self.applier.begin()
        door = Door(self.service.serve)
        server = await door.listen(self.options.listen)
        where = ' '.join(str(one.getsockname()) for one in server.sockets)
        write(f'listening {where}, at entry {self.place.n}')
        tasks: list[Callable[[], Any]] = [
            door.sweep, self.appender.run, self.feeder.run, *self.upkeep.tasks(),
            *self.store.tasks(self)]
        # a task that fails ends them all, and systemd starts them anew
        async with server, asyncio.TaskGroup() as self.group:
            for task in tasks:
                self.group.create_task(task())


def store_of(options: Options, key: bytes, place: Position) -> Store:
    if options.etcd:
        from goo_service.log.etcd_store import EtcdStore    # which one host does without
        return EtcdStore(options, place)
    if options.reads_only:
        return ShippedLog(options.store, key)
    return FileStore(options.store, key, place.n)


async def start(options: Options, key: bytes, pair: socket.socket) -> None:
    await Replica(options, key, pair).run()


def main() -> None:
    options = parse_words()
    try:
        key = entries.read_key(options.key)
        asyncio.run(start(options, key, apply.start(options, key)))
    except (entries.Broken, OSError) as fault:
        sys.exit(f'replica: {fault}')


if __name__ == '__main__':
    main()
