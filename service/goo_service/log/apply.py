"""The second process of a replica: it applies the log to the registry.

Meanwhile the first one takes in clients and writes the log. The first process forks it before it
does anything else, and the two talk by a pair of sockets (log/messages.py). What the registry is
sent of entries, it is sent here, one after another; archive and place are written here alone. The
two processes live and end together: each sees the other's end of the pair close, and ends at once.
So a crash of either is a crash of both.
"""
import os
import signal
import socket
import sys
import traceback
from collections.abc import Iterable
from pathlib import Path
from typing import Any
from typing import NoReturn

from goo_service.log import ends
from goo_service.log import entries
from goo_service.log import reader
from goo_service.log.archive import Archive
from goo_service.log.decide import Decider
from goo_service.log.entries import Entry
from goo_service.log.entries import Outcome
from goo_service.log.entries import Record
from goo_service.log.messages import Frames
from goo_service.log.options import Options
from goo_service.log.position import Place
from goo_service.log.position import Position
from goo_service.log.registry import Answer

KEPT = 256
"""Entries at most between two syncs of the place."""
MOVED = Answer(200, '', b'')
"""The answer to an entry that moves the version."""


def is_plain(entry: Entry, status: int) -> bool:
    return (entry.route, status) == entries.PLAIN


class Applier(Decider):
    """Applies entries in their order, and talks with the first process meanwhile."""

    def __init__(self, options: Options, key: bytes, pair: socket.socket) -> None:
        self.key, self.halted = key, False
        state = Path(options.state)
        # locked, before the archive is opened: another replica may be writing there
        self.place = Place(state / 'place')
        self.archive = Archive(state / 'archive', key)
        self.place.read(self.archive.last and self.archive.last.entry.n)
        super().__init__(options, pair)

    # -------------------------------------------------------------- what it does

    def run(self) -> NoReturn:
        self.send_place()
        while 'begin' not in self.wishes:
            self.listen()
        self.wishes.discard('begin')
        self.verify_records()
        self.apply_archive()
        self.send_place()
        self.send('ready')
        while True:
            if self.queue and not self.halted:
                self.step(*self.queue.popleft())
            if not self.queue or self.halted:
                self.rest()
            if self.wishes:
                self.fulfil()

    def rest(self) -> None:
        """There is nothing to apply."""
        self.send_outcomes()
        self.registry.close()
        if not self.wishes:
            self.listen()
        if self.halted:
            self.queue.clear()

    def fulfil(self) -> None:
        """Does what the first process wants between two entries."""
        self.send_outcomes()
        self.registry.close()
        wishes, self.wishes = self.wishes, set()
        if 'sync' in wishes:
            self.sync()
            self.send('synced', self.place.n)
        if 'hold' in wishes:
            self.hold('asked')

    def send_place(self) -> None:
        self.send('place', self.place.n, self.place.hash, self.place.chain)

    def halt(self, why: str) -> None:
        """For good: an operator begins this replica from a copy."""
        self.send_outcomes()
        self.halted = True
        self.send('halted', why)

    # -------------------------------------------------------------- one entry

    def step(self, line: bytes, members: tuple[Any, ...] = (), hashed: str = '') -> None:
        """One entry: applied, archived, its place recorded, and its outcome sent."""
        try:
            entry = Entry(*members) if members else entries.read_entry(line, self.key)
        except entries.Broken as fault:
            return self.halt(str(fault))
        if (entry.n, entry.prev) != (self.place.n + 1, self.place.hash):
            return self.halt(f'entry {entry.n} does not follow entry {self.place.n} '
                             'as it was applied here')
        answer = self.apply(entry)
        self.finish(line, entry, hashed or entries.hash_of(line), answer)
        if self.options.etcd and entry.n % self.options.digest == 0:
            self.send_outcomes()
            self.hold('digest')

    def finish(self, line: bytes, entry: Entry, hashed: str, answer: Answer) -> None:
        """What is left once the registry has decided an entry."""
        outcome = entries.outcome_after(entry.route, answer.status, answer.body, self.place.chain)
        self.keep(line, entry, hashed, outcome)
        self.outcomes.append((entry.n, hashed, outcome.chain, entry.id, answer.status, answer.kind,
                              answer.body))
        if is_plain(entry, outcome.status) and not self.queue:
            # a crash before it is in place has it applied again at once: it is `repeated`, and so
            # has the same outcome
            self.send_outcomes()
        self.place.record(entry.n, hashed, outcome.chain)
        if not is_plain(entry, outcome.status) or self.place.loose >= KEPT:
            self.sync()

    def apply(self, entry: Entry) -> Answer:
        """The outcome of an entry, by the version of the program that it names.

        Other versions may decide otherwise.
        """
        while entry.method != 'VERSION' and entry.version != self.version:
            self.wait_because(f'entry {entry.n} is applied by version {entry.version}, '
                              f'and the program here is {self.version}')
            self.listen()
        self.wait_because('')
        return MOVED if entry.method == 'VERSION' else self.decide(entry)

    def keep(self, line: bytes, entry: Entry, hashed: str, outcome: Outcome) -> None:
        """Into the archive. The place follows.

        Both are synced where the entry must not be applied again later.
        """
        while not self.archive.last or self.archive.last.entry.n < entry.n:
            try:
                self.archive.add(line, entry, outcome, hashed)
                self.wait_because('')
            except OSError as fault:
                self.wait_because(f'the archive cannot be written: {fault}')
                self.listen(0.5)

    def sync(self) -> None:
        self.archive.sync()
        self.place.sync()

    # -------------------------------------------------------------- at the start

    def verify_records(self) -> None:
        """The last accepted request before the place is sent again.

        The records have it, or the database is older than the place.
        """
        last = self.archive.last
        if not last or last.entry.n != self.place.n:
            return
        record = ends.last_plain(self.archive.folder)
        if record is None:
            return
        answer = self.decide(record.entry)
        repeated = record.outcome.body.replace(b'"outcome":"accepted"', b'"outcome":"repeated"')
        if answer.status != 200 or answer.body != repeated:
            self.halt(f'the database is older than the place: entry {record.entry.n} was accepted '
                      'and is not in it; restore database and place together')

    def apply_archive(self) -> None:
        """After a restore: the entries that are in the archive and not in the database.

        Each has to come to what it came to.
        """
        if self.halted or not self.archive.last or self.place.n >= self.archive.last.entry.n:
            return
        print(f'entries {self.place.n + 1} to {self.archive.last.entry.n} are applied again',
              file=sys.stderr, flush=True)
        for record in reader.read_archive(self.archive.folder, self.place.n, self.key):
            if why := self.apply_record(record):
                return self.halt(why)
        self.place.sync()

    def apply_record(self, record: Record) -> str:
        """Applies one entry of the archive again; why it is not the same, where it is not."""
        entry, known = record.entry, record.outcome
        if (entry.n, entry.prev) != (self.place.n + 1, self.place.hash):
            return (f'entry {entry.n} of the archive does not follow entry {self.place.n} '
                    'as it was applied here')
        is_decided = entry.method == 'VERSION' or known.status == entries.SET_ASIDE
        answer = Answer(known.status, '', known.body) if is_decided else self.decide(entry)
        outcome = entries.outcome_after(entry.route, answer.status, answer.body, self.place.chain)
        if outcome.chain != record.outcome.chain:
            return (f'entry {entry.n} came to something else than before; '
                    'restore database and place together')
        self.place.record(entry.n, record.hash, outcome.chain)
        if not is_plain(entry, outcome.status) or self.place.loose >= KEPT:
            self.place.sync()
            self.send_place()
        return ''

    # -------------------------------------------------------------- the registry's file

    def hold(self, why: str) -> None:
        """Between an entry and the next nobody writes to the registry's file.

        One more answer shows that the registry has done with the entry before.
        """
        self.registry.close()
        self.settle()
        self.held = True
        self.send('held', why, self.place.n, self.place.hash, self.place.chain)
        while 'go' not in self.wishes:
            self.listen()
        self.wishes.discard('go')
        self.held = False


def start(options: Options, key: bytes) -> socket.socket:
    """Forks the second process; the first one's end of the pair.

    In the second process it does not come back.
    """
    near, far = socket.socketpair()
    if os.fork():
        far.close()
        return near
    near.close()
    signal.signal(signal.SIGINT, signal.SIG_IGN)        # it ends with the first one
    try:
        Applier(options, key, far).run()
    except (entries.Broken, OSError) as fault:
        print(f'replica: {fault}', file=sys.stderr, flush=True)
    except Exception as fault:
        traceback.print_exception(fault)
    finally:
        os._exit(1)


def first_place(pair: socket.socket) -> Position:
    """What the second process sends first.

    Where it sends nothing, it has said why on standard error.
    """
    messages: Iterable[tuple[Any, ...]] = Frames().add(pair.recv(1024))
    for _, n, hashed, chain in messages:
        return Position(n, hashed, chain)
    sys.exit(1)
