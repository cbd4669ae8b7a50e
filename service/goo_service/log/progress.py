"""How far the second process is: what it says, and who waits for that.

A message of the second process calls the method of its name: 'place' calls `on_place`.
"""
import asyncio
import time
from typing import TYPE_CHECKING
from typing import Any

from goo_service.log.entries import Entry
from goo_service.log.journal import write
from goo_service.log.position import Position
from goo_service.log.registry import Answer

if TYPE_CHECKING:
    from goo_service.log.replica import Replica

STUCK = 15
"""Seconds until an entry counts as stuck."""
PAUSE = 0.05
"""Seconds until the registry is sent an entry again, at first."""


class Progress:
    """The second process, as far as it has told."""

    def __init__(self, replica: 'Replica') -> None:
        self.replica = replica
        self.ready = asyncio.Event()
        self.readers: list[tuple[int, asyncio.Future[None]]] = []   # reads that wait for an entry
        self.asked: asyncio.Future[Position] | None = None          # who waits for a hold
        self.still = False                          # nothing is applied meanwhile
        self.first: int | None = None               # what was in the log at the start, up to here
        self.busy: float | None = None              # since when an entry is being applied
        self.stuck: float | None = None             # since when the registry fails at it
        self.pause = PAUSE

    def is_failing(self, patience: float) -> bool:
        """The registry has failed at the entry in hand for so long."""
        return bool(patience and self.stuck and time.monotonic() - self.stuck > patience)

    def is_unwell(self) -> bool:
        now = time.monotonic()
        return bool(self.stuck and now - self.stuck > 1
                    or self.busy and not self.still and now - self.busy > STUCK)

    def note_begun(self) -> None:
        replica = self.replica
        replica.begun = replica.begun or self.first is not None and replica.place.n >= self.first

    def on_place(self, n: int, hashed: str, chain: str) -> None:
        replica = self.replica
        replica.place.n, replica.place.hash, replica.place.chain = n, hashed, chain

    def on_ready(self) -> None:
        self.busy, self.stuck, self.pause = None, None, PAUSE
        self.ready.set()

    def on_applied(self, outcomes: list[tuple[Any, ...]]) -> None:
        """Entries are applied, archived and in place: whoever waits for an outcome gets it."""
        replica = self.replica
        for n, _, _, ident, status, kind, body in outcomes:
            replica.known.forget(n)
            replica.feeder.out -= replica.feeder.sizes.popleft()
            if request := replica.requests.pending.get(ident):
                request.entry = n
                replica.requests.finish(request, Answer(status, kind, body))
        last, hashed, chain, *_ = outcomes[-1]
        self.on_place(last, hashed, chain)
        replica.counts['applied'] += len(outcomes)
        self.busy = time.monotonic() if replica.feeder.handed > last else None
        self.stuck, self.pause = None, PAUSE
        if self.readers:
            self.wake_readers(last)
        self.note_begun()
        replica.feeder.moved.set()
        if replica.appender.has_work():
            replica.appender.work.set()

    def on_alive(self) -> None:
        """A long bundle is no entry that is stuck."""
        self.busy, self.stuck, self.pause = time.monotonic(), None, PAUSE

    def wake_readers(self, last: int) -> None:
        for n, future in self.readers:
            if n <= last and not future.done():
                future.set_result(None)
        self.readers = [one for one in self.readers if not one[1].done()]

    async def wait_for(self, n: int) -> None:
        """Waits until an entry is applied."""
        future = asyncio.get_running_loop().create_future()
        self.readers.append((n, future))
        await future

    def on_failed(self, members: tuple[Any, ...], why: str) -> None:
        self.replica.group.create_task(self.try_again(Entry(*members), why))

    async def try_again(self, entry: Entry, why: str) -> None:
        """The registry gave no outcome: the same entry again, unless it is set aside."""
        replica = self.replica
        now = time.monotonic()
        self.busy, self.stuck = self.busy or now, self.stuck or now
        replica.counts['again'] += 1
        write(f'entry {entry.n}: the registry: {why}; again in {self.pause:.2f} s')
        await asyncio.sleep(self.pause)
        self.pause = min(1, 2 * self.pause)
        aside = await replica.store.is_aside(entry)
        if aside:
            replica.counts['aside'] += 1
            replica.journal.set_aside(entry)
        replica.applier.send('aside' if aside else 'again')

    def on_waits(self, why: str) -> None:
        self.replica.waits = why

    def on_halted(self, why: str) -> None:
        self.replica.halt(why)

    def on_held(self, why: str, n: int, hashed: str, chain: str) -> None:
        """The second process stands between two entries, and applies nothing until `go`."""
        self.still = True
        if why == 'digest':
            self.replica.group.create_task(self.replica.digests.make(n, chain))
        elif self.asked:
            self.asked.set_result(Position(n, hashed, chain))

    def hold(self) -> asyncio.Future[Position]:
        """The place at which the second process stands, until it is told `go`."""
        self.asked = asyncio.get_running_loop().create_future()
        self.replica.applier.send('hold')
        return self.asked

    def go(self) -> None:
        self.still = False
        if self.busy:
            self.busy = time.monotonic()
        self.replica.applier.send('go')

    def on_synced(self, n: int) -> None:
        # first, since a start counts again what is not kept, from the log
        self.replica.save_sent()
        self.replica.store.prune(n)
