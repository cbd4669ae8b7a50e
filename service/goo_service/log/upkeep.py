"""What a replica does from time to time."""
import asyncio
import time
from collections.abc import Awaitable
from collections.abc import Callable
from typing import TYPE_CHECKING

from goo_service.log.door import plain
from goo_service.log.journal import write
from goo_service.log.registry import APPLY
from goo_service.log.registry import BROKEN
from goo_service.log.store import NoAnswer
from goo_service.log.waiting import APPEND
from goo_service.log.waiting import Waiting

if TYPE_CHECKING:
    from goo_service.log.replica import Replica

PATIENCE = 2
"""Seconds that a request waits without a quorum."""


class Upkeep:
    """Tasks that go on as long as the replica does."""

    def __init__(self, replica: 'Replica') -> None:
        self.replica = replica

    def tasks(self) -> list[Callable[[], Awaitable[None]]]:
        return [self.give_up, self.report, self.probe, self.prune, self.save_sent_always]

    async def save_sent_always(self) -> None:
        while True:
            await asyncio.sleep(1)
            self.replica.save_sent()

    async def report(self) -> None:
        """Tells the other replicas how far we are, and compares digests with theirs."""
        replica = self.replica
        while True:
            await asyncio.sleep(1)
            try:
                outvoted = await replica.store.report(replica.place, replica.digests.made)
            except NoAnswer:
                continue
            if outvoted != replica.outvoted:
                write(f'OUTVOTED, no requests are taken: {outvoted}' if outvoted
                      else 'in the majority again')
            replica.outvoted = outvoted

    async def probe(self) -> None:
        """Whether the registry is there at all.

        So no request is put into the log that could not be answered here.
        """
        replica = self.replica
        while True:
            try:
                await replica.registry.fetch('GET', '/', 'ISSUER', patience=APPEND)
                replica.down = False
                if replica.version != (now := replica.options.program_version()):
                    replica.version = now
                    replica.applier.send('version', now)
            except TimeoutError:
                pass
            except BROKEN:
                replica.down = True
            await asyncio.sleep(0.05 if replica.down else 0.5)

    async def prune(self) -> None:
        """The log's files that are in the archive whole are not needed twice."""
        while True:
            await asyncio.sleep(60)
            self.replica.applier.send('sync')

    async def give_up(self) -> None:
        """Tells 503 to those who have waited too long."""
        while True:
            await asyncio.sleep(0.5)
            for request in list(self.replica.requests.pending.values()):
                if self.is_hopeless(request):
                    self.replica.requests.finish(request, plain(503))

    def is_hopeless(self, request: Waiting) -> bool:
        replica = self.replica
        waited = time.monotonic() - request.began
        most = APPLY if request.entry else APPEND if replica.store.quorum else PATIENCE
        is_unwell = replica.is_unwell() or replica.waits
        return bool(waited > most or waited > PATIENCE and is_unwell or replica.halted)
