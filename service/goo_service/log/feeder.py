"""Gives the second process the entries of the log, one after another."""
import asyncio
import collections
import contextlib
import time
from typing import TYPE_CHECKING

from goo_service.log import reader
from goo_service.log import entries
from goo_service.log.messages import Text
from goo_service.log.store import NoAnswer
from goo_service.log.store import Point
from goo_service.log.waiting import BATCH

if TYPE_CHECKING:
    from goo_service.log.replica import Replica

BYTES = 1200000
"""Bytes that are given to the second process together."""
HANDED, ROOM = 256, 8 << 20
"""Entries that the second process has at once, and their bytes."""


class Feeder:
    """What goes out of the log."""

    def __init__(self, replica: 'Replica') -> None:
        self.replica = replica
        self.handed: int = replica.place.n
        """The last entry that the second process was given."""
        self.out: int = 0
        """Bytes that it has."""
        self.sizes: collections.deque[int] = collections.deque()
        self.news: asyncio.Event = asyncio.Event()
        self.moved: asyncio.Event = asyncio.Event()

    async def run(self) -> None:
        """Gives the second process one entry of the log after another."""
        replica = self.replica
        while replica.down:
            await asyncio.sleep(0.05)
        replica.applier.send('begin')
        await replica.progress.ready.wait()
        replica.progress.first = (await self.fetch_end()).n
        self.handed = replica.place.n
        await self.count_again()
        replica.progress.note_begun()
        while not replica.halted:
            await self.send_all(replica.known.run_from(self.handed + 1, BATCH)
                                or await self.read_texts(self.handed + 1))

    async def fetch_end(self) -> Point:
        """The log's end, once the store tells it."""
        while True:
            try:
                return await self.replica.store.end()
            except NoAnswer:
                await asyncio.sleep(0.1)

    async def count_again(self) -> None:
        """Counts the entries that are applied, and were not counted when the replica ended.

        In a log that was begun anew there may be fewer.
        """
        replica = self.replica
        sent = replica.requests.sent
        sent.entry = min(sent.entry, replica.place.n)
        while sent.entry < replica.place.n:
            try:
                lines = await replica.store.lines_from(sent.entry + 1)
            except NoAnswer:
                await asyncio.sleep(0.1)
                continue
            except entries.Broken as fault:
                replica.warn(f'what holders sent today is not counted whole: {fault}')
                break
            if not lines or reader.number_in(lines[0]) != sent.entry + 1:
                break                           # they are no longer in the log
            for line in lines:
                sent.count(sent.entry + 1, line)
        sent.entry = max(sent.entry, replica.place.n)
        sent.saved = False
        replica.save_sent()     # before any more come: a start that follows at once counts on

    async def send_all(self, texts: list[Text]) -> None:
        """Gives the second process these entries, as it has room for them."""
        while texts and not self.replica.halted:
            while self.out > ROOM or self.handed - self.replica.place.n >= HANDED:
                self.moved.clear()
                await self.moved.wait()
            texts = texts[self.send_some(texts):]

    def send_some(self, texts: list[Text]) -> int:
        """Gives the second process the first entries of some; how many."""
        replica = self.replica
        size = count = 0
        while count < len(texts) and (not count or size < BYTES):
            line, *made = texts[count]
            self.sizes.append(len(line))
            replica.requests.sent.count(self.handed + count + 1, line)
            replica.requests.release(replica.requests.pending.get(made[0][-2]) if made else None)
            size, count = size + len(line), count + 1
        replica.applier.send('apply', texts[:count])
        replica.progress.busy = replica.progress.busy or time.monotonic()
        self.out, self.handed = self.out + size, self.handed + count
        return count

    async def read_texts(self, n: int) -> list[Text]:
        """Entries from n on, as the store has them.

        They are read where nobody has told of them for a second.
        """
        replica = self.replica
        self.news.clear()
        if n in replica.known.texts:
            return []
        if replica.store.tells and n > max(replica.store.last.n, replica.heard):
            with contextlib.suppress(TimeoutError):
                async with asyncio.timeout(1):
                    await self.news.wait()
            if n in replica.known.texts or n <= self.handed:
                return []
        try:
            lines = await replica.store.lines_from(n)
        except NoAnswer:
            await asyncio.sleep(0.1)
            return []
        except entries.Broken as fault:
            replica.halt(f'entry {n} cannot be read in the log: {fault}')
            return []
        if lines and reader.number_in(lines[0]) == n:
            return [(line,) for line in lines]
        if lines or replica.store.lacks(n):
            replica.halt(f'entry {n} is no longer in the log: begin this replica from a copy')
        elif not replica.store.tells:
            await asyncio.sleep(0.2)
        return []

    def learn(self, n: int, text: Text) -> None:
        """An entry that is in the log for certain."""
        self.replica.known.learn(n, text, self.replica.place.n)
        self.news.set()
