"""Puts requests into the log: one append after another, of all that wait."""
import asyncio
import time
from typing import TYPE_CHECKING

from goo_service.log import bounds
from goo_service.log import entries
from goo_service.log.journal import write
from goo_service.log.messages import Text
from goo_service.log.registry import Answer
from goo_service.log.store import Denied
from goo_service.log.store import NoAnswer
from goo_service.log.store import Point
from goo_service.log.waiting import Waiting

if TYPE_CHECKING:
    from goo_service.log.replica import Replica

GATHER = 0.05
"""Seconds that a request waits for others, while entries wait to be applied."""


class Appender:
    """What comes into the log."""

    def __init__(self, replica: 'Replica') -> None:
        self.replica = replica
        self.work: asyncio.Event = asyncio.Event()

    def add(self, request: Waiting) -> None:
        """A request that is to become an entry."""
        self.replica.requests.add(request)
        if self.is_alone():
            self.append_alone()
        elif self.has_work():
            self.work.set()

    def has_work(self) -> bool:
        """While entries wait to be applied, requests gather for one append, for a while."""
        replica = self.replica
        if not replica.requests.appending or replica.halted:
            return False
        return (len(replica.known.texts) <= replica.store.ahead
                or time.monotonic() - replica.requests.appending[0].began > GATHER)

    async def run(self) -> None:
        """Puts requests into the log, one append after another."""
        replica = self.replica
        end: Point | None = None
        while True:
            while not self.has_work():
                self.work.clear()
                await self.work.wait()
            try:
                end = await replica.store.turn(end or await replica.store.end())
            except NoAnswer:
                await asyncio.sleep(0.1)
                replica.requests.drop_given_up()
                continue
            if batch := replica.requests.batch(replica.store):
                end = await self.append_batch(batch, end)

    def is_alone(self) -> bool:
        """One request waits, and all that is in the log is applied.

        Also the store appends within one call, so no other append is under way.
        """
        replica = self.replica
        return (replica.store.at_once and len(replica.requests.appending) == 1
                and replica.store.last.n == replica.feeder.handed == replica.place.n
                and not replica.halted)

    def append_alone(self) -> None:
        """What `run` does, and the feeder does after it, in one go.

        A request that is alone would wait for each turn of the loop between them. The second
        process hears of it first, and meanwhile wakes up and connects to the registry. Nobody
        waits behind that connection: reads are sent by this process, which sends none before the
        entry goes there.
        """
        replica = self.replica
        try:
            replica.applier.send('soon')
            request, end = replica.requests.appending.pop(), replica.store.last
            texts, last = self.texts_of([request], end)
            if replica.store.add([texts[0][0]], end, last)[0]:
                request.entry = last.n
                replica.feeder.send_some(texts)
            else:
                replica.applier.send('late')
                replica.requests.appending.append(request)
                self.work.set()
        except Exception as fault:      # of a call from the door asyncio would make a note alone
            replica.applier.fail(fault)

    async def append_batch(self, batch: list[Waiting], end: Point) -> Point | None:
        """The log's end after one append. Requests that are not in the log wait for the next."""
        replica = self.replica
        texts, last = self.texts_of(batch, end)
        try:
            is_in, now = await replica.store.append(
                [line for line, *_ in texts], end, last,
                lambda: not all(request.is_given_up() for request in batch))
        except Denied as denied:
            self.deny(batch, denied)
            return None
        if is_in:
            for n, (request, text) in enumerate(zip(batch, texts), end.n + 1):
                request.entry = n
                replica.feeder.learn(n, text)
        elif now:
            replica.counts['overtaken'] += 1
            replica.requests.appending[:0] = batch
            await asyncio.sleep(0.2 if now == end else 0)
        return now

    def deny(self, batch: list[Waiting], denied: Denied) -> None:
        """The store will not take this append.

        One request is told so, and is never sent again; of several each is sent by itself, so that
        the others go on.
        """
        replica = self.replica
        if len(batch) > 1 and denied.is_sure:
            replica.requests.appending[:0], replica.requests.single = batch, len(batch)
            return
        write(f'an append of {len(batch)} requests and {sum(one.size for one in batch)} bytes '
              f'was denied: {denied}')
        for request in batch:
            if not request.is_answered:
                status = 413 if denied.is_large and denied.is_sure else 503
                refusal = bounds.Refusal(status, f'the entry of this request has {request.size} '
                                         f'bytes, and the log does not take it: {denied}')
                answer = Answer(status, 'application/json', refusal.body)
                replica.requests.finish(request, answer)

    def texts_of(self, batch: list[Waiting], end: Point) -> tuple[list[Text], Point]:
        """The lines, entries and hashes of requests after an end of the log, and the next end."""
        texts: list[Text] = []
        now = entries.now()
        for request in batch:
            entry = request.as_entry(end, now, self.replica.options.name)
            line = entries.entry_line(entry, self.replica.key, request.member)
            end = Point(entry.n, entries.hash_of(line), end.version)
            texts.append((line, tuple(entry), end.hash))
        return texts, end
