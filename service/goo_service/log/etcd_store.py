"""The log over etcd, on three hosts: the store of a replica whose log no machine's loss removes.

Under /goo/CC/ etcd has
  log/<20 digits>          entry n, as it is in every log
  end                      "n hash version": the last entry, and the version after it
  replica/NAME copy/NAME   how far each replica and each copy is, in 20 digits
  digest/<20 digits>/NAME  what each replica came to
  aside/<20 digits>[/NAME] an entry that is set aside, and the votes for it

An append is one transaction: if `end` is still "n hash version", put the entries from n + 1 on and
the new `end`. As `end` never comes back to a value, of all transactions made for one value one
takes effect at most, once at most, and none after a later one. So where etcd's answer is lost, the
very same transaction is sent again.
"""
import asyncio
import re
import time
from collections import deque
from collections.abc import Awaitable
from collections.abc import Callable

from goo_service.log import etcd
from goo_service.log.entries import Entry
from goo_service.log.etcd import Etcd
from goo_service.log.etcd import Keys
from goo_service.log.options import Options
from goo_service.log.store import Denied
from goo_service.log.store import NoAnswer
from goo_service.log.store import Owner
from goo_service.log.store import Placed
from goo_service.log.store import Point

LASTS, TURNS = 0.02, 6
"""Seconds at most that a host lets another one append first, and appends that it looks back to."""
APPENDED = re.compile(rb'"time":"[^"]*","host":"([^"]*)"')
"""The same in all entries of one append."""
AT_ONCE = 16
"""Entries that are read at once."""
LANES = ('append', 'mark', 'follow', 'watch', 'report', 'aside', 'measure')


class EtcdStore:
    """A log that several hosts append to. log/store.py has the interface."""

    at_once = False
    most = 1500000
    """As etcd counts them: it takes 1.5 MiB (--max-request-bytes), and the longest line is less."""
    ahead = 8

    def __init__(self, options: Options, place: Placed) -> None:
        self.options, self.keys, self.place = options, Keys(options.code), place
        self.etcd = {lane: Etcd(options) for lane in LANES}
        self.last, self.quorum = Point(place.n, place.hash, ''), False
        self.size = self.pruned = 0
        self.waiting: list[asyncio.Future[Point]] = []      # for the end
        self.wanted, self.moved = asyncio.Event(), asyncio.Event()
        self.reported: tuple[int, ...] = ()
        self.voted: set[int] = set()
        self.tells = False                      # a watch is open, which tells each entry
        self.appends = deque([(b'', b'')], TURNS)   # of each the time with the host, and the host
        self.lasts = 0.005                      # seconds that an append takes

    def tasks(self, owner: Owner) -> list[Callable[[], Awaitable[None]]]:
        self.owner = owner
        return [self.mark_for_all, self.watch, self.measure]

    def trouble(self) -> str:
        if self.size > 0.95 * self.options.quota:
            return f"etcd's file has {self.size} bytes of {self.options.quota}: prune the log"
        return '' if self.quorum else 'no quorum'

    def figures(self) -> dict[str, int]:
        return {'etcd_bytes': self.size, 'etcd_quota_bytes': self.options.quota}

    # -------------------------------------------------------------- the end of the log

    async def end(self) -> Point:
        """One read serves all who came for the end before it began."""
        future: asyncio.Future[Point] = asyncio.get_running_loop().create_future()
        self.waiting.append(future)
        self.wanted.set()
        return await future

    async def mark_for_all(self) -> None:
        while True:
            await self.wanted.wait()
            self.wanted.clear()
            waiting, self.waiting = self.waiting, []
            applied = self.applied_point()  # before the read: it goes on while that is under way
            try:
                answer = await self.etcd['mark'].call('kv/range', etcd.range_of(self.keys.end))
                self.last, self.quorum = etcd.end_in(answer), True
                self.compare(applied, self.last)
                for future in waiting:
                    if not future.done():
                        future.set_result(self.last)
            except NoAnswer as fault:
                self.quorum = False
                for future in waiting:
                    if not future.done():
                        future.set_exception(NoAnswer(str(fault)))

    def applied_point(self) -> Point:
        return Point(self.place.n, self.place.hash, '')

    def compare(self, applied: Point, end: Point) -> None:
        """The end that etcd tells is never before what was applied when it was read."""
        is_other = end.n < applied.n or end.n == applied.n and end.hash != applied.hash
        if is_other and not self.owner.halted:
            self.owner.halt(f'etcd has another log, which ends at {end.n}: it was begun anew or '
                            'restored from an older copy')

    # -------------------------------------------------------------- into the log

    async def turn(self, end: Point) -> Point:
        """The end once it is this host's turn.

        Of transactions that are under way at once all but one fail, so whoever has appended lets
        the others who append do so first, each for as long as an append takes. This decides
        nothing: the transaction does.

        An end that others have moved is read, and not taken from the entry that was told: of
        clients that went before it moved this replica has then heard, and their requests get into
        no append (I4).
        """
        most = time.monotonic() + TURNS * self.lasts
        while (rank := self.rank()) and time.monotonic() < most:
            self.moved.clear()
            try:
                async with asyncio.timeout(rank * self.lasts):
                    await self.moved.wait()
            except TimeoutError:
                break
        return await self.end() if self.owner.heard > end.n else end

    def rank(self) -> int:
        """How many others are to append before this host, in the order of names."""
        own, last = self.options.name.encode(), self.appends[-1][1]
        names = sorted({own, *(name for _, name in self.appends if name)})
        return (names.index(own) - names.index(last) - 1) % len(names) if last else 0

    def learn(self, pair: etcd.Pair) -> None:
        """An entry that the watch tells."""
        found = APPENDED.search(pair.value)
        if found and found[0] != self.appends[-1][0]:
            self.appends.append((found[0], found[1]))
            self.moved.set()
        self.owner.learn(int(pair.key[-20:]), pair.value)

    def cost(self, size: int) -> int:
        """With the entry's key, and what is around both."""
        return size + 100

    def add(self, lines: list[bytes], end: Point, last: Point) -> tuple[bool, Point]:
        raise NotImplementedError               # etcd appends within no single call

    async def append(self, lines: list[bytes], end: Point, last: Point,
                     wanted: Callable[[], bool]) -> tuple[bool, Point | None]:
        """One transaction.

        Without an answer the very same one is sent again, as long as somebody waits for it. Where
        etcd denies it, Denied is raised at once.
        """
        first, began, is_sure = self.keys.log(end.n + 1), time.monotonic(), True
        words = self.append_words(lines, end, last)
        while wanted():
            applied = self.applied_point()
            try:
                answer = await self.etcd['append'].call('kv/txn', words)
            except Denied as denied:
                raise Denied(str(denied), denied.is_large, is_sure) from denied
            except NoAnswer:
                is_sure = False
                await asyncio.sleep(0.05)
                continue
            if answer.get('succeeded'):
                self.lasts = min(LASTS, 0.8 * self.lasts + 0.2 * (time.monotonic() - began))
                return True, last
            now, there = etcd.ranges(answer)
            if etcd.pairs(there) == [etcd.Pair(first, lines[0])]:
                return True, etcd.end_in(now)   # it had taken effect, and the answer was lost
            self.compare(applied, etcd.end_in(now))
            return False, etcd.end_in(now)
        return False, None

    def append_words(self, lines: list[bytes], end: Point, last: Point) -> etcd.Words:
        """The transaction that puts lines behind an end of the log."""
        first = self.keys.log(end.n + 1)
        return {'compare': [etcd.is_value(self.keys.end, etcd.as_text(end)),
                            etcd.is_there(first, False)],
                'success': [*(etcd.put(self.keys.log(n), line)
                              for n, line in enumerate(lines, end.n + 1)),
                            etcd.put(self.keys.end, etcd.as_text(last))],
                'failure': [etcd.get(self.keys.end), etcd.get(first)]}

    # -------------------------------------------------------------- out of the log

    async def lines_from(self, n: int) -> list[bytes]:
        """Entries from n on, as the nearest member has them."""
        first, last = self.keys.log(n), self.keys.under('log')[1]
        words = {'success': [etcd.get(self.keys.end, self.keys.end + '\0', nearest=True),
                             etcd.get(first, last, AT_ONCE, nearest=True)]}
        end, found = etcd.ranges(await self.etcd['follow'].call('kv/txn', words))
        lines = [pair.value for pair in etcd.pairs(found)]
        if not lines and etcd.end_in(end).n >= n:
            self.pruned = n
        return lines

    def lacks(self, n: int) -> bool:
        return self.pruned == n

    def prune(self, n: int) -> None:
        """By `goo-replica-log prune`, once all replicas and copies have the entries."""

    async def watch(self) -> None:
        def opened() -> None:
            self.tells = True

        while True:
            await self.etcd['watch'].watch(*self.keys.under('log'), self.learn, opened)
            self.tells = False
            self.owner.wake()
            await asyncio.sleep(0.2)

    # -------------------------------------------------------------- reports

    async def report(self, place: Placed, digests: dict[int, str]) -> str:
        await self.end()
        reported = (place.n, *digests)
        if self.reported != reported:
            name, root = self.options.name, self.keys.root
            own = [etcd.put(f'{root}digest/{n:020}/{name}', digest)
                   for n, digest in digests.items()]
            await self.etcd['report'].call('kv/txn', {
                'success': [etcd.put(f'{root}replica/{name}', f'{place.n:020}'), *own]})
            self.reported = reported
        for n, own_digest in list(digests.items()):
            if why := await self.judge(n, own_digest):
                return why
        return ''

    async def judge(self, n: int, own: str) -> str:
        """Where replicas differ after an entry, only a majority that agrees takes requests."""
        words = etcd.range_of(*self.keys.under(f'digest/{n:020}'))
        answer = await self.etcd['report'].call('kv/range', words)
        others = {pair.key.rsplit('/', 1)[1]: pair.value.decode() for pair in etcd.pairs(answer)}
        others[self.options.name] = own
        differ = sorted(name for name, digest in others.items() if digest != own)
        names = ' and '.join(differ)
        if differ and 2 * (len(others) - len(differ)) <= self.options.replicas:
            return f'after entry {n} {names} came to something else than we'
        if differ:
            self.owner.warn(f'after entry {n} {names} came to something else than the majority')
        return ''

    async def measure(self) -> None:
        """The size of etcd's file, which has a quota."""
        while True:
            try:
                answer = await self.etcd['measure'].call('maintenance/status', {})
                self.size = int(answer.get('dbSize', 0))
            except NoAnswer:
                pass
            await asyncio.sleep(10)

    # -------------------------------------------------------------- an entry that is set aside

    async def is_aside(self, entry: Entry) -> bool:
        """Votes for it where the registry answers and this entry fails for long."""
        n, aside = entry.n, self.keys.aside(entry.n)
        try:
            if n not in self.voted and self.owner.is_failing(self.options.aside):
                vote = etcd.put(self.keys.aside(n, self.options.name), 'cannot')
                await self.etcd['aside'].call('kv/txn', {
                    'compare': [etcd.is_there(aside, False)], 'success': [vote]})
                self.voted.add(n)
            while n in self.voted:
                if await self.is_decided(entry):
                    return True
                await asyncio.sleep(0.5)
            return bool(etcd.pairs(await self.etcd['aside'].call('kv/range', etcd.range_of(aside))))
        except NoAnswer:
            return False

    async def is_decided(self, entry: Entry) -> bool:
        """Whether it is decided that an entry is set aside.

        A majority decides it, the host that took the request among it, where no replica has applied
        the entry. Who has voted does not apply it, unless the vote is withdrawn because another
        replica could.
        """
        n, aside = entry.n, self.keys.aside(entry.n)
        votes, places, decision = etcd.ranges(await self.etcd['aside'].call('kv/txn', {'success': [
            etcd.get(*self.keys.under(f'aside/{n:020}')), etcd.get(*self.keys.under('replica')),
            etcd.get(aside)]}))
        if etcd.pairs(decision):
            return True
        names = {pair.key.rsplit('/', 1)[1] for pair in etcd.pairs(votes)}
        is_open = etcd.is_there(aside, False)
        if any(int(pair.value) >= n for pair in etcd.pairs(places)):
            vote = self.keys.aside(n, self.options.name)
            await self.etcd['aside'].call('kv/txn', {'compare': [is_open],
                                                     'success': [etcd.delete(vote)]})
            self.voted.discard(n)
        elif 2 * len(names) > self.options.replicas and entry.host in names:
            await self.etcd['aside'].call('kv/txn', {
                'compare': [is_open, *(etcd.is_there(self.keys.aside(n, name)) for name in names),
                            *(etcd.is_value(pair.key, f'{n:020}', 'LESS')
                              for pair in etcd.pairs(places))],
                'success': [etcd.put(aside, 'aside')]})
        return False
