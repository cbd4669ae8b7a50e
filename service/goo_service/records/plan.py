"""Which certificates the rows of a table take: a pure function of what is held and what is wanted.

Ranges that rows name are taken first. Of the rows with a quantity the narrowest is served first, by
how many certificates fit it; each takes those with the oldest deadline. A row that is then short
takes from a row that can take others in their place, along as many rows as it needs. So a row is
told short only where no choice would have served all.
"""
import bisect
from collections import deque
from collections.abc import Iterable
from collections.abc import Iterator
from collections.abc import Sequence
from dataclasses import dataclass
from dataclasses import field
from dataclasses import replace

Span = tuple[int, int]
"""The first and the last of some numbers."""
FIELDS = ('tech', 'source', 'country', 'device', 'month')
"""What a row may ask of its certificates."""
ANY = '*'


@dataclass(frozen=True)
class Run:
    """Certificates of one lot that follow each other, and the last day on which they can be used
    for the act."""

    first: int
    last: int
    deadline: str
    tech: str = ''
    source: str = ''
    country: str = ''
    device: str = ''
    month: str = ''
    last_day: str = ''
    """Of its period, whose first day is in the month."""

    @property
    def count(self) -> int:
        return self.last - self.first + 1


@dataclass(frozen=True)
class Want:
    """What a row wants: a quantity, or ranges; and what they have to be: a value of each field, one
    with `*` behind it for all that begin so, or nothing for any."""

    row: int
    count: int = 0
    ranges: tuple[Span, ...] = ()
    tech: str = ''
    source: str = ''
    country: str = ''
    device: str = ''
    month: str = ''

    @property
    def filter(self) -> tuple[str, ...]:
        return self.tech, self.source, self.country, self.device, self.month


@dataclass(frozen=True)
class Fault:
    """Why a row can't be carried out: a field of it, the kind of fault, and the numbers in it."""

    row: int
    field: str
    kind: str
    there: int = 0
    wanted: int = 0
    other: int = 0
    """Another row."""
    value: str = ''


@dataclass
class Plan:
    """The ranges of each row, and what is short."""

    ranges: dict[int, list[Span]] = field(default_factory=dict)
    faults: list[Fault] = field(default_factory=list)


def fits(value: str, wanted: str) -> bool:
    """Whether a value is the one that is wanted."""
    if wanted.endswith(ANY):
        return value.startswith(wanted[:-1])
    return wanted in ('', value)


def size(spans: Iterable[Span]) -> int:
    return sum(last - first + 1 for first, last in spans)


def join_spans(spans: Iterable[Span]) -> list[Span]:
    """The same numbers in as few ranges as there can be."""
    found: list[Span] = []
    for first, last in sorted(spans):
        if found and first == found[-1][1] + 1:
            found[-1] = found[-1][0], last
        else:
            found.append((first, last))
    return found


# -------------------------------------------------------------------- ranges that rows name

@dataclass
class Named:
    """The ranges that rows name, held against the runs."""

    runs: list[Run]
    """In the order of their numbers."""
    taken: list[tuple[int, int, int]] = field(default_factory=list)
    """First and last number and row, in the order of the numbers."""

    def faults(self, want: Want) -> Iterator[Fault]:
        """Takes the ranges of a row; what is wrong with them."""
        for first, last in want.ranges:
            at = bisect.bisect_left(self.taken, (first, last, 0))
            near = [of for of in self.taken[max(0, at - 1):at + 1]
                    if of[0] <= last and first <= of[1]]
            if near:
                yield Fault(want.row, 'ranges', 'twice', other=near[0][2])
            else:
                bisect.insort(self.taken, (first, last, want.row))
        parts = [part for span in want.ranges for part in self.parts(span)]
        there, wanted = sum(part.count for part in parts), size(want.ranges)
        if there < wanted:
            yield Fault(want.row, 'ranges', 'not_held', there, wanted)
        for name in FIELDS:
            unfit = sum(part.count for part in parts
                        if not fits(getattr(part, name), getattr(want, name)))
            if unfit:
                yield Fault(want.row, name, 'unfit', unfit, wanted)
        if want.count and want.count != wanted:
            yield Fault(want.row, 'quantity', 'differs', wanted, want.count)

    def parts(self, span: Span) -> Iterator[Run]:
        """What is held of a range, run by run."""
        at = max(0, bisect.bisect_right(self.runs, span[0], key=lambda run: run.first) - 1)
        while at < len(self.runs) and self.runs[at].first <= span[1]:
            run = self.runs[at]
            first, last = max(run.first, span[0]), min(run.last, span[1])
            if first <= last:
                yield replace(run, first=first, last=last)
            at += 1

    def rest(self) -> Iterator[Run]:
        """What no row names."""
        at = 0
        for run in self.runs:
            begin = run.first
            while at < len(self.taken) and self.taken[at][0] <= run.last:
                first, last, _ = self.taken[at]
                if begin < first:
                    yield replace(run, first=begin, last=first - 1)
                begin = max(begin, last + 1)
                if last >= run.last:
                    break
                at += 1
            if begin <= run.last:
                yield replace(run, first=begin)


# -------------------------------------------------------------------- quantities

@dataclass
class Shelf:
    """Runs in the order of their deadlines, and how much of each is left and was taken by whom."""

    runs: list[Run]
    left: list[int] = field(init=False)
    holders: list[dict[int, int]] = field(init=False)
    """Of each run how many certificates each row has."""
    values: dict[str, dict[str, set[int]]] = field(init=False)
    """By field and value the runs that have it."""
    known: dict[tuple[str, ...], list[int]] = field(default_factory=dict)
    starts: dict[tuple[str, ...], int] = field(default_factory=dict)
    """Of each filter, before which of its runs nothing is left."""
    dead: set[int] = field(default_factory=set)
    """Runs in whose place no other can be taken any more."""

    def __post_init__(self) -> None:
        self.runs.sort(key=lambda run: (run.deadline, run.first))
        self.left = [run.count for run in self.runs]
        self.holders = [{} for _ in self.runs]
        self.values = {name: {} for name in FIELDS}
        for at, run in enumerate(self.runs):
            for name in FIELDS:
                self.values[name].setdefault(getattr(run, name), set()).add(at)

    def fitting(self, wanted: tuple[str, ...]) -> list[int]:
        """The runs that fit a filter, the oldest deadline first."""
        if wanted not in self.known:
            found: set[int] | None = None
            for name, text in zip(FIELDS, wanted):
                if text:
                    of = self.having(name, text)
                    found = of if found is None else found & of
            self.known[wanted] = list(range(len(self.runs))) if found is None else sorted(found)
        return self.known[wanted]

    def having(self, name: str, text: str) -> set[int]:
        return {at for value, runs in self.values[name].items() if fits(value, text)
                for at in runs}

    def give(self, at: int, row: int, count: int) -> None:
        """Gives a row so many certificates of a run."""
        self.left[at] -= count
        self.holders[at][row] = self.holders[at].get(row, 0) + count

    def take_back(self, at: int, row: int, count: int) -> None:
        self.left[at] += count
        self.holders[at][row] -= count
        if not self.holders[at][row]:
            del self.holders[at][row]

    def serve(self, want: Want) -> int:
        """Gives a row what is left that fits it; how many it lacks then."""
        lacking, runs = want.count, self.fitting(want.filter)
        begin = at = self.starts.get(want.filter, 0)
        while lacking and at < len(runs):
            count = min(lacking, self.left[runs[at]])
            if count:
                self.give(runs[at], want.row, count)
                lacking -= count
            at += 1
        while begin < len(runs) and not self.left[runs[begin]]:
            begin += 1
        self.starts[want.filter] = begin
        return lacking

    def exchange(self, want: Want, lacking: int, wants: dict[int, Want]) -> int:
        """Gives a row certificates of others that take other ones in their place; how many it lacks
        then."""
        while lacking:
            path = self.path(want, wants)
            if not path:
                return lacking
            holders = [want.row, *(row for _, row in path[:-1])]
            count = min(lacking, self.left[path[-1][0]],
                        *(self.holders[at][row] for at, row in path[:-1]))
            for at, row in path[:-1]:
                self.take_back(at, row, count)
            for (at, _), row in zip(path, holders):
                self.give(at, row, count)
            lacking -= count
        return 0

    def path(self, want: Want, wants: dict[int, Want]) -> list[tuple[int, int]]:
        """A way from a row to a run of which something is left: runs, each with the row that has to
        give it up, and no row at the end. Empty where there is none."""
        came: dict[int, tuple[int, int]] = {}
        """Of each row the run that it has to give up, and the row before it."""
        queue, seen, filters = deque([want.row]), set(self.dead), set[tuple[str, ...]]()
        while queue:
            row = queue.popleft()
            if wants[row].filter in filters:
                continue
            filters.add(wants[row].filter)
            for at in self.fitting(wants[row].filter):
                if at in seen:
                    continue
                seen.add(at)
                if self.left[at]:
                    return way_back(came, row, at)
                for holder in self.holders[at]:
                    if holder not in came and holder != want.row:
                        came[holder] = at, row
                        queue.append(holder)
        self.dead = seen
        return []


def way_back(came: dict[int, tuple[int, int]], row: int, end: int) -> list[tuple[int, int]]:
    """The way that was found, from its beginning."""
    path = [(end, 0)]
    while row in came:
        at, before = came[row]
        path.append((at, row))
        row = before
    return path[::-1]


def short(want: Want, lacking: int, shelf: Shelf) -> Fault:
    """What a row lacks, by the field that shuts out all where there is one."""
    if not shelf.fitting(want.filter):
        for name in FIELDS:
            text = getattr(want, name)
            if text and not shelf.having(name, text):
                return Fault(want.row, name, 'none', 0, want.count, value=text)
    return Fault(want.row, 'quantity', 'short', want.count - lacking, want.count)


def make_plan(runs: Iterable[Run], wants: Sequence[Want]) -> Plan:
    """Which ranges each row takes. A row is named once, and no certificate is in two runs."""
    plan, named = Plan(), Named(sorted(runs, key=lambda run: run.first))
    for want in wants:
        if want.ranges:
            plan.faults += named.faults(want)
            plan.ranges[want.row] = list(want.ranges)
    shelf = Shelf(list(named.rest()))
    rows = {want.row: want for want in wants if not want.ranges}
    narrow = sorted(rows.values(), key=lambda want: sum(
        shelf.runs[at].count for at in shelf.fitting(want.filter)))
    lacking = {want.row: shelf.serve(want) for want in narrow}
    for row, count in lacking.items():
        lacking[row] = shelf.exchange(rows[row], count, rows)
    plan.faults += [short(rows[row], count, shelf) for row, count in lacking.items() if count]
    plan.faults.sort(key=lambda fault: fault.row)
    for row, spans in cut(shelf).items():
        plan.ranges[row] = join_spans(spans)
    return plan


def cut(shelf: Shelf) -> dict[int, list[Span]]:
    """The numbers that each row gets of each run: those of one row follow each other."""
    found: dict[int, list[Span]] = {}
    for run, holders in zip(shelf.runs, shelf.holders):
        begin = run.first
        for row, count in sorted(holders.items()):
            found.setdefault(row, []).append((begin, begin + count - 1))
            begin += count
    return found
