"""Sums on both sides: what the tables of the old registry state, and what the new registry holds.

Both are read as ranges in the order of their numbers, and compared certificate by certificate. The
registry is read from a copy of its database, never from the running one. No side is in memory as a
whole: a country has millions of ranges.
"""
import sqlite3
from collections import Counter
from collections.abc import Iterable
from collections.abc import Iterator
from contextlib import closing
from dataclasses import dataclass
from dataclasses import field
from pathlib import Path
from typing import Any
from typing import TextIO

from goo_service.common.files import write_whole
from goo_service.migrate import left_out
from goo_service.migrate import work
from goo_service.migrate.numbers import text_of
from goo_service.migrate.settings import Settings
from goo_service.rules.days import months_after

STATED_NAME, HELD_NAME, DIFFERENCES = 'sums-tables', 'sums-registry', 'differences'
TOLD = 100_000
"""Differences that are told one by one."""
STATED = '''
SELECT s.first, s.last, a.number, s.origin, s.device, s.country, s.site, s.tech, s.source,
       s.capacity_w, s.commissioned, s.support, s.first_day, s.last_day, s.issued_on, s.carrier
FROM stated AS s JOIN kept_account AS a ON a.old = s.account ORDER BY s.first
'''
HELD = '''
SELECT p.first, p.last, p.account, l.origin, l.device, l.country, l.site, l.tech, l.source,
       l.capacity_w, l.commissioned, l.support, l.first_day, l.last_day, l.issued_on,
       coalesce(c.carrier, 'electricity')
FROM piece AS p JOIN lot AS l ON l.id = p.lot LEFT JOIN lot_carrier AS c ON c.lot = l.id
WHERE p.kind = 1 AND p.account >= ? ORDER BY p.first
'''
STATED_LOTS = '''
SELECT a.number, s.first / 1000000000000, s.device, s.first_day, sum(s.count)
FROM kept_stock AS s JOIN kept_account AS a ON a.old = s.account
GROUP BY 1, 2, 3, 4 ORDER BY 1, 2, 3, 4
'''
HELD_LOTS = '''
SELECT p.account, l.origin, l.device, l.first_day, sum(p.last - p.first + 1)
FROM piece AS p JOIN lot AS l ON l.id = p.lot
WHERE p.kind = 1 AND p.account >= ? GROUP BY 1, 2, 3, 4 ORDER BY 1, 2, 3, 4
'''
"""The certificates of an account and lot: how many they are."""
REGISTERED = '''
SELECT d.gsrn, d.account, d.country, d.site, d.tech, d.source, d.capacity_w, d.commissioned,
       d.support, coalesce(c.carrier, 'electricity'),
       coalesce('declared to ' || d.last_day, 'never declared'), d.carry
FROM device AS d LEFT JOIN device_carrier AS c ON c.gsrn = d.gsrn WHERE d.account >= ?
ORDER BY d.gsrn
'''
LISTS = {
    'holders': ('SELECT code, name FROM kept_holder ORDER BY code',
                'SELECT code, name FROM holder AS h WHERE NOT EXISTS (SELECT 1 FROM account '
                'WHERE number < ? AND holder = h.code) ORDER BY code'),
    'accounts': ('SELECT a.number, h.code, 0 FROM kept_account AS a JOIN kept_holder AS h '
                 'ON h.old = a.holder ORDER BY a.number',
                 'SELECT number, holder, closed FROM account WHERE number >= ? ORDER BY number'),
    'devices': ('SELECT d.gsrn, a.number, d.country, d.site, d.tech, d.source, d.capacity_w, '
                "d.commissioned, d.support, d.carrier, 'never declared', 0 FROM kept_device AS d "
                'JOIN kept_account AS a ON a.old = d.account ORDER BY d.gsrn',
                REGISTERED),
}
"""What is compared row by row: the query over the tables, and the one over the registry.

The queries over the registry are told the first account of the migration: what was there before
is nothing of it.
"""
Run = tuple[Any, ...]
"""First and last number, and what is stated of them: account, device, .., carrier."""


@dataclass
class Sums:
    """Certificates counted in several ways."""

    by_registry: Counter[tuple[object, ...]] = field(default_factory=Counter)
    by_kind: Counter[tuple[object, ...]] = field(default_factory=Counter)
    """By technology, month of production, and country."""
    by_deadline: Counter[tuple[object, ...]] = field(default_factory=Counter)
    ranges: int = 0

    def add(self, run: Run) -> None:
        first, last, _, origin, _, country, _, tech, *_, first_day, last_day, _, _ = run
        count = last - first + 1
        self.by_registry[origin,] += count
        self.by_kind[tech, first_day[:7], country] += count
        self.by_deadline[months_after(last_day, 18) or 'never',] += count
        self.ranges += 1

    @property
    def total(self) -> int:
        return self.by_deadline.total()

    def lines(self) -> Iterator[str]:
        """The sums, in one order, but for those by account and lot."""
        yield f'certificates {self.total} in {self.ranges} ranges'
        for name, counted in (('registry', self.by_registry),
                              ('technology, month, country', self.by_kind),
                              ('deadline', self.by_deadline)):
            yield f'by {name}'
            for key, count in sorted(counted.items()):
                yield f'{words(key)} {count}'
        yield 'by account, registry, device, first day'


@dataclass
class Comparison:
    """Both sides, and where they differ."""

    stated: Sums = field(default_factory=Sums)
    held: Sums = field(default_factory=Sums)
    differences: list[str] = field(default_factory=list)
    count: int = 0
    left_out: list[str] = field(default_factory=list)
    """What of the old stock stays behind, as it is told."""

    def tell(self, difference: str) -> None:
        """Keeps a difference; so many are told one by one."""
        self.count += 1
        if self.count <= TOLD:
            self.differences.append(difference)

    def tell_sums(self, key: Run, stated: int, held: int) -> None:
        """Keeps a difference of two sums."""
        if stated != held:
            self.tell(f'{words(key)}: {stated:,} in the tables, {held:,} in the registry')


def joined(runs: Iterable[Run]) -> Iterator[Run]:
    """Runs in the order of their numbers, with those made one that follow and state the same."""
    before: Run | None = None
    for run in runs:
        if before and before[1] + 1 == run[0] and before[2:] == run[2:]:
            before = (before[0], *run[1:])
            continue
        if before:
            yield before
        before = run
    if before:
        yield before


def paired(stated: Iterable[Run], held: Iterable[Run],
           width: int) -> Iterator[tuple[Run | None, Run | None]]:
    """The rows of two lists side by side, None where one side has none.

    Both are in the order of their first columns, of which so many make the key.
    """
    rows, others = iter(stated), iter(held)
    row, other = next(rows, None), next(others, None)
    while row or other:
        takes_row = row is not None and (other is None or row[:width] <= other[:width])
        takes_other = other is not None and (row is None or other[:width] <= row[:width])
        yield row if takes_row else None, other if takes_other else None
        row = next(rows, None) if takes_row else row
        other = next(others, None) if takes_other else other


def unchanged(registry: Path) -> sqlite3.Connection:
    """A database of which nothing is written, and beside which no file comes.

    A copy of /var/backups/goo would be one that was not made so. ValueError where it is in use.
    """
    if registry.with_name(f'{registry.name}-wal').exists():
        raise ValueError(f'{registry} is in use, or was not closed: take a copy')
    return sqlite3.connect(f'{registry.resolve().as_uri()}?mode=ro&immutable=1', uri=True)


def compare(folder: Path, settings: Settings, registry: Path) -> Comparison:
    """Compares the tables of a migration with a copy of the registry's database.

    The sums are written to a file for each side, so that `diff` shows nothing where they are equal,
    and the differences to a file of theirs.
    """
    found, begun = Comparison(), (settings.first_account,)
    with work.opened(folder) as tables, closing(unchanged(registry)) as database:
        found.left_out += left_out.lines(tables)
        for name, (stated, held) in LISTS.items():
            compare_rows(name, tables.execute(stated), database.execute(held, begun), found)
        compare_runs(joined(tables.execute(STATED)), joined(database.execute(HELD, begun)), found)
        for name in ('by_registry', 'by_kind', 'by_deadline'):
            one, other = getattr(found.stated, name), getattr(found.held, name)
            for key in sorted(one | other):
                found.tell_sums(key, one[key], other[key])
        parts = [folder / f'{name}.part' for name in (STATED_NAME, HELD_NAME)]
        with parts[0].open('w', encoding='utf-8') as of_tables, \
                parts[1].open('w', encoding='utf-8') as of_registry:
            of_tables.writelines(f'{line}\n' for line in found.stated.lines())
            of_registry.writelines(f'{line}\n' for line in found.held.lines())
            compare_lots(written(tables.execute(STATED_LOTS), of_tables),
                         written(database.execute(HELD_LOTS, begun), of_registry), found)
    for part in parts:
        part.replace(part.with_suffix(''))
    write_whole(folder / DIFFERENCES, ''.join(f'{line}\n' for line in found.differences))
    return found


def written(rows: Iterable[Run], file: TextIO) -> Iterator[Run]:
    """Rows, each of which is written as a line too."""
    for row in rows:
        file.write(f'{words(row)}\n')
        yield row


def compare_lots(stated: Iterable[Run], held: Iterable[Run], found: Comparison) -> None:
    """Compares the sums by account and lot."""
    for row, other in paired(stated, held, 4):
        found.tell_sums((row or other or ())[:4], row[4] if row else 0, other[4] if other else 0)


def compare_rows(name: str, stated: Iterable[Run], held: Iterable[Run], found: Comparison) -> None:
    """Compares two lists in one order by their first column."""
    for row, other in paired(stated, held, 1):
        if row != other:
            key, *_ = row or other or ('',)
            found.tell(f'{name} {key}: {words(row and row[1:])} in the tables, '
                       f'{words(other and other[1:])} in the registry')


def words(values: Run | None) -> str:
    return 'nothing' if values is None else ' '.join(map(str, values))


def compare_runs(stated: Iterable[Run], held: Iterable[Run], found: Comparison) -> None:
    """Compares two lists of runs by the first numbers, and adds up both."""
    for run, other in paired(stated, held, 1):
        for one, sums, where in ((run, found.stated, 'in the tables, and not so in the registry'),
                                 (other, found.held, 'in the registry, and not so in the tables')):
            if one:
                sums.add(one)
            if one and run != other:
                found.tell(f'{where}: {run_text(one)}')


def run_text(run: Run) -> str:
    first, last, account, *stated = run
    return f'{text_of(first)} to {text_of(last)}, account {account}, {words(tuple(stated))}'
