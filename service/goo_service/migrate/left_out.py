"""What of the old registry's tables stays behind, and why: the list left-out.csv, and its counts.

A row stays behind for a fault that was waived, or for its holder, account, device or lot that stays
behind.
"""
import sqlite3
from collections.abc import Iterator
from dataclasses import dataclass
from pathlib import Path

from goo_service.migrate.tables import write_table

NAME = 'left-out.csv'
COLUMNS = ('table', 'row', 'why', 'first', 'last', 'certificates', 'registry', 'device',
           'first_day', 'account')
ROWS = '''
SELECT o.source, o.row, o.why, s.old_first, s.old_last, s.count,
       iif(s.row IS NULL, NULL, coalesce(s.other, ?)), s.device, s.first_day, s.account
FROM left_out AS o LEFT JOIN stock AS s ON o.source = 'stock' AND s.row = o.row
ORDER BY o.source, o.row
'''
COUNTS = '''
SELECT o.why, count(*), count(s.row), coalesce(sum(s.count), 0)
FROM left_out AS o LEFT JOIN stock AS s ON s.row = o.row
WHERE o.source = 'stock' GROUP BY o.why ORDER BY o.why
'''


@dataclass(frozen=True)
class Counted:
    """Rows of the stock that stay behind for one reason, and their certificates."""

    why: str
    rows: int
    read: int
    """How many of the rows have a range that can be counted."""
    certificates: int

    @property
    def text(self) -> str:
        unread = self.rows - self.read
        told = f', without those of {unread:,} rows that can not be read' if unread else ''
        return f'{self.why}: {self.certificates:,} certificates in {self.rows:,} rows{told}'


def counts(database: sqlite3.Connection) -> list[Counted]:
    """What of the stock stays behind, by its reason."""
    return [Counted(*row) for row in database.execute(COUNTS)]


def lines(database: sqlite3.Connection) -> Iterator[str]:
    """What of the stock stays behind, as reports tell it; no line where nothing does."""
    if found := counts(database):
        yield (f'left out: {sum(of.certificates for of in found):,} certificates in '
               f'{sum(of.rows for of in found):,} rows of the stock (see {NAME})')
        yield from (f'  {of.text}' for of in found)


def write(folder: Path, database: sqlite3.Connection, old_code: int) -> None:
    """Writes the list of all rows that stay behind."""
    write_table(folder / NAME, COLUMNS, database.execute(ROWS, (old_code,)))
