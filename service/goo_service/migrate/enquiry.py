"""Finds a certificate by its number in the old registry, and by its new number.

A certificate that was left out is found by its old number, with the reason.
"""
import sqlite3
from dataclasses import dataclass
from pathlib import Path

from goo_service.migrate import work
from goo_service.migrate.numbers import NoRange
from goo_service.migrate.numbers import Reader
from goo_service.migrate.numbers import text_of
from goo_service.migrate.settings import Settings

COLUMNS = ('s.old_first, s.old_last, s.counted, s.count, s.first, s.device, s.first_day, '
           's.last_day, a.number, a.old, h.code, h.name')
FROM = ('FROM kept_stock AS s JOIN kept_account AS a ON a.old = s.account '
        'JOIN kept_holder AS h ON h.old = a.holder')
LEFT_OUT = '''
SELECT s.row, s.old_first, s.old_last, s.account, o.why
FROM left_out AS o JOIN stock AS s ON s.row = o.row
WHERE o.source = 'stock' AND s.series = ? AND ? BETWEEN s.counted AND s.counted + s.count - 1
ORDER BY s.row
'''


@dataclass(frozen=True)
class Found:
    """A certificate: its range in the old registry, its new number, and where it came in."""

    old_first: str
    old_last: str
    number: int
    device: str
    first_day: str
    last_day: str
    account: int
    old_account: str
    holder: str
    name: str

    @property
    def text(self) -> str:
        return (f'{text_of(self.number)}\n'
                f'  in the old registry: a certificate of {self.old_first} to {self.old_last}, '
                f'account {self.old_account}\n'
                f'  came into account {self.account} of {self.holder} ({self.name})\n'
                f'  device {self.device}, {self.first_day} to {self.last_day}')


@dataclass(frozen=True)
class LeftOut:
    """A row of the old stock that was left out: its range, its account, and why."""

    row: int
    old_first: str
    old_last: str
    account: str
    why: str

    @property
    def text(self) -> str:
        return (f'a certificate of {self.old_first} to {self.old_last}, account {self.account}, '
                f'stock.csv, row {self.row}, was left out: {self.why}')


def left_out(folder: Path, settings: Settings, text: str) -> list[LeftOut]:
    """The rows with an old number that were left out."""
    with work.opened(folder) as database:
        return [LeftOut(*row) for one in Reader(settings).candidates(text)
                for row in database.execute(LEFT_OUT, (one.series, one.counted))]


def by_old_number(folder: Path, settings: Settings, text: str) -> list[Found]:
    """The certificates of an old number. NoRange where the text is none.

    There are two where a third registry has given the number to another certificate.
    """
    with work.opened(folder) as database:
        each = (found(database, 's.series = ? AND s.counted <= ?', 's.counted',
                      (one.series, one.counted), one.counted, 2)
                for one in Reader(settings).candidates(text))
        return [of for of in each if of]


def by_new_number(folder: Path, text: str) -> list[Found]:
    """The certificate of a new number; none, or one."""
    if not (text.isascii() and text.isdecimal() and len(text) == 14):
        raise NoRange('number', f'{text[:40]!r} is no number of 14 digits')
    with work.opened(folder) as database:
        of = found(database, 's.first <= ?', 's.first', (int(text),), int(text), 4)
    return [of] if of else []


def found(database: sqlite3.Connection, where: str, by: str, values: tuple[object, ...],
          wanted: int, column: int) -> Found | None:
    """The certificate in the last range that begins at a number or before it."""
    row = database.execute(f'SELECT {COLUMNS} {FROM} WHERE {where} ORDER BY {by} DESC LIMIT 1',
                           values).fetchone()
    if row is None or wanted >= row[column] + row[3]:
        return None
    old_first, old_last, _, _, first, *rest = row
    return Found(old_first, old_last, first + wanted - row[column], *rest)
