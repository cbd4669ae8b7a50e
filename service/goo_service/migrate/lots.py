"""What the rows of the stock have to state together: lots, periods, deadlines, quantities."""
import sqlite3
from collections.abc import Iterator

from goo_service.migrate.faults import Fault
from goo_service.migrate.settings import Settings
from goo_service.migrate.tables import Row
from goo_service.rules.days import hours
from goo_service.rules.days import months_after
from goo_service.rules.lots import MWH

STOCK = 'stock'
ROWS_BY_LOT = '''
SELECT row, other, device, first_day, last_day, issued_on FROM stock WHERE first_day != ''
ORDER BY other, device, first_day, row
'''
PERIODS = '''
SELECT min(row), other, device, first_day, max(last_day) FROM stock
WHERE first_day != '' AND last_day != '' GROUP BY other, device, first_day
ORDER BY other, device, first_day
'''
LOT_SUMS = '''
SELECT min(s.row), s.first_day, max(s.last_day), sum(s.count),
       coalesce(l.capacity_w, d.capacity_w) AS most
FROM stock AS s LEFT JOIN device AS d ON d.gsrn = s.device AND s.other IS NULL
LEFT JOIN lot AS l ON l.registry = s.other AND l.device = s.device AND l.first_day = s.first_day
WHERE s.first_day != '' AND most > 0 GROUP BY s.other, s.device, s.first_day
'''


def row_faults(row: Row, days: dict[str, str], settings: Settings) -> Iterator[Fault]:
    """What is wrong between the days of one row. Days that can't be read are empty."""
    first, last, issued = days['first_day'], days['last_day'], days['issued_on']
    if first and last and (last < first or first[:7] != last[:7]):
        yield row.fault('period', 'last_day', f'{first} to {last} is not within one month')
    if last and issued and not last < issued <= settings.closed_on:
        yield row.fault('issued', 'issued_on', f'{issued} is not after {last}, or is after '
                        f'{settings.closed_on}, the last day of the tables')
    over = months_after(last, 18) if last else None
    if over and settings.date > over:
        yield row.fault('deadline', 'last_day', f'its certificates expired on {over}')


def faults(database: sqlite3.Connection) -> Iterator[Fault]:
    """What is wrong between rows."""
    yield from overlaps(database)
    yield from differing(database)
    yield from shared_days(database)
    yield from too_many(database)


def overlaps(database: sqlite3.Connection) -> Iterator[Fault]:
    """Rows whose first certificates stand in a row before."""
    series, end, holder = '', 0, 0
    for row, its, counted, count, first in database.execute(
            'SELECT row, series, counted, count, old_first FROM stock '
            'ORDER BY series, counted, row'):
        if its != series:
            series, end = its, 0
        if counted <= end:
            yield Fault('overlap', STOCK, row, 'first', f'{first} is in row {holder} too')
        if counted + count - 1 > end:
            end, holder = counted + count - 1, row


def differing(database: sqlite3.Connection) -> Iterator[Fault]:
    """Rows that state another last day, or day of issue, than the first row of their lot."""
    lot, stated, at = (None, '', ''), ('', ''), 0
    for row, other, device, first_day, last_day, issued_on in database.execute(ROWS_BY_LOT):
        if (other, device, first_day) != lot:
            lot, stated, at = (other, device, first_day), (last_day, issued_on), row
        elif (last_day, issued_on) != stated:
            yield Fault('lot-differs', STOCK, row, 'last_day',
                        f'{last_day}, issued on {issued_on}, and row {at} of device {device} has '
                        f'{stated[0]}, {stated[1]}')


def shared_days(database: sqlite3.Connection) -> Iterator[Fault]:
    """Lots that begin before an earlier lot of their device has ended; the first row of each."""
    device, end, at = (None, ''), '', 0
    for row, other, its, first_day, last_day in database.execute(PERIODS):
        if (other, its) != device:
            device, end = (other, its), ''
        if first_day <= end:
            yield Fault('periods-overlap', STOCK, row, 'first_day',
                        f'the period of row {at} ends on {end}')
        if last_day > end:
            end, at = last_day, row


def too_many(database: sqlite3.Connection) -> Iterator[Fault]:
    """Lots of more energy than their device can make in their hours; the first row of each."""
    for row, first_day, last_day, count, watts in database.execute(LOT_SUMS):
        if last_day < first_day:
            continue
        most = watts * hours(first_day, last_day)
        if count * MWH > most:
            yield Fault('more-than-made', STOCK, row, 'first', f'{count:,} certificates, and '
                        f'{watts:,} W make {most // MWH:,} from {first_day} to {last_day}; is '
                        'capacity under [tables] right?')
