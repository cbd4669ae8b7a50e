"""Checks the tables of an old registry, before anything is sent: judges them, and reports.

Every row is read, and every fault is told by its table, row and field. A row that points at a row
with a fault has none of its own by that.
"""
import sqlite3
from collections import Counter
from collections.abc import Iterator
from dataclasses import dataclass
from pathlib import Path

from goo_service.migrate import left_out
from goo_service.migrate import tables
from goo_service.migrate import work
from goo_service.migrate.faults import KINDS
from goo_service.migrate.faults import Fault
from goo_service.migrate.judge import Judge
from goo_service.migrate.settings import Settings

REPORT = 'report.txt'
TOLD = 1000
"""Faults of a kind that the report tells one by one; all are in the working file."""
KEPT = '''
SELECT coalesce(other, ?) AS registry, sum(count), count(*) FROM kept_stock GROUP BY 1 ORDER BY 1
'''


@dataclass(frozen=True)
class Judgement:
    """What a check found: rows by table, faults by kind, and how many stand that nobody waived.

    Rows are numbered anew with each delivery of the tables: a waiver without a fault is told.
    """

    rows: Counter[str]
    faults: Counter[str]
    open: int
    idle: list[str]
    """Waivers that waive nothing."""


def check(folder: Path, settings: Settings) -> Judgement:
    """Checks the tables of a migration. The working file and the report are written anew."""
    with work.made(folder) as database:
        judge = Judge(folder, settings, database)
        judge.read()
        work.settle(database)
        work.note(database, 'open', str(judge.open))
        for name, found_hash in tables.hashes(folder).items():
            work.note(database, f'hash {name}', found_hash)
        found = Judgement(judge.rows, judge.faults, judge.open,
                          sorted(settings.waivers - judge.used))
        left_out.write(folder, database, settings.old_code)
        with (folder / REPORT).open('w', encoding='utf-8') as report:
            report.writelines(f'{line}\n' for line in report_lines(database, found, settings))
    return found


def report_lines(database: sqlite3.Connection, found: Judgement,
                 settings: Settings) -> Iterator[str]:
    """The report: counts, and then each fault."""
    for table, count in found.rows.items():
        left, = database.execute('SELECT count(*) FROM left_out WHERE source = ?',
                                 (table,)).fetchone()
        yield f'{table}: {count:,} rows, {left:,} of them left out'
    for code, certificates, ranges in database.execute(KEPT, (settings.old_code,)):
        yield f'of registry {code:02}: {certificates:,} certificates in {ranges:,} rows'
    yield from left_out.lines(database)
    if found.open:
        yield 'so much comes over, and is left out, if all faults that stand are waived'
    waived, = database.execute('SELECT count(*) FROM fault WHERE waived').fetchone()
    yield f'faults: {found.faults.total():,}, {waived:,} of them waived'
    yield from (f'no such fault, and so nothing to waive: {waiver}' for waiver in found.idle)
    for kind, count in sorted(found.faults.items()):
        yield ''
        yield f'{kind}: {count:,} ({KINDS[kind][0]}; waived: {KINDS[kind][1]})'
        for *of, is_waived in database.execute(
                'SELECT kind, source, row, field, reason, waived FROM fault WHERE kind = ? '
                f'ORDER BY source, row LIMIT {TOLD}', (kind,)):
            yield f'  {"waived: " if is_waived else ""}{Fault(*of).text}'
        if count > TOLD:
            yield f'  .. and {count - TOLD:,} more'
