"""Recounts a copy of a registry apart from its program: by queries, and from its own requests.

COPY is a folder of /var/backups/goo, or a database with its log beside it; never the database of a
running registry. It is copied once more before it is opened, so nothing is written to it. Where the
list of its files (SHA256SUMS) is beside it, each of them has to be there as it was copied.

The queries are those of AUDITING.md. The file keeps every accepted request. Here each of them is
checked and carried out again, once and in their order, by the rules of docs/REGISTRY.md as
goo_service.rules has them, written down a second time. Every row of every table has to come out,
and every answer that was given.

A line for each thing that was recounted begins with `holds`, `shows` or `BROKEN`; some of the rows
at fault stand below it. The exit status is 0 where all holds, 1 where something does not, 2 for a
usage error, and 3 where the copy can't be read.
"""
import argparse
import collections
import csv
import datetime
import json
import re
import signal
import sqlite3
import sys
import tempfile
from collections.abc import Iterator
from collections.abc import Sequence
from dataclasses import dataclass
from dataclasses import field
from pathlib import Path
from typing import Any

from goo_service.copies import contents
from goo_service.copies import expected
from goo_service.copies.kept import VERSION
from goo_service.copies.kept import Beginning
from goo_service.copies.kept import Copy
from goo_service.copies.kept import Unreadable
from goo_service.copies.kept import same_at_first
from goo_service.rules.certificates import join_runs
from goo_service.rules.commands import compact
from goo_service.rules.refusals import Wrong
from goo_service.rules.registry import Registry

PAGES = (Path(__file__).resolve().parents[3] / 'docs/AUDITING.md',
         Path('/usr/share/doc/goo/AUDITING.md'))
OLDEST_SQLITE = (3, 38)
ROWS_TOLD = 5
AUDIT = 'audit'


@dataclass(frozen=True)
class Words:
    """What is recounted, and against what."""

    copy: Path
    other: Path | None
    before: Path | None
    into: Path | None
    begun: str | None


def some(count: int, what: str) -> str:
    """So many of something, in words."""
    return f'{count:,} {what}{"" if count == 1 else "s"}'


class Report:
    """What was recounted, a line each."""

    def __init__(self) -> None:
        self.counts: collections.Counter[str] = collections.Counter()

    def add(self, word: str, what: str, rows: Sequence[object] = ()) -> None:
        self.counts[word] += 1
        count = f': {len(rows):,}' if rows or word == 'shows' else ''
        print(f'  {word:7}{what}{count}')
        for row in rows[:ROWS_TOLD]:
            cells = [row] if isinstance(row, str) or not isinstance(row, Sequence) else row
            print('          ', '  '.join(map(str, cells)))
        if len(rows) > ROWS_TOLD:
            print(f'           and {len(rows) - ROWS_TOLD:,} more')

    def check(self, what: str, faults: Sequence[object]) -> None:
        self.add('BROKEN' if faults else 'holds', what, faults)

    def status(self) -> int:
        """The exit status, once the sums are printed."""
        print(f'{self.counts["holds"]} hold, {self.counts["BROKEN"]} broken')
        return 1 if self.counts['BROKEN'] else 0


# ------------------------------------------------------------------ by the queries

@dataclass(frozen=True)
class Query:
    """A query of AUDITING.md. `shows`: it shows rows where all is well."""

    title: str
    shows: bool
    sql: str

    @property
    def file(self) -> str:
        return f'{re.sub("[^a-z0-9]+", "-", self.title.lower()).strip("-")}.csv'


def queries(kind: str) -> Iterator[Query]:
    """The queries of AUDITING.md in blocks of this kind."""
    page = next((page for page in PAGES if page.is_file()), None)
    if page is None:
        raise Unreadable(f'no AUDITING.md, neither {PAGES[0]} nor {PAGES[1]}')
    text = page.read_text(encoding='utf-8')
    for shows, block in re.findall(rf'(?ms)^```{kind}( shown)?$\n(.*?)^```$', text):
        for query in re.split(r'(?m)^-- ', block)[1:]:
            title, _, sql = query.partition('\n')
            yield Query(title, bool(shows), sql)


def by_queries(copy: Copy, report: Report, into: Path | None, kind: str = 'sql') -> list[str]:
    """Puts each query to the tables; the lines of the one that is the audit."""
    audit: list[str] = []
    for query in queries(kind):
        try:
            answer = copy.query(query.sql)
            rows = answer.fetchall()
        except sqlite3.Error as error:
            report.check(query.title, [f'SQLite: {error}'])
            continue
        if query.title == AUDIT:
            audit = [line for line, in rows]
            continue
        if into and (query.shows or rows):
            heads = [column for column, *_ in answer.description]
            with open(into / query.file, 'w', encoding='utf-8', newline='') as file:
                csv.writer(file).writerows([heads, *rows])
        if query.shows:
            report.add('shows', query.title, rows)
        else:
            report.check(query.title, rows)
    return audit


def folder_in(into: Path | None, name: str) -> Path | None:
    """A new folder of this name in the one for what was recounted, if there is one."""
    if into is None:
        return None
    (into / name).mkdir()
    return into / name


def compare_registries(copy: Copy, other: Copy, report: Report, into: Path | None) -> None:
    """The queries over two registries, both ways."""
    for one, two in ((copy, other), (other, copy)):
        print(f'Between {one.code:02} and {two.code:02}, from the side of {one.code:02}')
        one.query('ATTACH ? AS other', (str(two.path),))
        folder = folder_in(into, f'{one.code:02}-{two.code:02}')
        by_queries(one, report, folder, 'sql other')
        one.query('DETACH other')


# ------------------------------------------------------------------ from the requests

@dataclass
class CarriedOut:
    """The registry that the kept requests leave, and what is wrong with them."""

    registry: Registry
    count: int = 0
    gaps: list[str] = field(default_factory=list)
    unfit: list[str] = field(default_factory=list)
    answered: list[str] = field(default_factory=list)
    spelled: list[str] = field(default_factory=list)

    def apply(self, at: int, caller: str, key: str, text: bytes, *answer: Any) -> bool:
        """Checks and carries out one request. Those after one that is unfit are left out."""
        if at != self.count + 1:
            self.gaps.append(f'{caller} {key}: row {at:,} is request {self.count + 1:,}')
            return False
        try:
            command = json.loads(text)
            if compact(command).encode() != text:
                self.spelled.append(f'{caller} {key}')
            given = self.registry.apply(caller, command)
        except (Wrong, ValueError, LookupError, TypeError, AttributeError, ArithmeticError,
                RecursionError) as error:
            why = error if isinstance(error, Wrong) else repr(error)
            self.unfit.append(f'{caller} {key}: {why}, request {self.count + 1:,}; '
                              'those after it are not carried out')
            return False
        self.count += 1
        if answer != given:
            self.answered.append(f'{caller} {key}: {answer} was answered, and not {given}')
        return True


def replay(copy: Copy, report: Report, begun: str) -> Registry:
    """The registry that the kept requests leave, each carried out once and in their order."""
    made = CarriedOut(Registry(copy.code, begun, copy.next_serial_at_first()))
    for row in copy.requests():
        if not made.apply(*row):
            break
    report.check('no request is missing between two others', made.gaps)
    report.check(f'each passes all its checks, {some(made.count, "request")}', made.unfit)
    report.check('each is kept in the one text of its command', made.spelled)
    report.check('each was answered as it is answered here', made.answered)
    return made.registry


def by_requests(copy: Copy, report: Report, begun: str, into: Path | None) -> str:
    """Compares every table with what the requests leave; the text of their audit."""
    registry = replay(copy, report, begun)
    for name, rows in expected.rows_of(registry).items():
        found = copy.query(expected.ROWS[name]).fetchall()
        faults = expected.table_faults(name, rows, join_runs(found) if name == 'piece' else found)
        report.check(f'table {name}, {some(len(rows), "row")}', faults)
    if into:
        for name, text in expected.texts_of(registry):
            (into / name).write_text(text, encoding='utf-8', newline='\n')
    return expected.audit_text(registry)


def audit_faults(lines: list[str], other: str, text: str) -> list[str]:
    """Where an audit's text is not made of the lines of the query."""
    if ''.join(f'{line}\n' for line in lines) == text:
        return []
    return (expected.differences('by the queries', lines, f'by {other}', text.splitlines())
            or ['the same lines, in another order or with other ends'])


def recount_copy(copy: Copy, report: Report, beginning: Beginning, into: Path | None) -> None:
    """A copy by the queries, and then from its requests."""
    print(f'Registry {copy.code:02}, date {copy.today}, by the queries of AUDITING.md')
    faults = [line for line, in copy.query('PRAGMA integrity_check') if line != 'ok']
    report.check('SQLite finds the file in order', faults)
    objects = copy.query('SELECT type, name FROM sqlite_master WHERE sql IS NOT NULL').fetchall()
    report.check('the file has the tables and indexes of a registry, and nothing else',
                 expected.differences('wanted', expected.OBJECTS, 'in the file', objects))
    lines = by_queries(copy, report, into)
    later = '' if beginning.is_known else ' or later'
    print(f'Registry {copy.code:02}, from its requests, begun on {beginning.day}{later} '
          f'with serial {copy.next_serial_at_first()}')
    audits = {'the requests': by_requests(copy, report, beginning.day, into),
              'audit.txt': copy.text_beside('audit.txt')}
    for other, text in audits.items():
        if text is not None:
            what = f'the audit is the same by the queries and {other}, {some(len(lines), "device")}'
            report.check(what, audit_faults(lines, other, text))


def compare_with_earlier(copy: Copy, before: Copy, report: Report) -> None:
    """The requests of an earlier copy are the first ones of this copy."""
    kept, faults = same_at_first(before, copy)
    report.check(f'each of the copy before, of {before.today}, stands here as it stood there, '
                 f'{some(kept, "request")}', faults)


# ------------------------------------------------------------------ the command

def day(text: str) -> str:
    return datetime.date.fromisoformat(text).isoformat()


def parser() -> argparse.ArgumentParser:
    made = argparse.ArgumentParser(prog='goo-copies recount', description=__doc__,
                                   formatter_class=argparse.RawDescriptionHelpFormatter)
    made.add_argument('copy', type=Path, metavar='COPY')
    made.add_argument('--other', type=Path, metavar='COPY',
                      help='a copy of another registry, of a time when no exchange was under way: '
                           'what lies between the two is recounted too')
    made.add_argument('--before', type=Path, metavar='COPY',
                      help='an earlier copy of the same registry, whose requests have to stand '
                           'here as they stand there')
    made.add_argument('--into', type=Path, metavar='FOLDER',
                      help='a new folder for the rows that a query shows or finds at fault, as '
                           'CSV, and for audit, statements, documents and holdings, made of the '
                           'requests')
    made.add_argument('--begun', type=day, metavar='DAY',
                      help='the date that the registry was begun with, if it is not the one that '
                           'recount tells')
    return made


def recount(words: Words, folder: str) -> Report:
    """Recounts what the words name, in a folder for copies of it."""
    report, copy = Report(), Copy(words.copy, folder)
    other = Copy(words.other, folder) if words.other else None
    before = Copy(words.before, folder, (1, VERSION)) if words.before else None
    if other and other.code == copy.code:
        parser().error('--other is a copy of the same registry')
    if words.into:
        words.into.mkdir(parents=True)
    is_given = words.begun is not None
    beginning = Beginning(str(words.begun), True) if is_given else (before or copy).beginning()
    recount_copy(copy, report, beginning, words.into)
    if before:
        compare_with_earlier(copy, before, report)
    if other:
        compare_registries(copy, other, report, words.into)
    return report


def main() -> int:
    words = Words(**vars(parser().parse_args()))
    if sqlite3.sqlite_version_info < OLDEST_SQLITE:
        return end(f'SQLite {sqlite3.sqlite_version} is too old: the queries want '
                   f'{".".join(map(str, OLDEST_SQLITE))}')
    signal.signal(signal.SIGTERM, lambda *_: sys.exit(143))     # and the copy goes
    with tempfile.TemporaryDirectory(prefix='goo-recount-') as folder:
        try:
            report = recount(words, folder)
        except (Unreadable, sqlite3.Error, OSError, UnicodeError, contents.Unfit) as error:
            return end(error)
    return report.status()


def end(why: object) -> int:
    print(f'recount: {why}', file=sys.stderr)
    return 3


if __name__ == '__main__':
    sys.exit(main())
