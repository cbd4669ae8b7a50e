"""A registry's file as a copy keeps it: its requests, and what they were begun with."""
import datetime
import itertools
import json
import shutil
import sqlite3
import tempfile
from collections.abc import Mapping
from collections.abc import Sequence
from dataclasses import dataclass
from pathlib import Path
from typing import Any

from goo_service.copies import contents
from goo_service.rules.lots import SERIALS

VERSION = 2
"""Of the tables that are read here."""
FIRST_DAY, LAST_DAY = '1900-01-01', '2099-12-31'
MOVED = 7
"""The kind of a receipt that moves the date."""
DATED = {
    3: 'SELECT issued_on FROM lot '
       'WHERE origin = :code AND device = :device AND first_day = :first_day',
    5: 'SELECT day FROM cancellation WHERE number = :n1',
    6: 'SELECT day FROM withdrawal WHERE number = :n1',
    10: 'SELECT day FROM withdrawal WHERE number = :n3'}
"""By the kind of a receipt, the query for the day of its act."""
REQUESTS = 'SELECT rowid, caller, key, command, kind, n1, n2, n3 FROM receipt ORDER BY rowid'
"""As they were accepted: SQLite numbers rows as they come, and none is ever removed."""
Values = Sequence[object] | Mapping[str, object]


class Unreadable(ValueError):
    """A file that is no copy of a registry, or of another version."""


@dataclass(frozen=True)
class Beginning:
    """The date that a registry was begun with; the earliest that fits, where it is not known."""

    day: str
    is_known: bool


def is_day(text: object) -> bool:
    """Whether it is a day that the registry may know."""
    try:
        return (isinstance(text, str) and FIRST_DAY <= text <= LAST_DAY
                and bool(datetime.date.fromisoformat(text)))
    except ValueError:
        return False


def day_after(day: str) -> str:
    return (datetime.date.fromisoformat(day) + datetime.timedelta(days=1)).isoformat()


def members_of(text: str | bytes) -> dict[str, Any]:
    """The members that a kept command has.

    None where it is no command, which is told where it would be carried out.
    """
    try:
        command = json.loads(text)
    except (ValueError, TypeError, RecursionError):
        return {}
    return command if isinstance(command, dict) else {}


class Copy:
    """A copy of a registry's file, copied once more into a folder that goes.

    SQLite makes files beside a database that it reads.
    """

    def __init__(self, path: Path, folder: str | Path,
                 versions: Sequence[int] = (VERSION,)) -> None:
        self.file = path / 'registry.db' if path.is_dir() else path
        if not self.file.is_file():
            raise Unreadable(f'{self.file}: no such file')
        beside = self.file.parent
        if contents.has_list(beside) and (faults := contents.faults_of(beside)):
            raise Unreadable(f'{beside}: not the copy that was made: {"; ".join(faults)}')
        place = Path(tempfile.mkdtemp(dir=folder))
        for tail in ('', *contents.LOGS):
            if Path(f'{self.file}{tail}').is_file():
                shutil.copyfile(f'{self.file}{tail}', place / f'registry.db{tail}')
        self.path = place / 'registry.db'
        self.database = sqlite3.connect(self.path)
        self.read_meta(versions)

    def read_meta(self, versions: Sequence[int]) -> None:
        query = 'SELECT version, code, today, next_serial FROM meta'
        try:
            version, self.code, self.today, self.next_serial = self.query(query).fetchone()
        except (sqlite3.Error, TypeError) as error:
            raise Unreadable(f'{self.file}: not a registry ({error})') from error
        if not isinstance(self.code, int):
            raise Unreadable(f'{self.file}: not a registry (code {self.code})')
        if version not in versions:
            hint = ('; `goo audit --db` makes a copy of version 1 one of version 2'
                    if version == 1 else '')
            raise Unreadable(f'{self.file}: version {version}, '
                             f'and recount reads version {VERSION}{hint}')

    def query(self, sql: str, values: Values = ()) -> sqlite3.Cursor:
        return self.database.execute(sql, values)

    def requests(self) -> sqlite3.Cursor:
        return self.query(REQUESTS)

    def text_beside(self, name: str) -> str | None:
        """A text that lies beside the database, if there is one."""
        file = self.file.parent / name
        return file.read_text(encoding='utf-8') if file.is_file() else None

    def next_serial_at_first(self) -> int:
        """The serial of the first certificate: every one that was issued has its row."""
        first, = self.query(f'SELECT min(first) FROM piece '
                            f'WHERE first / {SERIALS} = (SELECT code FROM meta)').fetchone()
        return int(first % SERIALS if first else self.next_serial)

    def beginning(self) -> Beginning:
        """The date that the registry was begun with: that of the first act that has one.

        Where none came before the date was first moved, the earliest that fits.
        """
        earliest = FIRST_DAY
        query = 'SELECT command, kind, n1, n3 FROM receipt ORDER BY rowid'
        for text, kind, n1, n3 in self.query(query):
            of = members_of(text)
            if kind == MOVED:
                return Beginning(earliest, False)
            named = {'code': self.code, 'n1': n1, 'n3': n3, 'device': str(of.get('device')),
                     'first_day': str(of.get('first_day'))}
            dated = self.query(DATED[kind], named).fetchone() if kind in DATED else None
            if dated:
                return Beginning(dated[0], True)
            if of.get('command') == 'declare' and is_day(of.get('last_day')):
                earliest = max(earliest, day_after(of['last_day']))
        return Beginning(self.today, True)


def same_at_first(before: Copy, copy: Copy) -> tuple[int, list[str]]:
    """How many requests of an earlier copy are the first ones of another, and the one that is not.

    They all are, where nothing of what was kept then is gone or changed.
    """
    kept = 0
    later = itertools.chain(copy.requests(), itertools.repeat(None))
    for old, new in zip(before.requests(), later):
        if old != new:
            here = ' '.join(new[1:3]) if new else 'none'
            return kept, [f'request {kept + 1:,}: {" ".join(old[1:3])} there, {here} here']
        kept += 1
    return kept, []
