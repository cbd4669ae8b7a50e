"""Deadlines of what holders have: certificates whose trade closes, or that expire, in 60, 30 or 7
days. Looked at once a day of the registry, one holder at a time.

The place that is kept is the day and the holder that was looked at last, with the mails that came
of it. A deadline is told once for each of the three, by its cause, also where a day was missed.
"""
import datetime
import sqlite3
from collections.abc import Iterator
from dataclasses import dataclass
from itertools import count

from goo_service.people.happenings import Happening
from goo_service.people.happenings import tell_readers
from goo_service.people.read_to import place_of
from goo_service.people.read_to import set_place
from goo_service.people.records_client import Records
from goo_service.people.records_client import Row
from goo_service.people.store import changing
from goo_service.rules.commands import ISSUER

READER = 'deadlines'
STEPS = (7, 30, 60)
"""Days ahead at which a deadline is told, the nearest first."""
LIMIT, PAGES = 1000, 100
"""Lots of an answer, and answers for one holder."""


@dataclass(frozen=True, order=True)
class Deadline:
    """A kind of deadline, its day, and the step at which it is told."""

    what: str
    day: str
    step: int


def step_of(day: str, today: str) -> int | None:
    """The step by which a deadline is near; None where it is over, or far ahead."""
    left = (datetime.date.fromisoformat(day) - datetime.date.fromisoformat(today)).days
    return next((step for step in STEPS if 0 <= left <= step), None)


def deadlines_in(rows: list[Row], today: str) -> dict[Deadline, dict[int, int]]:
    """The near deadlines of lots, with the certificates of each account."""
    found: dict[Deadline, dict[int, int]] = {}
    for row in rows:
        for what, column in (('trade', 'trade_until'), ('expiry', 'expires_on')):
            step = step_of(row[column], today) if row[column] else None
            if step is not None:
                of = found.setdefault(Deadline(what, row[column], step), {})
                of[row['account']] = of.get(row['account'], 0) + int(row['count'])
    return found


def next_holder(db: sqlite3.Connection, today: str) -> str | None:
    """The next holder with users who can be told; None where all were looked at today."""
    day, _, last = (place_of(db, READER) or '').partition(' ')
    found = db.execute('SELECT min(caller) FROM user WHERE caller > ? AND caller <> ? '
                       'AND ended IS NULL', (last if day == today else '', ISSUER)).fetchone()
    return None if found[0] is None else str(found[0])


def lots_of(records: Records, holder: str) -> Iterator[Row]:
    """The lots of a holder with a deadline near, as the records show them to him."""
    offset: int | None = 0
    for page in count(1):
        given = {'days': max(STEPS), 'limit': LIMIT, 'offset': offset}
        answer = records.ask('deadlines', given, holder)
        yield from answer['items']
        offset = answer['next']
        if offset is None or page == PAGES:
            return


def turn(db: sqlite3.Connection, records: Records, today: str) -> bool:
    """Looks at one holder; whether there was one."""
    holder = next_holder(db, today)
    if holder is None:
        return False
    found = deadlines_in(list(lots_of(records, holder)), today)
    with changing(db):
        for of, counts in sorted(found.items()):
            cause = f'{of.what} {of.day} {of.step}'
            fields = {'day': of.day, 'what': of.what, 'ahead': of.step}
            tell_readers(db, Happening('deadline', cause, holder, counts, fields,
                                       f'deadline_{of.what}'))
        set_place(db, READER, f'{today} {holder}')
    return True
