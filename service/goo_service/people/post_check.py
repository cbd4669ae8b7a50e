"""What the doctor tells of mails: those that were given up, and those that wait too long."""
import sqlite3
from collections.abc import Iterator

from goo_service.people.mails import DAY
from goo_service.people.mails import GONE
from goo_service.people.mails import NO_MAILER
from goo_service.people.mails import OVER

LATELY, TOO_LONG = 7 * DAY, 3600
"""Seconds for which what was given up is told, and after which waiting is."""
EXPECTED = (OVER, GONE, NO_MAILER)


def faults(db: sqlite3.Connection, at: int) -> Iterator[str]:
    """A line for each thing that is wrong."""
    yield from given_up(db, at)
    yield from waiting(db, at)


def given_up(db: sqlite3.Connection, at: int) -> Iterator[str]:
    signs = ', '.join('?' * len(EXPECTED))
    rows = db.execute(
        f'SELECT address, fault FROM mail WHERE given_up > ? AND fault NOT IN ({signs}) '
        'ORDER BY given_up DESC, id DESC', (at - LATELY, *EXPECTED)).fetchall()
    if rows:
        mails = '1 mail was' if len(rows) == 1 else f'{len(rows)} mails were'
        yield (f'{mails} given up in the last seven days, the last one to {rows[0]["address"]}: '
               f'{rows[0]["fault"]}')


def waiting(db: sqlite3.Connection, at: int) -> Iterator[str]:
    count, oldest = db.execute(
        'SELECT count(*), min(made) FROM mail WHERE sent IS NULL AND given_up IS NULL '
        'AND made < ?', (at - TOO_LONG,)).fetchone()
    if count:
        why, = db.execute('SELECT fault FROM mail WHERE sent IS NULL AND given_up IS NULL '
                          'AND made = ?', (oldest,)).fetchone()
        mails = '1 mail waits' if count == 1 else f'{count} mails wait'
        yield f'{mails}, the oldest for {(at - oldest) // 3600} h: {why or "it was not tried yet"}'
