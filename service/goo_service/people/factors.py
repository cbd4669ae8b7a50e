"""Second factors of users: one-time codes of an app, and security keys."""
import sqlite3
from dataclasses import dataclass
from typing import Any

from goo_service.people.store import now

TOTP, KEY = 'totp', 'key'
MOST = 10
"""Factors of a user."""
NAME = 60


class TooMany(ValueError):
    """A user has as many factors as there may be."""


@dataclass(frozen=True)
class Factor:
    """A second factor as the file has it. `secret` is the seed of codes, or the public key."""

    id: int
    user: int
    kind: str
    name: str
    secret: bytes
    credential: bytes | None
    counter: int
    """The last step of time whose code was used, or the counter of a security key."""
    confirmed: bool
    made: int
    used: int | None


def factor_of(row: sqlite3.Row) -> Factor:
    values: dict[str, Any] = {**dict(row), 'confirmed': bool(row['confirmed'])}
    return Factor(**values)


def list_of(db: sqlite3.Connection, user: int) -> list[Factor]:
    """The factors of a user that were confirmed."""
    rows = db.execute('SELECT * FROM factor WHERE user = ? AND confirmed ORDER BY id', (user,))
    return [factor_of(row) for row in rows]


def by_id(db: sqlite3.Connection, user: int, number: int) -> Factor | None:
    row = db.execute('SELECT * FROM factor WHERE user = ? AND id = ?', (user, number)).fetchone()
    return factor_of(row) if row else None


def add(db: sqlite3.Connection, user: int, kind: str, name: str, secret: bytes, *,
        credential: bytes | None = None, counter: int = 0, confirmed: bool = False) -> int:
    """A new factor, inside a change. One that was never confirmed goes."""
    db.execute('DELETE FROM factor WHERE user = ? AND NOT confirmed', (user,))
    if db.execute('SELECT count(*) FROM factor WHERE user = ?', (user,)).fetchone()[0] >= MOST:
        raise TooMany(f'a user has {MOST} factors at most')
    number = db.execute(
        'INSERT INTO factor (user, kind, name, secret, credential, counter, confirmed, made) '
        'VALUES (?, ?, ?, ?, ?, ?, ?, ?)',
        (user, kind, name[:NAME] or kind, secret, credential, counter, int(confirmed),
         now())).lastrowid
    assert number
    return number


def remove(db: sqlite3.Connection, user: int, number: int) -> bool:
    """Removes a factor of a user, inside a change; whether there was one."""
    done = db.execute('DELETE FROM factor WHERE id = ? AND user = ?', (number, user))
    return bool(done.rowcount)


def remove_all(db: sqlite3.Connection, user: int) -> int:
    return db.execute('DELETE FROM factor WHERE user = ?', (user,)).rowcount
