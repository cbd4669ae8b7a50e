"""Sessions: a cookie by chance, kept as a hash, that ends by itself.

A session ends after UNUSED seconds without a request and after WHOLE seconds in all; with a
sign-out here or everywhere, with a new password, and with its user. Each sign-in makes a new one,
so a cookie that somebody else planted is never signed in.
"""
import sqlite3
from dataclasses import dataclass

from goo_service.people import secret
from goo_service.people.store import now

COOKIE = '__Host-goo'
UNUSED, WHOLE = 30 * 60, 12 * 60 * 60
SEEN_EACH = 60
"""Seconds between two notes of when a session was last used."""
MOST = 20
"""Sessions of a user. One more ends the one that was used longest ago."""
ENROL = 'enrol'
"""The way of a session of a user who has no second factor yet: it adds one, and nothing else."""
AGENT = 200


@dataclass(frozen=True)
class Session:
    """A session that has not ended."""

    id: int
    user: int
    begun: int
    seen: int
    ends: int
    address: str
    agent: str
    way: str
    """By which second factor: 'totp', 'key', 'oidc'; or ENROL."""


COLUMNS = 'id, user, begun, seen, ends, address, agent, way'


def begin(db: sqlite3.Connection, user: int, address: str, agent: str, way: str) -> tuple[int, str]:
    """A new session's number and cookie, inside a change. Sessions that are over go."""
    at = now()
    db.execute('DELETE FROM session WHERE ends <= ? OR seen <= ?', (at, at - UNUSED))
    db.execute('DELETE FROM session WHERE user = ? AND id NOT IN (SELECT id FROM session '
               'WHERE user = ? ORDER BY seen DESC, id DESC LIMIT ?)', (user, user, MOST - 1))
    cookie = secret.make()
    number = db.execute(
        'INSERT INTO session (hash, user, begun, seen, ends, address, agent, way) '
        'VALUES (?, ?, ?, ?, ?, ?, ?, ?)',
        (secret.hash_of(cookie), user, at, at, at + WHOLE, address[:64], agent[:AGENT],
         way)).lastrowid
    assert number
    return number, cookie


def is_over(begun_ends: int, seen: int, at: int) -> bool:
    return at >= begun_ends or at >= seen + UNUSED


def by_id(db: sqlite3.Connection, number: int) -> Session | None:
    row = db.execute(f'SELECT {COLUMNS} FROM session WHERE id = ?', (number,)).fetchone()
    if row is None or is_over(row['ends'], row['seen'], now()):
        return None
    return Session(**row)


def hash_by_id(db: sqlite3.Connection, number: int) -> bytes:
    """The hash of a session's cookie."""
    row = db.execute('SELECT hash FROM session WHERE id = ?', (number,)).fetchone()
    return bytes(row['hash']) if row else b''


def list_of(db: sqlite3.Connection, user: int) -> list[Session]:
    at = now()
    rows = db.execute(f'SELECT {COLUMNS} FROM session WHERE user = ? ORDER BY seen DESC, id DESC',
                      (user,))
    return [Session(**row) for row in rows if not is_over(row['ends'], row['seen'], at)]


def end(db: sqlite3.Connection, user: int, number: int) -> bool:
    """Ends a session of a user, inside a change; whether there was one."""
    done = db.execute('DELETE FROM session WHERE id = ? AND user = ?', (number, user))
    return bool(done.rowcount)


def end_all(db: sqlite3.Connection, user: int, but: int = 0) -> int:
    """Ends all sessions of a user but one, inside a change; how many."""
    return db.execute('DELETE FROM session WHERE user = ? AND id <> ?', (user, but)).rowcount


def cookie_of(value: str, lasts: int = WHOLE) -> str:
    """The field Set-Cookie. A browser takes a name with __Host- over TLS alone, for this host."""
    return f'{COOKIE}={value}; Path=/; Secure; HttpOnly; SameSite=Strict; Max-Age={lasts}'
