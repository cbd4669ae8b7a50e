"""Known places: networks from which a user has signed in."""
import sqlite3

from goo_service.people.store import now

MOST, LASTS = 20, 180 * 24 * 60 * 60
"""Places of a user, and seconds until one that was not used is forgotten."""


def is_known(db: sqlite3.Connection, user: int, net: str) -> bool:
    row = db.execute('SELECT seen FROM known_place WHERE user = ? AND net = ?',
                     (user, net)).fetchone()
    return row is not None and row['seen'] > now() - LASTS


def note(db: sqlite3.Connection, user: int, net: str) -> bool:
    """Notes a sign-in from a network, inside a change; whether it is a new place of the user."""
    is_new = not is_known(db, user, net)
    db.execute('INSERT OR REPLACE INTO known_place VALUES (?, ?, ?)', (user, net[:64], now()))
    db.execute('DELETE FROM known_place WHERE user = ? AND net NOT IN (SELECT net FROM known_place '
               'WHERE user = ? ORDER BY seen DESC LIMIT ?)', (user, user, MOST))
    return is_new
