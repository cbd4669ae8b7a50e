"""Users in a file of people, for tests of what is told to them."""
import sqlite3
from collections.abc import Iterable

from goo_service.people.store import now


def add_user(db: sqlite3.Connection, name: str, caller: str, *, role: str = 'user',
             mail: str | None = '', language: str | None = None, ended: int | None = None,
             access: Iterable[tuple[int, int, int, int]] = ()) -> int:
    """A user with rows of access (account, reads, trades, cancels); his number."""
    address = f'{name}@example.org' if mail == '' else mail
    done = db.execute(
        'INSERT INTO user (name, caller, role, mail, language, made, ended, source) '
        "VALUES (?, ?, ?, ?, ?, ?, ?, 'test')",
        (name, caller, role, address, language, now(), ended))
    user = done.lastrowid
    assert user
    for row in access:
        db.execute('INSERT INTO access VALUES (?, ?, ?, ?, ?)', (user, *row))
    return user


def told(db: sqlite3.Connection, name: str = '') -> list[tuple[str, str, str]]:
    """The mails of users, or of one: to whom, of which kind, with which subject."""
    found = db.execute('SELECT user.name, mail.kind, mail.subject FROM mail '
                       'JOIN user ON user.id = mail.user ORDER BY mail.id')
    rows = [(row['name'], row['kind'], row['subject']) for row in found]
    return [row for row in rows if row[0] == name] if name else sorted(rows)
