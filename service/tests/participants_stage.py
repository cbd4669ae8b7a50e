"""A file of people with two holders, their administrators and users, and the body's people."""
import contextlib
import sqlite3
from collections.abc import Iterator
from pathlib import Path

from goo_service.people import acts
from goo_service.people import store

PEOPLE = (
    ('olga', 'ISSUER', 'officer', False), ('oleg', 'ISSUER', 'officer', False),
    ('sven', 'ISSUER', 'second', False), ('aud', 'ISSUER', 'auditor', False),
    ('ada', 'SUN', 'user', True), ('alma', 'SUN', 'user', True), ('anna', 'SUN', 'user', False),
    ('vera', 'VOLT', 'user', True), ('bela', 'VOLT', 'user', False))
"""Names, callers, roles, and who is an administrator of a holder; numbered from 1."""


def add_user(db: sqlite3.Connection, name: str, caller: str, role: str = 'user',
             administrator: bool = False, mail: str | None = None) -> int:
    row = db.execute(
        'INSERT INTO user (name, caller, role, administrator, mail, language, made, source) '
        "VALUES (?, ?, ?, ?, ?, 'en', 1, 'test') RETURNING id",
        (name, caller, role, administrator, mail)).fetchone()
    return int(row['id'])


def doer(name: str, caller: str) -> acts.Doer:
    return acts.Doer(name, 'session', '192.0.2.1', caller)


def dumped(db: sqlite3.Connection) -> list[str]:
    """All that the file has."""
    return list(db.iterdump())


@contextlib.contextmanager
def people_of(folder: Path) -> Iterator[sqlite3.Connection]:
    """The file in a folder, people/people.db there, with a mail address for each user."""
    path = folder / 'people/people.db'
    store.make_file(path)
    with contextlib.closing(store.open_file(path)) as db:
        for name, caller, role, administrator in PEOPLE:
            add_user(db, name, caller, role, administrator, f'{name}@{caller.lower()}.example')
        yield db
