"""The file of people: made, opened, read and changed.

Each process has connections of its own. A change is one transaction, with the act that tells of it,
so a crash leaves both or neither. Where the disk is full a change fails, and reads go on.
"""
import contextlib
import os
import secrets
import sqlite3
import time
from collections.abc import Iterator
from pathlib import Path

from goo_service.common.files import make_folder
from goo_service.people.schema import FORM
from goo_service.people.schema import TABLES

FILE = Path('/var/lib/goo-people/people.db')
WAIT = 5.0
"""Seconds that a change waits for another one."""


class Fault(Exception):
    """The file of people can't be used. The text names the file."""


def make_file(path: Path = FILE) -> None:
    """A new file with nobody in it. One that is there stays."""
    make_folder(path.parent, 0o700)
    with contextlib.suppress(FileExistsError):
        os.close(os.open(path, os.O_CREAT | os.O_EXCL | os.O_NOFOLLOW, 0o600))
    with contextlib.closing(connect(path)) as db, changing(db):
        if not db.execute("SELECT 1 FROM sqlite_schema WHERE name = 'meta'").fetchone():
            for statement in statements(TABLES):
                db.execute(statement)
            db.execute('INSERT INTO meta VALUES (1, ?, ?)', (FORM, secrets.token_bytes(32)))


def statements(text: str) -> Iterator[str]:
    """The statements of a text one after another: `executescript` would end a transaction."""
    statement = ''
    for line in text.splitlines(keepends=True):
        statement += line
        if sqlite3.complete_statement(statement):
            yield statement
            statement = ''


def connect(path: Path) -> sqlite3.Connection:
    db = sqlite3.connect(path.absolute().as_uri() + '?mode=rw', uri=True, timeout=WAIT,
                         isolation_level=None)
    db.row_factory = sqlite3.Row
    db.execute('PRAGMA journal_mode = WAL')
    db.execute('PRAGMA synchronous = FULL')
    db.execute('PRAGMA foreign_keys = ON')
    return db


def open_file(path: Path = FILE) -> sqlite3.Connection:
    """A connection to a file of this form."""
    try:
        db = connect(path)
        row = db.execute('SELECT form FROM meta').fetchone()
    except sqlite3.Error as fault:
        raise Fault(f'{path}: {fault}') from fault
    if row is None or row['form'] != FORM:
        db.close()
        raise Fault(f'{path}: not a file of people of form {FORM}')
    return db


@contextlib.contextmanager
def changing(db: sqlite3.Connection) -> Iterator[sqlite3.Connection]:
    """A change: all of what is done inside, or nothing."""
    db.execute('BEGIN IMMEDIATE')
    try:
        yield db
    except BaseException:
        db.execute('ROLLBACK')
        raise
    db.execute('COMMIT')


def secret_of(db: sqlite3.Connection) -> bytes:
    """What this file signs with: CSRF tokens, challenges of security keys."""
    return bytes(db.execute('SELECT secret FROM meta').fetchone()['secret'])


def now() -> int:
    return int(time.time())
