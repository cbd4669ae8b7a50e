"""The working file of a migration: what was read of the old tables, in SQLite.

It is made anew by each check. A registry of a whole country has millions of ranges, so they are
kept and sorted there and not in memory.
"""
import sqlite3
from collections.abc import Iterator
from contextlib import contextmanager
from pathlib import Path
from typing import NamedTuple

NAME = 'work.db'
SCHEMA = '''
CREATE TABLE about (name TEXT PRIMARY KEY, value TEXT NOT NULL);
CREATE TABLE fault (kind TEXT, source TEXT, row INTEGER, field TEXT, reason TEXT, waived INTEGER,
                    leaves_out INTEGER);
CREATE TABLE holder (row INTEGER PRIMARY KEY, old TEXT UNIQUE, code TEXT, name TEXT);
CREATE TABLE account (row INTEGER PRIMARY KEY, old TEXT UNIQUE, holder TEXT, number INTEGER);
CREATE TABLE device (row INTEGER PRIMARY KEY, gsrn TEXT UNIQUE, account TEXT, site TEXT,
                     country TEXT, tech TEXT, source TEXT, carrier TEXT, capacity_w INTEGER,
                     commissioned TEXT, support TEXT);
CREATE TABLE lot (row INTEGER PRIMARY KEY, registry INTEGER, device TEXT, first_day TEXT,
                  site TEXT, country TEXT, tech TEXT, source TEXT, carrier TEXT,
                  capacity_w INTEGER, commissioned TEXT, support TEXT,
                  UNIQUE (registry, device, first_day));
CREATE TABLE stock (row INTEGER PRIMARY KEY, series TEXT, old_first TEXT, old_last TEXT,
                    counted INTEGER, count INTEGER, first INTEGER, other INTEGER, device TEXT,
                    first_day TEXT, last_day TEXT, issued_on TEXT, account TEXT);
CREATE TABLE carried (row INTEGER PRIMARY KEY, device TEXT UNIQUE, energy_wh INTEGER);
CREATE TABLE document (row INTEGER PRIMARY KEY, file TEXT UNIQUE, holder TEXT, about TEXT,
                       bytes INTEGER, hash TEXT);
'''
"""`counted` is the number that the digits of the first old certificate of a range state, in a
series of old numbers; `first` is the new number, once it is known. `other` is the code of the
registry that issued a range, where that is another one than the old registry; a `lot` is one of
such a registry."""
INDEXES = ('CREATE INDEX stock_by_number ON stock (series, counted)',
           'CREATE INDEX stock_by_lot ON stock (other, device, first_day)',
           'CREATE INDEX stock_by_account ON stock (account, first)',
           'CREATE INDEX stock_by_new_number ON stock (first)',
           'CREATE INDEX device_by_account ON device (account)',
           'CREATE INDEX account_by_holder ON account (holder)')
LEFT_OUT = ('CREATE TABLE left_out (source TEXT, row INTEGER, why TEXT, '
            'PRIMARY KEY (source, row)) WITHOUT ROWID')
LEAVE_OUT = tuple(f'INSERT OR IGNORE INTO left_out SELECT {rows}' for rows in (
    'source, row, kind FROM fault WHERE leaves_out ORDER BY rowid',
    "'accounts', row, 'its holder' FROM account "
    'WHERE holder NOT IN (SELECT old FROM kept_holder)',
    "'documents', row, 'its holder' FROM document "
    'WHERE holder NOT IN (SELECT old FROM kept_holder)',
    "'devices', row, 'its account' FROM device "
    'WHERE account NOT IN (SELECT old FROM kept_account)',
    "'stock', row, 'its account' FROM stock "
    'WHERE account NOT IN (SELECT old FROM kept_account)',
    "'stock', row, 'its device' FROM stock "
    'WHERE other IS NULL AND device NOT IN (SELECT gsrn FROM kept_device)',
    "'stock', row, 'its lot' FROM stock WHERE other IS NOT NULL AND (other, device, first_day) "
    'NOT IN (SELECT registry, device, first_day FROM kept_lot)',
    "'carried', row, 'its device' FROM carried "
    'WHERE device NOT IN (SELECT gsrn FROM kept_device)'))
"""The rows that stay behind where all faults are waived, and why: those at fault, and then what
belongs to them."""
KEPT = '''
CREATE VIEW kept_{one} AS SELECT * FROM {one} WHERE NOT EXISTS
    (SELECT 1 FROM left_out AS l WHERE l.source = '{table}' AND l.row = {one}.row)
'''
TABLES = {'holder': 'holders', 'account': 'accounts', 'device': 'devices', 'lot': 'lots',
          'stock': 'stock', 'carried': 'carried', 'document': 'documents'}
STATED = '''
CREATE VIEW stated AS
SELECT s.first, s.first + s.count - 1 AS last, s.account, s.first / 1000000000000 AS origin,
       s.device, coalesce(l.country, d.country) AS country, coalesce(l.site, d.site) AS site,
       coalesce(l.tech, d.tech) AS tech, coalesce(l.source, d.source) AS source,
       coalesce(l.capacity_w, d.capacity_w) AS capacity_w,
       coalesce(l.commissioned, d.commissioned) AS commissioned,
       coalesce(l.support, d.support) AS support, s.first_day, s.last_day, s.issued_on,
       coalesce(l.carrier, d.carrier) AS carrier
FROM kept_stock AS s LEFT JOIN device AS d ON d.gsrn = s.device
LEFT JOIN lot AS l ON l.registry = s.other AND l.device = s.device AND l.first_day = s.first_day
'''
"""What is stated of each range that comes over: account and lot. The lot of another registry is as
that registry has it, and all else is of the device."""


class Plant(NamedTuple):
    """What a table states of a production device, in the order of the working file."""

    site: str
    country: str
    technology: str
    source: str
    carrier: str
    capacity_w: int
    commissioned: str
    support: str


@contextmanager
def made(folder: Path) -> Iterator[sqlite3.Connection]:
    """A new working file in place of the one of before. It is there whole, or not at all."""
    path = folder / NAME
    part = path.with_suffix('.part')
    part.unlink(missing_ok=True)
    database = sqlite3.connect(part, isolation_level=None)
    try:
        database.executescript('PRAGMA journal_mode = OFF; PRAGMA synchronous = OFF;' + SCHEMA)
        database.execute('BEGIN')
        yield database
        database.execute('COMMIT')
    finally:
        database.close()
    part.replace(path)


@contextmanager
def opened(folder: Path, writes: bool = False) -> Iterator[sqlite3.Connection]:
    """The working file of a check that has passed."""
    path = folder / NAME
    if not path.exists():
        raise FileNotFoundError(f'{path} is not there: begin with goo-migrate check {folder}')
    database = sqlite3.connect(f'file:{path}?mode={"rw" if writes else "ro"}', uri=True,
                               isolation_level=None)
    try:
        yield database
    finally:
        database.close()


def settle(database: sqlite3.Connection) -> None:
    """Once all is read: which rows stay behind, and which are kept."""
    views = [KEPT.format(one=one, table=table) for one, table in TABLES.items()]
    for statement in (LEFT_OUT, *views, *LEAVE_OUT, STATED):
        database.execute(statement)


def note(database: sqlite3.Connection, name: str, value: str) -> None:
    """Keeps a fact of the migration under a name."""
    database.execute('INSERT OR REPLACE INTO about VALUES (?, ?)', (name, value))


def noted(database: sqlite3.Connection, name: str) -> str:
    """The fact of that name; '' where there is none."""
    found = database.execute('SELECT value FROM about WHERE name = ?', (name,)).fetchone()
    return str(found[0]) if found else ''
