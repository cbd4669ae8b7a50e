"""How the book of acts is written: what waits in memory, and commits that bring all of it.

A book is made in a file of its own, without a journal, and gets its place when it is whole. From
then on each commit is one transaction: a crash leaves the book of one entry, and never of a half.
"""
import collections
import sqlite3
from pathlib import Path
from typing import Any
from typing import Self

from goo_service.records.registry import WatchedRegistry
from goo_service.records.schema import FORM
from goo_service.records.schema import INDEXED
from goo_service.records.schema import INDEXES
from goo_service.records.schema import TABLES
from goo_service.records.schema import connect

CACHE = 65_536
"""KiB of the file that the writer keeps in memory."""
UNSAFE = f'PRAGMA journal_mode = OFF; PRAGMA synchronous = OFF; PRAGMA cache_size = -{CACHE};'
SAFE = 'PRAGMA journal_mode = WAL; PRAGMA synchronous = NORMAL;'
COUNTERS = ('serial', 'account', 'cancellation', 'withdrawal', 'notice')
"""The next number of each kind."""
LotKey = tuple[int, str, str]


class Writer:
    """A book, the registry in memory that it stands by, and the rows that wait."""

    def __init__(self, path: Path, registry: WatchedRegistry) -> None:
        self.path, self.registry = path, registry
        self.database = connect(path)
        self.indexed: int | None = None
        """The last act in the index of texts; None while there is no such index."""
        self.inserts: dict[str, list[tuple[Any, ...]]] = collections.defaultdict(list)
        self.updates: dict[str, list[tuple[Any, ...]]] = collections.defaultdict(list)
        self.accepted: set[tuple[str, object]] = set()
        self.seen: set[tuple[str, int]] = set()
        self.touched: set[tuple[int, int]] = set()
        self.lots: dict[LotKey, int] = {}
        self.begins: dict[int, int] = {}
        """The number and the first certificate of each lot."""
        self.acts = self.moves = self.waiting = 0

    @classmethod
    def make(cls, path: Path, registry: WatchedRegistry, beginning: str) -> Self:
        """A new book of a registry in which nothing has happened yet. Nobody reads it before
        `publish`, and a crash before that has it made anew, so nothing is synchronized."""
        path.unlink(missing_ok=True)
        book = cls(path, registry)
        book.database.executescript(f'{UNSAFE} BEGIN; {TABLES} COMMIT;')
        book.database.execute(
            'INSERT INTO meta (id, form, beginning, code, today, entry) VALUES (1, ?, ?, ?, ?, 0)',
            (FORM, beginning, registry.code, registry.today))
        return book

    def publish(self, path: Path) -> None:
        """Writes the book to its place, ready for readers beside the writer. The same rows give the
        same bytes there: in what order pages were filled no longer shows."""
        self.database.executescript(INDEXES)
        self.index(0)
        self.database.execute('VACUUM INTO ?', (str(path),))
        self.close()
        self.path.unlink()
        self.path, self.database, self.indexed = path, connect(path), self.acts
        self.database.executescript(SAFE)

    def index(self, after: int) -> None:
        """Adds the acts after one to the indexes of texts."""
        for statement in INDEXED:
            self.database.execute(statement, (after,))

    def close(self) -> None:
        self.database.close()

    def insert(self, table: str, *values: Any) -> None:
        places = ', '.join('?' * len(values))
        self.inserts[f'INSERT INTO {table} VALUES ({places})'].append(values)

    def update(self, statement: str, *values: Any) -> None:
        self.updates[statement].append(values)

    def commit(self, entry: int, digest: str | None, time: str | None) -> None:
        """Writes what waits, as of this entry."""
        self.database.execute('BEGIN IMMEDIATE')
        try:
            self.write_rows()
            self.write_runs()
            if self.indexed is not None:
                self.index(self.indexed)
            counters = [self.registry.next[name] for name in COUNTERS]
            numbers = ', '.join(f'{name} = ?' for name in COUNTERS)
            self.database.execute(
                f'UPDATE meta SET today = ?, entry = ?, hash = ?, time = ?, {numbers}',
                (self.registry.today, entry, digest, time, *counters))
            self.database.execute('COMMIT')
        except sqlite3.Error:
            self.close()            # what waits is known to this process alone: the next one begins
            raise
        self.indexed = None if self.indexed is None else self.acts
        self.forget()

    def forget(self) -> None:
        """What waited is written."""
        self.inserts.clear()
        self.updates.clear()
        self.accepted.clear()
        self.seen.clear()
        self.touched.clear()
        self.waiting = 0

    def write_rows(self) -> None:
        """Brings what waits. A row is there before it is changed."""
        self.inserts['INSERT INTO seen VALUES (?, ?)'] = sorted(self.seen)
        self.inserts['INSERT INTO touched VALUES (?, ?)'] = sorted(self.touched)
        for statements in (self.inserts, self.updates):
            for statement, rows in statements.items():
                self.database.executemany(statement, rows)

    def write_runs(self) -> None:
        """Brings the table of runs to what they are now."""
        certificates = self.registry.certificates
        known = sorted(first for first in certificates.unwritten if first in certificates.runs)
        gone = sorted(certificates.unwritten.difference(known))
        self.database.executemany('DELETE FROM run WHERE first = ?', ((first,) for first in gone))
        rows = ((first, *certificates.runs[first]) for first in known)
        self.database.executemany(
            'INSERT OR REPLACE INTO run VALUES (?, ?, ?, ?, ?, ?)',
            ((first, last, self.lots[lot.key], place.kind, place.account, place.act)
             for first, last, lot, place in rows))
        certificates.unwritten.clear()
