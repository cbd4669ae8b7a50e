"""A book that goes on from where it was: the registry in memory, rebuilt from the book's own rows.

What the rules read is in the book: who holds what, the lots, what each declaration has left, the
next numbers, and the notices that were imported. So no entry that the book has is carried out
again.
"""
import sqlite3
import time
from collections.abc import Iterator
from pathlib import Path
from typing import Any

from goo_service.log import reader
from goo_service.records.beginning import Place as Beginning
from goo_service.records.beginning import last_number
from goo_service.records.book import Book
from goo_service.records.registry import WatchedRegistry
from goo_service.records.schema import FORM
from goo_service.records.schema import connect
from goo_service.records.writer import COUNTERS
from goo_service.records.writer import SAFE
from goo_service.rules.certificates import Place
from goo_service.rules.lots import LOT
from goo_service.rules.lots import Lot
from goo_service.rules.lots import PLANT


PATIENCE = 30
"""Seconds in which an archive reaches the entry of the book. A power failure may take the last
lines of an archive, which the log writes again."""


class Unfit(Exception):
    """A book that can't go on. The text says why."""


def resume(path: Path, beginning: Beginning, archive: Path) -> tuple[Book, int]:
    """The book at a path, which goes on, and its last entry. Raises Unfit where it is made anew
    instead, and entries.Broken where the archive can't be read."""
    if not path.exists():
        raise Unfit('there is none yet')
    try:
        database = connect(path, read_only=True)
        try:
            check_form(database, beginning)
            entry, digest = database.execute('SELECT entry, hash FROM meta').fetchone()
            check_end(archive, entry, digest)
            check_pages(database)
            registry = registry_of(database)
        finally:
            database.close()
        return book_of(path, registry), entry
    except (sqlite3.Error, KeyError, TypeError, ValueError) as fault:
        raise Unfit(f'{path.resolve()} is damaged: {fault}') from fault


def check_form(database: sqlite3.Connection, beginning: Beginning) -> None:
    """Raises Unfit unless a book has this program's tables and begins as it is to begin."""
    form, = database.execute('SELECT form FROM meta').fetchone() or (None,)
    if form != FORM:
        raise Unfit(f'it has form {form}, and this program writes form {FORM}')
    begins, = database.execute('SELECT beginning FROM meta').fetchone()
    if begins != beginning.text:
        raise Unfit(f'it begins with {begins}, and is to begin with {beginning.text}')


def check_end(archive: Path, entry: int, digest: str | None) -> None:
    """Raises Unfit unless an archive has the last entry of a book, by its hash, or goes on from
    it."""
    if not entry:
        return
    until = time.monotonic() + PATIENCE
    while last_number(archive) < entry and time.monotonic() < until:
        time.sleep(0.5)
    record = next(reader.read_archive(archive, after=entry - 1), None)
    if record is None:
        raise Unfit(f'it goes to entry {entry}, and {archive} ends before')
    if record.entry.n > entry + 1:
        raise Unfit(f'it goes to entry {entry}, and {archive} begins with entry {record.entry.n}')
    there = record.hash if record.entry.n == entry else record.entry.prev
    if digest is not None and there != digest:
        raise Unfit(f'its entry {entry} is another one than in {archive}: the book is of another '
                    'log')


def check_pages(database: sqlite3.Connection) -> None:
    """Raises Unfit where a page of a book is not what SQLite wrote."""
    fault, = database.execute('PRAGMA quick_check(1)').fetchone()
    if fault != 'ok':
        raise Unfit(f'it is damaged: {fault}')


def book_of(path: Path, registry: WatchedRegistry) -> Book:
    """The writer of a book that stands by this registry."""
    book = Book(path.resolve(), registry)
    try:
        book.database.executescript(SAFE)
        book.acts = greatest(book.database, 'act')
        book.moves = greatest(book.database, 'moved')
        book.indexed = book.acts
        for row in book.database.execute('SELECT id, origin, device, first_day, begin FROM lot'):
            book.lots[row['origin'], row['device'], row['first_day']] = row['id']
            book.begins[row['id']] = row['begin']
    except BaseException:
        book.close()
        raise
    return book


def greatest(database: sqlite3.Connection, table: str) -> int:
    """The last number in a table."""
    number, = database.execute(f'SELECT coalesce(max(id), 0) FROM {table}').fetchone()
    return int(number)


def registry_of(database: sqlite3.Connection) -> WatchedRegistry:
    """The registry by whose rows a book stands."""
    meta = database.execute('SELECT * FROM meta').fetchone()
    registry = WatchedRegistry(meta['code'], meta['today'], 1)
    registry.next = {name: meta[name] for name in COUNTERS}
    for code, name in database.execute('SELECT code, name FROM holder ORDER BY act'):
        registry.holders[code] = name
    for number, holder, closed in database.execute('''SELECT number, holder, closed FROM account
                                                      ORDER BY number'''):
        registry.accounts[number] = (holder, closed)
    for row in database.execute('SELECT * FROM device ORDER BY act'):
        registry.devices[row['gsrn']] = device_of(row)
    registry.peers = {code for code, in database.execute('SELECT code FROM peer')}
    for row in database.execute('SELECT * FROM declaration'):
        net = row['gross_wh'] - row['aux_wh'] - row['corrected_wh']
        registry.left[row['device'], row['first_day']] = net
    for sender, number, text in database.execute('SELECT sender, number, text FROM imported'):
        registry.taken[sender, number] = text
    restore_runs(registry, database)
    return registry


def device_of(row: sqlite3.Row) -> dict[str, Any]:
    """A device as the rules keep it."""
    return {'device': row['gsrn'], 'account': row['account'], 'carrier': row['carrier'],
            **{member: row[member] for member in PLANT}, 'last_day': row['last_day'],
            'carry': row['carry_wh'], 'declared': row['declared_wh'], 'less': row['corrected_wh'],
            'issued': row['issued'], 'corrected': row['withdrawn']}


def restore_runs(registry: WatchedRegistry, database: sqlite3.Connection) -> None:
    """The lots, and where each certificate is."""
    lots = dict(lots_of(database))
    registry.lots = {lot.key: lot for lot in lots.values()}
    runs = 'SELECT first, last, lot, kind, account, number FROM run ORDER BY first'
    for first, last, number, kind, account, act in database.execute(runs):
        registry.restore(first, last, lots[number], Place(kind, account, act))


def lots_of(database: sqlite3.Connection) -> Iterator[tuple[int, Lot]]:
    """Each lot by its number."""
    for row in database.execute(f'SELECT id, {", ".join(LOT)} FROM lot ORDER BY id'):
        yield row['id'], Lot(**{member: row[member] for member in LOT})
