"""Follows the log: a book that goes on from where it was, or one that is made anew.

A book is made in a file of its own and takes the place of the one before once it has caught up. A
crash leaves the book of before, or the new one whole. A book that is there goes on at the next
start: its last entry has to be the archive's, by its hash.
"""
import argparse
import contextlib
import fcntl
import json
import os
import secrets
import tempfile
import threading
import time
from collections.abc import Iterator
from dataclasses import dataclass
from pathlib import Path
from typing import Any

from goo_service.common.files import sync_folder
from goo_service.common.files import write_whole
from goo_service.copies.kept import Copy
from goo_service.log import reader
from goo_service.log import entries
from goo_service.records.beginning import Place
from goo_service.records.beginning import check_first_entry
from goo_service.records.beginning import lacks_account
from goo_service.records.beginning import last_number
from goo_service.records.beginning import place_of
from goo_service.records.book import At
from goo_service.records.book import Book
from goo_service.records.book import Result
from goo_service.records.queue import Ahead
from goo_service.records.registry import WatchedRegistry
from goo_service.records.resumed import Unfit
from goo_service.records.resumed import resume

BATCH = 2_000
"""Acts, and ranges that they moved, that are written at once while the log is caught up with."""
AHEAD, ANY = 32 << 20, 1024
"""Bytes of records that are read ahead of the book, and what any record counts besides its two
bodies."""
MINUTE = 60
"""Seconds after which the registry is asked again whether the book has its accounts, where it could
not tell."""


class Locked(Exception):
    """Another one follows the log into this folder."""


@contextlib.contextmanager
def lock_of(folder: Path) -> Iterator[None]:
    """Has nobody else follow the log into a folder."""
    lock = os.open(folder / '.lock', os.O_RDWR | os.O_CREAT, 0o640)
    try:
        try:
            fcntl.flock(lock, fcntl.LOCK_EX | fcntl.LOCK_NB)
        except BlockingIOError as fault:
            raise Locked(f'another one follows the log into {folder}') from fault
        yield
    finally:
        os.close(lock)


def make_key(path: Path) -> None:
    """The key of check codes. Printed documents are checked by it, so it is made once and kept. It
    is there whole or not at all: anybody could make the codes of an empty one."""
    if not path.exists():
        write_whole(path, f'{secrets.token_hex(32)}\n')


# -------------------------------------------------------------------- a book that is made

def of_copy(path: Path, folder: str) -> tuple[WatchedRegistry, Iterator[Any]]:
    """The registry that a copy holds, and its requests in their order."""
    copy = Copy(path, folder)
    registry = WatchedRegistry(copy.code, copy.beginning().day, copy.next_serial_at_first())
    return registry, copy.requests()


def make_book(given: argparse.Namespace, place: Place, path: Path) -> Book:
    """A new book, which begins as it is to begin."""
    check_first_entry(Path(given.archive), place)
    if given.begun:
        code, day, serial = given.begun
        registry = WatchedRegistry(int(code), day, int(serial))
        return Book.make(path, registry, place.text)
    with tempfile.TemporaryDirectory(prefix='goo-records-') as folder:
        registry, requests = of_copy(Path(given.copy), folder)
        book = Book.make(path, registry, place.text)
        for _, caller, key, text, *_ in requests:
            book.apply_command(At(0, caller), {'key': key, **json.loads(text)}, Result('accepted'))
            if book.waiting >= BATCH:
                book.commit(place.entry, place.hash, None)
        book.commit(place.entry, place.hash, None)
    return book


def publish(folder: Path, book: Book, path: Path) -> None:
    """Has the readers take this book, once all of it is on the disk."""
    book.publish(path)
    with open(path, 'rb') as file:
        os.fsync(file.fileno())
    part = folder / '.current'
    part.unlink(missing_ok=True)
    part.symlink_to(path.name)
    part.replace(folder / 'current')
    sync_folder(folder)
    clear(folder)


def clear(folder: Path) -> None:
    """Removes each book but the present one: what an earlier start left unfinished, and what came
    before."""
    current = (folder / 'current').resolve().name
    for other in folder.glob('book-*'):
        if not other.name.startswith(current):
            other.unlink()


# -------------------------------------------------------------------- following

@dataclass
class Followed:
    """A book that follows an archive into a folder."""

    given: argparse.Namespace
    book: Book
    entry: int
    """The last entry that is written."""
    is_public: bool
    """Whether readers have it."""
    last: entries.Record | None = None
    """The last record that was applied and is not written yet."""

    def commit(self) -> None:
        if record := self.last:
            self.book.commit(record.entry.n, record.hash, record.entry.time)
            self.entry, self.last = record.entry.n, None

    def follow(self, path: Path) -> int:
        """Applies the entries of the archive, and publishes the book once it has caught up."""
        archive, began = Path(self.given.archive), time.monotonic()
        start, goal, look, is_caught_up = self.entry, last_number(archive), 0.0, False
        for record in records_of(archive, self.entry):
            if record:
                self.book.apply(record)
                self.last = record
            is_at_goal = (record.entry.n if record else self.entry) >= goal
            if record is None or self.book.waiting >= BATCH or is_at_goal:
                self.commit()
            if is_at_goal and time.monotonic() >= look:
                look = self.next_look()
            if is_at_goal and not is_caught_up:
                is_caught_up = True
                self.publish(path, start, time.monotonic() - began)
                if self.given.once:
                    return 0
        return 0

    def next_look(self) -> float:
        """When the registry is asked again whether the book has its accounts."""
        number = self.book.registry.next['account']
        answer = lacks_account(self.given.socket, number, self.entry)
        return time.monotonic() + MINUTE if answer is None else float('inf')

    def publish(self, path: Path, start: int, seconds: float) -> None:
        """Gives the book to readers, where they have not got it yet, and tells of it."""
        if self.is_public:
            what = f'the book goes on from entry {start:,}'
        else:
            publish(Path(self.given.into), self.book, path)
            self.is_public, what = True, 'the book is made'
        print(f'entry {self.entry:,}: {what}, {self.book.acts:,} acts, {seconds:.1f} s', flush=True)


def records_of(archive: Path, after: int) -> Iterator[entries.Record | None]:
    """The records of an archive from a thread of its own; None each time that there is none yet."""
    found: Ahead[entries.Record | Exception] = Ahead(AHEAD)

    def read() -> None:
        last = after
        try:
            for record in reader.read_archive(archive, after=after, follow=True):
                if record.entry.n != last + 1:
                    raise entries.Broken(f'entry {record.entry.n} comes next')
                found.put(record, ANY + len(record.entry.body) + len(record.outcome.body))
                last = record.entry.n
        except entries.Broken as fault:
            found.put(entries.Broken(f'{archive}, after entry {last}: {fault}'), 0)
        except Exception as fault:      # handed to the one who waits
            found.put(fault, 0)

    threading.Thread(target=read, daemon=True).start()
    while True:
        record = found.get(0.5)
        if isinstance(record, Exception):
            raise record
        yield record


def open_book(given: argparse.Namespace, path: Path) -> Followed:
    """The book that is there where it can go on, or a new one: then the reason is told."""
    place, folder = place_of(given), Path(given.into)
    try:
        book, entry = resume(folder / 'current', place, Path(given.archive))
        return Followed(given, book, entry, True)
    except Unfit as why:
        print(f'the book is made anew: {why}', flush=True)
    return Followed(given, make_book(given, place, path), place.entry, False)


def follow(given: argparse.Namespace) -> int:
    """Follows the log until this process is ended, or with `once` until the book has caught up."""
    folder = Path(given.into)
    folder.mkdir(mode=0o750, parents=True, exist_ok=True)
    with lock_of(folder):
        make_key(folder / 'code.key')
        clear(folder)
        path = folder / f'book-{time.time_ns()}.db'
        try:
            return open_book(given, path.with_suffix('.making')).follow(path)
        finally:
            clear(folder)           # of a book that was not finished
