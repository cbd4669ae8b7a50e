"""The log as files of lines on this host: the store `alone` of a replica.

LOG/00000000000000000001.jsonl and so on: each file is named by its first entry. Each line is an
entry and has the hash of the line before. An entry counts once it is synced to the disk. Files
whose entries are all in the archive are deleted.
"""
import fcntl
import os
import time
from collections.abc import Awaitable
from collections.abc import Callable
from pathlib import Path
from typing import NamedTuple

from goo_service.common.files import sync_folder
from goo_service.log import ends
from goo_service.log import reader
from goo_service.log import entries
from goo_service.log.archive import CREATED
from goo_service.log.archive import write_all
from goo_service.log.entries import Entry
from goo_service.log.store import NoRoom
from goo_service.log.store import Owner
from goo_service.log.store import Placed
from goo_service.log.store import Point
from goo_service.log.store import after

SIZE = 16 << 20
"""Bytes after which a new file is begun."""
ROOM = 4 << 20
"""Bytes that have to be free again after the disk was full."""
SHORT = 64 << 10
"""Bytes of the end of a log that are read again and again."""
LINES, BYTES = 500, 8 << 20
"""Lines that are read at once, and their bytes, but for the last one."""


class Line(NamedTuple):
    """A line of the log: the end that it makes, and the hash of the entry before."""

    end: Point
    prev: str


def line_read(key: bytes | None) -> Callable[[bytes], Line]:
    """Reads a line of the log. With a key its keyed hash is checked."""
    def read(line: bytes) -> Line:
        entry = entries.read_entry(line, key)
        return Line(after(entry, line), entry.prev)
    return read


def follows(before: Line | None, now: Line) -> None:
    """Raises Broken unless a line of the log follows the one before it."""
    if before and (now.end.n, now.prev) != (before.end.n + 1, before.end.hash):
        raise entries.Broken(f'entry {now.end.n} does not follow entry {before.end.n}')


def lock_folder(folder: Path) -> int:
    """The folder of a log, opened and locked until this process ends."""
    lock = os.open(folder, os.O_RDONLY)
    try:
        fcntl.flock(lock, fcntl.LOCK_EX | fcntl.LOCK_NB)
    except OSError as fault:
        raise entries.Broken(f'{folder}: another program has this log open') from fault
    return lock


class FileStore:
    """A log that this process alone writes. log/store.py has the interface."""

    most = 1200000
    ahead = 16
    quorum = tells = at_once = True
    last: Point

    def __init__(self, folder: str | Path, key: bytes | None, applied: int = 0) -> None:
        self.folder, self.key, self.full = Path(folder), key, False
        # before anything is cut: a line that another program just writes would look cut off
        self.lock = lock_folder(self.folder)
        try:
            self.last = self.mend_end()
            if self.last.n < applied:
                raise entries.Broken(f'{folder}: the log ends at entry {self.last.n} '
                                     f'and the registry has applied entry {applied}')
            self.open(self.files()[-1])
        except (entries.Broken, OSError):
            os.close(self.lock)
            raise

    def mend_end(self) -> Point:
        for path in reversed(self.files()):
            if found := ends.mend(path, line_read(self.key), follows):
                return found.end
        raise entries.Broken(f'{self.folder}: there is no log; `goo-replica-log found` begins one')

    def files(self) -> list[Path]:
        return sorted(self.folder.glob('*.jsonl'))

    def open(self, path: Path) -> None:
        self.file = os.open(path, CREATED, 0o640)
        os.fsync(self.file)             # what is there may be applied only once it is on the disk
        sync_folder(self.folder)

    async def end(self) -> Point:
        return self.last

    async def turn(self, end: Point) -> Point:
        """The log's end may have moved on from `end` by `add`."""
        return self.last

    def tasks(self, owner: Owner) -> list[Callable[[], Awaitable[None]]]:
        return []

    def figures(self) -> dict[str, int]:
        """The size of the log.

        Where it is shipped, also how many entries and seconds the other host is behind.
        """
        size = {'log_bytes': sum(path.stat().st_size for path in self.files())}
        try:
            n, when = map(int, (self.folder.parent / 'shipped').read_text().split())
            return {**size, 'shipped_lag_entries': max(0, self.last.n - n),
                    'shipped_age_seconds': max(0, int(time.time()) - when)}
        except (OSError, ValueError):
            return size

    def trouble(self) -> str:
        if self.full:
            disk = os.statvfs(self.folder)
            self.full = disk.f_bavail * disk.f_frsize < ROOM
        return 'the disk of the log is full' if self.full else ''

    def cost(self, size: int) -> int:
        return size + 1

    async def append(self, lines: list[bytes], end: Point, last: Point,
                     wanted: Callable[[], bool]) -> tuple[bool, Point | None]:
        return self.add(lines, end, last)

    def add(self, lines: list[bytes], end: Point, last: Point) -> tuple[bool, Point]:
        """Adds entries and syncs them. `last` is the end with them in the log."""
        try:
            self.put(lines)
        except NoRoom:
            self.full = True
            return False, end
        self.full, self.last = False, last
        return True, last

    def put(self, lines: list[bytes]) -> None:
        """An error of the sync itself ends the replica: nobody knows then what is on the disk.

        The next start reads it.
        """
        if os.fstat(self.file).st_size > SIZE:
            self.turn_to(self.folder / f'{self.last.n + 1:020}.jsonl')
        try:
            write_all(self.file, b''.join(line + b'\n' for line in lines))
        except OSError as fault:
            raise NoRoom(str(fault)) from fault
        os.fdatasync(self.file)

    def turn_to(self, path: Path) -> None:
        """The next file; where there is no room for it, the one before stays."""
        before = self.file
        try:
            os.close(os.open(path, CREATED, 0o640))
        except OSError as fault:
            raise NoRoom(str(fault)) from fault
        self.open(path)
        os.close(before)

    async def lines_from(self, n: int) -> list[bytes]:
        return read_lines(self.folder, n) if n <= self.last.n else []

    def lacks(self, n: int) -> bool:
        return n <= self.last.n

    async def is_aside(self, entry: Entry) -> bool:
        """The operator's word that the registry will not decide an entry."""
        return (self.folder / f'{entry.n}.aside').exists()

    async def report(self, place: Placed, digests: dict[int, str]) -> str:
        """Nobody else is to be told."""
        return ''

    def prune(self, n: int) -> None:
        """Deletes the files whose entries are all at or below n, but for the last file."""
        files = self.files()
        for path, following in zip(files, files[1:]):
            if int(following.stem) <= n + 1:
                path.unlink()


class ShippedLog(FileStore):
    """A log that another host sends here: it is read and never written.

    Nobody here knows whether it goes on elsewhere, so reads say that they may be stale.
    """

    quorum = tells = False

    def __init__(self, folder: str | Path, key: bytes | None) -> None:
        self.folder, self.key, self.full = Path(folder), key, False
        self.seen: tuple[str, int] | None = None
        self.look()

    def look(self) -> None:
        """The end of what has come."""
        files = self.files()
        if not files:
            raise entries.Broken(f'{self.folder}: no log has come here')
        seen = (files[-1].name, files[-1].stat().st_size)
        if seen == self.seen:
            return
        if found := ends.last_of(files[-1], line_read(self.key), follows, SHORT)[0]:
            self.last, self.seen = found.end, seen

    async def lines_from(self, n: int) -> list[bytes]:
        self.look()
        return read_lines(self.folder, n) if n <= self.last.n else []

    def trouble(self) -> str:
        return 'this replica takes no writes'

    def prune(self, n: int) -> None:
        """Who sends the log decides how much of it stays here."""


def read_lines(folder: Path, n: int) -> list[bytes]:
    """Lines of the log from entry n on, one at least; none where the log does not go back so far.

    LINES and BYTES bound how many.
    """
    files = sorted(folder.glob('*.jsonl'))
    found: list[bytes] = []
    room = BYTES
    for path in [*[file for file in files if int(file.stem) <= n][-1:],
                 *[file for file in files if int(file.stem) > n]]:
        for line, _ in reader.lines(path):
            if reader.number_in(line) == n + len(found):
                found.append(line)
                room -= len(line)
            if len(found) == LINES or room <= 0:
                return found
    return found


def last_number(folder: Path) -> int:
    """The number of the last whole entry of a log that another program may be writing."""
    for path in sorted(folder.glob('*.jsonl'), reverse=True):
        if (n := ends.last_of(path, reader.number_in, size=SHORT)[0]) is not None:
            return n
    return 0


def begin(folder: Path, line: bytes, n: int) -> None:
    """A new log with its first entry."""
    folder.mkdir(mode=0o750, parents=True, exist_ok=True)
    if any(folder.glob('*.jsonl')):
        raise entries.Broken(f'{folder}: there is a log already')
    path = folder / f'{n:020}.jsonl'
    with open(path, 'xb') as file:
        file.write(line + b'\n')
        file.flush()
        os.fsync(file.fileno())
    sync_folder(folder)
