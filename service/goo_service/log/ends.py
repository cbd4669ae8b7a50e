"""The ends of the files of log and archive: what the last whole line is, and what a crash left."""
import os
import re
import sys
from collections import deque
from collections.abc import Callable
from collections.abc import Iterator
from pathlib import Path
from typing import TypeVar

from goo_service.log import reader
from goo_service.log import entries
from goo_service.log.entries import Broken
from goo_service.log.entries import Record

TAIL = 8 << 20
"""Bytes of the end of a file that are read at first."""
IS_PLAIN = re.compile(rb'"route":"%b","version":.*","outcome":{"status":%d,'
                      % (entries.PLAIN[0].encode(), entries.PLAIN[1]))
"""A quote inside a text is escaped, so only members look like this."""
Line = TypeVar('Line')


def any_order(before: object, now: object) -> None:
    """Lines may follow one another in any order."""


def end_of(path: Path, size: int = TAIL) -> int:
    """The offset from which on the whole lines at the end of a file are read.

    So many bytes are, or as many more as the last whole line needs.
    """
    length = path.stat().st_size
    with open(path, 'rb') as file:
        while size < length:
            file.seek(length - size)
            rest = file.readline()
            if file.readline().endswith(b'\n'):
                return length - size + len(rest)
            size *= 2
    return 0


def last_of(path: Path, read: Callable[[bytes], Line],
            follow: Callable[[Line | None, Line], None] = any_order,
            size: int = TAIL) -> tuple[Line | None, int]:
    """The last whole line of a file, by `read`, and the offset after it; None where none is there.

    Of a long file only the end is read. Each whole line there has to be one by `read`, and to
    follow the one before by `follow`: both raise Broken. Of a compressed file the last line alone
    is looked at, since such a file was whole.
    """
    if path.suffix == '.gz':
        at_end = deque(reader.lines(path), 1)
        return (read(at_end[0][0]), at_end[0][1]) if at_end else (None, 0)
    last: Line | None = None
    before, end = None, end_of(path, size)
    following = reader.lines(path, end)
    for line, at in following:
        try:
            now = read(line)
            follow(last, now)
        except Broken as fault:
            raise damage_of(path, reader.entry_at(before, line, following), end, fault) from fault
        last, before, end = now, line, at
    return last, end


def damage_of(path: Path, entry: str, at: int, why: object) -> Broken:
    return Broken(f'{path}: {entry}, at byte {at}, is damaged, and nothing was changed: {why}')


def mend(path: Path, read: Callable[[bytes], Line],
         follow: Callable[[Line | None, Line], None] = any_order) -> Line | None:
    """The last whole line of a file, by `read`. The beginning of a line after it is cut off.

    A crash left such a beginning, and nobody was told of it. The cut takes no room on the disk.
    Nothing else is cut: what is damaged raises Broken, and the file stays as it is.
    """
    last, end = last_of(path, read, follow)     # type: ignore[arg-type]    # Debian's mypy errs
    if path.suffix == '.gz' or end == path.stat().st_size:
        return last
    with os.fdopen(os.open(path, os.O_RDWR | os.O_NOFOLLOW), 'r+b') as file:
        file.seek(end)
        rest = file.read()
        if reader.is_more_than_a_line(rest):
            raise damage_of(path, reader.entry_at(None, rest, iter(())), end, 'it has no line end')
        file.truncate(end)
        os.fsync(file.fileno())
    print(f'{path}: the beginning of a line, {len(rest)} bytes from byte {end} on, was cut off',
          file=sys.stderr, flush=True)
    return last


def last_plain(folder: Path) -> Record | None:
    """The last record of an accepted request near the end of an archive; None where none is."""
    for path in reversed(reader.months(folder)[-2:]):
        for begin in beginnings(path):
            plain = (line for line, _ in reader.lines(path, begin) if IS_PLAIN.search(line))
            if last := deque(plain, 1):
                return entries.read_record(last[0])
    return None


def beginnings(path: Path) -> Iterator[int]:
    """Offsets from which on a file may be read, each further from its end than the one before."""
    size, begin = TAIL, 0
    while True:
        begin = 0 if path.suffix == '.gz' else end_of(path, size)
        yield begin
        if begin == 0 or size >= reader.NEAR:
            return
        size *= 2
