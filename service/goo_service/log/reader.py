"""The archive as it is read: its files, their lines, and the records in their order.

log/entries.py has the form of a line.
"""
import gzip
import json
import re
import time
import zlib
from collections.abc import Iterator
from pathlib import Path

from goo_service.log.entries import BEGIN
from goo_service.log.entries import NO_CHAIN
from goo_service.log.entries import Broken
from goo_service.log.entries import Record
from goo_service.log.entries import outcome_after
from goo_service.log.entries import read_record

MONTH = re.compile(r'\d{4}-\d{2}\.jsonl(\.gz)?')
NEAR = 64 << 20
"""Bytes at the end of a file that are read where its last line is not whole."""


# ------------------------------------------------------------------ lines of a file

def lines(path: Path, at: int = 0) -> Iterator[tuple[bytes, int]]:
    """The whole lines of a file from an offset on, each with the offset after it.

    The beginning of a line is left out.
    """
    opened = gzip.open(path) if path.suffix == '.gz' else open(path, 'rb')
    with opened as file:
        try:
            file.seek(at)
            for line in file:
                if not line.endswith(b'\n'):
                    return
                at += len(line)
                yield line[:-1], at
        except (EOFError, gzip.BadGzipFile, zlib.error) as fault:
            raise Broken(f'{path}: it is damaged behind byte {at} of its text: {fault}') from fault


NUMBERED = re.compile(rb'\{"entry":\{"n":(\d+),')


def number_in(line: bytes) -> int:
    """The number of a line's entry, without reading the rest of it."""
    found = NUMBERED.match(line)
    if not found:
        raise Broken(f'a line of the archive that is no entry: {line[:80]!r}')
    return int(found[1])


def entry_at(before: bytes | None, line: bytes, following: Iterator[tuple[bytes, int]]) -> str:
    """Which entry a damaged line was, by the line before, or the one after, or what is left."""
    if before is not None:
        return f'entry {number_in(before) + 1}'
    # a line that is more than one is two, whose line end is another byte
    after = None if is_more_than_a_line(line) else next(following, None)
    try:
        return f'entry {number_in(after[0]) - 1 if after else number_in(line)}'
    except Broken:
        return 'a line'


def is_more_than_a_line(rest: bytes) -> bool:
    """Whether a whole line and then something else than a line end stands here.

    A crash leaves a part of a line, and never this.
    """
    if not rest.startswith(BEGIN):
        return False
    try:
        end = json.JSONDecoder().raw_decode(rest.decode('latin-1'))[1]
    except (ValueError, RecursionError):
        return False
    return rest[end:end + 1] not in (b'', b'\n')


# ------------------------------------------------------------------ files and records

def months(folder: str | Path) -> list[Path]:
    """The files of an archive, the oldest first. Of a month that is there twice, the packed one."""
    names = sorted(path.name for path in Path(folder).iterdir() if MONTH.fullmatch(path.name))
    return [Path(folder) / name for name in names
            if not (name.endswith('jsonl') and f'{name}.gz' in names)]


def first_number(path: Path) -> int | None:
    """The number of a file's first entry; None while it has no whole line."""
    return next((number_in(line) for line, _ in lines(path)), None)


def read_archive(folder: str | Path, after: int = 0, key: bytes | None = None,
                 follow: bool = False) -> Iterator[Record]:
    """The records after entry `after`, in order.

    Numbers, hashes and chain are checked, with a key also the keyed hashes. Ends with the last
    whole line. With `follow` it waits for further lines instead, and never ends.
    """
    last: Record | None = None
    path: Path | None = None
    at = 0
    while True:
        for path, line, at in whole_lines(folder, after, path, at):
            try:
                n = number_in(line)
                if n < after:
                    continue
                record = read_record(line, key)
                follows(last, record)
            except Broken as fault:
                raise with_place(fault, path, last) from fault
            last = record
            if n > after:
                yield record
        if not follow:
            return verify_end(path, at)
        time.sleep(0.2)


def with_place(fault: Broken, path: Path, last: Record | None) -> Broken:
    """A fault of a line with its file, and with its entry where it names none itself."""
    text = str(fault)
    if text.startswith('entry') or last is None:
        return Broken(f'{path}: {text}')
    return Broken(f'{path}: entry {last.entry.n + 1}: {text}')


def verify_end(path: Path | None, at: int) -> None:
    """Raises Broken where an archive ends with a whole line whose line end is another byte."""
    if path is None or path.suffix == '.gz' or not path.exists():
        return                                  # a file that was compressed meanwhile was whole
    with open(path, 'rb') as file:
        file.seek(at)
        rest = file.read(NEAR)
    if is_more_than_a_line(rest):
        raise Broken(f'{path}: {entry_at(None, rest, iter(()))}, at byte {at}: it has no line end')


def whole_lines(folder: str | Path, after: int, path: Path | None,
                at: int) -> Iterator[tuple[Path, bytes, int]]:
    """File, line and offset of each line from a place in the archive on.

    At first that is the file with entry `after`.
    """
    files = months(folder)
    if path is None:
        begun = [i for i, file in enumerate(files) if (first_number(file) or after + 1) <= after]
        files = files[begun[-1] if begun else 0:]
    else:
        files = [file for file in files if file.name[:7] >= path.name[:7]]
    for file in files:
        begin = at if path and file.name[:7] == path.name[:7] else 0
        try:
            for line, end in lines(file, begin):
                yield file, line, end
        except FileNotFoundError:       # compressed meanwhile: the same lines are in the other file
            for line, end in lines(file.with_name(file.name + '.gz'), begin):
                yield file, line, end


def follows(before: Record | None, record: Record) -> None:
    """Raises Broken unless a record stands after the one before it."""
    entry, outcome = record.entry, record.outcome
    if before is None and entry.n > 1:
        return
    if before and entry.n != before.entry.n + 1:
        raise Broken(f'entry {entry.n} stands after entry {before.entry.n}')
    if before and entry.prev != before.hash:
        raise Broken(f'entry {entry.n}: it names another entry before it '
                     f'than entry {before.entry.n}')
    chain = before.outcome.chain if before else NO_CHAIN
    if outcome_after(entry.route, outcome.status, outcome.body, chain).chain != outcome.chain:
        raise Broken(f'entry {entry.n}: its outcome is not the one that was chained')
