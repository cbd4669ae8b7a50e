"""The archive of entries with their outcomes, as its replica writes it. log/entries.py reads it."""
import functools
import gzip
import os
from pathlib import Path

from goo_service.common.files import sync_folder
from goo_service.log import ends
from goo_service.log import reader
from goo_service.log import entries
from goo_service.log.entries import Entry
from goo_service.log.entries import Outcome
from goo_service.log.entries import Record

CREATED = os.O_WRONLY | os.O_APPEND | os.O_CREAT | os.O_NOFOLLOW


class Archive:
    """Adds records. A line is cut off in the middle only by a crash; the next start removes it.

    Whoever opens it has to know that no other program writes here: a line of the other one would
    look cut off.
    """

    def __init__(self, folder: str | Path, key: bytes | None = None) -> None:
        self.folder = Path(folder)
        self.folder.mkdir(mode=0o750, parents=True, exist_ok=True)
        files = reader.months(self.folder)
        self.file: int | None = None
        # the month before may be compressed, and gets no more
        self.month = files[-1].name[:7] if files else ''
        self.last: Record | None = None
        for path in reversed(files):
            read = functools.partial(entries.read_record, key=key)
            self.last = ends.mend(path, read, reader.follows)
            if self.last:
                break

    def add(self, line: bytes, entry: Entry, outcome: Outcome, hashed: str = '') -> None:
        """Adds an entry's line with its outcome; `hashed` is its hash, where it is known.

        It is not on the disk for certain before `sync`.
        """
        month = max(self.month, entry.time[:7])     # a clock set back leads to no older file
        if self.file is None or month != self.month:
            self.turn(month)                        # on a full disk it raises, and the file stays
        assert self.file is not None
        write_all(self.file, entries.archive_line(line, outcome))
        self.last = Record(entry, outcome, hashed or entries.hash_of(line))

    def turn(self, month: str) -> None:
        """Goes on with the file of a month."""
        if self.file is not None:
            os.fdatasync(self.file)
        file = os.open(self.folder / f'{month}.jsonl', CREATED, 0o640)
        try:
            sync_folder(self.folder)
        except OSError:
            os.close(file)
            raise
        if self.file is not None:
            os.close(self.file)
        self.file, self.month = file, month

    def sync(self) -> None:
        if self.file is not None:
            os.fdatasync(self.file)


def write_all(file: int, text: bytes) -> None:
    """All of the text or, where the disk is full, none of it."""
    done = 0
    try:
        while done < len(text):
            done += os.write(file, text[done:])
    except OSError:
        os.ftruncate(file, os.fstat(file).st_size - done)
        raise


def compress(folder: Path) -> None:
    """Compresses the files of finished months, each whole or not at all.

    A month is finished once there is a later one: entries of it may come late.
    """
    for path in reader.months(folder)[:-1]:
        if path.suffix == '.gz':
            continue
        part = path.with_name(f'.{path.name}.part')
        pack(path, part)
        os.replace(part, path.with_name(path.name + '.gz'))
        sync_folder(folder)
        path.unlink()


def pack(path: Path, part: Path) -> None:
    """Writes the compressed form of a file, and has it on the disk."""
    with (open(path, 'rb') as plain, open(part, 'wb') as file,
          gzip.GzipFile(path.name, 'wb', fileobj=file, mtime=0) as packed):
        while text := plain.read(1 << 20):
            packed.write(text)
    with open(part, 'rb') as written:
        os.fsync(written.fileno())
    os.chmod(part, 0o640)
