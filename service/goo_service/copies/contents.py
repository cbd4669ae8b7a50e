"""Copies of a registry: their names, their files, and the list of these files.

A copy is a folder that is named by its day and time in UTC, such as 2025-04-05T020000Z. It holds:

  registry.db        the database; where a log is beside it, both belong together
  audit.txt          the audit of the program that made the copy
  exchange.tar       /var/lib/goo-exchange, if there is one
  people.db          /var/lib/goo-people/people.db of one moment, if there is one
  records.tar        the beginning of the book of acts, /var/lib/goo-records/first, if there is one
  configuration.tar  /etc/goo, if there is one, without the files that only their owner can read
  left-out.txt       the names of those files
  recount.txt        what recount found in it, written last
  SHA256SUMS         name and sum of each file but the last two; `sha256sum -c` reads it
"""
import hashlib
import json
import os
import re
import shutil
import stat
import subprocess
import time
from collections.abc import Sequence
from io import BufferedReader
from pathlib import Path
from typing import BinaryIO

from goo_service.common.owner import NotDone
from goo_service.common.owner import as_owner
from goo_service.common.owner import work_as_owner
from goo_service.common.owner import owner_of

LIST = 'SHA256SUMS'
NAME = re.compile(r'\d{4}-\d\d-\d\d(T\d{6}Z)?')
"""The copies of earlier versions are named by their day alone."""
LOGS = ('-wal', '-journal')


class Unfit(Exception):
    """A file or a copy that is not what it has to be."""


def name_now() -> str:
    """The name of a copy that begins now."""
    return time.strftime('%Y-%m-%dT%H%M%SZ', time.gmtime())


def copies_in(folder: Path) -> list[Path]:
    """The copies, the oldest first."""
    return sorted(path for path in folder.iterdir() if path.is_dir() and NAME.fullmatch(path.name))


def open_regular(path: Path) -> BufferedReader:
    """Opens a regular file. A symbolic link is not followed, and a pipe is not waited for."""
    try:
        number = os.open(path, os.O_RDONLY | os.O_NOFOLLOW | os.O_NONBLOCK | os.O_CLOEXEC)
    except OSError as error:
        if path.is_symlink():
            raise Unfit(f'{path}: a symbolic link, and no file') from error
        raise
    if not stat.S_ISREG(os.fstat(number).st_mode):
        os.close(number)
        raise Unfit(f'{path}: not a regular file')
    return open(number, 'rb')


def copy_into(source: Path, target: int) -> None:
    """Copies a regular file to where a number of an open file leads."""
    with open_regular(source) as old, open(target, 'wb', closefd=False) as new:
        shutil.copyfileobj(old, new, 1 << 20)


def stat_files(files: list[Path]) -> bytes:
    """Which of these files are there, and what tells that one was written to, as JSON."""
    there = [(file.name, file.lstat()) for file in files if os.path.lexists(file)]
    marks = [(name, of.st_ino, of.st_size, of.st_mtime_ns) for name, of in there]
    return json.dumps(marks).encode()


def copy_database(database: Path, folder: Path) -> None:
    """Copies a database that nobody writes to, with the log beside it.

    A log that a kill has left belongs to its database. The owner of the database's folder reads it,
    and root writes the copy. It is not on the disk for certain before `sync`.
    """
    files = [database.with_name(f'{database.name}{tail}') for tail in ('', *LOGS)]
    try:
        [before] = as_owner(database.parent, lambda: iter([stat_files(files)]))
        names = {name for name, *_ in json.loads(before)} | {database.name}
        for file in files:
            if file.name in names:
                copy_one(file, folder)
        [after] = as_owner(database.parent, lambda: iter([stat_files(files)]))
    except NotDone as fault:
        raise Unfit(str(fault)) from fault
    if before != after:
        raise Unfit(f'{database}: it was written to while it was copied')


def copy_one(file: Path, folder: Path) -> None:
    with open(folder / file.name, 'xb') as new:
        work_as_owner(file.parent, lambda: copy_into(file, new.fileno()))


def tar(*words: object, folder: Path, stdin: BinaryIO | None = None,
        stdout: BinaryIO | None = None) -> None:
    """Runs tar in a folder, as its owner. It follows no link and opens no pipe.

    A file that went while it read the folder is no fault: the exchange replaces its files whole.
    """
    owner = owner_of(folder)
    command = ['tar', '--directory', str(folder), *map(str, words)]
    if owner is None:
        run = subprocess.run(command, stderr=subprocess.PIPE, stdin=stdin, stdout=stdout,
                             check=False)
    else:
        run = subprocess.run(command, stderr=subprocess.PIPE, stdin=stdin, stdout=stdout,
                             check=False, user=owner.user, group=owner.group, extra_groups=())
    if run.returncode > 1:
        raise Unfit(f'tar: {run.stderr.decode(errors="replace").strip()}')


def owner_only(folder: Path) -> list[str]:
    """The files that nobody but their owner can read: private keys and passwords."""
    files = (path for path in sorted(folder.rglob('*')) if path.is_file() and not path.is_symlink())
    return [str(path.relative_to(folder)) for path in files if not path.stat().st_mode & 0o077]


def archive(folder: Path, target: Path, without: Sequence[str] = ()) -> None:
    """Puts a folder into a tar file, with the owner and the mode of each file."""
    with open(target, 'xb') as file:
        tar('--create', '--file', '-', '--one-file-system', '--anchored', '--no-wildcards',
            *(f'--exclude=./{name}' for name in without), '.', folder=folder, stdout=file)


def unpack(source: Path, folder: Path, *words: str) -> None:
    """Puts what a tar file holds into a folder."""
    with open(source, 'rb') as file:
        tar('--extract', '--file', '-', '--same-permissions', *words, folder=folder, stdin=file)


def sum_of(path: Path) -> str:
    with open_regular(path) as file:
        return hashlib.file_digest(file, 'sha256').hexdigest()


def write_list(folder: Path) -> None:
    """Lists the files of a finished copy."""
    files = [path for path in sorted(folder.iterdir()) if path.name != LIST]
    lines = [f'{sum_of(path)}  {path.name}\n' for path in files]
    (folder / LIST).write_text(''.join(lines))


def has_list(folder: Path) -> bool:
    return (folder / LIST).is_file()


def sums_of(folder: Path) -> dict[str, str]:
    """The sums that a copy's list has, by the names of their files."""
    lines = [line.split('  ', 1) for line in (folder / LIST).read_text().splitlines()
             if '  ' in line]
    return {name: stated for stated, name in lines}


def faults_of(folder: Path) -> list[str]:
    """What of a copy differs from its list.

    It is a file that is gone, one that was changed, or a log that came from elsewhere.
    """
    listed = sums_of(folder)
    faults = [] if listed else [f'{LIST} names no file']
    for name, wanted in listed.items():
        path = folder / name
        if not path.is_file():
            faults.append(f'{name} was in this copy and is gone')
        elif sum_of(path) != wanted:
            faults.append(f'{name} is not the file that was copied')
    logs = [path.name for path in folder.iterdir()
            if path.name.endswith(LOGS) and path.name not in listed]
    return faults + [f'{name} does not belong to this copy' for name in logs]


def sync(folder: Path) -> None:
    """All that was written to the file system of a folder is on the disk."""
    subprocess.run(['sync', '--file-system', folder], check=True)


def room_on(path: Path) -> int:
    """Bytes that are free where a path is, for all users."""
    there = next(folder for folder in (path, *path.parents) if folder.exists())
    return shutil.disk_usage(there).free


def in_words(count: float) -> str:
    return f'{count / 1e6:,.1f} MB'


def size_of(folder: Path) -> int:
    return sum(path.stat().st_size for path in folder.iterdir() if path.is_file())
