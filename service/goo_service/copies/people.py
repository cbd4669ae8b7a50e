"""The file of people in a copy of the host, and back from it.

The file is copied as it stands at one moment, by its owner, while its services write on. A copy
knows nothing of what was ended or revoked after it, so its sessions end as it is put back.
"""
import contextlib
import os
import shutil
from collections.abc import Iterator
from pathlib import Path
from typing import BinaryIO

from goo_service.common.files import sync_folder
from goo_service.common.owner import as_owner
from goo_service.common.owner import work_as_owner
from goo_service.copies import contents
from goo_service.people import store

NAME, USER = 'people.db', 'goo-people'
PART = 1 << 20
TAILS = ('', '-wal', '-shm')
FORGOTTEN = ('session', 'delay', 'spent')
"""Tables whose rows end as a copy is put back."""


def parts_of(path: Path) -> Iterator[bytes]:
    """The file of one moment, in parts. What is written meanwhile is of the next moment."""
    with contextlib.closing(store.connect(path)) as db:
        whole = db.serialize()
    for at in range(0, len(whole), PART):
        yield whole[at:at + PART]


def copy(path: Path, target: Path) -> bool:
    """Copies the file of people into a file of root's, where there is one; whether there is."""
    if not path.parent.is_dir():
        return False
    [there] = as_owner(path.parent, lambda: iter([str(path.is_file()).encode()]))
    if there != b'True':
        return False
    with open(os.open(target, os.O_WRONLY | os.O_CREAT | os.O_EXCL, 0o600), 'wb') as file:
        for part in as_owner(path.parent, lambda: parts_of(path)):
            file.write(part)
    return True


def put_back(source: BinaryIO, path: Path, aside: str) -> list[Path]:
    """Puts a copy in the place of the file, as the file's owner; what went aside, and where to.

    The services of goo-people must not run. A crash leaves the old file, none, or the new one
    whole, and the same call goes on.
    """
    part = path.with_name(f'{path.name}.part')
    for tail in TAILS:
        Path(f'{part}{tail}').unlink(missing_ok=True)
    with open(os.open(part, os.O_WRONLY | os.O_CREAT | os.O_EXCL, 0o600), 'wb') as file:
        shutil.copyfileobj(source, file, PART)
    forget(part)
    moved = [Path(f'{path}{tail}') for tail in TAILS if Path(f'{path}{tail}').exists()]
    for old in moved:
        old.rename(f'{old}.{aside}')
    part.rename(path)
    sync_folder(path.parent)
    return [Path(f'{old}.{aside}') for old in moved]


def put_back_where_none_is(folder: Path, path: Path = store.FILE) -> str:
    """The file of a copy, on a host that has lost its own, or never had one; what was done, in
    words. A file that is there knows more than the copy does, and stays."""
    copied = folder / NAME
    if not copied.is_file():
        return ''
    if os.path.lexists(path):
        return f'{path} stays as it is: it knows who was ended since the copy'
    if not path.parent.is_dir():
        path.parent.mkdir(mode=0o700)
        shutil.chown(path.parent, USER, USER)
    with contents.open_regular(copied) as source:
        work_as_owner(path.parent, lambda: put_alone(source, path))
    return f'{path} is that of the copy; its sessions have ended'


def put_alone(source: BinaryIO, path: Path) -> None:
    put_back(source, path, 'before')


def forget(part: Path) -> None:
    """Verifies a copy, and ends its sessions."""
    with contextlib.closing(store.open_file(part)) as db:
        if (said := db.execute('PRAGMA integrity_check').fetchone()[0]) != 'ok':
            raise store.Fault(f'{part}: {said}')
        with store.changing(db):
            for table in FORGOTTEN:
                db.execute(f'DELETE FROM {table}')
        db.execute('PRAGMA wal_checkpoint(TRUNCATE)')
        db.execute('PRAGMA journal_mode = DELETE')
