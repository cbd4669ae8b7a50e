"""Where the book of acts begins, when a log is begun over a registry that has requests already.

The book is made from the log (docs/RECORDS.md). A log that is begun later does not tell what came
before it, so the book begins with the copy that was made when the log was begun. The user of the
records reads a copy of its own, in its folder; root writes the file in /etc/goo that tells how the
book begins.
"""
import os
import pwd
import shutil
import sqlite3
from contextlib import ExitStack
from contextlib import closing
from pathlib import Path
from typing import BinaryIO

from goo_service.common.files import write_whole
from goo_service.common.owner import work_as_owner
from goo_service.common.owner import remove
from goo_service.copies import contents
from goo_service.copies.contents import open_regular
from goo_service.records import settings

USER = 'goo-records'
BOOK = Path(os.environ.get('GOO_BOOK') or '/var/lib/goo-records')
FIRST = 'first'
FILES = ('registry.db', 'place.json')
"""The files of a copy by which the book is made.

Its configuration is not for the user of the records.
"""


def place_beginning(copy: Path, n: int, configuration: Path) -> str:
    """The book begins with a copy of entry n, where records are kept on this host.

    What was done, in words; nothing where nothing was.
    """
    conf = configuration / 'records.conf'
    if not configuration.is_dir() or conf.exists() and not has_requests(copy / 'registry.db'):
        return ''
    if not has_folder():
        return ''
    with ExitStack() as stack:
        files: dict[str, BinaryIO] = {
            name: stack.enter_context(open_regular(copy / name)) for name in FILES}
        work_as_owner(BOOK, lambda: write_first(files))
    earlier = conf.read_text(encoding='utf-8') if conf.exists() else ''
    begin = f'--copy {BOOK / FIRST} --after {n}'
    write_whole(conf, settings.with_setting(earlier, settings.BEGIN, begin), 0o644)
    return f'{conf}: the book of acts begins with this copy, after entry {n}'


def has_folder() -> bool:
    """Whether the book has its folder. It is made where this host has the user of the records."""
    if BOOK.is_dir():
        return True
    try:
        user = pwd.getpwnam(USER)
    except KeyError:
        return False
    BOOK.mkdir(mode=0o750)
    os.chown(BOOK, user.pw_uid, user.pw_gid)
    return True


def archive_beginning(target: Path) -> None:
    """Puts the beginning into a tar file, where the book of this host has one."""
    if os.path.lexists(BOOK / FIRST):
        with open(target, 'xb') as file:
            contents.tar('--create', '--file', '-', '--one-file-system', FIRST, folder=BOOK,
                         stdout=file)


def put_beginning_back(archive: Path) -> bool:
    """Whether the beginning that a tar file has is the book's now. One that is there stays."""
    if os.path.lexists(BOOK / FIRST) or not archive.is_file() or not has_folder():
        return False
    part = BOOK / f'{FIRST}.part'
    work_as_owner(BOOK, lambda: remove(part))
    contents.unpack(archive, BOOK, f'--transform=s,^{FIRST},{part.name},')
    contents.sync(BOOK)
    work_as_owner(BOOK, lambda: os.rename(part, BOOK / FIRST))
    return True


def has_requests(database: Path) -> bool:
    source = f'file:{database}?mode=ro&immutable=1'
    with closing(sqlite3.connect(source, uri=True)) as connection:
        found = connection.execute('SELECT EXISTS (SELECT 1 FROM receipt)').fetchone()
        return bool(found[0])


def write_first(files: dict[str, BinaryIO]) -> None:
    """As the user of the records: the copy takes the place of the one before, whole."""
    first, part = BOOK / FIRST, BOOK / f'{FIRST}.part'
    for path in (part, first):
        remove(path)
    part.mkdir(mode=0o750)
    for name, file in files.items():
        with open(part / name, 'xb') as new:
            shutil.copyfileobj(file, new, 1 << 20)
            new.flush()
            os.fsync(new.fileno())
    part.rename(first)
