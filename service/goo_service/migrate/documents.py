"""Documents of the old registry that are kept with the migration, each with its hash.

They lie in the folder `documents`, and documents.csv names them. `attach` gives them to the
records, which show each to its holder.
"""
import hashlib
import os
import re
import stat
from collections.abc import Iterable
from collections.abc import Iterator
from dataclasses import dataclass
from pathlib import Path

from goo_service.common.owner import Owner
from goo_service.migrate import work
from goo_service.migrate.tables import hash_of
from goo_service.records.attachments import MOST_BYTES
from goo_service.records.attachments import Attachments
from goo_service.records.attachments import Content

FOLDER = 'documents'
ATTACHMENTS, READER = '/var/lib/goo-attachments', 'goo-records'
KEPT = '''
SELECT h.code, d.file, d.about, d.hash FROM kept_document AS d
JOIN kept_holder AS h ON h.old = d.holder ORDER BY d.row
'''
NAME = re.compile(r'[^/\0]{1,200}')


class NoDocument(ValueError):
    """Why a document can't be kept."""


@dataclass(frozen=True)
class Document:
    """Size and SHA-256 of a document."""

    size: int
    hash: str


def found(folder: Path, name: str) -> Document:
    """The document of that name. A link is not followed."""
    if not NAME.fullmatch(name) or name in ('.', '..'):
        raise NoDocument(f'{name[:40]!r} is no name of a file in {FOLDER}/')
    path = folder / FOLDER / name
    try:
        about = os.lstat(path)
    except OSError as fault:
        raise NoDocument(f'{FOLDER}/{name}: {fault.strerror}') from fault
    if not stat.S_ISREG(about.st_mode):
        raise NoDocument(f'{FOLDER}/{name} is no regular file')
    if about.st_size > MOST_BYTES:
        raise NoDocument(f'{FOLDER}/{name} has {about.st_size:,} bytes, and {MOST_BYTES:,} at most '
                         'are kept')
    return Document(about.st_size, hash_of(path))


def attach(folder: Path, into: Path) -> int:
    """Gives the documents to the records; how many are new there."""
    owner = Owner.of_names('root', READER) if str(into) == ATTACHMENTS else None
    with work.opened(folder) as database:
        return Attachments(into).add(contents(folder, database.execute(KEPT)), owner)


def contents(folder: Path, kept: Iterable[tuple[str, str, str, str]]) -> Iterator[Content]:
    """The documents with their bytes, one after another. Each is still the one of the check."""
    for holder, name, about, wanted in kept:
        content = (folder / FOLDER / name).read_bytes()
        if hashlib.sha256(content).hexdigest() != wanted:
            raise NoDocument(f'{FOLDER}/{name} is not the file that was checked')
        yield Content(holder, name, about, content)
