"""Documents of a registry that was brought over, as attachments of the history.

goo-migrate puts them into a folder of root's: a file each, named by its SHA-256, and list.json. The
issuing body sees all of them, a holder its own. A file whose hash is another one is not given out.
"""
import hashlib
import json
from collections.abc import Iterable
from dataclasses import asdict
from dataclasses import dataclass
from pathlib import Path

from goo_service.common.files import write_whole
from goo_service.common.owner import Owner
from goo_service.records.questions import Given
from goo_service.records.questions import Listed
from goo_service.records.questions import NotFound
from goo_service.records.questions import Viewer
from goo_service.records.questions import limit_of
from goo_service.records.questions import number_or

LIST = 'list.json'
MOST_LIST = 64 << 20
MOST_BYTES = 20 << 20
"""Of an attachment."""
COLUMNS = ('number', 'holder', 'file', 'about', 'bytes', 'sha256')


@dataclass(frozen=True)
class Attachment:
    """A document: its number here, its holder's code, its name and size, and its SHA-256."""

    number: int
    holder: str
    file: str
    about: str
    bytes: int
    sha256: str


@dataclass(frozen=True)
class Content:
    """A document that is to be attached: its holder's code, its name, what it is, its bytes."""

    holder: str
    file: str
    about: str
    content: bytes


class Attachments:
    """The attachments in a folder. Without the folder there are none."""

    def __init__(self, folder: Path) -> None:
        self.folder = folder

    def is_there(self) -> bool:
        return (self.folder / LIST).exists()

    def read(self) -> list[Attachment]:
        """All attachments, by their numbers. OSError where the list can't be read."""
        try:
            with (self.folder / LIST).open('rb') as file:
                return [Attachment(**of) for of in json.loads(file.read(MOST_LIST))]
        except FileNotFoundError:
            return []
        except (ValueError, TypeError) as fault:
            raise OSError(f'{self.folder / LIST} can not be read') from fault

    def list_for(self, viewer: Viewer) -> list[Attachment]:
        viewer.may_all_of_holder()
        return [of for of in self.read() if viewer.sees_all or of.holder == viewer.caller]

    def fetch_page(self, viewer: Viewer, given: Given) -> Listed:
        """A page of the attachments that a viewer sees."""
        limit, offset = limit_of(given), number_or(0, given, 'offset')
        found = self.list_for(viewer)[offset:offset + limit]
        after = {'next': offset + limit if len(found) == limit else None}
        return Listed(COLUMNS, map(asdict, found), lambda _: after)

    def content(self, viewer: Viewer, number: int) -> tuple[Attachment, bytes]:
        """An attachment with its bytes. NotFound where the viewer has none of that number."""
        found = next((of for of in self.list_for(viewer) if of.number == number), None)
        if found is None:
            raise NotFound(f'there is no attachment {number}')
        with (self.folder / found.sha256).open('rb') as file:
            content = file.read(MOST_BYTES + 1)
        if hashlib.sha256(content).hexdigest() != found.sha256:
            raise OSError(f'{self.folder / found.sha256} is not the file that was attached')
        return found, content

    def add(self, found: Iterable[Content], owner: Owner | None) -> int:
        """Adds documents; how many are new. What is there stays under its number.

        The list is written last, so a crash leaves files at most that no list names.
        """
        known = self.read()
        there = {(of.holder, of.file, of.sha256) for of in known}
        before = len(known)
        for of in found:
            digest = hashlib.sha256(of.content).hexdigest()
            if (of.holder, of.file, digest) in there:
                continue
            write_whole(self.folder / digest, of.content, mode=0o640, owner=owner)
            known.append(Attachment(len(known) + 1, of.holder, of.file, of.about, len(of.content),
                                    digest))
        text = json.dumps(list(map(asdict, known)), ensure_ascii=False, indent=0)
        write_whole(self.folder / LIST, text + '\n', mode=0o640, owner=owner)
        return len(known) - before
