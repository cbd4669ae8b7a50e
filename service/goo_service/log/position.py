"""The place: up to which entry the registry beside a replica has applied the log."""
import fcntl
import hashlib
import os
from dataclasses import dataclass
from pathlib import Path

from goo_service.common.files import sync_folder
from goo_service.log import entries

SLOT = 4096
"""Bytes of a slot: a disk writes so many together."""
FORM = 512
"""Bytes of the text in a slot."""


@dataclass(slots=True, order=True)
class Position:
    """An entry: its number, its hash, and the chain of all outcomes up to it."""

    n: int
    hash: str
    chain: str


class Place:
    """The last entry that was applied, in a file of two slots.

    One slot is on the disk for certain, the other gets each new place. Once that is synced they
    change roles.
    """

    def __init__(self, path: Path) -> None:
        """Opens and locks the file, and reads the newest place in it."""
        self.path, self.file = path, os.open(path, os.O_RDWR | os.O_NOFOLLOW)
        try:
            fcntl.flock(self.file, fcntl.LOCK_EX | fcntl.LOCK_NB)
        except OSError as fault:
            raise entries.Broken(f'{path}: another program has it open; two at one registry would '
                                 'apply entries out of order') from fault
        self.read()

    def read(self, most: int | None = None) -> None:
        """Reads the newest place that is not beyond entry `most`, where the archive ends.

        An archive may lose what was not synced.
        """
        places = [(place, slot) for slot in (0, 1) if (place := self.slot_at(slot))
                  and (most is None or place.n <= most)]
        if not places:
            beyond = '' if most is None else f' at or before entry {most}, where the archive ends'
            raise entries.Broken(f'{self.path}: no place in it{beyond}')
        newest, slot = max(places)
        self.n, self.hash, self.chain = newest.n, newest.hash, newest.chain
        os.fdatasync(self.file)
        self.slot, self.loose = 1 - slot, 0         # the second one: entries since the last sync

    def slot_at(self, slot: int) -> Position | None:
        words = os.pread(self.file, FORM, SLOT * slot).decode('latin-1').split()
        if len(words) != 4 or words[3] != checksum(' '.join(words[:3])):
            return None
        return Position(int(words[0]), words[1], words[2])

    def record(self, n: int, hashed: str, chain: str) -> None:
        os.pwrite(self.file, slot_text(n, hashed, chain), SLOT * self.slot)
        self.n, self.hash, self.chain = n, hashed, chain
        self.loose += 1

    def sync(self) -> None:
        if self.loose:
            os.fdatasync(self.file)
            self.slot, self.loose = 1 - self.slot, 0

    def close(self) -> None:
        os.close(self.file)


def checksum(text: str) -> str:
    return hashlib.sha256(text.encode()).hexdigest()


def slot_text(n: int, hashed: str, chain: str) -> bytes:
    text = f'{n} {hashed} {chain}'
    return f'{text} {checksum(text)}'.ljust(FORM - 1).encode() + b'\n'


def begin(path: Path, n: int, hashed: str, chain: str = entries.NO_CHAIN) -> None:
    """A new file with a place in it. Refused where there is one."""
    with open(path, 'xb') as file:
        file.write(slot_text(n, hashed, chain).ljust(SLOT, b'\n') + b'\n' * SLOT)
        file.flush()
        os.fsync(file.fileno())
    sync_folder(path.absolute().parent)
