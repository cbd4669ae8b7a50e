"""The place of a copy: the entry of the log that its database has applied last.

place.json has its number and its hash, and the chain of outcomes up to it. So each copy also holds
a hash of its day, over all that came before.
"""
import dataclasses
import json
from dataclasses import dataclass
from pathlib import Path

from goo_service.copies import contents
from goo_service.log import entries

FILE = 'place.json'


@dataclass(frozen=True)
class Place:
    """An entry: its number, its hash, the chain up to it, and the version that applied it."""

    n: int
    hash: str
    chain: str
    version: str


def read_place(copy: Path) -> Place:
    try:
        members = json.loads((copy / FILE).read_text())
        return Place(int(members['n']), str(members['hash']), str(members['chain']),
                     str(members['version']))
    except (OSError, ValueError, KeyError, TypeError) as fault:
        raise entries.Broken(f'{copy}/{FILE}: no place in it: {fault}') from fault


def write_place(copy: Path, place: Place) -> None:
    (copy / FILE).write_text(json.dumps(dataclasses.asdict(place)) + '\n')


def placed_copies(folder: Path) -> list[Path]:
    """The copies that have a place, the oldest first."""
    return [path for path in contents.copies_in(folder) if (path / FILE).exists()]
