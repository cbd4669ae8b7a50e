"""Whether an archive is what it says: by itself, against copies, and by what entries come to."""
import tempfile
from collections.abc import Iterator
from pathlib import Path

from goo_service.copies import contents
from goo_service.copies.places import Place
from goo_service.copies.places import placed_copies
from goo_service.copies.places import read_place
from goo_service.copies.replay import Program
from goo_service.copies.replay import bring_up
from goo_service.copies.replay import records_of
from goo_service.log import entries
from goo_service.log.entries import Broken
from goo_service.log.entries import Record

STATUSES = (200, 400, 403, 409, entries.SET_ASIDE)


def verify(goo: Program, archive: Path, key: bytes | None, copy: Path | None, folder: Path | None,
           begin: int = 1) -> Iterator[str]:
    """The lines that tell what holds, from entry `begin` on.

    Raises Broken at the first entry that does not, and where a copy is of an entry that is not
    there.
    """
    places = {one.name: read_place(one) for one in placed_copies(folder)} if folder else {}
    last: Record | None = None
    for record in records_of(archive, begin - 1, key):
        if last is None:
            verify_beginning(archive, record, begin)
            yield from verify_copies(places, begin - 1, record.entry.prev, None)
        last = record
        if record.outcome.status not in STATUSES:
            raise Broken(f'entry {record.entry.n}: {record.outcome.status} is no outcome')
        yield from verify_copies(places, record.entry.n, record.hash, record.outcome.chain)
    if last is None:
        raise Broken(f'{archive}: it has no entry {begin}')
    yield from unmet(places, begin, last)
    keyed = ' and keyed hashes' if key else ''
    yield (f'entries {begin} to {last.entry.n}: numbers, hashes, chain of outcomes{keyed} hold; '
           f'entry {last.entry.n} has the hash {last.hash}')
    if copy:
        yield brought_up(goo, copy, archive, key)


def verify_beginning(archive: Path, first: Record, begin: int) -> None:
    n = first.entry.n
    if n != begin:
        raise Broken(f'{archive}: it begins at entry {n}, and not at {begin}. '
                     f'Where this is as it should be: --from {n}')


def verify_copies(places: dict[str, Place], n: int, hashed: str,
                  chain: str | None) -> Iterator[str]:
    """The copies of entry n, which have to have its hash and, where it is known, its chain.

    They are removed from `places`.
    """
    for name in [name for name, place in places.items() if place.n == n]:
        place = places.pop(name)
        if place.hash != hashed or chain is not None and place.chain != chain:
            raise Broken(f'entry {n}: {name} has another hash of that day: it was changed, '
                         'or it is of another log')
        yield f'the hash of {name} is that of entry {n}'


def unmet(places: dict[str, Place], begin: int, last: Record) -> Iterator[str]:
    """The copies that are of no entry of the archive: of one before it, or else it is Broken."""
    for name, place in places.items():
        if place.n > last.entry.n:
            raise Broken(f'{name} is of entry {place.n}, '
                         f'and the archive ends at entry {last.entry.n}')
        yield f'{name} is of entry {place.n}, before entry {begin}: not held against the archive'


def brought_up(goo: Program, copy: Path, archive: Path, key: bytes | None) -> str:
    """Applies the entries since a copy to a copy of it; the line that tells it."""
    place = read_place(copy)
    with tempfile.TemporaryDirectory(prefix='goo-verify-') as part:
        contents.copy_database(copy / 'registry.db', Path(part))
        now = bring_up(goo, Path(part) / 'registry.db', archive, place, key)
    return (f'entries {place.n + 1} to {now.n}, applied to {copy}, '
            'come to the outcomes of the archive')
