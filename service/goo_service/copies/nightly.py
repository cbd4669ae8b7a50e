"""The copy of a night: the live file at an entry, and what the log makes of the copy before.

copies/contents.py describes a copy, and copies/places.py its place.
"""
import filecmp
import os
import shutil
import subprocess
import time
from collections.abc import Callable
from pathlib import Path

from goo_service.copies import book
from goo_service.copies import contents
from goo_service.copies import people
from goo_service.copies.places import Place
from goo_service.copies.places import placed_copies
from goo_service.copies.places import read_place
from goo_service.copies.places import write_place
from goo_service.copies.replay import bring_up
from goo_service.copies.rows import differences
from goo_service.log.entries import Broken
from goo_service.log.hold import hold_replica
from goo_service.people import store

EXCHANGE = Path(os.environ.get('GOO_EXCHANGE') or '/var/lib/goo-exchange')
CONFIGURATION = Path(os.environ.get('GOO_CONFIGURATION') or '/etc/goo')
PEOPLE = Path(os.environ.get('GOO_PEOPLE') or store.FILE)
BEGINNING = 'records.tar'
"""Of a copy: the beginning of the book of acts."""
HOLDS = 3
"""How often the live file is copied anew, where a copying did not end while it was held."""
TOLD = 5
"""Rows at most of those that differ which the fault itself names."""


def audit(goo: str, db: Path) -> bytes:
    done = subprocess.run([goo, 'audit', '--db', db], capture_output=True, check=False)
    if done.returncode:
        raise Broken(f'goo audit: {done.stderr.decode(errors="replace").strip()}')
    return done.stdout


def first_copy(goo: str, db: Path, folder: Path, place: Place) -> Path:
    """A copy of a database that nothing writes to, at a place."""
    def fill(part: Path) -> Place:
        contents.copy_database(db, part)
        write_audit(goo, part)
        return place
    return new_copy(folder, fill)


def next_copy(goo: str, folder: Path, archive: Path, key: bytes, db: Path,
              door: str) -> tuple[Path, Path]:
    """The live file as it stands at an entry, and the copy before.

    What the log makes of the copy before has to have the same rows.
    """
    copies = placed_copies(folder)
    if not copies:
        raise Broken(f'{folder}: no copy with a place in it: make one by `goo-replica-log '
                     'first-copy` while registry and replica are stopped')
    before = copies[-1]

    def fill(part: Path) -> Place:
        place = copy_held(door, db, part)
        write_audit(goo, part)
        replayed = part.with_name('part-replayed')
        replayed.mkdir(mode=0o700)
        contents.copy_database(before / 'registry.db', replayed)
        now = bring_up(goo, replayed / 'registry.db', archive, read_place(before), key, place.n)
        if (now.hash, now.chain) != (place.hash, place.chain):
            raise Broken(f'entry {now.n}: archive and replica differ in its hash or in the chain '
                         'of outcomes')
        compare(part, replayed, now.n, before)
        shutil.rmtree(replayed)
        return place
    return new_copy(folder, fill), before


def copy_held(door: str, db: Path, part: Path) -> Place:
    """Copies the live file while the replica that listens at `door` applies nothing; its place."""
    why = ''
    for _ in range(HOLDS):
        try:
            with hold_replica(door) as hold:
                began = time.monotonic()
                contents.copy_database(db, part)
                if hold.lasts():
                    print(f'entry {hold.n}: nothing was applied for '
                          f'{time.monotonic() - began:.2f} s, while {db} was copied', flush=True)
                    return Place(hold.n, hold.hash, hold.chain, hold.version)
            why = 'the replica went on while it was copied'
        except contents.Unfit as fault:
            why = str(fault)
        for path in part.iterdir():
            path.unlink()
    raise Broken(f'{db}: not copied in {HOLDS} tries: {why}')


def compare(live: Path, replayed: Path, n: int, before: Path) -> None:
    """Raises Broken where a row of the live file is not what the log makes of the copy before.

    Both files are then kept.
    """
    found = list(differences(live / 'registry.db', replayed / 'registry.db',
                             ('the live file', 'the log')))
    if not found:
        return
    for old in sorted(live.parent.glob('differs-*'))[1:]:
        shutil.rmtree(old)                              # the first one and the last one stay
    while (kept := live.with_name(f'differs-{contents.name_now()}')).exists():
        time.sleep(0.2)
    kept.mkdir(mode=0o700)
    (kept / 'differences.txt').write_text(''.join(f'{one.in_words()}\n' for one in found))
    live.rename(kept / 'live')
    replayed.rename(kept / 'replayed')
    rows = '. '.join(one.in_words() for one in found[:TOLD])
    raise Broken(f'at entry {n} the live file is not what the log makes of {before.name}. {rows}. '
                 f'{len(found)} rows are told in {kept}/differences.txt, and both files are kept '
                 'there. No copy was made')


def write_audit(goo: str, part: Path) -> None:
    """The program reads the copied database whole, and its log goes into it."""
    (part / 'audit.txt').write_bytes(audit(goo, part / 'registry.db'))


def new_copy(folder: Path, fill: Callable[[Path], Place]) -> Path:
    """A copy with its own name; it appears whole or not at all."""
    for old in folder.glob('part-*'):
        shutil.rmtree(old)
    part = folder / f'part-{contents.name_now()}'
    part.mkdir(mode=0o700)
    write_place(part, fill(part))
    archive_beside(part)
    share_beginning(part)
    contents.write_list(part)
    contents.sync(part)
    while (copy := folder / contents.name_now()).exists():
        time.sleep(0.2)
    part.rename(copy)
    contents.sync(folder)
    return copy


def archive_beside(part: Path) -> None:
    """What is in a copy beside the registry.

    It is the exchange's folder, the file of people, the beginning of the book of acts, and the
    configuration.
    """
    left_out = contents.owner_only(CONFIGURATION) if CONFIGURATION.is_dir() else []
    if EXCHANGE.is_dir():
        contents.archive(EXCHANGE, part / 'exchange.tar')
    people.copy(PEOPLE, part / people.NAME)
    book.archive_beginning(part / BEGINNING)
    if CONFIGURATION.is_dir():
        contents.archive(CONFIGURATION, part / 'configuration.tar', left_out)
    (part / 'left-out.txt').write_text(''.join(f'{name}\n' for name in left_out))


def share_beginning(part: Path) -> None:
    """The beginning of the book is the same each night: the copy shares the file of the one before.
    """
    own = part / BEGINNING
    for before in placed_copies(part.parent)[-1:]:
        other = before / BEGINNING
        if own.is_file() and other.is_file() and filecmp.cmp(own, other, shallow=False):
            own.unlink()
            os.link(other, own)
