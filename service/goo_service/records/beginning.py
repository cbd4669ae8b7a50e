"""Where the book of acts begins, and whether that fits the log and the registry.

A log that was begun over a registry with records has no entry for what came before it. The book
then begins with the copy that was made when the log was begun. A book that began as if the registry
had been empty would be a wrong one, so it is not made: what is to be done is told instead. The unit
starts anew each minute and reads records.conf, so that the book is made once the beginning fits.
"""
import argparse
import json
from dataclasses import dataclass
from pathlib import Path

from goo_service.common.client import Client
from goo_service.common.client import NoAnswer
from goo_service.log import ends
from goo_service.log import reader
from goo_service.log import entries
from goo_service.records.schema import Mismatch

CONF = '/etc/goo/records.conf'
AGAIN = (f'Where the registry had records before its log, {CONF} has to name the copy that was '
         'made when the log was begun: GOO_RECORDS_BEGIN=--copy COPY (RECORDS.md, "Running it")')
"""What to do where a beginning may be the wrong one."""
END = 1 << 16
"""Bytes at the end of an archive's file in which its last line is looked for at first."""
PATIENCE = 10
"""Seconds in which the registry answers, or is asked later."""


@dataclass(frozen=True)
class Place:
    """The entry after which the book begins, and its hash where a copy tells it."""

    entry: int
    hash: str | None
    named: str
    text: str
    """The beginning as a book keeps it, to know by it whether it began so."""


def place_of(given: argparse.Namespace) -> Place:
    """The place at which a book is to begin."""
    if not given.copy:
        if given.after:
            raise ValueError('--after belongs to --copy: a registry that begins is at entry 0')
        return Place(0, None, '--begun', ' '.join(['--begun', *map(str, given.begun)]))
    found = place_in(Path(given.copy))
    if given.after is not None and found and found.entry != given.after:
        raise ValueError(f'{given.copy} was made at entry {found.entry}, and --after says '
                         f'{given.after}: leave --after out')
    after = given.after or 0
    return found or Place(after, None, given.copy, f'a copy of entry {after}')


def place_in(copy: Path) -> Place | None:
    """The place that a copy tells. One that was made without a log tells none."""
    path = (copy if copy.is_dir() else copy.parent) / 'place.json'
    try:
        members = json.loads(path.read_text(encoding='utf-8'))
        entry, digest = int(members['n']), str(members['hash'])
        return Place(entry, digest, str(copy), f'a copy of entry {entry} with the hash {digest}')
    except FileNotFoundError:
        return None
    except PermissionError as fault:
        raise ValueError(f'{copy}: the user of the records may not read it: give him a copy of it, '
                         'as goo-setup does in /var/lib/goo-records/first') from fault
    except (ValueError, KeyError, TypeError) as fault:
        raise ValueError(f'{path}: no place in it: {fault}') from fault


def check_first_entry(archive: Path, place: Place) -> None:
    """Raises Mismatch unless the entries of an archive go on from a place."""
    try:
        record = next(reader.read_archive(archive, after=place.entry), None)
    except entries.Broken:
        return                      # whoever reads on tells it with its place
    begins = next((number for path in reader.months(archive)
                   if (number := reader.first_number(path)) is not None), None)
    wanted, last = place.entry + 1, last_number(archive)
    if record is None and begins is not None and last < place.entry:
        raise Mismatch(f'{archive} ends at entry {last}, and the book would begin '
                       f'after entry {place.entry}, by {place.named}')
    if record and record.entry.n != wanted:
        raise Mismatch(f'{archive} begins with entry {record.entry.n}, and the book would begin '
                       f'with entry {wanted}, by {place.named}')
    if record and place.hash and record.entry.prev != place.hash:
        raise Mismatch(f'{archive}: entry {wanted} does not follow the entry at which '
                       f'{place.named} was made: the copy is of another log')


def last_number(archive: Path) -> int:
    """The number of the last whole entry of an archive, 0 where there is none."""
    for path in reversed(reader.months(archive)):
        number = ends.last_of(path, reader.number_in, size=END)[0]
        if number:
            return int(number)
    return 0


def lacks_account(socket: str, number: int, entry: int) -> bool | None:
    """Raises Mismatch where the registry has an account that the book, at this entry, has not.

    None where the registry does not tell, or has gone on since.
    """
    try:
        answer = Client(socket, PATIENCE).get(f'/v1/accounts/{number}/statement')
    except NoAnswer:
        return None
    if answer.status == 404:
        return False
    if answer.status != 200 or answer.entry != entry:
        return None
    raise Mismatch(f'entry {entry}: account {number} is in the registry and in no entry of the log')
