"""Brings an old registry over: checks its tables, plans, rehearses, sends, and compares.

usage: goo-migrate settings
       goo-migrate check FOLDER
       goo-migrate plan FOLDER
       goo-migrate rehearse FOLDER [--program PATH] [--copy COPY]
       goo-migrate run FOLDER [--log SOCKET]
       goo-migrate compare FOLDER COPY
       goo-migrate protocol FOLDER COPY --key FILE
       goo-migrate verify FOLDER [--public KEY]
       goo-migrate attach FOLDER
       goo-migrate close FOLDER [--open]
       goo-migrate find FOLDER NUMBER [--new]

FOLDER has the settings, migration.toml, and the old registry's tables in tables/; all that is
written comes there too. COPY is a folder of /var/backups/goo, by its name or by its path, `last`
for the newest one, or a database. /usr/share/doc/goo/MIGRATING.md has the weekend hour by hour.

Exit status 0 where all is well, 1 where a fault or a difference was found, 2 for a usage error, 3
where something can't be read or was not answered.
"""
import argparse
import signal
import sqlite3
import sys
import textwrap
from collections.abc import Callable
from pathlib import Path

from goo_service.common.client import FULL
from goo_service.common.client import Client
from goo_service.exchange.signature import Key
from goo_service.copies import going_back
from goo_service.copies.contents import Unfit
from goo_service.log import closed
from goo_service.migrate import check
from goo_service.migrate import documents
from goo_service.migrate import enquiry
from goo_service.migrate import plan
from goo_service.migrate import protocol
from goo_service.migrate import rehearsal
from goo_service.migrate import sending
from goo_service.migrate import settings as settings_of
from goo_service.migrate.numbers import NoRange
from goo_service.migrate.settings import Settings
from goo_service.migrate.settings import WrongSettings
from goo_service.migrate.settings import read as settings_in
from goo_service.migrate.sums import DIFFERENCES
from goo_service.migrate.sums import Comparison
from goo_service.migrate.sums import compare
from goo_service.migrate.tables import FOLDER

LOG, PROGRAM, DATABASE = '/run/goo/door.sock', '/usr/bin/goo', 'registry.db'
GOOD, FOUND, USAGE, FAILED = range(4)
TOLD = 20
"""Faults of the report, and differences, that are shown at once."""


def words() -> argparse.Namespace:
    parser = argparse.ArgumentParser(prog='goo-migrate', description=__doc__,
                                     usage=argparse.SUPPRESS,
                                     formatter_class=argparse.RawDescriptionHelpFormatter)
    verbs = parser.add_subparsers(dest='verb', required=True, metavar='COMMAND',
                                  prog='goo-migrate')
    for name, (told, _) in VERBS.items():
        verb = verbs.add_parser(name, help=told, description=f'{told[0].upper()}{told[1:]}.')
        if name == 'settings':
            continue
        verb.add_argument('folder', type=Path, metavar='FOLDER',
                          help=f'with {settings_of.NAME} and {FOLDER}/')
        if name in ('compare', 'protocol'):
            verb.add_argument('copy', metavar='COPY',
                              help='a folder of /var/backups/goo, `last`, or a database')
        if name == 'rehearse':
            verb.add_argument('--program', default=PROGRAM, metavar='PATH',
                              help=f'the registry\'s program ({PROGRAM})')
            verb.add_argument('--copy', metavar='COPY', help='of a registry that has accounts '
                              'already, in place of a new one')
        if name == 'run':
            verb.add_argument('--log', default=LOG, metavar='SOCKET',
                              help=f'where the log of requests listens ({LOG})')
        if name == 'protocol':
            verb.add_argument('--key', type=Path, required=True, metavar='FILE',
                              help='the private key of the issuing body (Ed25519)')
        if name == 'verify':
            verb.add_argument('--public', metavar='KEY',
                              help='the public key that must have signed')
        if name == 'attach':
            verb.add_argument('--into', type=Path, default=Path(documents.ATTACHMENTS),
                              metavar='FOLDER', help=f'of the records ({documents.ATTACHMENTS})')
        if name == 'close':
            verb.add_argument('--open', action='store_true', help='its notices are taken again')
            verb.add_argument('--closed', type=Path, default=Path(closed.PATH), metavar='FILE',
                              help=f'the list of closed registries ({closed.PATH})')
        if name == 'find':
            verb.add_argument('number', metavar='NUMBER', help='of one certificate')
            verb.add_argument('--new', action='store_true', help='it is a new number')
    return parser.parse_args()


def do_check(given: argparse.Namespace, settings: Settings) -> int:
    found = check.check(given.folder, settings)
    lines = (given.folder / check.REPORT).read_text(encoding='utf-8').splitlines()
    print('\n'.join(lines[:TOLD]))
    if len(lines) > TOLD:
        print(f'.. see {given.folder / check.REPORT}')
    print(f'{found.open:,} faults stand in the way' if found.open else 'nothing stands in the way')
    return FOUND if found.open else GOOD


def do_plan(given: argparse.Namespace, settings: Settings) -> int:
    count = plan.write(given.folder, settings)
    print(f'{count:,} requests in {given.folder / plan.NAME}')
    return GOOD


def do_rehearse(given: argparse.Namespace, settings: Settings) -> int:
    copy = database_of(given.copy) if given.copy else None
    done = rehearsal.rehearse(given.folder, settings, given.program, show, copy)
    print(done.text)
    return tell_comparison(given.folder, done.comparison)


def do_run(given: argparse.Namespace, settings: Settings) -> int:
    del settings
    client = Client(given.log, fields={**FULL, 'GOO-User': 'goo-migrate'})
    count = sending.run(given.folder, client, show)
    print(f'all {count:,} requests are answered as planned')
    return GOOD


def do_compare(given: argparse.Namespace, settings: Settings) -> int:
    found = compare(given.folder, settings, database_of(given.copy))
    return tell_comparison(given.folder, found)


def do_protocol(given: argparse.Namespace, settings: Settings) -> int:
    key = Key(given.key)
    copy = database_of(given.copy)
    found = compare(given.folder, settings, copy)
    protocol.write(given.folder, settings, found, copy, key)
    print(f'{given.folder / protocol.NAME}, signed in {given.folder / protocol.SIGNATURE}')
    return tell_comparison(given.folder, found)


def do_verify(given: argparse.Namespace, settings: Settings) -> int:
    del settings
    faults = protocol.faults(given.folder, given.public)
    print('\n'.join(faults) or 'signed, and all files are those of which it tells')
    return FOUND if faults else GOOD


def do_attach(given: argparse.Namespace, settings: Settings) -> int:
    del settings
    count = documents.attach(given.folder, given.into)
    print(f'{count:,} documents are new in {given.into}')
    return GOOD


def do_close(given: argparse.Namespace, settings: Settings) -> int:
    path = given.closed
    if given.open:
        closed.reopen(path, settings.old_code)
    else:
        closed.close(path, settings.old_code, f'{settings.old_name}, brought over by goo-migrate')
    told = 'again' if given.open else 'no more'
    print(f'{path}: notices of registry {settings.old_code:02} are taken {told}')
    return GOOD


def do_find(given: argparse.Namespace, settings: Settings) -> int:
    found = (enquiry.by_new_number(given.folder, given.number) if given.new
             else enquiry.by_old_number(given.folder, settings, given.number))
    told = [of.text for of in found]
    if not given.new:
        told += (of.text for of in enquiry.left_out(given.folder, settings, given.number))
    print('\n'.join(told) or f'no certificate with the number {given.number} came over')
    return GOOD if found else FOUND


def database_of(copy: str) -> Path:
    """The database of a copy, or the file that is named itself."""
    return Path(copy) if Path(copy).is_file() else going_back.folder_of(copy) / DATABASE


def show(progress: sending.Progress) -> None:
    print(progress.text, flush=True)


def tell_comparison(folder: Path, found: Comparison) -> int:
    """Shows both sides, and the differences."""
    for name, side in (('tables', found.stated), ('registry', found.held)):
        print(f'{name}: {side.total:,} certificates in {side.ranges:,} ranges')
        print('\n'.join(f'  of registry {code:02}: {count:,}' for (code,), count
                        in sorted(side.by_registry.items())))
    print('\n'.join(found.left_out) or 'nothing of the stock is left out')
    print('\n'.join(found.differences[:TOLD]) or 'no difference')
    if found.count > TOLD:
        print(f'.. {found.count:,} differences: see {folder / DIFFERENCES}')
    return FOUND if found.count else GOOD


def do_settings() -> int:
    print(textwrap.dedent((settings_of.__doc__ or '').partition('\n\n')[2]).strip())
    return GOOD


Verb = Callable[[argparse.Namespace, Settings], int]
VERBS: dict[str, tuple[str, Verb | None]] = {
    'settings': ('prints what migration.toml may say, with an example of each', None),
    'check': ('reads and judges all tables: report.txt, left-out.csv', do_check),
    'plan': ('writes the requests, once no fault stands: plan.jsonl, numbers.csv, carried.csv',
             do_plan),
    'rehearse': ('carries the plan out in a registry of its own, in FOLDER/rehearsal, and compares',
                 do_rehearse),
    'run': ('sends the plan to the log of this host; goes on where it was stopped', do_run),
    'compare': ('holds a copy of the registry against the tables: sums-tables, sums-registry, '
                'differences', do_compare),
    'protocol': ('compares, and signs what was found: protocol.json, protocol.sig', do_protocol),
    'verify': ('checks the signature of a protocol, and the files of which it tells', do_verify),
    'attach': ('has the records show the documents of the old registry to their holders',
               do_attach),
    'close': ('has the log of this host take no notice of the old registry any more', do_close),
    'find': ('tells what became of a certificate, by its old number or by its new one', do_find)}
"""What each command does, and the function that does it with the settings of a folder."""
FAULTS = (OSError, LookupError, sqlite3.Error, WrongSettings, plan.NotPlanned, sending.Stopped,
          NoRange, ValueError, Unfit)


def main() -> int:
    given = words()
    signal.signal(signal.SIGTERM, lambda *_: sys.exit(FAILED))
    _, verb = VERBS[given.verb]
    try:
        return verb(given, settings_in(given.folder)) if verb else do_settings()
    except KeyboardInterrupt:
        print('\nstopped', file=sys.stderr)
    except FAULTS as fault:
        print(f'goo-migrate: {fault}', file=sys.stderr)
    return FAILED


if __name__ == '__main__':
    sys.exit(main())
