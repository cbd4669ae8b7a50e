"""Makes the book of acts from the log of requests, and follows the log.

usage: goo-records follow (--begun CODE DAY SERIAL | --copy COPY [--after N])
                          [--archive FOLDER] [--into FOLDER] [--socket PATH] [--once]
       goo-records check [--copies FOLDER] [--archive FOLDER] [--into FOLDER]
       goo-records verify-document FILE .. [--public-key FILE]

`follow` carries out every entry of the archive from the first one on, and then those that come. It
begins with an empty registry of this code, date and next serial (what `goo init` was given), or
with a copy of a registry and the entries after the one at which the copy was made (N, for a copy
that does not say it). A book that is there goes on from its last entry, which has to be the
archive's. It is made anew, in a file of its own, where it has another form or another beginning,
where it is damaged, or where the archive is of another log; the reason is told. With --once it ends
once the book has caught up. A beginning that does not fit the log, or the registry behind --socket,
is told with what to do, and no book is made of it.

`check` compares the book with the newest copy of the registry (the nightly one), which is another
reading of the same log: the sums and the statement of each account, the audit and the cancellation
documents, both at the copy's entry.

`verify-document` tells of each PDF whether it is as the registry sealed it, with its number and its
check code. Whether the registry still has it, /verify.html tells. The key is that of this registry,
or one that another one shows at /verify/key.

The exit status is 0 where all is the same, 1 where something
is not, 2 for a usage error, 3 where something can't be read.
"""
import argparse
import signal
import sqlite3
import sys
from typing import NoReturn

from goo_service.log import entries
from goo_service.records.beginning import AGAIN
from goo_service.records.check import check
from goo_service.records.follow import Locked
from goo_service.records.follow import follow
from goo_service.records.schema import Mismatch
from goo_service.records.verify_document import PUBLIC
from goo_service.records.verify_document import verify_documents

ARCHIVE, FOLDER = '/var/lib/goo-replica/archive', '/var/lib/goo-records'
SOCKET, COPIES = '/run/goo/door.sock', '/var/backups/goo'


def fail(why: object) -> NoReturn:
    print(f'records: {why}', file=sys.stderr)
    sys.exit(3)


def words() -> argparse.ArgumentParser:
    """The words of the command line."""
    parser = argparse.ArgumentParser(prog='goo-records', description=__doc__,
                                     formatter_class=argparse.RawDescriptionHelpFormatter)
    commands = parser.add_subparsers(dest='word', required=True)
    following, checking = commands.add_parser('follow'), commands.add_parser('check')
    source = following.add_mutually_exclusive_group(required=True)
    source.add_argument('--begun', nargs=3, metavar=('CODE', 'DAY', 'SERIAL'))
    source.add_argument('--copy', metavar='COPY')
    following.add_argument('--after', type=int, metavar='N')
    following.add_argument('--once', action='store_true')
    following.add_argument('--socket', default=SOCKET, metavar='PATH')
    checking.add_argument('--copies', default=COPIES, metavar='FOLDER')
    verifying = commands.add_parser('verify-document')
    verifying.add_argument('file', nargs='+', metavar='FILE')
    verifying.add_argument('--public-key', default=PUBLIC, metavar='FILE')
    verifying.set_defaults(work=verify_documents)
    following.set_defaults(work=follow)
    checking.set_defaults(work=check)
    for word in (following, checking):
        word.add_argument('--archive', default=ARCHIVE, metavar='FOLDER')
        word.add_argument('--into', default=FOLDER, metavar='FOLDER')
    return parser


def main() -> int:
    given = words().parse_args()
    signal.signal(signal.SIGTERM, lambda *_: sys.exit(0))
    try:
        return int(given.work(given))
    except Mismatch as fault:
        fail(f'{fault}. {AGAIN}' if given.word == 'follow' else fault)
    except (entries.Broken, Locked, OSError, ValueError, sqlite3.Error) as fault:
        fail(fault)


if __name__ == '__main__':
    sys.exit(main())
