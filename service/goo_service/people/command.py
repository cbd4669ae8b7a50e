"""Keeps the file of people on this host: for root, where nobody can sign in to do it.

usage: goo-people [--file FILE] begin | check | list | acts [--last N]
       goo-people restore COPY/people.db
       goo-people take-over [--list FILE] [--users FILE] [--certificates] [--programs-until DAY]
       goo-people user invite MAIL CALLER ROLE [--administrator] [--language en|de]
                  | add NAME CALLER ROLE [--provider] | token NAME [--days N]
                  | reset NAME | provider NAME | end NAME

`begin` makes a file with nobody in it. `check` reads the file whole and tells its faults. `list`
shows the users, `acts` who did what to whom. `restore` puts the file of a copy in the place of the
file, while the services of goo-people are stopped; what there was goes aside, and all sessions end.
What was ended or revoked since the copy has to be ended again.

`take-over` takes over the users of /etc/goo/callers and /etc/goo/users; a password of theirs goes
on, and is kept anew as its user signs in. Peers and users who only declare are programs, which need
tokens: their passwords are taken until DAY, in 30 days unless told.

`user invite` prints a link by which somebody becomes a user, `user reset` one by which a user gets
a new password and adds a second factor anew. A link is shown once and ends after seven days. `user
add` makes a user who signs in by a client certificate, whose subject NAME is, or another registry's
program (ROLE peer, CALLER its code); with --provider one who signs in by the body's provider of
OpenID Connect, whose name there NAME is; `user provider` has a user sign in so who is there, in the
place of a password and factors, and binds one anew to the number there. `user token` prints a token
for a program. `user end` ends a user with the user's sessions and tokens.

Exit status 0: done. 1: a fault, which is told, and nothing was changed. 2: wrong command line.
"""
import argparse
import contextlib
import datetime
import os
import sqlite3
import sys
from collections.abc import Callable
from pathlib import Path
from typing import TYPE_CHECKING

from goo_service.common.owner import become_owner_of
from goo_service.copies import contents
from goo_service.copies import people
from goo_service.people import callers
from goo_service.people import host
from goo_service.people import invitations
from goo_service.people import store
from goo_service.people import tokens
from goo_service.people import users
from goo_service.people.host import Lists
from goo_service.people.participants import TooMany
from goo_service.people.users import WrongUser

GOOD, FAULT = 0, 1
FAULTS = (store.Fault, WrongUser, callers.Fault, TooMany, contents.Unfit, tokens.WrongToken,
          OSError, sqlite3.Error)


def do_begin(given: argparse.Namespace) -> int:
    store.make_file(given.file)
    print(f'{given.file}: ready')
    return GOOD


def do_check(given: argparse.Namespace) -> int:
    """Whether SQLite finds the file whole."""
    with contextlib.closing(store.open_file(given.file)) as db:
        faults = host.faults_of(db)
        count = db.execute('SELECT count(*) FROM user WHERE ended IS NULL').fetchone()[0]
    print('\n'.join(faults) or f'{given.file}: {count} users, whole')
    return FAULT if faults else GOOD


def do_list(given: argparse.Namespace) -> int:
    with contextlib.closing(store.open_file(given.file)) as db:
        for user in users.list_of(db):
            words = [user.name, user.caller, user.role, *['administrator'] * user.administrator]
            ended = [] if user.ended is None else [f'ended {host.day_of(user.ended)}']
            print(' '.join([*words, *ended]))
    return GOOD


def do_acts(given: argparse.Namespace) -> int:
    with contextlib.closing(store.open_file(given.file)) as db:
        rows = db.execute('SELECT * FROM act ORDER BY id DESC LIMIT ?', (given.last,)).fetchall()
    for row in reversed(rows):
        print(host.day_of(row['time']), row['user'] or '-', row['way'] or '-',
              row['address'] or '-', row['kind'], row['about'], row['detail'])
    return GOOD


def do_take_over(given: argparse.Namespace) -> int:
    with contextlib.closing(store.open_file(given.file)) as db:
        for line in host.take_over(db, given.read, given.programs_until):
            print(line)
    return GOOD


def do_invite(given: argparse.Namespace) -> int:
    with contextlib.closing(store.open_file(given.file)) as db:
        print(host.invite(db, given.mail, given.caller, given.role, given.administrator,
                          given.language))
    return GOOD


def do_add(given: argparse.Namespace) -> int:
    with contextlib.closing(store.open_file(given.file)) as db:
        host.add(db, given.name, given.caller, given.role, given.provider)
    way = ('a token: goo-people user token' if given.role == users.PEER else
           'the provider' if given.provider else 'a client certificate')
    print(f'{given.name}: signs in by {way}')
    return GOOD


def do_token(given: argparse.Namespace) -> int:
    with contextlib.closing(store.open_file(given.file)) as db:
        print(host.make_token(db, given.name, given.days))
    return GOOD


def do_restore(given: argparse.Namespace) -> int:
    for path in people.put_back(given.read, given.file, f'before-{host.name_now()}'):
        print(f'what there was is in {path}')
    print(f'{given.file} is that of the copy; its sessions have ended')
    return GOOD


def do_reset(given: argparse.Namespace) -> int:
    with contextlib.closing(store.open_file(given.file)) as db:
        print(host.reset(db, given.name))
    return GOOD


def do_provider(given: argparse.Namespace) -> int:
    with contextlib.closing(store.open_file(given.file)) as db:
        host.use_provider(db, given.name)
    print(f'{given.name}: signs in by the provider')
    return GOOD


def do_end(given: argparse.Namespace) -> int:
    with contextlib.closing(store.open_file(given.file)) as db:
        host.end(db, given.name)
    print(f'{given.name}: ended')
    return GOOD


# -------------------------------------------------------------------- the command line

if TYPE_CHECKING:
    Kinds = argparse._SubParsersAction[argparse.ArgumentParser]


def add(kinds: 'Kinds', word: str, work: Callable[[argparse.Namespace], int],
        *names: str) -> argparse.ArgumentParser:
    one = kinds.add_parser(word)
    for name in names:
        one.add_argument(name)
    one.set_defaults(work=work)
    return one


def add_take_over(kinds: 'Kinds') -> None:
    one = add(kinds, 'take-over', do_take_over)
    for name in ('list', 'users'):
        one.add_argument(f'--{name}', type=Path, default=callers.FILES[name], metavar='FILE',
                         help=f'{callers.FILES[name]} unless told')
    one.add_argument('--certificates', action='store_true',
                     help='users sign in by client certificates, and there is no password file')
    one.add_argument('--programs-until', type=datetime.date.fromisoformat, metavar='DAY',
                     default=datetime.date.today() + datetime.timedelta(days=30),
                     help='until when the password of a program is taken; 30 days unless told')


def parser() -> argparse.ArgumentParser:
    words = argparse.ArgumentParser(prog='goo-people', description=__doc__,
                                    formatter_class=argparse.RawDescriptionHelpFormatter)
    words.add_argument('--file', type=Path, default=os.environ.get('GOO_PEOPLE') or store.FILE,
                       help=f'{store.FILE} unless told')
    kinds = words.add_subparsers(required=True)
    add(kinds, 'begin', do_begin)
    add(kinds, 'check', do_check)
    add(kinds, 'list', do_list)
    add(kinds, 'acts', do_acts).add_argument('--last', type=int, default=100, metavar='N',
                                             help='how many; 100 unless told')
    add_take_over(kinds)
    add(kinds, 'restore', do_restore).add_argument('copy', type=Path)
    of_user = kinds.add_parser('user').add_subparsers(required=True)
    invited = add(of_user, 'invite', do_invite, 'mail', 'caller', 'role')
    invited.add_argument('--administrator', action='store_true',
                         help='keeps the users of this holder')
    invited.add_argument('--language', choices=invitations.LANGUAGES, default='en')
    add(of_user, 'add', do_add, 'name', 'caller', 'role').add_argument(
        '--provider', action='store_true', help='signs in by the provider of OpenID Connect')
    add(of_user, 'token', do_token, 'name').add_argument(
        '--days', type=int, default=tokens.LONGEST, metavar='N',
        help=f'for how long; {tokens.LONGEST} unless told')
    add(of_user, 'reset', do_reset, 'name')
    add(of_user, 'provider', do_provider, 'name')
    add(of_user, 'end', do_end, 'name')
    return words


def main() -> int:
    given = parser().parse_args()
    os.umask(0o077)
    try:
        if given.work is do_take_over:      # root alone reads the files of users
            given.read = Lists.read(given.list, given.users, given.certificates)
        if given.work is do_restore:
            given.read = contents.open_regular(given.copy)
        if given.file.parent.is_dir():
            become_owner_of(given.file.parent)      # root opens nothing in a service's folder
        return int(given.work(given))
    except FAULTS as fault:
        print('\n'.join(f'goo-people: {line}' for line in fault.args or (fault,)), file=sys.stderr)
        return FAULT


if __name__ == '__main__':
    sys.exit(main())
