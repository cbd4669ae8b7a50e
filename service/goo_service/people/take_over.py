"""Takes today's files of users over into the file of people: /etc/goo/users and /etc/goo/callers.

A password is kept as the hash that it was, and as Argon2id from its first sign-in on. Peers and
users who only declare are programs: each needs a token, and its password is taken by Basic until a
day that is told. Users who are in the file of people already stay as they are there.
"""
import sqlite3
from collections.abc import Iterator
from dataclasses import dataclass

from goo_service.people import acts
from goo_service.people import users
from goo_service.people.acts import Doer
from goo_service.people.callers import Users
from goo_service.people.passwords import OLD
from goo_service.people.store import changing
from goo_service.people.users import ISSUER
from goo_service.people.users import PEER
from goo_service.people.users import New

OF_BODY = {'full': 'officer', 'reads': 'auditor', 'declares': 'meters'}
"""Each role of a caller's line, as a role of the issuing body."""
PROGRAMS = (PEER, 'meters')


@dataclass(frozen=True)
class Taken:
    """What became of a line."""

    name: str
    text: str
    is_new: bool = False
    is_program: bool = False


def role_of(entry: str) -> tuple[str, str, str]:
    """Caller and role of an entry of the list, and for a user of a holder what he may do with each
    account: reads, trades, cancels."""
    caller, _, role = entry.rpartition(' ')
    if caller == 'peer':
        return role, PEER, ''
    if caller == ISSUER:
        return caller, OF_BODY[role], ''
    if role == 'declares':
        return caller, 'meters', ''
    return caller, 'user', 'rtc' if role == 'full' else 'r'


def take_over(db: sqlite3.Connection, doer: Doer, listed: Users, kept: Users | None,
              until: int) -> list[Taken]:
    """Takes all users over in one change. `kept` has their passwords; it is None where they sign in
    by client certificates."""
    with changing(db):
        done = [take(db, doer, name, entry, kept, until)
                for name, entry in sorted(listed.entries.items())]
        count = sum(of.is_new for of in done)
        acts.add(db, doer, 'taken_over', 'users', {'users': count})
    return [*done, *left_over(listed, kept)]


def take(db: sqlite3.Connection, doer: Doer, name: str, entry: str, kept: Users | None,
         until: int) -> Taken:
    """Takes one user over, inside the change."""
    if users.find(db, name):
        return Taken(name, 'is there already, and stays as it is')
    caller, role, access = role_of(entry)
    form = kept.entries.get(name) if kept else None
    password = form if form and form.startswith(OLD) else None
    user = users.make(db, doer, New(name, caller, role, password=password,
                                    source='files' if kept else 'certificate'))
    if access:
        users.give_access(db, user, 0, reads=True, trades='t' in access, cancels='c' in access)
    is_program = role in PROGRAMS and kept is not None
    if is_program and password:
        db.execute('UPDATE user SET basic_until = ? WHERE id = ?', (until, user.id))
    text = f'{users.entry_of(caller, role, "t" in access)}, as {role}'
    if kept and not password:
        text += '; no password that can be taken over: goo-people user reset'
    return Taken(name, text, True, is_program)


def left_over(listed: Users, kept: Users | None) -> Iterator[Taken]:
    for name in sorted((kept.entries if kept else {}).keys() - listed.entries.keys()):
        yield Taken(name, 'has a password and no line in the list: not taken over')
