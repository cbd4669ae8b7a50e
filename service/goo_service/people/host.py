"""What root does with the file of people on the host."""
import datetime
import os
import sqlite3
from collections.abc import Iterator
from dataclasses import dataclass
from pathlib import Path

from goo_service.people import acts
from goo_service.people import callers
from goo_service.people import invitations
from goo_service.people import take_over as files
from goo_service.people import tokens
from goo_service.people import users
from goo_service.people.access import access_of
from goo_service.people.callers import Users
from goo_service.people.invitations import Link
from goo_service.people.invitations import Wanted as Invited
from goo_service.people.mail_address import is_address
from goo_service.people.participants import Access
from goo_service.people.store import changing
from goo_service.people.store import now
from goo_service.people.tokens import Wanted
from goo_service.people.users import ISSUER
from goo_service.people.users import New
from goo_service.people.users import User
from goo_service.people.users import WrongUser
from goo_service.records import body

ALL = (Access(0, True, True, True),)
"""What a user of a holder may do whom root invites: all, with each account of the holder."""


@dataclass(frozen=True)
class Lists:
    """The two files of users, as they were read."""

    listed: Users
    kept: Users | None
    """The passwords; None where users sign in by client certificates."""

    @staticmethod
    def read(listed: Path, kept: Path, certificates: bool) -> 'Lists':
        """Reads both files, and tells all that is wrong with them."""
        people = callers.read_list(listed, certificates)
        passwords = None if certificates else callers.read_passwords(kept)
        if faults := callers.doubles(people, *[passwords] if passwords else []):
            raise callers.Fault(*faults)
        return Lists(people, passwords)


def name_now() -> str:
    """A moment, as part of a file's name."""
    return datetime.datetime.now(datetime.UTC).strftime('%Y-%m-%dT%H%M%SZ')


def day_of(time: int) -> str:
    """A time as people read it, in UTC."""
    return datetime.datetime.fromtimestamp(time, datetime.UTC).strftime('%Y-%m-%d %H:%M:%S')


def named(db: sqlite3.Connection, name: str) -> User:
    """A user who has not ended."""
    user = users.find(db, name)
    if user is None or user.ended is not None:
        raise WrongUser(f'{name}: there is no such user')
    return user


def faults_of(db: sqlite3.Connection) -> list[str]:
    """What SQLite finds wrong with the file."""
    faults = [str(row[0]) for row in db.execute('PRAGMA integrity_check') if row[0] != 'ok']
    return faults + [f'{row["table"]}: a row refers to none'
                     for row in db.execute('PRAGMA foreign_key_check')]


def take_over(db: sqlite3.Connection, lists: Lists, until: datetime.date) -> Iterator[str]:
    """Takes the files over; what became of each line, and what is left to do."""
    end = datetime.datetime.combine(until, datetime.time(), datetime.UTC).timestamp()
    done = files.take_over(db, acts.ROOT, lists.listed, lists.kept, int(end))
    for of in done:
        yield f'{of.name}: {of.text}'
    for of in done:
        if of.is_program:
            yield (f'{of.name}: a program: make a token for it; its password is taken until '
                   f'{until}')


def link_text(link: Link) -> str:
    """A link, as whoever is invited opens it."""
    site = body.read_body(Path(os.environ.get('GOO_ETC') or '/etc/goo')).site or 'https://HOST'
    return (f'{site}/accept.html#{link.secret}\n'
            f'it is shown here alone, works once, and ends on {day_of(link.ends)} UTC')


def invite(db: sqlite3.Connection, mail: str, caller: str, role: str, administrator: bool,
           language: str) -> str:
    """An invitation by root; its link."""
    access = ALL if caller != ISSUER and role == 'user' else ()
    wanted = Invited(caller, role, administrator, mail, language, access)
    if fault := users.fault_of(New('x', caller, role)):
        raise WrongUser(fault)
    if not is_address(mail):
        raise WrongUser(f'{mail}: no address of mail')
    if administrator and caller == ISSUER:
        raise WrongUser('an administrator is one of a holder')
    with changing(db):
        link = invitations.make(db, None, wanted, None)
        acts.add(db, acts.ROOT, 'invited', f'invitation {link.number}', invitations.told(wanted))
    return link_text(link)


def add(db: sqlite3.Connection, name: str, caller: str, role: str,
        has_provider: bool = False) -> None:
    """A user who signs in by a client certificate or by the provider of OpenID Connect, or the
    program of another registry."""
    source = 'host' if role == users.PEER else 'oidc' if has_provider else 'certificate'
    with changing(db):
        user = users.make(db, acts.ROOT, New(name, caller, role, source=source))
        if role == 'user':
            users.give_access(db, user, 0, reads=True, trades=True, cancels=True)


def make_token(db: sqlite3.Connection, name: str, days: int) -> str:
    """A token for a program: it declares where its user does nothing else, and reads otherwise."""
    user = named(db, name)
    of, declares = access_of(db, user.id), user.role == 'meters'
    assert of
    wanted = Wanted(f'host {day_of(now())}', not declares, declares, False, None, None,
                    now() + days * tokens.DAY)
    with changing(db):
        _, token = tokens.make(db, of, acts.ROOT, wanted)
    return f'{token}\nit is shown here alone, and ends on {day_of(wanted.ends)} UTC'


def reset(db: sqlite3.Connection, name: str) -> str:
    """A link by which a user gets a new password, and adds a second factor anew."""
    user = named(db, name)
    with changing(db):
        row = db.execute('SELECT * FROM user WHERE id = ?', (user.id,)).fetchone()
        link = invitations.reset_row(db, None, row)
        acts.add(db, acts.ROOT, 'factors_reset', user.name)
    return link_text(link)


def use_provider(db: sqlite3.Connection, name: str) -> None:
    """Has a user sign in by the provider of OpenID Connect, in place of a password and factors. The
    next sign-in binds the user to the provider's number anew."""
    user = named(db, name)
    if user.role == users.PEER:
        raise WrongUser(f'{user.name} is a program')
    with changing(db):
        db.execute("UPDATE user SET source = 'oidc', password = NULL WHERE id = ?", (user.id,))
        for table in ('factor', 'session', 'oidc_link'):
            db.execute(f'DELETE FROM {table} WHERE user = ?', (user.id,))
        acts.add(db, acts.ROOT, 'factors_reset', user.name, {'provider': True})


def end(db: sqlite3.Connection, name: str) -> None:
    with changing(db):
        users.end(db, acts.ROOT, named(db, name))
