"""The other end of an invitation: what its link offers, and the user whom it makes.

Whoever has the link is nobody yet. A wrong link, an ended one, one that was used and one that was
taken back have the same answer.
"""
import json
import re
import sqlite3
from dataclasses import dataclass

from goo_service.people import acts
from goo_service.people.callers import name_fault
from goo_service.people.invitations import OPEN_ONE
from goo_service.people.invitations import Wanted
from goo_service.people.invitations import digest
from goo_service.people.participants import USERS
from goo_service.people.participants import Conflict
from goo_service.people.participants import NotFound
from goo_service.people.participants import TooMany
from goo_service.people.participants import Unreadable
from goo_service.people.participants import count_users
from goo_service.people.participants import parse_access
from goo_service.people.participants import put_access
from goo_service.people.store import changing
from goo_service.people.store import now

TRIES = 10
"""Names that are taken which one invitation may try in an hour: nobody counts through the names."""
SECRET = re.compile(r'[A-Za-z0-9_-]{43}')
GONE = 'this invitation is not there: it has ended, was used or was taken back'


@dataclass(frozen=True)
class Offer:
    """An open invitation, as whoever has its link sees it."""

    number: int
    wanted: Wanted
    ends: int
    user: int | None
    name: str
    """Of the user who gets a new password; '' where a user is made."""


def offer_of(db: sqlite3.Connection, secret: str) -> Offer:
    """What a link is for. A wrong, an ended, a used and a revoked one have the same answer."""
    row = None
    if SECRET.fullmatch(secret):
        row = db.execute(
            f'SELECT invitation.*, user.name FROM invitation LEFT JOIN user ON user.id = for_user '
            f'WHERE hash = ? AND {OPEN_ONE}', (digest(secret), now())).fetchone()
    if row is None:
        raise NotFound(GONE)
    access = parse_access(json.loads(row['access']))
    wanted = Wanted(row['caller'], row['role'], bool(row['administrator']), row['mail'],
                    row['language'], access)
    return Offer(row['id'], wanted, row['ends'], row['for_user'], row['name'] or '')


def check_name(db: sqlite3.Connection, offer: Offer, name: str) -> None:
    """Whether a new user may have this name. Too many that are taken are refused for an hour."""
    if fault := name_fault(name, False):
        raise Unreadable(fault)
    key = f'invitation {offer.number}'
    with changing(db):
        tried = db.execute('SELECT failures, seen FROM delay WHERE key = ?', (key,)).fetchone()
        failures = tried['failures'] if tried and tried['seen'] > now() - 3600 else 0
        if failures >= TRIES:
            raise TooMany('too many names were taken: try again in an hour')
        is_taken = db.execute('SELECT 1 FROM user WHERE name = ?', (name,)).fetchone() is not None
        if is_taken:
            db.execute('INSERT OR REPLACE INTO delay VALUES (?, ?, 0, ?)',
                       (key, failures + 1, now()))
    if is_taken:
        raise Conflict('this name is taken: choose another one')


def accept(db: sqlite3.Connection, secret: str, name: str, hashed: str, address: str) -> str:
    """Makes the user, or gives him the new password: his name. `hashed` is the password's hash."""
    with changing(db):
        offer = offer_of(db, secret)
        doer = acts.Doer(offer.name or name, 'invitation', address, offer.wanted.caller)
        if offer.user is not None:
            done = db.execute('UPDATE user SET password = ?, password_set = ? '
                              'WHERE id = ? AND ended IS NULL', (hashed, now(), offer.user))
            if not done.rowcount:
                raise NotFound(GONE)
            acts.add(db, doer, 'password_set', offer.name, {'invitation': offer.number})
        else:
            make_user(db, offer, name, hashed)
            acts.add(db, doer, 'user_made', name, {'invitation': offer.number})
        db.execute('UPDATE invitation SET used = ? WHERE id = ?', (now(), offer.number))
    return doer.user


def make_user(db: sqlite3.Connection, offer: Offer, name: str, hashed: str) -> None:
    """The user that an invitation offers, inside a transaction."""
    of = offer.wanted
    if name_fault(name, False):
        raise Unreadable(name_fault(name, False))
    if count_users(db, of.caller) >= USERS:
        raise TooMany(f'{of.caller} has {USERS} users')
    if db.execute('SELECT 1 FROM user WHERE name = ?', (name,)).fetchone():
        raise Conflict('this name is taken: choose another one')
    row = db.execute(
        'INSERT INTO user (name, caller, role, administrator, mail, language, password, '
        'password_set, made, source) VALUES (?, ?, ?, ?, ?, ?, ?, ?, ?, ?) RETURNING id',
        (name, of.caller, of.role, of.administrator, of.mail, of.language, hashed, now(), now(),
         f'invitation {offer.number}')).fetchone()
    put_access(db, row['id'], of.access)
