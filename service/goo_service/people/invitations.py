"""Invitations: a link that makes a user, or gives one a new password. It ends, and works once.

An administrator of a holder invites users of that holder. An officer invites users of the issuing
body, and the first administrator of a holder. The secret of a link is kept as its SHA-256 alone.
"""
import hashlib
import json
import secrets
import sqlite3
from collections.abc import Callable
from dataclasses import asdict
from dataclasses import dataclass
from typing import Any

from goo_service.people import acts
from goo_service.people.callers import CALLER
from goo_service.people.mail_address import is_address
from goo_service.people.participants import BODY
from goo_service.people.participants import HOLDER
from goo_service.people.participants import USERS
from goo_service.people.participants import Access
from goo_service.people.participants import Conflict
from goo_service.people.participants import Manager
from goo_service.people.participants import NotAllowed
from goo_service.people.participants import NotFound
from goo_service.people.participants import TooMany
from goo_service.people.participants import Unreadable
from goo_service.people.participants import count_users
from goo_service.people.participants import has_administrator
from goo_service.people.participants import managed
from goo_service.people.participants import manager_of
from goo_service.people.participants import parse_access
from goo_service.people.store import changing
from goo_service.people.store import now
from goo_service.rules.commands import ISSUER

OPEN, OF_A_DAY, OF_A_MAKER = 20, 50, 200
"""Invitations of a holder that are open; that are made for it in 24 hours; of one user in these."""
DAY = 86_400
SECONDS = 7 * DAY
"""Until a link ends."""
LANGUAGES = ('en', 'de')
OPEN_ONE = 'used IS NULL AND revoked IS NULL AND ends > ?'


@dataclass(frozen=True)
class Wanted:
    """What an invitation offers."""

    caller: str
    role: str
    administrator: bool
    mail: str
    language: str
    access: tuple[Access, ...]


@dataclass(frozen=True)
class Link:
    """An invitation that was made. The secret is told here, and nowhere else."""

    number: int
    secret: str
    ends: int
    mail: str
    language: str
    name: str = ''
    """Of a user who gets a new password."""


Tell = Callable[[sqlite3.Connection, Link], None]
"""Puts the mail with the link into the queue, inside the change that makes the invitation."""


def parse_wanted(manager_caller: str, body: dict[str, Any]) -> Wanted:
    """An invitation as the web API has it. Without `caller` it is for the manager's own."""
    caller, mail = body.get('caller', manager_caller), body.get('mail')
    if not isinstance(caller, str) or not CALLER.fullmatch(caller):
        raise Unreadable("caller: a holder's code has 1 to 16 of A to Z, 0 to 9 and -")
    role = body.get('role', HOLDER)
    if role not in (BODY if caller == ISSUER else (HOLDER,)):
        raise Unreadable(f'role: {caller} has no such role')
    if not isinstance(mail, str) or not is_address(mail):
        raise Unreadable('mail: an address such as anna@sun.example')
    if body.get('language') not in LANGUAGES:
        raise Unreadable(f'language: one of {", ".join(LANGUAGES)}')
    administrator = body.get('administrator', False)
    if not isinstance(administrator, bool) or (administrator and caller == ISSUER):
        raise Unreadable('administrator: yes or no, and no for the issuing body')
    access = parse_access(body.get('access', []))
    if caller == ISSUER and access:
        raise Unreadable("access: the issuing body's users have a role in its place")
    if caller != ISSUER and not access and not administrator:
        raise Unreadable('access: a user without access could do nothing')
    return Wanted(caller, role, administrator, mail, body['language'], access)


def digest(secret: str) -> bytes:
    return hashlib.sha256(secret.encode()).digest()


# -------------------------------------------------------------------- making

def invite(db: sqlite3.Connection, doer: acts.Doer, wanted: Wanted, tell: Tell) -> Link:
    """Makes an invitation, and has its link sent."""
    with changing(db):
        manager = manager_of(db, doer)
        may_invite(db, manager, wanted)
        link = make(db, manager.id, wanted, None)
        tell(db, link)
        acts.add(db, doer, 'invited', f'invitation {link.number}', told(wanted))
    return link


def may_invite(db: sqlite3.Connection, manager: Manager, wanted: Wanted) -> None:
    """An administrator can't give more than his holder has: his invitations are for it alone."""
    if not manager.is_officer and wanted.caller != manager.caller:
        raise NotAllowed(f'{wanted.caller} is not your holder')
    if not manager.is_officer or wanted.caller == ISSUER:
        return
    if not wanted.administrator:
        raise NotAllowed(f'users of {wanted.caller} are invited by its own administrator')
    if has_administrator(db, wanted.caller):
        raise Conflict(f'{wanted.caller} has an administrator, who invites others')
    if db.execute(f'SELECT 1 FROM invitation WHERE caller = ? AND administrator AND {OPEN_ONE}',
                  (wanted.caller, now())).fetchone():
        raise Conflict(f'an administrator of {wanted.caller} is invited already')


def make(db: sqlite3.Connection, maker: int | None, wanted: Wanted, for_user: int | None,
         name: str = '') -> Link:
    """A row within all bounds, inside a transaction. `maker` is None for root on the host."""
    time = now()
    count = db.execute(
        f'SELECT count(*) FILTER (WHERE {OPEN_ONE}) AS open, count(*) FILTER (WHERE made > ?) '
        'AS made FROM invitation WHERE caller = ?', (time, time - DAY, wanted.caller)).fetchone()
    if count['open'] >= OPEN:
        raise TooMany(f'{wanted.caller} has {OPEN} open invitations: take some back')
    if count['made'] >= OF_A_DAY:
        raise TooMany(f'{wanted.caller} has had {OF_A_DAY} invitations in 24 hours')
    own = db.execute('SELECT count(*) AS n FROM invitation WHERE made_by = ? AND made > ?',
                     (maker, time - DAY)).fetchone()['n']
    if maker is not None and own >= OF_A_MAKER:
        raise TooMany(f'you have made {OF_A_MAKER} invitations in 24 hours')
    if for_user is None and count_users(db, wanted.caller) + count['open'] >= USERS:
        raise TooMany(f'{wanted.caller} has {USERS} users and open invitations')
    secret = secrets.token_urlsafe(32)
    row = db.execute(
        'INSERT INTO invitation (hash, caller, role, administrator, mail, language, access, '
        'made_by, made, ends, for_user) VALUES (?, ?, ?, ?, ?, ?, ?, ?, ?, ?, ?) RETURNING id',
        (digest(secret), wanted.caller, wanted.role, wanted.administrator, wanted.mail,
         wanted.language, json.dumps([asdict(of) for of in wanted.access]), maker, time,
         time + SECONDS, for_user)).fetchone()
    return Link(row['id'], secret, time + SECONDS, wanted.mail, wanted.language, name)


def told(wanted: Wanted) -> dict[str, Any]:
    """What an act tells of an invitation."""
    return {'caller': wanted.caller, 'role': wanted.role, 'mail': wanted.mail,
            'administrator': wanted.administrator, 'access': [asdict(of) for of in wanted.access]}


def reset(db: sqlite3.Connection, doer: acts.Doer, name: str, tell: Tell) -> None:
    """Takes password and factors from a user, and has a link for new ones sent to his own address.

    Whoever resets never sees the link: he could sign in as that user.
    """
    with changing(db):
        manager = manager_of(db, doer)
        user = managed(db, manager, name)
        if not user['mail']:
            raise Conflict(f'{user["name"]} has no mail address: root resets him on the host')
        tell(db, reset_row(db, manager.id, user))
        acts.add(db, doer, 'factors_reset', user['name'])


def reset_row(db: sqlite3.Connection, maker: int | None, user: sqlite3.Row) -> Link:
    """The same inside a transaction: sessions end at once, tokens of programs go on."""
    db.execute('UPDATE invitation SET revoked = ? WHERE for_user = ? AND used IS NULL '
               'AND revoked IS NULL', (now(), user['id']))
    wanted = Wanted(user['caller'], user['role'], bool(user['administrator']), user['mail'] or '',
                    user['language'] or 'en', ())
    link = make(db, maker, wanted, user['id'], user['name'])
    db.execute('DELETE FROM factor WHERE user = ?', (user['id'],))
    db.execute('DELETE FROM session WHERE user = ?', (user['id'],))
    db.execute('UPDATE user SET password = NULL WHERE id = ?', (user['id'],))
    return link


# -------------------------------------------------------------------- listing, taking back

def open_invitations(db: sqlite3.Connection, doer: acts.Doer) -> list[dict[str, Any]]:
    """Those that a manager may take back, the newest first."""
    manager = manager_of(db, doer)
    where, values = seen_by(manager)
    rows = db.execute(
        f'SELECT invitation.*, user.name AS maker, other.name AS renewed FROM invitation '
        f'LEFT JOIN user ON user.id = made_by LEFT JOIN user AS other ON other.id = for_user '
        f'WHERE {OPEN_ONE} AND {where} ORDER BY invitation.id DESC LIMIT 1000',
        (now(), *values))
    return [{'number': row['id'], 'caller': row['caller'], 'role': row['role'],
             'administrator': bool(row['administrator']), 'mail': row['mail'],
             'language': row['language'], 'access': json.loads(row['access']),
             'made_by': row['maker'], 'made': row['made'], 'ends': row['ends'],
             'user': row['renewed']} for row in rows]


def seen_by(manager: Manager) -> tuple[str, tuple[str, ...]]:
    """The condition that a manager sees an invitation."""
    if manager.is_officer:
        return '(invitation.caller = ? OR invitation.administrator)', (ISSUER,)
    return 'invitation.caller = ?', (manager.caller,)


def revoke(db: sqlite3.Connection, doer: acts.Doer, number: int) -> None:
    """Takes an open invitation back."""
    with changing(db):
        where, values = seen_by(manager_of(db, doer))
        done = db.execute(
            f'UPDATE invitation SET revoked = ? WHERE id = ? AND {OPEN_ONE} AND {where}',
            (now(), number, now(), *values))
        if not done.rowcount:
            raise NotFound(f'there is no open invitation {number}')
        acts.add(db, doer, 'invitation_revoked', f'invitation {number}')
