"""Participants keep their own users: who manages whom, and what he may give and take away.

An administrator of a holder manages the users of that holder. An officer of the issuing body
manages the users of the body, and the administrators of holders. Nobody manages himself. What a
manager may do is read from the file inside each change, so that an ended manager changes nothing.
"""
import sqlite3
from collections.abc import Iterable
from collections.abc import Mapping
from dataclasses import asdict
from dataclasses import dataclass
from typing import Any

from goo_service.people import acts
from goo_service.people import users
from goo_service.people.store import changing
from goo_service.people.store import now
from goo_service.rules.commands import ISSUER

USERS = 500
"""Users of a holder, or of the body, that are not ended."""
ROWS = 200
"""Accounts for which one user has rows of access."""
LAST_ACCOUNT = 999_999_999
BODY = ('officer', 'second', 'auditor', 'meters')
"""Roles of the issuing body's users."""
HOLDER = 'user'
"""The role of each user of a holder."""
RIGHTS = ('reads', 'trades', 'cancels')


class NotAllowed(Exception):
    """A right that whoever asks has not. The text names it."""


class NotFound(Exception):
    """Nothing of this name or number that whoever asks may know of."""


class Conflict(Exception):
    """What is there already forbids it."""


class TooMany(Exception):
    """A bound is reached. The text names it."""


class Unreadable(Exception):
    """A value of another form than is wanted. The text names its member."""


@dataclass(frozen=True)
class Access:
    """What a user may do with an account; with account 0, with each account of his holder."""

    account: int
    reads: bool
    trades: bool
    cancels: bool


@dataclass(frozen=True)
class Manager:
    """Whoever manages users, as the file has him at this moment."""

    id: int
    caller: str
    is_officer: bool
    doer: acts.Doer

    def has(self, user: sqlite3.Row) -> bool:
        """Whether he manages this user."""
        if self.is_officer:
            return bool(user['caller'] == ISSUER or user['administrator'])
        return bool(user['caller'] == self.caller)


def parse_access(value: object) -> tuple[Access, ...]:
    """Rows of access as the web API has them."""
    if not isinstance(value, list) or len(value) > ROWS:
        raise Unreadable(f'access: a list of at most {ROWS} rows')
    rows = tuple(parse_row(row) for row in value)
    if len({row.account for row in rows}) < len(rows):
        raise Unreadable('access: an account stands twice')
    return rows


def parse_row(row: object) -> Access:
    """Whoever trades or cancels also reads."""
    if not isinstance(row, dict) or not set(row) <= {'account', *RIGHTS}:
        raise Unreadable('access: a row has account, reads, trades and cancels')
    account, rights = row.get('account'), [row.get(name, False) for name in RIGHTS]
    if type(account) is not int or not 0 <= account <= LAST_ACCOUNT:
        raise Unreadable(f'access: account is a number from 0 to {LAST_ACCOUNT}')
    if not all(isinstance(right, bool) for right in rights) or not any(rights):
        raise Unreadable(f'access: account {account} has one of reads, trades and cancels')
    return Access(account, True, rights[1], rights[2])


def manager_of(db: sqlite3.Connection, doer: acts.Doer) -> Manager:
    """Whoever acts, where he is an officer of the body or an administrator of a holder."""
    row = db.execute('SELECT * FROM user WHERE name = ? AND ended IS NULL',
                     (doer.user,)).fetchone()
    if row and row['caller'] == ISSUER and row['role'] == 'officer':
        return Manager(row['id'], ISSUER, True, doer)
    if row and row['caller'] != ISSUER and row['role'] == HOLDER and row['administrator']:
        return Manager(row['id'], row['caller'], False, doer)
    raise NotAllowed('users are managed by an administrator of the holder, or by an officer')


def managed(db: sqlite3.Connection, manager: Manager, name: str) -> sqlite3.Row:
    """A user whom a manager may change: not himself, nobody who is ended."""
    row: sqlite3.Row | None = db.execute('SELECT * FROM user WHERE name = ?', (name,)).fetchone()
    if row is None or row['ended'] is not None or not manager.has(row):
        raise NotFound(f'there is no user {name[:200]} whom you manage')
    if row['id'] == manager.id:
        raise NotAllowed(f'{row["name"]}: nobody manages himself')
    return row


def access_of(db: sqlite3.Connection, user: int) -> list[dict[str, Any]]:
    """The rows of access of a user, as the web API has them."""
    rows = db.execute('SELECT account, reads, trades, cancels FROM access WHERE user = ? '
                      'ORDER BY account', (user,))
    return [asdict(Access(row['account'], *(bool(row[name]) for name in RIGHTS))) for row in rows]


def users_of(db: sqlite3.Connection, doer: acts.Doer, caller: str = '') -> list[dict[str, Any]]:
    """The users whom a manager sees. An officer sees the body's own, and the administrators of
    holders; or each user of the holder that he names."""
    manager = manager_of(db, doer)
    if not manager.is_officer:
        where, values = 'caller = ?', (manager.caller,)
    elif caller:
        where, values = 'caller = ?', (caller,)
    else:
        where, values = 'caller = ? OR administrator', (ISSUER,)
    rows = db.execute(f'SELECT * FROM user WHERE ended IS NULL AND ({where}) '
                      'ORDER BY caller, name LIMIT 5000', values).fetchall()
    return [user_row(db, manager, row) for row in rows]


def user_row(db: sqlite3.Connection, manager: Manager, row: sqlite3.Row) -> dict[str, Any]:
    """A user for a list: nothing of his password, his factors alone by their number."""
    factors = db.execute('SELECT count(*) AS n, max(used) AS used FROM factor '
                         'WHERE user = ? AND confirmed', (row['id'],)).fetchone()
    seen = db.execute('SELECT max(seen) AS seen FROM session WHERE user = ?',
                      (row['id'],)).fetchone()['seen']
    return {'name': row['name'], 'caller': row['caller'], 'role': row['role'],
            'administrator': bool(row['administrator']), 'mail': row['mail'],
            'made': row['made'], 'seen': seen or factors['used'], 'factors': factors['n'],
            'access': access_of(db, row['id']),
            'managed': manager.has(row) and row['id'] != manager.id}


def put_access(db: sqlite3.Connection, user: int, access: Iterable[Access]) -> None:
    """Puts these rows in the place of those of before."""
    db.execute('DELETE FROM access WHERE user = ?', (user,))
    db.executemany('INSERT INTO access VALUES (?, ?, ?, ?, ?)',
                   [(user, of.account, of.reads, of.trades, of.cancels) for of in access])


def give(db: sqlite3.Connection, doer: acts.Doer, name: str, access: tuple[Access, ...] | None,
         administrator: bool | None = None) -> None:
    """Gives a user of a holder these rows of access, and makes him an administrator or no more
    one. None leaves what there is."""
    with changing(db):
        user = managed(db, manager_of(db, doer), name)
        if user['caller'] == ISSUER:
            raise NotAllowed(f'{user["name"]} has a role of the issuing body, and no access')
        if access is not None:
            put_access(db, user['id'], access)
            acts.add(db, doer, 'access_given', user['name'],
                     {'access': [asdict(of) for of in access]})
        if administrator is not None and administrator != bool(user['administrator']):
            db.execute('UPDATE user SET administrator = ? WHERE id = ?',
                       (administrator, user['id']))
            if not administrator:
                revoke_invitations(db, user['id'])
            acts.add(db, doer, 'administrator_set', user['name'], {'administrator': administrator})


def revoke_invitations(db: sqlite3.Connection, user: int) -> None:
    """Takes back each invitation that a user has made and that nobody has accepted."""
    db.execute('UPDATE invitation SET revoked = ? WHERE made_by = ? AND used IS NULL '
               'AND revoked IS NULL', (now(), user))


def end_user(db: sqlite3.Connection, doer: acts.Doer, name: str) -> None:
    """Ends a user for good. His name stays his: nobody else gets it."""
    with changing(db):
        user = users.by_id(db, managed(db, manager_of(db, doer), name)['id'])
        assert user
        users.end(db, doer, user)


def count_users(db: sqlite3.Connection, caller: str) -> int:
    row = db.execute('SELECT count(*) AS n FROM user WHERE caller = ? AND ended IS NULL',
                     (caller,)).fetchone()
    return int(row['n'])


def has_administrator(db: sqlite3.Connection, caller: str) -> bool:
    return db.execute('SELECT 1 FROM user WHERE caller = ? AND administrator AND ended IS NULL',
                      (caller,)).fetchone() is not None


def acts_of(db: sqlite3.Connection, doer: acts.Doer, before: int | None,
            limit: int) -> list[Mapping[str, Any]]:
    """The acts of people, the newest first: of his caller for an administrator, all of them for
    an officer or an auditor."""
    row = db.execute('SELECT * FROM user WHERE name = ? AND ended IS NULL',
                     (doer.user,)).fetchone()
    sees_all = row and row['caller'] == ISSUER and row['role'] in ('officer', 'auditor')
    if not sees_all and not (row and row['caller'] != ISSUER and row['administrator']):
        raise NotAllowed('acts of people are shown to administrators, officers and auditors')
    where, values = ('1', []) if sees_all else ('caller = ?', [row['caller']])
    found = db.execute(f'SELECT * FROM act WHERE {where} AND id < ? ORDER BY id DESC LIMIT ?',
                       (*values, before or 2 ** 62, limit))
    return [dict(of) for of in found]
