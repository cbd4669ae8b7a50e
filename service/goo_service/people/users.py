"""Users: who they are, for which caller, and what the front door is told of each."""
import sqlite3
from dataclasses import dataclass
from typing import Any

from goo_service.people import acts
from goo_service.people.acts import Doer
from goo_service.people.callers import CALLER
from goo_service.people.callers import REGISTRY
from goo_service.people.callers import name_fault
from goo_service.people.store import now

ISSUER = 'ISSUER'
OF_BODY = {'officer': 'full', 'second': 'reads', 'auditor': 'reads', 'meters': 'declares'}
"""Each role of the issuing body, and what the front door and the log call it."""
OF_HOLDER = ('user', 'meters')
PEER = 'peer'
COLUMNS = 'id, name, caller, role, administrator, mail, language, made, ended, source'
MOST = 10_000
"""Users of a file, those who have ended too."""


class WrongUser(ValueError):
    """A user that can't be. The text names what is wrong."""


@dataclass(frozen=True)
class User:
    """A user as the file has it. The password is read by `password_of` alone."""

    id: int
    name: str
    caller: str
    role: str
    administrator: bool
    mail: str | None
    language: str | None
    made: int
    ended: int | None
    source: str
    """How the user came: 'invitation', 'host', 'files' (taken over), 'certificate' or 'oidc'."""


@dataclass(frozen=True)
class Rights:
    """What of a user's access the front door is told."""

    trades: bool
    """Whether some account may be traded or cancelled from."""
    accounts: tuple[int, ...]
    """Accounts that may be read; 0 stands for each account of the holder."""


@dataclass(frozen=True)
class New:
    """A user who is to be made."""

    name: str
    caller: str
    role: str
    administrator: bool = False
    mail: str | None = None
    language: str | None = None
    password: str | None = None
    """Its hash."""
    source: str = 'invitation'


def user_of(row: sqlite3.Row | None) -> User | None:
    if row is None:
        return None
    values: dict[str, Any] = {name: row[name] for name in COLUMNS.split(', ')}
    values['administrator'] = bool(row['administrator'])
    return User(**values)


def find(db: sqlite3.Connection, name: str) -> User | None:
    """The user of a name, whatever its case, also one who has ended."""
    return user_of(db.execute(f'SELECT {COLUMNS} FROM user WHERE name = ?', (name,)).fetchone())


def by_id(db: sqlite3.Connection, number: int) -> User | None:
    return user_of(db.execute(f'SELECT {COLUMNS} FROM user WHERE id = ?', (number,)).fetchone())


def list_of(db: sqlite3.Connection, caller: str | None = None) -> list[User]:
    """All users, or those of a caller."""
    where, values = ('', ()) if caller is None else ('WHERE caller = ?', (caller,))
    rows = db.execute(f'SELECT {COLUMNS} FROM user {where} ORDER BY name', values)
    return [user for row in rows if (user := user_of(row))]


def password_of(db: sqlite3.Connection, user: User) -> str | None:
    row = db.execute('SELECT password FROM user WHERE id = ?', (user.id,)).fetchone()
    return row['password'] if row else None


def fault_of(new: New) -> str:
    """What keeps a user from being made; empty where nothing does."""
    if fault := name_fault(new.name, new.source == 'certificate'):
        return fault
    if new.role == PEER:
        return '' if REGISTRY.fullmatch(new.caller) else f'{new.caller}: a peer has two digits'
    if not CALLER.fullmatch(new.caller):
        return f"{new.caller}: no holder's code, nor ISSUER"
    if new.role not in (OF_BODY if new.caller == ISSUER else OF_HOLDER):
        return f'{new.role}: no role of {new.caller}'
    return ''


def make(db: sqlite3.Connection, doer: Doer, new: New) -> User:
    """A new user, inside a change. A name stays taken when its user has ended."""
    if fault := fault_of(new):
        raise WrongUser(fault)
    if find(db, new.name):
        raise WrongUser(f'{new.name}: this name is taken')
    if db.execute('SELECT count(*) FROM user').fetchone()[0] >= MOST:
        raise WrongUser(f'there are {MOST} users already')
    made = now()
    number = db.execute(
        'INSERT INTO user (name, caller, role, administrator, mail, language, password, '
        'password_set, made, source) VALUES (?, ?, ?, ?, ?, ?, ?, ?, ?, ?)',
        (new.name, new.caller, new.role, int(new.administrator), new.mail, new.language,
         new.password, made if new.password else None, made, new.source)).lastrowid
    acts.add(db, doer, 'user_made', new.name,
             {'caller': new.caller, 'role': new.role, 'administrator': new.administrator})
    assert number
    user = by_id(db, number)
    assert user
    return user


def is_program(db: sqlite3.Connection, user: User) -> bool:
    """Whether a program still signs in with this user's password, as it was taken over."""
    row = db.execute('SELECT 1 FROM user WHERE id = ? AND basic_until > ?', (user.id, now()))
    return row.fetchone() is not None


def set_password(db: sqlite3.Connection, user: User, kept: str) -> None:
    """Keeps the hash of a password, inside a change."""
    db.execute('UPDATE user SET password = ?, password_set = ? WHERE id = ?',
               (kept, now(), user.id))


def end(db: sqlite3.Connection, doer: Doer, user: User) -> None:
    """Ends a user with all that the user can act by, inside a change: sessions, tokens, webhooks,
    and the open invitations that the user has made."""
    at = now()
    db.execute('UPDATE user SET ended = ?, administrator = 0 WHERE id = ? AND ended IS NULL',
               (at, user.id))
    db.execute('DELETE FROM session WHERE user = ?', (user.id,))
    for table in ('token', 'hook'):
        db.execute(f'UPDATE {table} SET revoked = ? WHERE user = ? AND revoked IS NULL',
                   (at, user.id))
    db.execute('UPDATE invitation SET revoked = ? WHERE (made_by = ? OR for_user = ?) '
               'AND used IS NULL AND revoked IS NULL', (at, user.id, user.id))
    acts.add(db, doer, 'user_ended', user.name, {'caller': user.caller})


def give_access(db: sqlite3.Connection, user: User, account: int, *, reads: bool, trades: bool,
                cancels: bool) -> None:
    """What a user may do with an account, inside a change; 0 stands for each of the holder's."""
    db.execute('INSERT OR REPLACE INTO access VALUES (?, ?, ?, ?, ?)',
               (user.id, account, int(reads), int(trades), int(cancels)))


def rights_of(db: sqlite3.Connection, user: User) -> Rights:
    rows = db.execute('SELECT account, reads, trades, cancels FROM access WHERE user = ? '
                      'ORDER BY account', (user.id,)).fetchall()
    return Rights(any(row['trades'] or row['cancels'] for row in rows),
                  tuple(row['account'] for row in rows if row['reads']))


def entry_of(caller: str, role: str, trades: bool) -> str:
    """A caller and a role as the front door takes them: 'SUN full', 'peer 09'."""
    if role == PEER:
        return f'peer {caller}'
    if role == 'user':
        return f'{caller} {"full" if trades else "reads"}'
    return f'{caller} {OF_BODY[role]}'
