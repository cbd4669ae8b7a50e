"""Tokens of programs: made by a user, shown once, revoked at once.

A token is `goo_` and 43 characters of base64url, kept as its SHA-256. Its scope and its end are
set when it is made, and stay.
"""
import re
import sqlite3
from dataclasses import dataclass
from typing import Any

from goo_service.people import acts
from goo_service.people import secret
from goo_service.people.access import Access
from goo_service.people.acts import Doer
from goo_service.people.store import now
from goo_service.rules.commands import ISSUER

PREFIX = 'goo_'
DAY = 86_400
LONGEST = 366
"""Days that a token is good for at most."""
MOST = 20
"""Tokens of a user that are good at once."""
MOST_QUANTITY, LAST_ACCOUNT = 10 ** 12, 999_999_999
NAME = re.compile('[!-~]([ -~]{0,38}[!-~])?')
"""1 to 40 printable ASCII characters, as the log and a header have it, with no blank at an end."""
COLUMNS = 'id, name, reads, declares, trades, most, account, made, ends, used, revoked'


class WrongToken(ValueError):
    """A token that can't be made. The text names what is wrong."""


@dataclass(frozen=True)
class Wanted:
    """A token that is to be made."""

    name: str
    reads: bool
    declares: bool
    trades: bool
    most: int | None
    """Certificates a day."""
    account: int | None
    ends: int
    """A moment."""


def fault_of(of: Access, wanted: Wanted, at: int) -> str:
    """What keeps a token from being made; empty where nothing does."""
    if not NAME.fullmatch(wanted.name):
        return 'name: 1 to 40 printable ASCII characters, with no blank at an end'
    if not (wanted.reads or wanted.declares or wanted.trades):
        return 'a token reads, declares or trades'
    if not at < wanted.ends <= at + LONGEST * DAY:
        return f'ends: a moment within {LONGEST} days from now'
    if not wanted.trades and (wanted.most is not None or wanted.account is not None):
        return 'most and account: of a token that trades'
    if wanted.most is not None and not 1 <= wanted.most <= MOST_QUANTITY:
        return f'most: a whole number of 1 to {MOST_QUANTITY}'
    if wanted.account is not None and not 1 <= wanted.account <= LAST_ACCOUNT:
        return f'account: a whole number of 1 to {LAST_ACCOUNT}'
    return beyond_user(of, wanted)


def beyond_user(of: Access, wanted: Wanted) -> str:
    """What of a scope its user may not do; empty where nothing is."""
    if wanted.declares and of.role not in ('officer', 'meters'):
        return f'declares: {of.name} may not declare'
    if wanted.reads and of.role == 'meters':
        return f'reads: {of.name} may not read'
    may_trade = of.role == 'officer' or of.role == 'user' and bool(of.trades or of.cancels)
    if wanted.trades and not may_trade:
        return f'trades: {of.name} may not trade'
    if wanted.account is not None and of.caller == ISSUER:
        return 'account: of a token of a holder'
    return ''


def make(db: sqlite3.Connection, of: Access, doer: Doer, wanted: Wanted) -> tuple[int, str]:
    """A new token, inside a change: its number, and the token itself, which nothing keeps."""
    at = now()
    if fault := fault_of(of, wanted, at):
        raise WrongToken(fault)
    good = db.execute('SELECT name FROM token WHERE user = ? AND revoked IS NULL AND ends > ?',
                      (of.user, at)).fetchall()
    if len(good) >= MOST:
        raise WrongToken(f'{of.name} has {MOST} tokens already: revoke one first')
    if any(row['name'] == wanted.name for row in good):
        raise WrongToken(f'name: there is a token {wanted.name} already')
    token = PREFIX + secret.make()
    number = db.execute(
        'INSERT INTO token (hash, user, name, reads, declares, trades, most, account, made, ends) '
        'VALUES (?, ?, ?, ?, ?, ?, ?, ?, ?, ?)',
        (secret.hash_of(token), of.user, wanted.name, int(wanted.reads),
         int(wanted.declares), int(wanted.trades), wanted.most, wanted.account, at,
         wanted.ends)).lastrowid
    assert number
    acts.add(db, doer, 'token_made', wanted.name, {
        'number': number, 'reads': wanted.reads, 'declares': wanted.declares,
        'trades': wanted.trades, 'most': wanted.most, 'account': wanted.account,
        'ends': wanted.ends})
    return number, token


def revoke(db: sqlite3.Connection, user: int, doer: Doer, number: int) -> bool:
    """Ends a token of a user, inside a change. False where there is none that is good."""
    row = db.execute('SELECT name FROM token WHERE id = ? AND user = ? AND revoked IS NULL',
                     (number, user)).fetchone()
    if row is None:
        return False
    db.execute('UPDATE token SET revoked = ? WHERE id = ?', (now(), number))
    acts.add(db, doer, 'token_revoked', row['name'], {'number': number})
    return True


def list_of(db: sqlite3.Connection, user: int) -> list[dict[str, Any]]:
    """The tokens of a user, the newest first, those that have ended too."""
    rows = db.execute(f'SELECT {COLUMNS} FROM token WHERE user = ? ORDER BY id DESC LIMIT 200',
                      (user,))
    return [{**dict(row), **{name: bool(row[name]) for name in ('reads', 'declares', 'trades')}}
            for row in rows]
