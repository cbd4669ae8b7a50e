"""Who is told of what: users who may see an account, users who may confirm, the issuing body."""
import sqlite3
from collections.abc import Iterable

from goo_service.rules.commands import ISSUER

EVERY = 0
"""The account of an access row that stands for each account of the holder."""


def readers(db: sqlite3.Connection, holder: str,
            accounts: Iterable[int]) -> dict[int, frozenset[int]]:
    """The users of a holder who may see one of these accounts, each with those that he sees."""
    asked = frozenset(accounts)
    found: dict[int, set[int]] = {}
    rows = db.execute(
        'SELECT access.user, access.account FROM user JOIN access ON access.user = user.id '
        'WHERE user.caller = ? AND user.ended IS NULL '
        'AND (access.reads OR access.trades OR access.cancels)', (holder,))
    for user, account in rows:
        seen = asked if account == EVERY else asked & {account}
        if seen:
            found.setdefault(user, set()).update(seen)
    return {user: frozenset(seen) for user, seen in found.items()}


def officers(db: sqlite3.Connection) -> list[int]:
    """The users of the issuing body who act for it."""
    found = db.execute('SELECT id FROM user WHERE caller = ? AND ended IS NULL '
                       "AND role IN ('officer', 'second')", (ISSUER,))
    return [user for user, in found]


def confirmers(db: sqlite3.Connection, caller: str, asker: int) -> list[int]:
    """The users who may confirm what another user of the same caller asks."""
    if caller == ISSUER:
        return [user for user in officers(db) if user != asker]
    found = db.execute(
        'SELECT DISTINCT user.id FROM user JOIN access ON access.user = user.id '
        'WHERE user.caller = ? AND user.ended IS NULL AND user.id <> ? '
        'AND (access.trades OR access.cancels)', (caller, asker))
    return [user for user, in found]
