"""What a user may ask: by role in the issuing body, by account in a holder.

A row of the table `access` has what a user may do with an account; account 0 stands for each
account of the holder. `trades` is to transfer, to export and to close, `cancels` is to cancel.
"""
import sqlite3
from dataclasses import dataclass

from goo_service.people.asked import Line
from goo_service.rules.commands import ISSUER

RIGHTS = {'transfer': 'trades', 'export': 'trades', 'close_account': 'trades', 'cancel': 'cancels'}
"""The right on the account that is asked of, for each command that a holder may give. The registry
refuses a holder all others."""
EACH = 0
"""The account that stands for each account of the holder."""
ASKS = ('officer', 'user')
"""Roles that ask more than declarations."""
CONFIRMS = ('officer', 'second')
"""Roles of the body that confirm what waits."""


@dataclass(frozen=True, slots=True)
class Access:
    """A user, with what he may ask."""

    user: int
    name: str
    caller: str
    role: str
    trades: frozenset[int]
    cancels: frozenset[int]

    @property
    def is_unlimited(self) -> bool:
        """Whether he may ask whatever his caller may."""
        if self.caller == ISSUER:
            return self.role == 'officer'
        return self.role == 'user' and EACH in self.trades and EACH in self.cancels

    def may(self, command: str, account: int | None) -> bool:
        """Whether he has the right that a holder's command needs on its account."""
        of = self.trades if RIGHTS[command] == 'trades' else self.cancels
        return EACH in of or account in of

    def fault_of(self, line: Line) -> str:
        """Why he may not ask this; empty where he may."""
        if self.role == 'meters':
            return '' if line.command == 'declare' else 'is no declaration'
        if self.role not in ASKS:
            return 'is a write'
        if self.is_unlimited:
            return ''
        if line.is_doubtful:
            return 'names a member twice'
        if line.command in RIGHTS and not self.may(line.command, line.account):
            return f'is a {line.command} of account {line.account}'
        return '' if self.trades or self.cancels else 'is a write'

    def may_confirm(self, line: Line) -> bool:
        """Whether he may confirm this, when another user asked it."""
        if self.caller == ISSUER:
            return self.role in CONFIRMS
        return self.role == 'user' and not self.fault_of(line)


def access_of(db: sqlite3.Connection, user: int | str) -> Access | None:
    """The access of a user who has not ended, by number or by name."""
    by = 'id' if isinstance(user, int) else 'name'
    row = db.execute(f'SELECT id, name, caller, role FROM user WHERE {by} = ? AND ended IS NULL',
                     (user,)).fetchone()
    if row is None:
        return None
    rows = db.execute('SELECT account, trades, cancels FROM access WHERE user = ?',
                      (row['id'],)).fetchall()
    return Access(row['id'], row['name'], row['caller'], row['role'],
                  frozenset(of['account'] for of in rows if of['trades']),
                  frozenset(of['account'] for of in rows if of['cancels']))
