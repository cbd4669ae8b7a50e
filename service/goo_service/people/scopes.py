"""The scope of a token: what a program that has it may ask, beside what its user may.

A token reads, declares, or trades. `trades` lets it ask whatever its user may, but declarations: of
one account where it names one, and as many certificates in a day (UTC) where it has a quantity.
What names no account, or moves certificates that it does not name, is then not allowed.
"""
import datetime
import sqlite3
from dataclasses import dataclass

from goo_service.people.asked import Line
from goo_service.people.store import now

UNCOUNTED = ('advance', 'import')
"""Commands that move certificates without naming a range."""


@dataclass(frozen=True, slots=True)
class Scope:
    """What a token lets a program ask."""

    token: int
    name: str
    user: int
    reads: bool
    declares: bool
    trades: bool
    most: int | None
    """Certificates that may be moved in a day; None: as many as its user may."""
    account: int | None
    """The one account that may be asked of; None: any of its user's."""

    def fault_of(self, line: Line) -> str:
        """Why the scope does not allow a request; empty where it does."""
        if line.is_doubtful:
            return 'names a member twice'
        if not line.command:
            return '' if self.declares or self.trades else 'is a write'
        if line.command == 'declare':
            return '' if self.declares else 'is a declaration'
        if not self.trades:
            return f'is a {line.command}'
        if self.account is not None and line.account != self.account:
            return f'is not of account {self.account}'
        if self.most is not None and line.command in UNCOUNTED:
            return f'is a {line.command}, which names no quantity'
        return ''


def scope_of(db: sqlite3.Connection, hold: str) -> Scope | None:
    """The scope of a token that may still be used, by its hold; None where there is none."""
    number = int(hold[1:]) if hold.startswith('t') and hold[1:].isdecimal() else 0
    row = db.execute(
        'SELECT id, name, user, reads, declares, trades, most, account FROM token '
        'WHERE id = ? AND revoked IS NULL AND ends > ?', (number, now())).fetchone()
    if row is None:
        return None
    return Scope(row['id'], row['name'], row['user'], bool(row['reads']), bool(row['declares']),
                 bool(row['trades']), row['most'], row['account'])


def is_counted(line: Line) -> bool:
    """Whether a request counts towards the quantity of a day."""
    return bool(line.quantity)


def day_of(moment: int) -> str:
    """The day of a moment, UTC."""
    return datetime.datetime.fromtimestamp(moment, datetime.timezone.utc).date().isoformat()
