"""Delays of sign-in, by user and network. A delay is no ban.

Whoever knows a name can't shut out its owner: what fails elsewhere delays nobody who comes from a
place that the user has signed in from before. Names that no user has are delayed in the same way.
"""
import sqlite3
from dataclasses import dataclass

from goo_service.people import places
from goo_service.people.store import now
from goo_service.people.users import User

FORGOTTEN = 24 * 60 * 60
"""Seconds after the last failure until all of them are forgotten."""
MOST = 100_000
"""Rows of the table: more, and the oldest go."""


@dataclass(frozen=True)
class Rule:
    """How many failures are free, and how long the delay becomes at most. It doubles each time."""

    free: int
    most: int

    def seconds(self, failures: int) -> int:
        over = failures - self.free
        return min(self.most, 1 << min(over, 30)) if over > 0 else 0


PAIR = Rule(5, 15 * 60)
"""Of one name from one network."""
NET = Rule(30, 15 * 60)
"""Of one network, whatever the names."""
EVERYWHERE = Rule(50, 10)
"""Of one name, from all networks that its user doesn't come from."""
CODE = Rule(5, 15 * 60)
"""Of codes and keys, behind a right password."""
HOME = Rule(5, 60)
"""Of one name, or of its codes, from a place that its user comes from."""


@dataclass(frozen=True)
class Try:
    """Somebody who signs in: with which name, from where, and which user that is, if any."""

    name: str
    net: str
    user: User | None
    is_code: bool = False

    def keys(self, db: sqlite3.Connection) -> dict[str, Rule]:
        """What this try is delayed by, and what a failure adds to."""
        name, net = self.name.lower()[:200], self.net[:64]
        step = 'code' if self.is_code else 'name'
        if self.user and places.is_known(db, self.user.id, self.net):
            return {f'{step} {net} {name}': HOME}
        if self.is_code:
            return {f'code {name}': CODE, f'net {net}': NET}
        return {f'name {net} {name}': PAIR, f'net {net}': NET, f'name {name}': EVERYWHERE}


def wait(db: sqlite3.Connection, of: Try) -> int:
    """Seconds until this may be tried; 0 where it may be now."""
    at, untils = now(), [0]
    for key in of.keys(db):
        row = db.execute('SELECT until FROM delay WHERE key = ?', (key,)).fetchone()
        untils += [int(row['until'])] if row else []
    return max(0, max(untils) - at)


def failed(db: sqlite3.Connection, of: Try) -> int:
    """Counts a failure, inside a change; how many there are by now of the first of its keys."""
    at, counts = now(), []
    db.execute('DELETE FROM delay WHERE seen < ?', (at - FORGOTTEN,))
    for key, rule in of.keys(db).items():
        row = db.execute('SELECT failures FROM delay WHERE key = ?', (key,)).fetchone()
        count = 1 + (int(row['failures']) if row else 0)
        counts.append(count)
        db.execute('INSERT OR REPLACE INTO delay VALUES (?, ?, ?, ?)',
                   (key, count, at + rule.seconds(count), at))
    if db.execute('SELECT count(*) FROM delay').fetchone()[0] > MOST:
        db.execute('DELETE FROM delay WHERE key IN (SELECT key FROM delay ORDER BY seen LIMIT ?)',
                   (MOST // 10,))
    return counts[0]


def passed(db: sqlite3.Connection, of: Try) -> None:
    """Forgets what failed of this name from this network, inside a change. What the network failed
    with other names stays: whoever has a user of his own would clear it with that."""
    for key, rule in of.keys(db).items():
        if rule is not NET:
            db.execute('DELETE FROM delay WHERE key = ?', (key,))
