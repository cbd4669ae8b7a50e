"""The certificates that the requests of a token move in a day (UTC), and what is left of them.

A request counts before it is sent. It is given back where the answer shows that it moved nothing,
and stays where no answer came. Each key counts once, as the registry carries it out once.
"""
import sqlite3
from collections.abc import Mapping
from collections.abc import Sequence
from dataclasses import dataclass
from dataclasses import field
from enum import Enum

from goo_service.people.asked import Line
from goo_service.people.scopes import Scope
from goo_service.people.scopes import day_of
from goo_service.people.store import now

KEPT = 3 * 86_400
"""Seconds that a day's use is kept."""


class Fate(Enum):
    """What an answer says of a request."""

    MOVED = 'moved, or nobody knows'
    NOTHING = 'it moved nothing; an earlier one under its key may have'
    FREE = 'it moved nothing, and nor did an earlier one under its key'


class TooMuch(Exception):
    """The quantity of the day is used up. The text names the token."""


@dataclass(frozen=True)
class Reserved:
    """What a request counts: of which token, in which day, under which keys."""

    token: int
    day: str
    before: Mapping[str, int]
    """What each key counted before."""


@dataclass
class Flight:
    """Requests under one key that are under way at once."""

    before: int
    """What the key counted before the first of them."""
    count: int = 0
    fates: set[Fate] = field(default_factory=set)


@dataclass
class Uses:
    """The use of tokens, by a process that sends their requests. What is under way when it ends
    stays counted."""

    flights: dict[tuple[int, str, str], Flight] = field(default_factory=dict)

    @staticmethod
    def reserve(db: sqlite3.Connection, scope: Scope, lines: Sequence[Line]) -> Reserved:
        """Counts the requests of a body, inside a change. TooMuch where the day has no room."""
        day, wanted = day_of(now()), quantities(lines)
        there = {key: used_by(db, scope.token, day, key) for key in wanted}
        more = sum(max(0, wanted[key] - there[key]) for key in wanted)
        used, most = used_in(db, scope.token, day), scope.most or 0
        if used + more > most:
            raise TooMuch(f'the token {scope.name} moves {most} certificates a day (UTC) at most: '
                          f'{used} are counted today, and this moves {more} more')
        for key, quantity in wanted.items():
            write(db, (scope.token, day, key), max(there[key], quantity))
        return Reserved(scope.token, day, there)

    def depart(self, reserved: Reserved) -> None:
        """A request is under way, once what it counts is on the disk."""
        for key, before in reserved.before.items():
            place = (reserved.token, reserved.day, key)
            self.flights.setdefault(place, Flight(before)).count += 1

    def settle(self, db: sqlite3.Connection, reserved: Reserved,
               fates: Mapping[str, Fate]) -> None:
        """What became of a request: of each key, inside a change. A key without a fate counts as
        moved."""
        for key in reserved.before:
            place = (reserved.token, reserved.day, key)
            flight = self.flights[place]
            flight.count -= 1
            flight.fates.add(fates.get(key, Fate.MOVED))
            if not flight.count:
                del self.flights[place]
                give_back(db, place, flight)


def give_back(db: sqlite3.Connection, place: tuple[int, str, str], flight: Flight) -> None:
    """What a key counts once no request under it is under way."""
    if Fate.MOVED not in flight.fates:
        write(db, place, flight.before if Fate.NOTHING in flight.fates else 0)


def quantities(lines: Sequence[Line]) -> dict[str, int]:
    """What counts of a body, by keys."""
    return {line.key: line.quantity for line in lines if line.quantity}


def used_by(db: sqlite3.Connection, token: int, day: str, key: str) -> int:
    row = db.execute('SELECT quantity FROM token_use WHERE token = ? AND day = ? AND key = ?',
                     (token, day, key)).fetchone()
    return int(row['quantity']) if row else 0


def used_in(db: sqlite3.Connection, token: int, day: str) -> int:
    """What is counted of a day."""
    row = db.execute('SELECT coalesce(sum(quantity), 0) AS used FROM token_use '
                     'WHERE token = ? AND day = ?', (token, day)).fetchone()
    return int(row['used'])


def write(db: sqlite3.Connection, place: tuple[int, str, str], quantity: int) -> None:
    """Has a key count so many; none where that is 0."""
    if quantity:
        db.execute('INSERT OR REPLACE INTO token_use VALUES (?, ?, ?, ?)', (*place, quantity))
    else:
        db.execute('DELETE FROM token_use WHERE token = ? AND day = ? AND key = ?', place)


def forget(db: sqlite3.Connection) -> None:
    """Takes away the use of days that are over, inside a change."""
    db.execute('DELETE FROM token_use WHERE day < ?', (day_of(now() - KEPT),))
