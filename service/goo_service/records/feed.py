"""Acts as they come, the oldest first: what programs follow the registry by.

`after` is the last entry that the asker has seen, and the answer's `next` is what to ask after
then. An entry may have more acts than an answer holds. So `next` may be 4711.1000: all entries up
to 4711 are seen, and of entry 4712 the first 1,000 acts.

With `wait` an answer without an act is held back until one comes, for so many seconds at most. Few
wait at once, and of each user one in each process: a thread waits for each.
"""
import contextlib
import re
import sqlite3
import threading
import time
from collections.abc import Callable
from collections.abc import Iterator
from dataclasses import dataclass
from dataclasses import field

from goo_service.records.acts import RANGES
from goo_service.records.acts import find_acts
from goo_service.records.acts import render_act
from goo_service.records.questions import BadQuestion
from goo_service.records.questions import Given
from goo_service.records.questions import Listed
from goo_service.records.questions import Row
from goo_service.records.questions import Viewer
from goo_service.records.questions import limit_of
from goo_service.records.questions import number_or
from goo_service.records.questions import read
from goo_service.records.questions import standing

PLACE = re.compile(r'([0-9]{1,15})(?:\.([0-9]{1,9}))?')
LONGEST = 30
"""Seconds that an answer is held back at most."""
LOOK = 0.25
"""Seconds between two looks whether the book has gone on."""
NEVER = ('before', 'entry', 'folded', 'format')
"""Parameters that a feed does not take."""


@dataclass(frozen=True)
class Place:
    """How far somebody has read: all acts of the entries up to one, and some of what follows."""

    entry: int
    acts: int = 0

    def __str__(self) -> str:
        return f'{self.entry}.{self.acts}' if self.acts else f'{self.entry}'

    def after(self, entries: list[int], stands: int, is_full: bool) -> 'Place':
        """The place behind a page of acts of these entries."""
        if not is_full:
            return Place(max(stands, self.entry))
        last = entries[-1]
        seen_before = self.acts if last == self.entry + 1 else 0
        return Place(last - 1, seen_before + entries.count(last))


def place_of(given: Given) -> Place:
    found = PLACE.fullmatch(given['after'])
    if not found:
        raise BadQuestion(f'after is {given["after"]!r}, and not an entry as 4711, or what `next` '
                          'of the answer before was')
    return Place(int(found[1]), int(found[2] or 0))


def seconds_of(given: Given) -> int:
    """How long an answer may be held back."""
    if 'wait' in given and 'after' not in given:
        raise BadQuestion('wait is for acts after an entry alone')
    return number_or(0, given, 'wait', most=LONGEST)


def acts(database: sqlite3.Connection, viewer: Viewer, given: Given) -> Listed:
    """Acts of the entries after one that the viewer may see, the oldest first."""
    if beside := [name for name in NEVER if name in given]:
        raise BadQuestion(f'after does not go with {beside[0]}')
    place, limit = place_of(given), limit_of(given)
    of = find_acts(database, viewer, given)
    found = read(database, f'''SELECT act.* FROM {of.tables} WHERE {of.conditions.where}
                               ORDER BY {of.column} LIMIT ? OFFSET ?''',
                 (*of.conditions.values, limit, place.acts))
    shown = (render_act(database, viewer, act, RANGES) for act in found.rows)

    def beside_of(acts: list[Row]) -> Row:
        entries = [act['entry'] for act in acts]
        stands = int(standing(database)['entry'])
        return {'next': str(place.after(entries, stands, len(acts) == limit))}

    return Listed((*found.columns, 'count', 'ranges', 'ranges_in_all'), shown, beside_of)


# -------------------------------------------------------------------- who waits

class TooMany(Exception):
    """As many wait as may."""


@dataclass
class Waiting:
    """Those who wait for the next act, by their users."""

    most: int
    lock: threading.Lock = field(default_factory=threading.Lock)
    users: set[str] = field(default_factory=set)

    @contextlib.contextmanager
    def one(self, user: str) -> Iterator[None]:
        """A user waits, if he may."""
        with self.lock:
            if user in self.users or len(self.users) >= self.most:
                raise TooMany
            self.users.add(user)
        try:
            yield
        finally:
            with self.lock:
                self.users.discard(user)


def wait_for_entry(entry: Callable[[], int | None], seen: int | None, until: float) -> bool:
    """Whether the book goes on from an entry before the time is over."""
    while time.monotonic() < until:
        if entry() != seen:
            return True
        time.sleep(LOOK)
    return False
