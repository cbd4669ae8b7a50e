"""Passwords of programs that were taken over from the files: they work by Basic until a day.

Until then each password that is sent by Basic is compared, with a decoy where there is none, so
that its time tells nothing. A network may have a few compared, one a second and some at once. One
that was right is right for a while without being compared, as long as the file has the same hash.
"""
import hashlib
import sqlite3
import threading
import time

from goo_service.people.passwords import OLD
from goo_service.people.passwords import OLD_DECOY
from goo_service.people.passwords import matches_old
from goo_service.people.store import now

BURST, LASTS = 20, 30 * 60
"""Comparisons at once for a network; seconds for which a right password is not compared again."""
MOST = 10_000
"""Networks, and right passwords, that are kept in mind."""


class TooOften(Exception):
    """A network may have no more passwords compared now."""


class Basic:
    """Compares for one process."""

    def __init__(self) -> None:
        self.right: dict[bytes, float] = {}
        self.nets: dict[str, tuple[float, float]] = {}
        self.lock = threading.Lock()

    def takes(self, net: str) -> bool:
        """Whether one more may be compared for a network: a bucket that fills by one a second."""
        at = time.monotonic()
        with self.lock:
            if len(self.nets) > MOST:
                self.nets.clear()
            left, since = self.nets.get(net, (float(BURST), at))
            left = min(float(BURST), left + at - since)
            self.nets[net] = (max(0.0, left - 1), at)
        return left >= 1

    def matches(self, kept: str | None, name: str, word: str, net: str) -> bool:
        """Whether this is the password of a program. `kept` is None where there is no program."""
        is_old = kept is not None and kept.startswith(OLD)
        text = f'{name.lower()}\0{word}\0{kept}'
        key, at = hashlib.sha256(text.encode()).digest(), time.monotonic()
        if is_old and self.right.get(key, 0) > at:
            return True
        if not self.takes(net):
            raise TooOften
        done = matches_old(kept.encode() if kept and is_old else OLD_DECOY, word)
        if done and is_old:
            with self.lock:
                if len(self.right) > MOST:
                    self.right.clear()
                self.right[key] = at + LASTS
        return done and is_old


def is_over(db: sqlite3.Connection) -> bool:
    """Whether no program's password is taken any more."""
    return db.execute('SELECT 1 FROM user WHERE basic_until > ? AND ended IS NULL LIMIT 1',
                      (now(),)).fetchone() is None
