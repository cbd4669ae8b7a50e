"""Passwords: Argon2id, in the same time whoever is asked for.

A host that kept its users in a file has bcrypt hashes of `htpasswd -B`. Such a hash is compared
until its user signs in once; the password is then kept as Argon2id. Each comparison does the work
of both, against decoys where there is nothing to compare, so its time does not tell which users
there are.
"""
import contextlib
import secrets
import threading
import unicodedata
from collections.abc import Iterator

import argon2  # type: ignore[import]
import bcrypt

SHORTEST, LONGEST = 12, 200
"""Characters of a password."""
AT_ONCE = 3
"""Comparisons at once in one process: each takes MEMORY KiB."""
MEMORY, TURNS = 64 << 10, 2
WAIT = 10.0
OLD = '$2'
"""How a bcrypt hash begins."""
OLD_DECOY = b'$2y$08$6oKgfgcaPPdrJFmNPb8Vn.zoMilNsYJFKY9NiC9vva1cP3n9xG/2y'
"""Of no password that anybody knows; with the cost that goo-setup gave each user."""


class Busy(Exception):
    """Too many passwords are being compared."""


def fault_of(password: str, name: str = '') -> str:
    """What keeps a text from being a new password; empty where nothing does."""
    if not SHORTEST <= len(password) <= LONGEST:
        return f'a password has {SHORTEST} to {LONGEST} characters'
    if any(unicodedata.category(letter) == 'Cc' for letter in password):
        return 'a password has no control characters'
    if name and password.casefold() == name.casefold():
        return 'a password is not the name'
    if len(set(password)) < 4:
        return 'a password has at least four different characters'
    return ''


def is_comparable(password: str) -> bool:
    """Whether a text may be somebody's password. Those of a file were never bounded from below."""
    return 0 < len(password) <= LONGEST and '\0' not in password


class Passwords:
    """Hashes and compares passwords, a few at a time."""

    def __init__(self, memory: int = MEMORY, turns: int = TURNS) -> None:
        self.hasher = argon2.PasswordHasher(time_cost=turns, memory_cost=memory, parallelism=1)
        self.decoy = str(self.hasher.hash(secrets.token_hex(16)))
        self.room = threading.BoundedSemaphore(AT_ONCE)

    @contextlib.contextmanager
    def in_turn(self) -> Iterator[None]:
        if not self.room.acquire(timeout=WAIT):
            raise Busy
        try:
            yield
        finally:
            self.room.release()

    def hash(self, password: str) -> str:
        with self.in_turn():
            return str(self.hasher.hash(unicodedata.normalize('NFC', password)))

    def matches(self, kept: str | None, password: str) -> bool:
        """Whether a password is the one of which `kept` is the hash. None is nobody's."""
        is_old = kept is not None and kept.startswith(OLD)
        with self.in_turn():
            old = matches_old(kept.encode() if kept and is_old else OLD_DECOY, password)
            new = self.matches_new(kept if kept and not is_old else self.decoy, password)
        return kept is not None and (old if is_old else new)

    def matches_new(self, kept: str, password: str) -> bool:
        try:
            return bool(self.hasher.verify(kept, unicodedata.normalize('NFC', password)))
        except (argon2.exceptions.VerificationError, argon2.exceptions.InvalidHash):
            return False

    def is_outdated(self, kept: str) -> bool:
        """Whether the hash is to be made anew from the password that was just compared."""
        return kept.startswith(OLD) or bool(self.hasher.check_needs_rehash(kept))


def matches_old(kept: bytes, password: str) -> bool:
    try:
        return bcrypt.checkpw(password.encode(), kept)
    except ValueError:
        return False
