"""Secrets that are shown once and kept as hashes: sessions, tokens, invitations.

Each is made of 32 bytes by chance, so a plain SHA-256 is enough: there is nothing to guess.
"""
import hashlib
import re
import secrets

FORM = re.compile(r'[A-Za-z0-9_-]{43}')


def make() -> str:
    """A new secret: 43 characters of base64url."""
    return secrets.token_urlsafe(32)


def hash_of(text: str) -> bytes:
    """What is kept of a secret."""
    return hashlib.sha256(text.encode()).digest()
