"""One-time codes by time (RFC 6238): six digits, a new one each 30 seconds.

A code is taken once: the step of time of the last one is kept, and a code of that step or of an
earlier one is refused, as RFC 6238 wants it in section 5.2.
"""
import base64
import hmac
import re
import secrets
import sqlite3

import pyotp

from goo_service.people import factors
from goo_service.people.factors import Factor
from goo_service.people.store import now

STEP = 30
WINDOW = 1
"""Steps before and behind the present one whose codes are taken: clocks differ."""
CODE = re.compile(r'[0-9]{6}')
ISSUER_NAME = 'goo'


def new_seed() -> bytes:
    """A seed of 160 bits, as RFC 4226 recommends."""
    return secrets.token_bytes(20)


def text_of(seed: bytes) -> str:
    """A seed as apps take it."""
    return base64.b32encode(seed).decode()


def uri_of(seed: bytes, user: str, site: str) -> str:
    """What a QR code for an app says."""
    return str(pyotp.TOTP(text_of(seed)).provisioning_uri(name=user, issuer_name=site))


def step_of(seed: bytes, code: str, at: int) -> int | None:
    """The step of time whose code this is, among those that are taken now."""
    made, found = pyotp.TOTP(text_of(seed)), None
    for step in range(at // STEP - WINDOW, at // STEP + WINDOW + 1):
        if hmac.compare_digest(made.at(step * STEP), code):
            found = step
    return found


def spend(db: sqlite3.Connection, factor: Factor, code: str) -> bool:
    """Takes a code of a factor, inside a change; whether it was right and not taken before."""
    step = step_of(factor.secret, code, now()) if CODE.fullmatch(code) else None
    if step is None:
        return False
    done = db.execute('UPDATE factor SET counter = ?, used = ? WHERE id = ? AND counter < ?',
                      (step, now(), factor.id, step))
    return bool(done.rowcount)


def spend_any(db: sqlite3.Connection, user: int, code: str) -> bool:
    """Takes a code of one of a user's confirmed factors, inside a change."""
    return any(spend(db, factor, code) for factor in factors.list_of(db, user)
               if factor.kind == factors.TOTP)
