"""What a browser keeps between two steps of a sign-in: signed, short-lived, and taken once.

It is a cookie and no session: the front door hands it to goo-people-web alone, as the field
GOO-Step. A step says for what it was made, so that of one sign-in serves no other.
"""
import sqlite3
from typing import Any

from itsdangerous import BadData
from itsdangerous import URLSafeTimedSerializer

from goo_service.people import secret
from goo_service.people import store

COOKIE = '__Host-goo-step'
LASTS = 5 * 60
LONGEST = 2048


def serializer(db: sqlite3.Connection, kind: str) -> URLSafeTimedSerializer:
    return URLSafeTimedSerializer(store.secret_of(db), salt=f'goo-people step {kind}',
                                  signer_kwargs={'key_derivation': 'hmac',
                                                 'digest_method': 'sha256'})


def make(db: sqlite3.Connection, kind: str, values: dict[str, Any]) -> str:
    """A step of a kind, with what it is about. It holds no secret: it is signed, not enciphered."""
    return str(serializer(db, kind).dumps({**values, 'once': secret.make()}))


def read(db: sqlite3.Connection, kind: str, text: str) -> dict[str, Any] | None:
    """What a step of a kind says; None where it is over, of another kind, or nobody's."""
    try:
        values = serializer(db, kind).loads(text[:LONGEST], max_age=LASTS)
    except BadData:
        return None
    return values if isinstance(values, dict) else None


def spend(db: sqlite3.Connection, text: str) -> bool:
    """Takes a step, inside a change; whether it was not taken before."""
    at = store.now()
    db.execute('DELETE FROM spent WHERE until < ?', (at,))
    done = db.execute('INSERT OR IGNORE INTO spent VALUES (?, ?)',
                      (secret.hash_of(text), at + 2 * LASTS))
    return bool(done.rowcount)


def cookie_of(text: str, same_site: str = 'Strict') -> str:
    """The field Set-Cookie. Lax is for a sign-in that comes back from another site."""
    lasts = LASTS if text else 0
    return (f'{COOKIE}={text}; Path=/; Secure; HttpOnly; SameSite={same_site}; '
            f'Max-Age={lasts}')
