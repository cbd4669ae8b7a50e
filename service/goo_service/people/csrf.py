"""The word that a page sends along with each request that changes something.

It is signed for one session, by the hash of its cookie, with the file's own secret. A page of
another site can't read it, so it can't send it. A number of a session may come again once the
session has ended, and its cookie does not.
"""
import hmac

from itsdangerous import Signer

SALT = 'goo-people csrf'


def word_of(secret: bytes, session: bytes) -> str:
    """The word of a session, by the hash of its cookie."""
    signer = Signer(secret, salt=SALT, key_derivation='hmac', digest_method='sha256')
    return signer.get_signature(session).decode()


def is_right(secret: bytes, session: bytes, given: str) -> bool:
    return hmac.compare_digest(word_of(secret, session).encode(), given.encode())
