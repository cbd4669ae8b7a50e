"""Security keys as a second factor (WebAuthn), by fido2 of Debian.

A key signs a challenge for the name of this host alone, so a page under another name gets nothing
of use. What is kept is the public key and the key's counter: a counter that does not rise tells of
a copied key, which is refused.
"""
import base64
import binascii
import sqlite3
import struct
from dataclasses import dataclass
from typing import Any
from urllib.parse import urlsplit

from cryptography.exceptions import InvalidSignature
from fido2.client import ClientData  # type: ignore[import]
from fido2.ctap2 import AttestationObject  # type: ignore[import]
from fido2.ctap2 import AttestedCredentialData
from fido2.ctap2 import AuthenticatorData
from fido2.server import Fido2Server  # type: ignore[import]

from goo_service.people import factors
from goo_service.people.factors import Factor
from goo_service.people.store import now

ALGORITHMS = (-7, -8, -257)
"""Of COSE: ES256, EdDSA, RS256."""
TIMEOUT = 60_000
"""Milliseconds for which a browser asks for the key."""
LONGEST = 12_000
"""Characters of each part that a browser sends."""
UNREADABLE = (ValueError, KeyError, TypeError, IndexError, AttributeError, struct.error,
              RecursionError, NotImplementedError, InvalidSignature)
"""What bytes that nobody meant come to in fido2."""


class NotRight(Exception):
    """What a browser sent is no answer of a key to this challenge."""


@dataclass(frozen=True)
class Asked:
    """A challenge: what the browser is given, and what this side keeps of it."""

    options: dict[str, Any]
    state: dict[str, Any]


def text_of(data: bytes) -> str:
    """Bytes as WebAuthn's JSON has them: base64url without its padding."""
    return base64.urlsafe_b64encode(data).decode().rstrip('=')


def bytes_of(text: object) -> bytes:
    if not isinstance(text, str) or len(text) > LONGEST:
        raise NotRight
    try:
        return base64.b64decode(text + -len(text) % 4 * '=', altchars=b'-_', validate=True)
    except (binascii.Error, ValueError) as fault:
        raise NotRight from fault


def server_of(site: str) -> Any:
    """What compares, for the name under which visitors reach this host."""
    def is_ours(origin: str) -> bool:
        parts = urlsplit(origin)
        return parts.scheme == 'https' and parts.hostname == site
    return Fido2Server({'id': site, 'name': site}, attestation='none', verify_origin=is_ours)


def descriptors(own: list[Factor]) -> list[dict[str, str]]:
    return [{'type': 'public-key', 'id': text_of(of.credential)} for of in own if of.credential]


# -------------------------------------------------------------------- adding a key

def begin(site: str, user: int, name: str, own: list[Factor]) -> Asked:
    """A challenge for a new key. A key that the user has already refuses it."""
    handle = str(user).encode()
    asked, state = server_of(site).register_begin(
        {'id': handle, 'name': name, 'displayName': name}, user_verification='discouraged')
    challenge = asked['publicKey']['challenge']
    return Asked({
        'challenge': text_of(challenge), 'rp': {'id': site, 'name': site},
        'user': {'id': text_of(handle), 'name': name, 'displayName': name},
        'pubKeyCredParams': [{'type': 'public-key', 'alg': number} for number in ALGORITHMS],
        'timeout': TIMEOUT, 'attestation': 'none', 'excludeCredentials': descriptors(own),
        'authenticatorSelection': {'userVerification': 'discouraged'}}, state)


def finish(site: str, state: dict[str, Any], given: dict[str, Any]) -> AttestedCredentialData:
    """The credential of a new key, by what the browser sent."""
    client, attestation = (bytes_of(given.get(name)) for name in ('clientDataJSON',
                                                                  'attestationObject'))
    try:
        data = server_of(site).register_complete(state, ClientData(client),
                                                 AttestationObject(attestation))
        credential = data.credential_data
        if credential is None or credential.public_key[3] not in ALGORITHMS:
            raise NotRight
        return credential
    except UNREADABLE as fault:
        raise NotRight from fault


def add(db: sqlite3.Connection, user: int, name: str, credential: AttestedCredentialData) -> int:
    """Keeps a key, inside a change."""
    number = bytes(credential.credential_id)
    if db.execute('SELECT 1 FROM factor WHERE credential = ?', (number,)).fetchone():
        raise NotRight
    return factors.add(db, user, factors.KEY, name, bytes(credential), credential=number,
                       confirmed=True)


# -------------------------------------------------------------------- signing in

def challenge(site: str, own: list[Factor]) -> Asked:
    """A challenge for one of a user's keys."""
    asked, state = server_of(site).authenticate_begin(user_verification='discouraged')
    return Asked({'challenge': text_of(asked['publicKey']['challenge']), 'rpId': site,
                  'timeout': TIMEOUT, 'userVerification': 'discouraged',
                  'allowCredentials': descriptors(own)}, state)


@dataclass(frozen=True)
class Shown:
    """A key that has signed the challenge, with its counter."""

    factor: Factor
    counter: int


def verify(site: str, state: dict[str, Any], own: list[Factor], given: dict[str, Any]) -> Shown:
    """The key that signed, among those of a user."""
    number, client, data, signature = (bytes_of(given.get(name)) for name in (
        'id', 'clientDataJSON', 'authenticatorData', 'signature'))
    kept = {of.credential: of for of in own if of.credential}
    if number not in kept:
        raise NotRight
    try:
        credential = AttestedCredentialData(kept[number].secret)
        shown = AuthenticatorData(data)
        server_of(site).authenticate_complete(state, [credential], number, ClientData(client),
                                              shown, signature)
    except UNREADABLE as fault:
        raise NotRight from fault
    return Shown(kept[number], int(shown.counter))


def spend(db: sqlite3.Connection, shown: Shown) -> bool:
    """Notes the counter of a key, inside a change; whether it has risen. Keys without one say 0."""
    done = db.execute('UPDATE factor SET counter = ?, used = ? WHERE id = ? '
                      'AND (counter < ? OR counter = 0 AND ? = 0)',
                      (shown.counter, now(), shown.factor.id, shown.counter, shown.counter))
    return bool(done.rowcount)
