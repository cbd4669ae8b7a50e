"""Security keys: a key of software signs as WebAuthn wants it, and what is wrong is refused."""
import hashlib
import json
import secrets
import struct
from dataclasses import dataclass
from dataclasses import field
from pathlib import Path
from typing import Any

import pytest
from cryptography.hazmat.primitives import hashes
from cryptography.hazmat.primitives.asymmetric import ec
from fido2 import cbor  # type: ignore[import]
from goo_service.people import delays
from goo_service.people import keys
from goo_service.people import store
from hypothesis import given
from hypothesis import strategies as some
from people_stage import HOME
from people_stage import PASSWORD
from people_stage import Reply
from people_stage import Stage

PRESENT, WITH_KEY = 0x01, 0x40
"""Flags of authenticator data: the user was there; a credential follows."""


@dataclass
class SoftwareKey:
    """An authenticator, by the section "Authenticator data" of WebAuthn level 2."""

    site: str = 'localhost'
    origin: str = 'https://localhost:8443'
    counter: int = 0
    credential: bytes = field(default_factory=lambda: secrets.token_bytes(32))
    private: ec.EllipticCurvePrivateKey = field(
        default_factory=lambda: ec.generate_private_key(ec.SECP256R1()))

    def data(self, flags: int, more: bytes = b'') -> bytes:
        return (hashlib.sha256(self.site.encode()).digest()
                + struct.pack('>BI', flags, self.counter) + more)

    def client(self, kind: str, challenge: str) -> bytes:
        return json.dumps({'type': kind, 'challenge': challenge, 'origin': self.origin}).encode()

    def cose(self) -> dict[int, Any]:
        """The public key by RFC 9053: kty EC2, ES256, P-256, x and y."""
        numbers = self.private.public_key().public_numbers()
        return {1: 2, 3: -7, -1: 1, -2: numbers.x.to_bytes(32, 'big'),
                -3: numbers.y.to_bytes(32, 'big')}

    def make(self, options: dict[str, Any]) -> dict[str, str]:
        """The answer of navigator.credentials.create()."""
        more = (bytes(16) + struct.pack('>H', len(self.credential)) + self.credential
                + cbor.encode(self.cose()))
        attestation = cbor.encode({'fmt': 'none', 'attStmt': {},
                                   'authData': self.data(PRESENT | WITH_KEY, more)})
        client = self.client('webauthn.create', options['challenge'])
        return {'id': keys.text_of(self.credential), 'clientDataJSON': keys.text_of(client),
                'attestationObject': keys.text_of(attestation)}

    def sign(self, options: dict[str, Any], flags: int = PRESENT,
             kind: str = 'webauthn.get') -> dict[str, str]:
        """The answer of navigator.credentials.get()."""
        self.counter += 1
        client, data = self.client(kind, options['challenge']), self.data(flags)
        signed = data + hashlib.sha256(client).digest()
        return {'id': keys.text_of(self.credential), 'clientDataJSON': keys.text_of(client),
                'authenticatorData': keys.text_of(data),
                'signature': keys.text_of(self.private.sign(signed, ec.ECDSA(hashes.SHA256())))}


@pytest.fixture
def stage(tmp_path: Path) -> Stage:
    return Stage(tmp_path / 'people' / 'people.db')


def add(stage: Stage, session: str, key: SoftwareKey) -> Reply:
    """A key is added to the user of a session."""
    begun = stage.post('me/factors/key/begin', {}, session=session)
    assert begun.status == 200, begun
    return stage.post('me/factors/key/finish',
                      {'name': 'Blue key', 'credential': key.make(begun.json['key'])},
                      session=session, step=begun.cookies['__Host-goo-step'])


def asked(stage: Stage) -> Reply:
    came = stage.post('sign-in', {'user': 'anna', 'password': PASSWORD})
    assert (came.status, came.json['next']) == (200, 'key')
    return came


def shown(stage: Stage, assertion: dict[str, str], step: str, net: str = HOME) -> Reply:
    return stage.post('sign-in/key', {'assertion': assertion}, step=step, net=net)


def signed_in(stage: Stage, key: SoftwareKey) -> Reply:
    begun = asked(stage)
    return shown(stage, key.sign(begun.json['key']), begun.cookies['__Host-goo-step'])


def test_a_key_is_added_and_signs_in(stage: Stage) -> None:
    stage.make_user()
    key = SoftwareKey()
    session = stage.sign_in()
    assert add(stage, session, key).status == 200
    came = signed_in(stage, key)
    assert (came.status, came.json) == (200, {'next': 'done'})
    assert stage.ask(session=came.cookies['__Host-goo']).entry == 'SUN full'
    kinds = [of['kind'] for of in stage.get('me', session).json['factors']]
    assert kinds == ['totp', 'key']
    stage.sign_in()                                     # by a code, as before


def test_a_key_may_be_the_first_factor(stage: Stage) -> None:
    stage.make_user(has_app=False)
    half = stage.post('sign-in', {'user': 'anna', 'password': PASSWORD}).cookies['__Host-goo']
    key = SoftwareKey()
    came = add(stage, half, key)
    assert stage.ask(session=came.cookies['__Host-goo']).entry == 'SUN full'
    assert stage.ask(session=half).status == 401
    assert signed_in(stage, key).status == 200
    other = stage.post('sign-in', {'user': 'anna', 'password': PASSWORD, 'code': '000000'})
    assert other.status == 401


def test_an_answer_is_taken_once(stage: Stage) -> None:
    stage.make_user()
    key = SoftwareKey()
    add(stage, stage.sign_in(), key)
    begun = asked(stage)
    step, answer = begun.cookies['__Host-goo-step'], key.sign(begun.json['key'])
    assert shown(stage, answer, step).status == 200
    assert shown(stage, answer, step).status == 401
    assert shown(stage, key.sign(begun.json['key']), step).status == 401


def test_an_answer_is_for_its_challenge_alone(stage: Stage) -> None:
    stage.make_user()
    key = SoftwareKey()
    add(stage, stage.sign_in(), key)
    one, other = asked(stage), asked(stage)
    assert shown(stage, key.sign(one.json['key']), other.cookies['__Host-goo-step']).status == 401


def test_a_counter_that_does_not_rise_is_a_copied_key(stage: Stage) -> None:
    stage.make_user()
    key = SoftwareKey()
    add(stage, stage.sign_in(), key)
    assert signed_in(stage, key).status == 200
    key.counter -= 1
    assert signed_in(stage, key).status == 401
    assert signed_in(stage, key).status == 200


def test_a_key_without_a_counter_signs_in_again_and_again(stage: Stage) -> None:
    stage.make_user()
    key = SoftwareKey()
    add(stage, stage.sign_in(), key)
    for _ in range(2):
        key.counter = -1
        assert signed_in(stage, key).status == 200


@pytest.mark.parametrize('what', ['origin', 'http', 'part of the name', 'site', 'absent', 'kind',
                                  'another key', 'another user', 'no step'])
def test_what_a_key_must_not_have_signed(stage: Stage, what: str) -> None:
    stage.make_user()
    stage.make_user('bela', 'VOLT')
    key, other = SoftwareKey(), SoftwareKey()
    add(stage, stage.sign_in(), key)
    add(stage, stage.sign_in('bela'), other)
    begun = asked(stage)
    step, options, flags, kind = begun.cookies['__Host-goo-step'], begun.json['key'], PRESENT, ''
    if what in ('origin', 'http', 'part of the name'):
        key.origin = {'origin': 'https://evil.example', 'http': 'http://localhost',
                      'part of the name': 'https://evil.localhost'}[what]
    if what == 'site':
        key.site = 'evil.example'
    if what == 'another key':
        key.private = other.private
    answer = (other if what == 'another user' else key).sign(
        options, 0 if what == 'absent' else flags,
        'webauthn.create' if what == 'kind' else kind or 'webauthn.get')
    assert shown(stage, answer, '' if what == 'no step' else step).status == 401
    assert stage.rows('SELECT 1 FROM session WHERE way = ?', 'key') == []


def test_a_key_that_somebody_has_is_not_added_again(stage: Stage) -> None:
    stage.make_user()
    stage.make_user('bela', 'VOLT')
    key = SoftwareKey()
    assert add(stage, stage.sign_in(), key).status == 200
    assert add(stage, stage.sign_in('bela'), key).status == 400


def test_a_step_of_one_user_adds_no_key_to_another(stage: Stage) -> None:
    stage.make_user()
    stage.make_user('bela', 'VOLT')
    anna, bela, key = stage.sign_in(), stage.sign_in('bela'), SoftwareKey()
    begun = stage.post('me/factors/key/begin', {}, session=anna)
    came = stage.post('me/factors/key/finish', {'credential': key.make(begun.json['key'])},
                      session=bela, step=begun.cookies['__Host-goo-step'])
    assert came.status == 400
    came = stage.post('sign-in/key', {'assertion': key.sign(begun.json['key'])},
                      step=begun.cookies['__Host-goo-step'])
    assert came.status == 401


@given(some.binary(max_size=200), some.binary(max_size=200))
def test_any_bytes_are_no_key(client: bytes, data: bytes) -> None:
    """Nothing but NotRight comes of them."""
    state = keys.begin('localhost', 1, 'anna', []).state
    with pytest.raises(keys.NotRight):
        keys.finish('localhost', state, {'clientDataJSON': keys.text_of(client),
                                         'attestationObject': keys.text_of(data)})


def test_keys_are_not_guessed(stage: Stage, monkeypatch: pytest.MonkeyPatch) -> None:
    at = store.now()
    monkeypatch.setattr(delays, 'now', lambda: at)
    stage.make_user()
    key, other = SoftwareKey(), SoftwareKey()
    add(stage, stage.sign_in(), key)
    statuses = []
    for number in range(8):
        begun = asked(stage)
        other.credential = key.credential
        statuses.append(shown(stage, other.sign(begun.json['key']),
                              begun.cookies['__Host-goo-step'], f'198.51.100.{number}').status)
    assert statuses == [401] * 6 + [429] * 2
