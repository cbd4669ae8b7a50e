"""Sign-in by a provider of OpenID Connect, and each way to cheat it."""
import base64
import hashlib
import hmac
import http.client
import json
import time
from collections.abc import Callable
from collections.abc import Iterator
from pathlib import Path
from typing import Any
from urllib.parse import parse_qs
from urllib.parse import urlsplit

import pytest
from authlib.jose import jwt    # type: ignore[import]
from cryptography.hazmat.primitives.serialization import Encoding
from cryptography.hazmat.primitives.serialization import PublicFormat

from goo_service.people import oidc
from goo_service.people import steps
from goo_service.people import users
from goo_service.people.acts import ROOT
from goo_service.people.host import use_provider
from goo_service.people.oidc_settings import Fault
from goo_service.people.oidc_settings import read_settings
from goo_service.people.users import New
from oidc_provider import CLIENT
from oidc_provider import SECRET
from oidc_provider import Person
from oidc_provider import Provider
from oidc_provider import key_of
from people_stage import PASSWORD
from people_stage import Reply
from people_stage import Stage

SITE = 'https://registry.example'
BACK = f'{SITE}/people/v1/oidc/return'


@pytest.fixture
def provider(monkeypatch: pytest.MonkeyPatch) -> Iterator[Provider]:
    monkeypatch.setenv('AUTHLIB_INSECURE_TRANSPORT', '1')
    with Provider(BACK) as standing:
        yield standing


@pytest.fixture
def stage(tmp_path: Path, provider: Provider, monkeypatch: pytest.MonkeyPatch) -> Stage:
    (tmp_path / 'secret').write_text(f'{SECRET}\n')
    lay(tmp_path, provider)
    monkeypatch.setenv('GOO_PEOPLE_OIDC', str(tmp_path / 'people-oidc.conf'))
    made = Stage(tmp_path / 'people.db')
    make(made, 'office', 'ISSUER', 'officer')
    return made


def lay(folder: Path, provider: Provider, more: str = '') -> None:
    (folder / 'people-oidc.conf').write_text(
        f'[provider]\nissuer = {provider.issuer}\nclient = {CLIENT}\n'
        f'secret_file = {folder}/secret\nsite = {SITE}\nplain = yes\n{more}')


def make(of: Stage, name: str, caller: str, role: str, source: str = 'oidc') -> None:
    with of.change() as db:
        users.make(db, ROOT, New(name, caller, role, source=source))


class Browser:
    """A browser: it keeps the cookie of a step, and follows the provider back."""

    def __init__(self, of: Stage) -> None:
        self.of, self.step = of, ''

    def begin(self) -> str:
        """Goes to the provider; where it is sent back to."""
        came = self.of.post('oidc/begin', method='GET')
        assert came.status == 302, came
        self.step = came.cookies['__Host-goo-step']
        where = urlsplit(came.fields['Location'])
        assert where.hostname and where.port
        connection = http.client.HTTPConnection(where.hostname, where.port, timeout=20)
        connection.request('GET', f'{where.path}?{where.query}')
        answer = connection.getresponse()
        location = answer.headers['Location'] or ''
        connection.close()
        assert location.startswith(BACK), (answer.status, location)
        return location

    def come_back(self, location: str) -> Reply:
        query = urlsplit(location).query
        return self.of.post(f'oidc/return?{query}', method='GET', step=self.step)

    def sign_in(self) -> Reply:
        return self.come_back(self.begin())


def is_in(came: Reply) -> bool:
    return came.status == 200 and bool(came.cookies.get('__Host-goo'))


def is_refused(came: Reply) -> bool:
    """Refused, without a session, by the text that each refusal has."""
    return came.status == 403 and '__Host-goo' not in came.cookies


# ------------------------------------------------------------------ the right way

def test_a_user_of_the_body_signs_in(stage: Stage) -> None:
    came = Browser(stage).sign_in()
    assert is_in(came)
    of = stage.ask(session=came.cookies['__Host-goo'])
    assert (of.user, of.way) == ('office', 'session')
    kinds = [row['kind'] for row in stage.rows('SELECT kind FROM act ORDER BY id')]
    assert kinds == ['user_made', 'factor_added', 'sign_in']
    assert is_in(Browser(stage).sign_in())
    assert [row['way'] for row in stage.rows('SELECT way FROM session')] == ['oidc', 'oidc']


def test_what_the_provider_is_asked(stage: Stage, provider: Provider) -> None:
    """By RFC 6749, RFC 7636 and OpenID Connect Core."""
    came = stage.post('oidc/begin', method='GET')
    asked = {name: values[0] for name, values
             in parse_qs(urlsplit(came.fields['Location']).query).items()}
    assert asked['response_type'] == 'code' and asked['client_id'] == CLIENT
    assert asked['redirect_uri'] == BACK and asked['code_challenge_method'] == 'S256'
    assert 'openid' in asked['scope'].split() and asked['prompt'] == 'login'
    with stage.open() as db:
        values = steps.read(db, 'oidc', came.cookies['__Host-goo-step'])
    assert values
    assert len({asked['state'], asked['nonce'], values['verifier']}) == 3
    assert min(map(len, (asked['state'], asked['nonce'], values['verifier']))) >= 43
    assert SECRET not in came.fields['Location'] and values['verifier'] not in asked.values()
    other = stage.post('oidc/begin', method='GET')
    assert other.fields['Location'] != came.fields['Location']
    assert provider.asked == 1, 'the description is asked for each time'
    assert 'SameSite=Lax' in came.fields['Set-Cookie']


# ------------------------------------------------------------------ who may

def test_who_is_not_in_the_file_does_not_come_in(stage: Stage, provider: Provider) -> None:
    provider.user = Person('sub-2', 'stranger')
    assert is_refused(Browser(stage).sign_in())


@pytest.mark.parametrize('name, caller, role, source', [
    ('host', 'ISSUER', 'officer', 'host'), ('anna', 'SUN', 'user', 'oidc')])
def test_who_does_not_sign_in_so(stage: Stage, provider: Provider, name: str, caller: str,
                                 role: str, source: str) -> None:
    make(stage, name, caller, role, source)
    provider.user = Person('sub-2', name)
    assert is_refused(Browser(stage).sign_in())


def test_who_has_ended_does_not_come_in(stage: Stage) -> None:
    assert is_in(Browser(stage).sign_in())
    with stage.change() as db:
        db.execute('UPDATE user SET ended = 1')
    assert is_refused(Browser(stage).sign_in())


def test_the_same_name_with_another_number_is_not_he(stage: Stage, provider: Provider) -> None:
    assert is_in(Browser(stage).sign_in())
    provider.user = Person('sub-9', 'office')
    assert is_refused(Browser(stage).sign_in())
    provider.user = Person('sub-1', 'renamed')
    came = Browser(stage).sign_in()
    assert stage.ask(session=came.cookies['__Host-goo']).user == 'office'


def test_root_has_a_user_sign_in_by_the_provider(stage: Stage, provider: Provider) -> None:
    """In place of the password and the factors, and binds him anew."""
    stage.make_user('host', 'ISSUER', 'officer', access='')
    provider.user = Person('sub-2', 'host')
    session = stage.sign_in('host')
    assert is_refused(Browser(stage).sign_in())
    with stage.open() as db:
        use_provider(db, 'host')
    assert stage.ask(session=session).status != 204
    assert stage.post('sign-in', {'user': 'host', 'password': PASSWORD}).status == 401
    assert is_in(Browser(stage).sign_in())
    provider.user = Person('sub-3', 'host')
    assert is_refused(Browser(stage).sign_in())
    with stage.open() as db:
        use_provider(db, 'host')
    assert is_in(Browser(stage).sign_in())


def test_an_address_of_mail_has_to_be_verified(stage: Stage, provider: Provider,
                                               tmp_path: Path) -> None:
    lay(tmp_path, provider, 'claim = email\n')
    make(stage, 'a@body.example', 'ISSUER', 'officer')
    for verified, comes in ((None, False), (False, False), ('true', False), (True, True)):
        more: dict[str, Any] = {'email': 'a@body.example'}
        if verified is not None:
            more['email_verified'] = verified
        provider.user = Person('sub-3', 'x', more)
        assert is_in(Browser(stage).sign_in()) == comes, verified


def test_a_way_of_authentication_can_be_asked_for(stage: Stage, provider: Provider,
                                                  tmp_path: Path) -> None:
    lay(tmp_path, provider, 'acr = two-factors\n')
    assert is_refused(Browser(stage).sign_in())
    provider.user.more['acr'] = 'password'
    assert is_refused(Browser(stage).sign_in())
    provider.user.more['acr'] = 'two-factors'
    assert is_in(Browser(stage).sign_in())


# ------------------------------------------------------------------ the browser is cheated

def test_a_wrong_state(stage: Stage) -> None:
    browser = Browser(stage)
    location = browser.begin()
    state = parse_qs(urlsplit(location).query)['state'][0]
    for wrong in (location.replace(state, 'x' * len(state)), location.replace('state=', 'stat='),
                  f'{location}&state=x'):
        assert is_refused(browser.come_back(wrong))
    assert is_in(browser.come_back(location))


def test_the_code_of_somebody_else(stage: Stage) -> None:
    """An attacker has his victim's browser end the attacker's own sign-in, or the other way."""
    attacker, victim = Browser(stage), Browser(stage)
    location = attacker.begin()
    victim.begin()
    assert is_refused(victim.come_back(location))
    victim.step = ''
    assert is_refused(victim.come_back(location))
    own = victim.begin()
    code = parse_qs(urlsplit(location).query)['code'][0]
    mixed = own.replace(parse_qs(urlsplit(own).query)['code'][0], code)
    assert is_refused(victim.come_back(mixed)), 'the verifier of PKCE is not sent'


def test_a_code_that_is_played_again(stage: Stage, provider: Provider) -> None:
    browser = Browser(stage)
    location = browser.begin()
    codes = dict(provider.codes)
    assert is_in(browser.come_back(location))
    assert is_refused(browser.come_back(location))
    provider.codes.update(codes)        # a provider that takes a code twice
    assert is_refused(browser.come_back(location))


def test_a_step_of_another_kind_or_too_old(stage: Stage, monkeypatch: pytest.MonkeyPatch) -> None:
    browser = Browser(stage)
    location = browser.begin()
    with stage.open() as db:
        values = steps.read(db, 'oidc', browser.step)
        assert values
        kept, browser.step = browser.step, steps.make(db, 'key', values)
    assert is_refused(browser.come_back(location))
    browser.step = kept
    real = time.time
    monkeypatch.setattr(time, 'time', lambda: real() + 301)
    assert is_refused(browser.come_back(location))


def test_another_issuer_in_the_answer(stage: Stage) -> None:
    """RFC 9207."""
    browser = Browser(stage)
    assert is_refused(browser.come_back(f'{browser.begin()}&iss=https://evil.example'))


# ------------------------------------------------------------------ the token is forged

def parts_of(token: str) -> tuple[dict[str, Any], dict[str, Any]]:
    head, claims = (json.loads(base64.urlsafe_b64decode(part + '=' * (-len(part) % 4)))
                    for part in token.split('.')[:2])
    return head, claims


def packed(value: object) -> str:
    text = base64.urlsafe_b64encode(json.dumps(value).encode())
    return text.decode().rstrip('=')


def signed(provider: Provider, token: str, head: dict[str, Any] | None = None,
           **claims: object) -> str:
    """The token with other claims, signed by the provider's own key."""
    old_head, old = parts_of(token)
    new = {name: value for name, value in {**old, **claims}.items() if value is not None}
    return str(jwt.encode({**old_head, **(head or {})}, new, provider.key).decode())


def without_signature(provider: Provider, token: str) -> str:
    head, claims = parts_of(token)
    return f'{packed({**head, "alg": "none"})}.{packed(claims)}.'


def by_public_key(provider: Provider, token: str) -> str:
    """HS256, with the public key as its secret: RFC 8725, 2.1."""
    head, claims = parts_of(token)
    pem = provider.key.get_public_key().public_bytes(Encoding.PEM,
                                                     PublicFormat.SubjectPublicKeyInfo)
    text = f'{packed({**head, "alg": "HS256"})}.{packed(claims)}'
    digest = hmac.new(pem, text.encode(), hashlib.sha256).digest()
    return f'{text}.{base64.urlsafe_b64encode(digest).decode().rstrip("=")}'


def by_own_key(provider: Provider, token: str) -> str:
    head, claims = parts_of(token)
    other = key_of('k1', serial=1)
    return str(jwt.encode(head, claims, other).decode())


def with_key_inside(provider: Provider, token: str) -> str:
    head, claims = parts_of(token)
    other = key_of('k2')
    head = {**head, 'kid': 'k2', 'jwk': other.as_dict(is_private=False)}
    return str(jwt.encode(head, claims, other).decode())


def changed(provider: Provider, token: str) -> str:
    head, claims, signature = token.split('.')
    _, read = parts_of(token)
    return f'{head}.{packed({**read, "preferred_username": "other"})}.{signature}'


NOW = time.time
FORGED: dict[str, Callable[[Provider, str], str]] = {
    'no algorithm': without_signature, 'the public key as a secret': by_public_key,
    'another key': by_own_key, 'a key that it brings along': with_key_inside,
    'other claims': changed,
    'another audience': lambda of, token: signed(of, token, aud='other'),
    'an audience beside ours': lambda of, token: signed(of, token, aud=[CLIENT, 'other'],
                                                        azp=CLIENT),
    'no audience': lambda of, token: signed(of, token, aud=None),
    'another issuer': lambda of, token: signed(of, token, iss='https://evil.example'),
    'expired': lambda of, token: signed(of, token, exp=int(NOW()) - 120),
    'no end': lambda of, token: signed(of, token, exp=None),
    'old': lambda of, token: signed(of, token, iat=int(NOW()) - 3600),
    'of tomorrow': lambda of, token: signed(of, token, iat=int(NOW()) + 86400),
    'another nonce': lambda of, token: signed(of, token, nonce='another'),
    'no nonce': lambda of, token: signed(of, token, nonce=None),
    'no number': lambda of, token: signed(of, token, sub=None),
    'a rule that nobody knows': lambda of, token: signed(of, token, {'crit': ['x'], 'x': 1}),
    'no token': lambda of, token: '', 'two parts': lambda of, token: 'a.b',
    'five parts': lambda of, token: 'a.b.c.d.e', 'a head without end': lambda of, token: '[' * 9000}


@pytest.mark.parametrize('name', FORGED)
def test_a_forged_token(stage: Stage, provider: Provider, name: str) -> None:
    provider.forge = lambda token: FORGED[name](provider, token)
    assert is_refused(Browser(stage).sign_in())
    assert stage.rows('SELECT * FROM session') == []
    provider.forge = lambda token: signed(provider, token)
    assert is_in(Browser(stage).sign_in()), 'the right one is refused as well'


def test_keys_that_are_not_the_provider_s_own_kind(stage: Stage, provider: Provider) -> None:
    small = key_of('k1', 1024)
    right, provider.public = provider.public, [small.as_dict(is_private=False)]
    provider.forge = lambda token: str(jwt.encode(*parts_of(token), small).decode())
    assert is_refused(Browser(stage).sign_in())
    provider.forge, provider.public = None, right * 2
    assert is_refused(Browser(stage).sign_in())
    provider.public = [*right, {'kty': 'oct', 'k': 'AA', 'kid': 'k1'}]
    assert is_in(Browser(stage).sign_in())


# ------------------------------------------------------------------ the provider itself

def test_a_provider_that_says_to_be_another(stage: Stage, provider: Provider) -> None:
    provider.named = 'https://other.example'
    assert stage.post('oidc/begin', method='GET').status == 403


def test_a_provider_that_is_away(stage: Stage, provider: Provider) -> None:
    browser = Browser(stage)
    location = browser.begin()
    provider.__exit__()
    begun = time.monotonic()
    assert is_refused(browser.come_back(location))
    assert time.monotonic() - begun < 15
    provider.__enter__()


def test_without_settings_there_is_no_such_way(tmp_path: Path,
                                               monkeypatch: pytest.MonkeyPatch) -> None:
    monkeypatch.setenv('GOO_PEOPLE_OIDC', str(tmp_path / 'none.conf'))
    made = Stage(tmp_path / 'people.db')
    assert made.post('oidc/begin', method='GET').status == 404
    assert made.post('oidc/return?code=x&state=y', method='GET').status == 404


@pytest.mark.parametrize('more', ['plain = no\n', 'claim = name\n', 'other = 1\n',
                                  'issuer = https://x\n'])
def test_settings_with_a_fault_are_told(tmp_path: Path, provider: Provider, more: str) -> None:
    (tmp_path / 'secret').write_text('x')
    lay(tmp_path, provider, '')
    path = tmp_path / 'people-oidc.conf'
    text = path.read_text().replace('plain = yes\n', '') if 'plain' in more else path.read_text()
    path.write_text(text + more)
    with pytest.raises(Fault, match='people-oidc.conf'):
        read_settings(path)


def test_the_list_of_algorithms_is_of_public_keys_alone() -> None:
    assert set(oidc.ALGORITHMS.values()) == {'RSA', 'EC'} and 'none' not in oidc.ALGORITHMS
