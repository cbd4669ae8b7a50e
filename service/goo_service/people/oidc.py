"""Sign-in by a provider of OpenID Connect: code flow with PKCE, and the proof of an ID token.

What the provider answers is believed for its signature alone. Its algorithm is one of a fixed list
of asymmetric ones, its key one of the provider's own, its issuer, audience, nonce and time are
those of this sign-in.
"""
import base64
import http.client
import json
import time
from collections.abc import Mapping
from dataclasses import dataclass
from dataclasses import field
from typing import Any
from urllib.parse import quote
from urllib.parse import urlencode

from authlib.jose import JsonWebKey    # type: ignore[import]
from authlib.jose import JsonWebSignature
from authlib.jose.errors import JoseError    # type: ignore[import]
from authlib.oauth2.rfc7636 import create_s256_code_challenge    # type: ignore[import]
from authlib.oidc.core import CodeIDToken    # type: ignore[import]

from goo_service.people.hook_address import BadAddress
from goo_service.people.hook_address import parse_address
from goo_service.people.oidc_settings import Settings
from goo_service.people.outgoing import Sent
from goo_service.people.outgoing import addresses_of
from goo_service.people.outgoing import answered
from goo_service.people.outgoing import connected

ALGORITHMS = {'RS256': 'RSA', 'PS256': 'RSA', 'ES256': 'EC'}
"""Those by which a token may be signed, and the kind of key of each."""
LEEWAY, OLDEST = 60, 600
"""Seconds by which clocks may differ, and of the oldest token that is taken."""
PATIENCE, MOST = 10.0, 256 << 10
"""Of an answer of the provider: seconds, and bytes."""
KEPT = 600
"""Seconds for which the description of the provider is kept."""
SCOPE = 'openid profile email'
LONGEST = 200


class NotProved(Exception):
    """A sign-in that is not proved. The text is for the journal, not for the visitor."""


@dataclass(frozen=True)
class Begun:
    """What one sign-in is known by when the browser comes back."""

    state: str
    nonce: str
    verifier: str


@dataclass
class Provider:
    """The provider, and its description as long as it is kept."""

    settings: Settings
    described: dict[str, Any] = field(default_factory=dict)
    read: float = float('-inf')

    # ------------------------------------------------------------ what it is asked

    def description(self) -> dict[str, Any]:
        """Where its routes are, by its own word."""
        if time.monotonic() - self.read > KEPT:
            issuer = self.settings.issuer
            found = self.ask('GET', f'{issuer}/.well-known/openid-configuration')
            if str(found.get('issuer', '')).rstrip('/') != issuer:
                raise NotProved(f'{issuer} says that it is {found.get("issuer")!r}')
            self.described, self.read = found, time.monotonic()
        return self.described

    def route(self, name: str) -> str:
        route = self.description().get(name)
        if not isinstance(route, str):
            raise NotProved(f'{self.settings.issuer} has no {name}')
        return route

    def ask(self, method: str, url: str, body: bytes = b'',
            fields: Mapping[str, str] | None = None) -> dict[str, Any]:
        """The JSON object that a route answers."""
        until = time.monotonic() + PATIENCE
        try:
            address = parse_address(url, self.settings.is_plain_allowed)
            connection = connected(address, addresses_of(address), self.settings.authority, until)
            status, text = answered(connection, address, Sent(
                method, body, {'Accept': 'application/json', **(fields or {})}), MOST)
            read = json.loads(text)
        except (BadAddress, OSError, ValueError, RecursionError,
                http.client.HTTPException) as fault:
            raise NotProved(f'{url}: {str(fault) or type(fault).__name__}') from fault
        if status != 200 or not isinstance(read, dict):
            raise NotProved(f'{url} answered {status} {str(read)[:200]}')
        return read

    # ------------------------------------------------------------ one sign-in

    @property
    def back(self) -> str:
        """Where the browser comes back to."""
        return f'{self.settings.site}/people/v1/oidc/return'

    def way_in(self, begun: Begun) -> str:
        """Where the browser is sent."""
        asked = {'response_type': 'code', 'client_id': self.settings.client, 'scope': SCOPE,
                 'redirect_uri': self.back, 'state': begun.state, 'nonce': begun.nonce,
                 'code_challenge': create_s256_code_challenge(begun.verifier),
                 'code_challenge_method': 'S256'}
        if self.settings.prompt != 'none':
            asked['prompt'] = self.settings.prompt
        if self.settings.acr:
            asked['acr_values'] = ' '.join(self.settings.acr)
        route = self.route('authorization_endpoint')
        return f'{route}{"&" if "?" in route else "?"}{urlencode(asked)}'

    def claims(self, code: str, begun: Begun) -> dict[str, Any]:
        """What the provider says of whoever came back with a code."""
        own = f'{quote(self.settings.client, safe="")}:{quote(self.settings.secret, safe="")}'
        given = {'grant_type': 'authorization_code', 'code': code, 'redirect_uri': self.back,
                 'code_verifier': begun.verifier}
        answer = self.ask('POST', self.route('token_endpoint'), urlencode(given).encode(), {
            'Content-Type': 'application/x-www-form-urlencoded',
            'Authorization': f'Basic {base64.b64encode(own.encode()).decode()}'})
        token = answer.get('id_token')
        if not isinstance(token, str):
            raise NotProved('the provider gave no id_token')
        keys = self.ask('GET', self.route('jwks_uri'))
        return proved(token, keys, self.settings, begun.nonce)


# -------------------------------------------------------------------- an ID token

def proved(token: str, keys: Mapping[str, Any], settings: Settings, nonce: str) -> dict[str, Any]:
    """The claims of an ID token of this sign-in. NotProved where anything is amiss."""
    try:
        header = header_of(token)
        key = key_of(header, keys)
        read = JsonWebSignature([header['alg']]).deserialize_compact(token.encode(), key)
        claims = json.loads(read['payload'])
        if not isinstance(claims, dict):
            raise ValueError('the claims are no object')
        check_claims(claims, header, settings, nonce)
    except (JoseError, ValueError, TypeError, KeyError, RecursionError) as fault:
        raise NotProved(f'id_token: {type(fault).__name__}: {fault}') from fault
    return claims


def header_of(token: str) -> dict[str, Any]:
    """The head of a token that is signed by an algorithm of the list."""
    parts = token.split('.')
    if len(parts) != 3:
        raise ValueError('it is not of three parts')
    header = json.loads(base64.urlsafe_b64decode(parts[0] + '=' * (-len(parts[0]) % 4)))
    if not isinstance(header, dict) or header.get('alg') not in ALGORITHMS or 'crit' in header:
        raise ValueError('it is signed by no algorithm of the list')
    return header


def key_of(header: Mapping[str, Any], keys: Mapping[str, Any]) -> Any:
    """The provider's key that a head names. Of keys without a name there has to be one alone."""
    listed = keys.get('keys')
    fit = [key for key in listed if isinstance(key, dict)
           and key.get('kty') == ALGORITHMS[header['alg']] and key.get('use', 'sig') == 'sig'
           and (header.get('kid') is None or key.get('kid') == header['kid'])
           ] if isinstance(listed, list) else []
    if len(fit) != 1:
        raise ValueError(f'{len(fit)} keys of the provider fit')
    key = JsonWebKey.import_key(fit[0])
    size = getattr(key.get_public_key(), 'key_size', 0)
    if fit[0]['kty'] == 'RSA' and size < 2048:
        raise ValueError(f'the key has {size} bits')
    return key


def check_claims(claims: dict[str, Any], header: Mapping[str, Any], settings: Settings,
                 nonce: str) -> None:
    """Whether a token is of this provider, for this registry, for this sign-in, and of now."""
    wanted = {'iss': {'essential': True, 'value': claims_issuer(claims, settings)},
              'aud': {'essential': True, 'value': settings.client},
              'sub': {'essential': True}, 'exp': {'essential': True}, 'iat': {'essential': True},
              'nonce': {'essential': True}}
    if settings.acr:
        wanted['acr'] = {'essential': True, 'values': list(settings.acr)}
    now = int(time.time())
    CodeIDToken(claims, dict(header), wanted, {'nonce': nonce, 'client_id': settings.client}
                ).validate(now, LEEWAY)
    if claims['aud'] not in (settings.client, [settings.client]):
        raise ValueError('it is for others too')
    if not now - OLDEST <= claims['iat'] <= now + LEEWAY:
        raise ValueError('it is not of now')


def claims_issuer(claims: Mapping[str, Any], settings: Settings) -> str:
    """The issuer as it has to stand in a token: with a slash at its end where it has one."""
    return f'{settings.issuer}/' if claims.get('iss') == f'{settings.issuer}/' else settings.issuer


def name_in(claims: Mapping[str, Any], settings: Settings) -> str:
    """The name of the user. An address of mail counts where the provider has verified it."""
    name = claims.get(settings.claim)
    if not isinstance(name, str) or not 0 < len(name) <= LONGEST:
        raise NotProved(f'the claim {settings.claim} is no name')
    if settings.claim == 'email' and claims.get('email_verified') is not True:
        raise NotProved('the address of mail is not verified')
    return name
