"""A provider of OpenID Connect for trials, by authlib's own server: code flow, PKCE, ID tokens.

It signs in whomever `user` names, without a question. `forge` changes an ID token on its way.
"""
import functools
import threading
from collections.abc import Callable
from dataclasses import dataclass
from dataclasses import field
from typing import Any
from typing import Self

import client
from authlib.integrations.flask_oauth2 import AuthorizationServer    # type: ignore[import]
from authlib.jose import JsonWebKey    # type: ignore[import]
from authlib.oauth2.rfc6749 import ClientMixin    # type: ignore[import]
from authlib.oauth2.rfc6749.grants import AuthorizationCodeGrant    # type: ignore[import]
from authlib.oauth2.rfc7636 import CodeChallenge    # type: ignore[import]
from authlib.oidc.core import UserInfo    # type: ignore[import]
from authlib.oidc.core.grants import OpenIDCode    # type: ignore[import]
from flask import Flask
from flask import jsonify
from werkzeug.serving import make_server

CLIENT, SECRET = 'goo-registry', 'a-secret-of-the-registry'


@functools.cache
def key_of(name: str, bits: int = 2048, serial: int = 0) -> Any:
    """A key of RSA. Another serial is another key of the same name."""
    return JsonWebKey.generate_key('RSA', bits, {'kid': name, 'use': 'sig'}, True)


@dataclass
class Code:
    """A code that was given and not taken yet."""

    code: str
    redirect_uri: str
    scope: str
    user: 'Person'
    nonce: str
    code_challenge: str
    code_challenge_method: str
    auth_time: int = 0

    def get_redirect_uri(self) -> str:
        return self.redirect_uri

    def get_scope(self) -> str:
        return self.scope

    def get_nonce(self) -> str:
        return self.nonce

    def get_auth_time(self) -> int:
        return self.auth_time


@dataclass
class Person:
    """Whoever has signed in at the provider."""

    sub: str
    name: str
    more: dict[str, Any] = field(default_factory=dict)


class OneClient(ClientMixin):       # type: ignore[misc]
    """The registry."""

    client_id = CLIENT
    client_secret = SECRET

    def __init__(self, back: str) -> None:
        self.back = back

    def get_client_id(self) -> str:
        return CLIENT

    def get_default_redirect_uri(self) -> str:
        return self.back

    def get_allowed_scope(self, scope: str) -> str:
        return scope

    def check_redirect_uri(self, uri: str) -> bool:
        return uri == self.back

    def check_client_secret(self, secret: str) -> bool:
        return secret == SECRET

    def check_endpoint_auth_method(self, method: str, _: str) -> bool:
        return method == 'client_secret_basic'

    def check_response_type(self, kind: str) -> bool:
        return kind == 'code'

    def check_grant_type(self, kind: str) -> bool:
        return kind == 'authorization_code'


class Provider:
    """One that stands on a free port of this host."""

    def __init__(self, back: str) -> None:
        self.port = client.free_port()
        self.issuer = f'http://127.0.0.1:{self.port}'
        self.back, self.codes = back, dict[str, Code]()
        self.key = key_of('k1')
        self.public: list[dict[str, Any]] = [self.key.as_dict(is_private=False)]
        self.user = Person('sub-1', 'office')
        self.forge: Callable[[str], str] | None = None
        self.named: str = ''
        self.asked = 0

    def __enter__(self) -> Self:
        self.server = make_server('127.0.0.1', self.port, self.application(), threaded=True)
        threading.Thread(target=self.server.serve_forever, daemon=True).start()
        return self

    def __exit__(self, *_: object) -> None:
        self.server.shutdown()
        self.server.server_close()

    def application(self) -> Flask:
        made = Flask('provider')
        server = AuthorizationServer(made, query_client=self.client,
                                     save_token=lambda *_: None)
        server.register_grant(grant_of(self), [openid_of(self), CodeChallenge(required=True)])

        @made.get('/.well-known/openid-configuration')
        def configuration() -> Any:
            self.asked += 1
            return jsonify({
                'issuer': self.named or self.issuer, 'jwks_uri': f'{self.issuer}/keys',
                'authorization_endpoint': f'{self.issuer}/authorize',
                'token_endpoint': f'{self.issuer}/token',
                'id_token_signing_alg_values_supported': ['none', 'HS256', 'RS256']})

        @made.get('/keys')
        def keys() -> Any:
            return jsonify({'keys': self.public})

        @made.get('/authorize')
        def authorize() -> Any:
            return server.create_authorization_response(grant_user=self.user)

        @made.post('/token')
        def token() -> Any:
            answer = server.create_token_response()
            told = answer.get_json()
            if self.forge and 'id_token' in told:
                told['id_token'] = self.forge(told['id_token'])
                return jsonify(told)
            return answer

        return made

    def client(self, name: str) -> OneClient | None:
        return OneClient(self.back) if name == CLIENT else None


def grant_of(provider: Provider) -> type[AuthorizationCodeGrant]:
    class Grant(AuthorizationCodeGrant):        # type: ignore[misc]
        TOKEN_ENDPOINT_AUTH_METHODS = ['client_secret_basic']

        def save_authorization_code(self, code: str, asked: Any) -> Code:
            made = Code(code, asked.redirect_uri, asked.scope, asked.user,
                        asked.data.get('nonce') or '', asked.data.get('code_challenge') or '',
                        asked.data.get('code_challenge_method') or '')
            provider.codes[code] = made
            return made

        def query_authorization_code(self, code: str, _: Any) -> Code | None:
            return provider.codes.get(code)

        def delete_authorization_code(self, of: Code) -> None:
            del provider.codes[of.code]

        def authenticate_user(self, of: Code) -> Person:
            return of.user

    return Grant


def openid_of(provider: Provider) -> OpenIDCode:
    class OpenID(OpenIDCode):                   # type: ignore[misc]
        def exists_nonce(self, *_: object) -> bool:
            return False

        def get_jwt_config(self, _: Any) -> dict[str, Any]:
            return {'key': provider.key.as_dict(is_private=True), 'alg': 'RS256',
                    'iss': provider.issuer, 'exp': 300}

        def generate_user_info(self, user: Person, _: str) -> UserInfo:
            return UserInfo(sub=user.sub, preferred_username=user.name, **user.more)

    return OpenID(require_nonce=True)
