"""Another registry's front door, where we sign in to read what it shows us."""
import base64
import http.client
import ssl
import time
import urllib.parse
from collections.abc import Mapping
from dataclasses import dataclass
from pathlib import Path
from typing import Any

from goo_service.exchange.accounts import NAME
from goo_service.exchange.accounts import Account
from goo_service.exchange.accounts import parse_accounts
from goo_service.exchange.common import Again
from goo_service.exchange.common import LARGEST
from goo_service.exchange.signature import is_signed
from goo_service.exchange.states import State
from goo_service.exchange.states import parse_state

DEADLINE = 120
"""Seconds for all that a peer answers in one run."""
PATIENCE = 60
"""Seconds for one connection."""


class Bounded(ssl.SSLSocket):
    """A connection that ends at a deadline, however little comes at a time."""

    deadline: float | None = None

    def recv_into(self, *words: Any) -> int:
        if self.deadline is not None:
            left = self.deadline - time.monotonic()
            if left <= 0:
                raise TimeoutError('its time is up')
            self.settimeout(left)
        return super().recv_into(*words)


@dataclass(frozen=True)
class Response:
    """Status and body of an answer."""

    status: int
    body: bytes


@dataclass(frozen=True)
class Signed:
    """A text and its signature, which its owner made."""

    text: str
    signature: str


class Peer:
    """One peer. All that it answers in a run has one deadline, and each answer a largest size."""

    def __init__(self, code: int, section: Mapping[str, str]) -> None:
        self.code = code
        url = urllib.parse.urlsplit(section['url'])
        if url.scheme != 'https' or not url.hostname or url.path not in ('', '/'):
            raise ValueError(f'registry {code}: its url is https://HOST or https://HOST:PORT')
        self.host, self.port = url.hostname, url.port or 443
        self.key = section.get('key')
        self.seconds = int(section.get('seconds', DEADLINE))
        self.authority = section.get('authority')
        self.certificate = None
        if 'certificate' in section:
            self.certificate = section['certificate'], section['certificate_key']
        else:
            self.user, self.password_file = section['user'], Path(section['password_file'])
        self.tls: ssl.SSLContext | None = None
        self.head: dict[str, str] = {}
        self.connection: http.client.HTTPSConnection | None = None
        self.until = 0.0

    def begin(self) -> None:
        """From now on the deadline runs."""
        self.until = time.monotonic() + self.seconds
        if self.tls is None:
            self.read_files()

    def read_files(self) -> None:
        """The files of its section. A fault of them keeps nobody else waiting."""
        tls = ssl.create_default_context(cafile=self.authority)
        tls.sslsocket_class = Bounded
        if self.certificate:
            tls.load_cert_chain(*self.certificate)
        else:
            password = self.password_file.read_text().strip()
            word = base64.b64encode(f'{self.user}:{password}'.encode()).decode()
            self.head['Authorization'] = f'Basic {word}'
        self.tls = tls

    def close(self) -> None:
        if self.connection:
            self.connection.close()
        self.connection = None

    def seconds_left(self) -> float:
        """The seconds that are left."""
        left = self.until - time.monotonic()
        if left <= 0:
            raise Again(f'its answers take more than {self.seconds} seconds')
        return left

    def connect(self) -> http.client.HTTPSConnection:
        """A connection that is open."""
        if self.connection is None or self.connection.sock is None:
            self.connection = http.client.HTTPSConnection(
                self.host, self.port, context=self.tls, timeout=min(PATIENCE, self.seconds_left()))
            self.connection.connect()
            if isinstance(self.connection.sock, Bounded):
                self.connection.sock.deadline = self.until
        return self.connection

    def get(self, name: str) -> Response:
        """One answer."""
        connection = self.connect()
        connection.request('GET', f'/notices/{name}', headers=self.head)
        answer = connection.getresponse()
        return Response(answer.status, answer.read(LARGEST + 1))

    def response(self, name: str) -> Response:
        """An answer. No request of the exchange does harm when it comes twice, so it is sent once
        more where no answer came."""
        self.seconds_left()
        try:
            return self.get(name)
        except (OSError, http.client.HTTPException):
            self.close()
        self.seconds_left()
        try:
            return self.get(name)
        except (OSError, http.client.HTTPException) as fault:
            self.close()
            self.seconds_left()
            raise Again(f'no answer: {type(fault).__name__} {fault}'.strip()) from fault

    def fetch(self, name: str) -> str | None:
        """The text at a name; None where there is nothing."""
        response = self.response(name)
        while response.status == 429:       # more than its front door takes of us in a second
            time.sleep(min(1, self.seconds_left()))
            response = self.response(name)
        if response.status == 404:
            return None
        if response.status != 200:
            raise Again(f'its front door answered {response.status}')
        if len(response.body) > LARGEST:
            self.close()
            raise Again('an answer that is too long')
        try:
            return response.body.decode()
        except UnicodeDecodeError as fault:
            raise Again('an answer that is not UTF-8') from fault

    def fetch_signed(self, name: str, public: str | None) -> Signed | None:
        """The text at a name with its signature, by the owner of this public key; None where there
        is no text."""
        for _ in range(2):              # once more: a state may have changed between the two
            text = self.fetch(name)
            if text is None:
                return None
            if not public:
                raise Again('its section has no key, so nothing of it can be believed')
            signature = self.fetch(f'{name}.sig') or ''
            if is_signed(text, signature, public):
                return Signed(text, signature)
        raise Again(f'{name} is not signed by the key of its sender')

    def fetch_state(self, addressee: int) -> State:
        """What it shows, and what it has of ours."""
        found = self.fetch_signed('state', self.key)
        if found is None:
            raise Again('it shows us no outbox of ours: has its list of callers our user as a '
                        'peer, and has its exchange run?')
        return parse_state(found.text, self.code, addressee)

    def fetch_accounts(self, addressee: int) -> list[Account] | None:
        """The accounts that it publishes for us; None where it publishes none."""
        found = self.fetch_signed(NAME, self.key)
        return None if found is None else parse_accounts(found.text, self.code, addressee)

    def fetch_notice(self, position: int) -> Signed:
        """What stands for us at a position, and its signature."""
        return self.must(str(position), self.fetch_signed(str(position), self.key))

    def fetch_ours(self, position: int, public: str) -> str:
        """What it has of ours at a position, signed by us."""
        name = f'taken-{position}'
        return self.must(name, self.fetch_signed(name, public)).text

    def must(self, name: str, found: Signed | None) -> Signed:
        """What was found. Again where it is not there."""
        if found is None:
            raise Again(f'its state speaks of {name}, and it is not there')
        return found
