"""Our own registry, which the exchange reads and imports into as the issuing body: over a Unix
socket, or over HTTP on loopback."""
import dataclasses
import json
import urllib.parse
from collections.abc import Mapping
from dataclasses import dataclass
from typing import Any

from goo_service.common.client import Answer
from goo_service.common.client import Client
from goo_service.common.client import NoAnswer
from goo_service.exchange.common import Again
from goo_service.exchange.common import LARGEST
from goo_service.exchange.common import Notice
from goo_service.exchange.common import Refused

PATIENCE = 300
"""Seconds: a registry that reads in a large file answers after it."""
HEAD = 4096
"""Bytes of a statement in which its holder stands."""
WHOLE = 10 ** 9
"""Bytes of any statement."""


@dataclass(frozen=True)
class Held:
    """An account that holds a certificate, and its holder's code."""

    account: int
    holder: str


class Registry:
    """Reads notices, certificates and accounts, and imports notices."""

    def __init__(self, section: Mapping[str, str]) -> None:
        self.code = int(section['code'])
        self.address = section.get('registry', 'unix:/run/goo/door.sock')
        url = urllib.parse.urlsplit(self.address)
        if url.scheme == 'unix' and url.path.startswith('/'):
            self.client = Client(url.path, PATIENCE, LARGEST)
        elif url.scheme == 'http' and url.hostname == '127.0.0.1':
            self.client = Client(f'127.0.0.1:{url.port or 80}', PATIENCE, LARGEST)
        else:
            raise ValueError('our own registry is reached at unix:/PATH or '
                             'http://127.0.0.1:PORT alone')

    def curl_words(self) -> str:
        """The words for curl to send it a request by hand."""
        path = self.address.removeprefix('unix:')
        if path == self.address:
            return f'{self.address}/v1/requests'
        return f'--unix-socket {path} http://localhost/v1/requests'

    def call(self, method: str, path: str, body: bytes = b'', most: int = LARGEST) -> Answer:
        """An answer. No request of the exchange does harm when it comes twice, so it is sent once
        more where no answer came."""
        client = dataclasses.replace(self.client, most=most)
        try:
            return client.call(method, path, body)
        except NoAnswer:
            pass
        try:
            return client.call(method, path, body)
        except NoAnswer as fault:
            raise Again(f'our registry: no answer: {fault}') from fault

    def text_at(self, path: str, most: int = LARGEST) -> str | None:
        """The text at a path; None where there is nothing."""
        answer = self.call('GET', path, most=most)
        if answer.status == 404:
            return None
        if answer.status != 200:
            raise Again(f'our registry answered {answer.status}')
        return answer.text

    def notice(self, number: int) -> str | None:
        """The text of a notice that was sent; None where there is none yet."""
        return self.text_at(f'/v1/notices/{number}')

    def certificate(self, number: int) -> dict[str, Any] | None:
        """The place and the lot of a certificate; None where it isn't known."""
        text = self.text_at(f'/v1/certificates/{number:014}')
        return dict(json.loads(text)) if text else None

    def holder_of(self, certificate: int) -> Held | None:
        """Who holds a certificate; None where none holds it."""
        found = self.certificate(certificate)
        if not found or found['place'] != 'held':
            return None
        try:
            answer = self.client.beginning(f'/v1/accounts/{found["account"]}/statement', HEAD)
        except NoAnswer as fault:
            raise Again(f'our registry: no answer: {fault}') from fault
        if answer.status != 200:
            raise Again(f'our registry answered {answer.status}')
        lines = answer.text.splitlines()
        holder = next(line.split()[1] for line in lines if line.startswith('holder '))
        return Held(found['account'], holder)

    def has_foreign(self) -> bool:
        """Whether some account knows a certificate of another registry: one was imported once."""
        account = 1
        while text := self.text_at(f'/v1/accounts/{account}/statement', WHOLE):
            if any(line[:2].isdigit() and int(line[:2]) != self.code
                   for line in text.splitlines()):
                return True
            account += 1
        return False

    def import_notice(self, notice: Notice) -> str:
        """Imports a notice: `accepted` or `repeated`. Refused by the refusal's name."""
        key = f'notice-{notice.sender:02}-{notice.number}'
        body = f'{{"command":"import","key":"{key}","notice":{notice.text}}}'
        answer = self.call('POST', '/v1/requests', body.encode()).text
        try:
            outcome = json.loads(answer)
            kind = str(outcome['outcome'])
            if kind in ('accepted', 'repeated'):
                return kind
            name = outcome['name'] if kind == 'refused' else outcome['fault']
            number = outcome.get('number', '') if kind == 'refused' else ''
        except (ValueError, TypeError, KeyError, AttributeError) as fault:
            raise Again(f'our registry answered {answer.strip()[:80]!r}') from fault
        raise Refused(f'{name} {number}'.strip())
