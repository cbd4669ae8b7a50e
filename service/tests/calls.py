"""Requests to a house, through the front door and at the log's own socket, and their answers."""
import datetime
import json
import time
from dataclasses import dataclass
from dataclasses import field
from pathlib import Path
from typing import Any

import client
from door import Door
from mutations import gsrn

ISSUER = 'ISSUER'


@dataclass(frozen=True)
class Answer:
    """An answer over HTTP."""

    status: int
    fields: dict[str, str]
    """By their names in small letters; one that came twice has both values."""
    body: bytes
    cookies: dict[str, str] = field(default_factory=dict)
    """Those that it sets, with their values."""

    @property
    def text(self) -> str:
        return self.body.decode()

    @property
    def json(self) -> Any:
        return json.loads(self.body)

    @property
    def entry(self) -> int | None:
        """The number of the entry, or that by which a read stands."""
        value = self.fields.get('goo-entry')
        return int(value) if value else None

    def error(self) -> str:
        """The sentence of an error in JSON; fails where it is none."""
        kind = self.fields.get('content-type')
        assert kind == 'application/json', (kind, self.body[:200])
        return str(self.json['error'])


@dataclass(frozen=True)
class Country:
    """What make_country made: two accounts, a device of the first one, and its certificates."""

    sun: int
    volt: int
    device: str
    first: int
    last: int


class Unexpected(AssertionError):
    """An answer that is another one than a trial needs to go on."""


def month_before(day: str) -> tuple[str, str]:
    """First and last day of the month before the last one: of 2025-03-01 it is January."""
    last_month = datetime.date.fromisoformat(day).replace(day=1) - datetime.timedelta(1)
    last = last_month.replace(day=1) - datetime.timedelta(1)
    return str(last.replace(day=1)), str(last)


def reply_of(command: str, answer: Answer) -> Any:
    """The reply of an answer that says that a request is accepted, or was before."""
    if answer.status != 200 or answer.json['outcome'] not in ('accepted', 'repeated'):
        raise Unexpected(f'{command}: {answer.status} {answer.text}')
    return answer.json['reply']


def read_answer(came: client.Answer) -> Answer:
    """The bytes of an answer, read."""
    fields = {name.lower(): ', '.join(came.fields.get_all(name)) for name in came.fields}
    set_here = [one.split(';')[0].partition('=') for one in came.fields.get_all('Set-Cookie') or ()]
    cookies = {name: value for name, _, value in set_here}
    return Answer(came.status, fields, came.body, cookies)


def fields_of(named: dict[str, str]) -> list[str]:
    """The lines of a head: GOO_Caller='SUN' is the field GOO-Caller."""
    return [f'{name.replace("_", "-")}: {value}' for name, value in named.items()]


class Calls:
    """What may be asked of a house."""

    door: Door
    folder: Path
    day: str
    users: dict[str, str]
    """The password of each user."""
    keys = 0

    @property
    def port(self) -> int:
        """Of the front door."""
        return int(self.door.port)

    def ask(self, user: str | None, method: str, path: str, body: bytes | str = b'', *,
            password: str | None = None, patience: float = 60, source: str = '', port: int = 0,
            certificate: str = '', **fields: str) -> Answer:
        """One request through TLS and the front door, from an address of this machine.

        Without a user nobody signs in, unless by a certificate.
        """
        body, tls = body.encode() if isinstance(body, str) else body, self.door.tls()
        if certificate:
            own = self.folder / certificate
            tls.load_cert_chain(f'{own}.pem', f'{own}.key')
        lines = [client.CLOSE, *fields_of(fields)]
        if user:
            word = self.users.get(user, f'pw-{user}') if password is None else password
            lines.append(f'Authorization: Basic {client.basic(user, word)}')
        sent = client.request(method, path, None, lines, f'localhost:{self.port}', body)
        return read_answer(client.answered(port or self.port, sent, patience=patience, tls=tls,
                                           source=source))

    def ask_log(self, caller: str, method: str, path: str, body: bytes | str = b'', *,
                role: str = 'full', user: str = '', address: str = '',
                patience: float = 60) -> Answer:
        """One request at the log's own socket. A field that is empty is not sent."""
        body = body.encode() if isinstance(body, str) else body
        named = {'GOO-Role': role, 'GOO-User': user, 'GOO-Address': address}
        lines = [client.CLOSE, *fields_of({name: value for name, value in named.items() if value})]
        sent = client.request(method, path, caller or None, lines, 'goo', body)
        return read_answer(client.answered(self.folder / 'door.sock', sent, patience=patience))

    def send(self, user: str, command: str, *, key: str | None = None, **members: Any) -> Answer:
        """A request of a user, under a key of its own unless one is given."""
        self.keys += 1
        body = {'command': command, 'key': key or f'key-{self.keys}', **members}
        return self.ask(user, 'POST', '/v1/requests', json.dumps(body))

    def must(self, user: str, command: str, *, key: str | None = None, **members: Any) -> Any:
        """The reply to a request that has to be accepted, or to have been."""
        return reply_of(command, self.send(user, command, key=key, **members))

    def enter(self, caller: str, command: str, key: str, **members: Any) -> Any:
        """The reply to a request at the log's own socket, which has to be accepted."""
        body = json.dumps({'command': command, 'key': key, **members})
        return reply_of(command, self.ask_log(caller, 'POST', '/v1/requests', body, user='office'))

    def health(self) -> dict[str, Any]:
        """What the log says of itself."""
        answer = self.ask_log('', 'GET', '/healthz', patience=5)
        return dict(answer.json)

    def entry(self) -> int:
        """Up to which entry the log is applied."""
        return int(self.health()['entry'])

    def wait_for_book(self, entry: int | None = None, patience: float = 60) -> None:
        """Waits until the records have all up to an entry, or up to the log's end."""
        entry, until = entry or self.entry(), time.monotonic() + patience
        while self.book_entry() < entry:
            if time.monotonic() > until:
                raise Unexpected(f'the book ends at entry {self.book_entry()}, not at {entry}')
            time.sleep(0.05)

    def book_entry(self) -> int:
        answer = self.ask('office', 'GET', '/records/v1/status')
        return int(answer.json['stands']['entry']) if answer.status == 200 else 0

    def make_country(self, count: int = 100) -> Country:
        """Holders SUN and VOLT with an account each, a device of SUN's, and its certificates.

        Asked for again it is the same country, whoever holds its certificates by then.
        """
        accounts = {}
        for holder in ('SUN', 'VOLT'):
            self.enter(ISSUER, 'open_holder', f'country-{holder}', holder=holder, name=holder)
            reply = self.enter(ISSUER, 'open_account', f'country-a-{holder}', holder=holder)
            accounts[holder] = reply['account']
        device = gsrn(900)
        self.enter(ISSUER, 'register_device', 'country-d', account=accounts['SUN'],
                   device=device, country='DE', site='North', tech='T010000', source='F01010100',
                   capacity_w=2_000_000_000, commissioned='2020-06-15', support='none')
        first, last = month_before(self.day)
        reply = self.enter(ISSUER, 'declare', 'country-m', device=device, aux_wh=0,
                           first_day=first, last_day=last, gross_wh=count * 10**6)
        return Country(accounts['SUN'], accounts['VOLT'], device, int(reply['first']),
                       int(reply['last']))
