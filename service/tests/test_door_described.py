"""What a client outside is answered, held against docs/openapi-outside.yaml and docs/records.yaml.

Each status that the descriptions have is met, at a registry, a log or records that are as they have
to be for it. test_descriptions_house.py makes calls by chance.
"""
import json
import re
import signal
import subprocess
from collections.abc import Iterator
from dataclasses import dataclass
from pathlib import Path

import pytest
import yaml  # type: ignore[import]

import client
from alone import Alone
from calls import Answer
from cases import cases_in
from described import Description
from front import FAST
from front import Front
from front import REQUESTS
from front import request
from front import sent
from door import SERVICE
from house import CODE
from house import DAY
from made_book import routes_of
from service_commands import command

OUTSIDE, RECORDS = Description('openapi-outside.yaml'), Description('records.yaml')
STATEMENT, ACTS = '/v1/accounts/1/statement', '/records/v1/acts'
ADD = json.dumps({'command': 'add_peer', 'key': 'p1', 'peer': 9}).encode()
KEY_TWICE = ADD.replace(b'p1', b'p2')


def is_described(method: str, path: str, answer: Answer) -> bool:
    """Whether an answer is one of those of its operation; fails with what is not."""
    described = RECORDS if path.startswith(('/records/', '/verify')) else OUTSIDE
    for operation in described.operations:
        form = re.sub(r'\{\w+\}', '[^/]+', operation.path)
        if re.fullmatch(form, path.split('?')[0]) and operation.method == method.lower():
            fault = described.fault(operation, answer.status, answer.fields['content-type'],
                                    answer.body)
            assert fault is None
            return True
    return False


@pytest.fixture(scope='module')
def front() -> Iterator[Front]:
    with Front(rate=FAST, more=('auditor ISSUER reads', 'meters ISSUER declares')) as made:
        made.send('office', 'open_holder', key='a1', holder='SUN', name='Sun Power')
        made.send('office', 'open_account', key='a2', holder='SUN')
        yield made


@dataclass(frozen=True)
class Call:
    """A call of a user, and the status and kind of its answer."""

    user: str
    method: str
    path: str
    status: int
    kind: str = 'application/json'
    body: bytes = b''
    password: str = ''
    more: tuple[tuple[str, str], ...] = ()


TEXT = 'text/plain'
CALLS = {
    'a statement': Call('anna', 'GET', STATEMENT, 200, TEXT),
    'a request': Call('office', 'POST', REQUESTS, 200, body=ADD),
    'the same again': Call('office', 'POST', REQUESTS, 200, body=ADD),
    'one that is refused': Call('office', 'POST', REQUESTS, 409, body=KEY_TWICE),
    "one of the issuing body's": Call('anna', 'POST', REQUESTS, 403, body=ADD),
    'one that is none': Call('office', 'POST', REQUESTS, 400, body=b'{'),
    'an account that is none': Call('office', 'GET', '/v1/accounts/9/statement', 404, TEXT),
    "another's statement": Call('bela', 'GET', STATEMENT, 403, TEXT),
    'nobody': Call('', 'POST', REQUESTS, 401, body=ADD),
    'a wrong password': Call('anna', 'GET', STATEMENT, 401, password='wrong'),
    'nobody, for the records': Call('', 'GET', ACTS, 401),
    'another page': Call('office', 'POST', REQUESTS, 403, body=ADD,
                         more=(('Origin', 'https://evil.example'),)),
    'a role that reads': Call('auditor', 'POST', REQUESTS, 403, body=ADD),
    'a role that declares': Call('meters', 'GET', STATEMENT, 403),
    'the same, for the records': Call('meters', 'GET', ACTS, 403),
    'a body above all': Call('office', 'POST', REQUESTS, 413, body=b'x' * 1048577),
    "a holder's body above his own": Call('anna', 'POST', REQUESTS, 413, body=b'x' * 65537),
    'a head above all': Call('anna', 'GET', STATEMENT, 400, more=(('X', 'y' * 9000),)),
    'a coding that is none': Call('office', 'POST', REQUESTS, 501,
                                  more=(('Transfer_Encoding', 'braille'),)),
}


@pytest.mark.parametrize('what', CALLS)
def test_an_answer_is_as_described(front: Front, what: str) -> None:
    of = CALLS[what]
    text = request(of.method, of.path, of.user, of.password, of.body, **dict(of.more))
    answer = sent(front, text)
    assert (answer.status, answer.fields['content-type'].split(';')[0]) == (of.status, of.kind)
    assert is_described(of.method, of.path, answer)


def test_another_method_is_as_described(front: Front) -> None:
    """By the answers of the method that is there."""
    answer = front.ask('office', 'POST', STATEMENT, b'{}')
    assert answer.status == 405
    assert is_described('GET', STATEMENT, answer)


def test_a_registry_that_is_stopped(front: Front) -> None:
    front.stop('registry')
    try:
        for path in (STATEMENT, ACTS):
            answer = front.ask('anna', 'GET', path)
            assert answer.status == 502 and is_described('GET', path, answer)
    finally:
        front.start('registry')
    assert front.ask('anna', 'GET', STATEMENT).status == 200


FEW = (('zone=goo_rate:10m rate=20r/s', 'zone=goo_rate:10m rate=1r/m'),
       ('zone=goo_rate burst=60', 'zone=goo_rate burst=1'),
       ('zone=goo_verify:2m rate=10r/m', 'zone=goo_verify:2m rate=1r/m'))


@pytest.mark.parametrize(('path', 'user'), [('/v1/audit', 'anna'), (ACTS, 'anna'),
                                            ('/verify?number=1&code=x', '')])
def test_too_often_is_as_described(path: str, user: str) -> None:
    with Front(changes=FEW) as front:
        answers = [front.ask(user, 'GET', path) for _ in range(15)]
    assert answers[-1].status == 429
    assert is_described('GET', path, answers[-1])


IMPATIENT = (('proxy_read_timeout    300s', 'proxy_read_timeout    1s'),
             ('proxy_read_timeout        300s', 'proxy_read_timeout        1s'))


def test_no_answer_in_time_is_as_described() -> None:
    with Front(changes=IMPATIENT) as front:
        front.parts['registry'].send(signal.SIGSTOP)
        try:
            answer = front.ask('office', 'GET', '/v1/audit')
        finally:
            front.parts['registry'].send(signal.SIGCONT)
    assert answer.status == 504 and is_described('GET', '/v1/audit', answer)


def fail() -> float:
    """The registry ends the connection without an answer."""
    raise ConnectionError('it fails at this entry')


def test_an_entry_that_fails_and_is_set_aside(tmp_path: Path) -> None:
    """503 while the registry fails at an entry, 500 once the operator has set it aside."""
    apply = next(of for of in OUTSIDE.operations if of.name == 'apply')
    with Alone(tmp_path) as log:
        def told(key: str) -> tuple[int, int | None]:
            body = json.dumps({'command': 'open_holder', 'key': key, 'holder': key, 'name': 'x'})
            answer = log.send(body.encode())
            kind = answer.fields['content-type']
            assert OUTSIDE.fault(apply, answer.status, kind, answer.body) is None
            return answer.status, answer.entry
        assert told('A1')[0] == 200
        log.registry.pause = fail
        log.registry.handle_error = lambda *_: None     # type: ignore[assignment]
        status, entry = told('A2')
        assert (status, entry is not None) == (503, True)
        done = subprocess.run([*command('goo-replica-log', SERVICE), 'aside', *log.common, '--door',
                               str(log.door), str(entry)], text=True, capture_output=True,
                              timeout=60, check=False)
        assert done.returncode == 0, done
        assert client.comes(lambda: told('A2')[0] == 500, 60)


# ------------------------------------------------------------------ routes

def test_the_description_is_served_to_who_signed_in(front: Front) -> None:
    answer = front.ask('anna', 'GET', '/openapi.yaml')
    assert (answer.status, answer.fields.get('content-type')) == (200, 'application/yaml')
    assert yaml.safe_load(answer.body) == OUTSIDE.whole
    assert front.ask(None, 'GET', '/openapi.yaml').status == 401
    assert front.ask('anna', 'POST', '/openapi.yaml', b'x').status == 403


def test_no_route_of_the_records_lets_in_nobody(front: Front, tmp_path: Path) -> None:
    """Nor a wrong password, or a user who only declares."""
    own = routes_of(tmp_path)
    paths = [*own.lists, *own.others, *(f'{name}/1' for name in own.ones)]
    before = len(front.records.heads)
    for path in (f'/records/v1/{path}' for path in paths):
        got = [front.ask(user, 'GET', path).status for user in ('', 'meters')]
        wrong = front.ask('anna', 'GET', path, password='wrong').status
        assert [*got, wrong] == [401, 403, 401], path
    assert len(front.records.heads) == before and len(paths) > 5


# ------------------------------------------------------------------ worked cases

def begin_anew(front: Front, *words: str) -> None:
    """An empty registry in the place of the one before."""
    front.stop('registry')
    for file in front.db.parent.glob('registry.db*'):
        file.unlink()
    front.run(front.goo, 'init', '--db', front.db, '--code', CODE, '--today', DAY, *words)
    front.start('registry')


@pytest.mark.slow
def test_each_worked_case_goes_through_tls_as_it_is() -> None:
    """Answered byte for byte as the case has it."""
    users = {b'ISSUER': 'office', b'SUN': 'anna', b'VOLT': 'bela'}
    with Front(rate=FAST) as own:
        for case in cases_in():
            begin_anew(own, *case.next_serial)
            for line, want in zip(case.asked(), case.outcomes.decode().splitlines(), strict=True):
                caller, _, body = line.partition(b' ')
                if caller in users and '"Caller"' not in want:      # others can't sign in
                    answer = own.ask(users[caller], 'POST', REQUESTS, body)
                    assert answer.body.decode() == want, case.name
