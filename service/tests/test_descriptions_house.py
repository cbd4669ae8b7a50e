"""Calls that docs/openapi-outside.yaml allows, through the front door, and others near to them."""
import copy
import json
from typing import Any

import pytest
from described import Description
from described import Operation
from house import House
from hypothesis import HealthCheck
from hypothesis import given
from hypothesis import settings
from hypothesis import strategies

OUTSIDE = Description('openapi-outside.yaml')
RECORDS = Description('records.yaml')
USERS = strategies.sampled_from(['office', 'anna', 'bela', 'audit', 'meter', 'nemo', None])
ODD: tuple[object, ...] = (None, '', -1, 0, 1, 10 ** 20, 1.5, True, 'x' * 70, 'Ä\0', [], {},
                           '2025-02-30', '07' * 7)
"""Values that some member of a request is given."""
CALLS = settings(max_examples=60, derandomize=True,
                 suppress_health_check=list(HealthCheck))


def examples_of(operation: Operation, kind: str) -> list[Any]:
    """The bodies that the description shows."""
    content = operation.of['requestBody']['content']
    return [of['value'] for of in content[kind]['examples'].values() if 'value' in of]


@strategies.composite
def requests(draw: Any, operation: Operation) -> bytes:
    """A request of the description, as it is or with a member that is another, or none."""
    shown = examples_of(operation, 'application/json')
    body = copy.deepcopy(draw(strategies.sampled_from(shown)))
    if draw(strategies.booleans()):
        body['key'] = draw(strategies.text('abc', min_size=1, max_size=4))
    name = draw(strategies.sampled_from(sorted(body)))
    others = [of[name] for of in shown if name in of]
    way = draw(strategies.integers(0, 3))
    if way == 1:
        del body[name]
    elif way > 1:
        body[name] = draw(strategies.sampled_from(others if way == 2 else ODD))
    text = json.dumps(body).encode()
    return text[:draw(strategies.integers(0, len(text)))] if draw(TENTH) else text


TENTH = strategies.integers(0, 9).map(lambda number: number == 9)


@strategies.composite
def tables(draw: Any, operation: Operation) -> bytes:
    """A table of the description with fields that are others."""
    shown = [text for kind in operation.of['requestBody']['content']
             for text in examples_of(operation, kind)]
    lines = draw(strategies.sampled_from(shown)).splitlines()
    field = strategies.sampled_from(['', '1', '2025-01-31', '"', 'x' * 99, '999999999999999999'])
    for _ in range(draw(strategies.integers(0, 2))):
        at = draw(strategies.integers(0, len(lines) - 1))
        fields = lines[at].split(',')
        fields[draw(strategies.integers(0, len(fields) - 1))] = draw(field)
        lines[at] = ','.join(fields)
    return '\n'.join([*lines, '']).encode()


KNOWN = {name: ['1', '2', '3', '7', '0', 'x', '07000000000001', '07000000000100', '007', '9' * 15]
         for name in ('account', 'certificate', 'number', 'cancellation', 'notice')}


def check(house: House, operation: Operation, described: Description, data: Any) -> int:
    """One call of an operation, and what of its answer is not as described."""
    parts = {name: data.draw(strategies.sampled_from(KNOWN[name]))
             for name in described.parameters(operation, 'path')}
    body = b''
    if operation.name == 'apply':
        body = data.draw(requests(operation))
    elif 'requestBody' in operation.of:
        body = data.draw(tables(operation))
    path, method = operation.path.format(**parts), operation.method.upper()
    answer = house.ask(data.draw(USERS), method, path, body)
    kind = answer.fields.get('content-type', '')
    assert described.fault(operation, answer.status, kind, answer.body) is None
    return answer.status


@pytest.fixture(scope='module')
def open_house() -> Any:
    """A house with a country, whose date may move."""
    with House() as standing:
        country = standing.make_country()
        number = f'{country.first:014}'
        standing.must('anna', 'cancel', account=country.sun, first=number, last=number,
                      beneficiary='Rathaus', use_first='2025-01-01', use_last='2025-12-31')
        standing.must('office', 'add_peer', peer=8)
        number = f'{country.last:014}'
        standing.must('anna', 'export', giver=country.sun, peer=8, account=1, first=number,
                      last=number)
        yield standing


@pytest.mark.parametrize('operation', OUTSIDE.operations,
                         ids=[of.name for of in OUTSIDE.operations])
def test_answers_outside_are_as_they_are_described(open_house: House, operation: Operation) -> None:
    statuses = []

    @CALLS
    @given(strategies.data())
    def ask(data: Any) -> None:
        statuses.append(check(open_house, operation, OUTSIDE, data))

    ask()
    assert {200, 401} <= set(statuses)
    assert not {500, 502, 503, 504} & set(statuses)


def test_the_front_doors_answers_are_described_for_the_records(open_house: House) -> None:
    """Nobody, a wrong password, a role that may not read, a parameter, and no service."""
    acts = next(of for of in RECORDS.operations if of.name == 'listActs')

    def told(user: str | None, path: str = acts.path, **more: Any) -> int:
        answer = open_house.ask(user, 'GET', path, **more)
        kind = answer.fields.get('content-type', '')
        assert RECORDS.fault(acts, answer.status, kind, answer.body) is None
        return answer.status

    assert told('anna') == 200
    assert told(None) == 401
    assert told('anna', password='wrong') == 401
    assert told('meter') == told('nemo') == 403
    assert told('anna', f'{acts.path}?acount=1') == 400
    open_house.stop('web')
    try:
        assert told('anna') == 502
    finally:
        open_house.start('web')
