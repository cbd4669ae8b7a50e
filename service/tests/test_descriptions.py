"""Calls that the descriptions allow are made, and each answer is as it is described."""
import json
from collections.abc import Iterator
from pathlib import Path
from typing import Any

import pytest
from goo_service.records import feed
from goo_service.records import parameters
from goo_service.records.attachments import Attachments
from goo_service.records.attachments import Content
from described import Description
from described import Operation
from hypothesis import HealthCheck
from hypothesis import given
from hypothesis import settings
from hypothesis import strategies
from made_book import DEVICE
from made_book import HEADER
from made_book import Made
from goo_service.rules.commands import ISSUER

RECORDS = Description('records.yaml')
OPERATIONS = pytest.mark.parametrize('operation', RECORDS.operations,
                                     ids=[of.name for of in RECORDS.operations])
CALLERS = strategies.sampled_from([ISSUER, 'SUN', 'VOLT', 'STRANGER'])
SENT = 'a' * 20
"""The digest of a table that was sent."""
THERE = {'account': '1', 'holder': 'SUN', 'table': SENT, 'count': '3', 'numbers': '1',
         'number': '1'}
"""Parameters that an operation needs, of what is there."""
BENEFICIARY = b'beneficiary,quantity,use_first,use_last\nRathaus,3,2025-01-01,2025-12-31\n'
TABLES = {'plan': BENEFICIARY,
          'doubts': HEADER + b'k1,%b,2026-07-01,2026-07-31,5,0\n' % DEVICE.encode()}
"""What an operation is sent that takes a table."""
PUBLIC = '''-----BEGIN PUBLIC KEY-----
MCowBQYDK2VwAyEAGb9ECWmEzf6FQbrBZ9w7lshQhqowtrbLDFw4rXAxZuE=
-----END PUBLIC KEY-----
'''
"""That of RFC 8410, section 10.1."""
QUICK = settings(max_examples=40, derandomize=True, suppress_health_check=list(HealthCheck))


def fill(made: Made) -> None:
    """Acts of every kind, and rows in every list."""
    made.country()
    first = [7_000_000_000_001 + 100 * month for month in range(3)]
    made.must('SUN', 'cancel', account=1, beneficiary='=Rathaus', use_first='2025-01-01',
              use_last='2025-12-31', first=f'{first[0]:014}', last=f'{first[1] + 4:014}')
    made.must('SUN', 'cancel', key=f't.{SENT}.1.1', account=1, beneficiary='Rathaus',
              use_first='2025-01-01', use_last='2025-12-31', first=f'{first[1] + 5:014}',
              last=f'{first[1] + 6:014}')
    made.must('SUN', 'transfer', giver=1, taker=2, first=f'{first[1] + 10:014}',
              last=f'{first[1] + 19:014}')
    made.must(ISSUER, 'withdraw', first=f'{first[1] + 30:014}', last=f'{first[1] + 31:014}',
              reason='meter read twice')
    made.must(ISSUER, 'correct', device=DEVICE, first_day='2025-12-01', less_wh=1_000_000,
              first=f'{first[2]:014}', last=f'{first[2]:014}', reason='meter read twice')
    made.must(ISSUER, 'add_peer', peer=9)
    span = {'first': f'{first[2] + 50:014}', 'last': f'{first[2] + 59:014}'}
    made.must('SUN', 'export', giver=1, peer=9, account=5, **span)
    made.send_table(ISSUER, HEADER + b'r1,%b,2025-01-01,2025-01-31,1,0\nno row\n' % DEVICE.encode())
    made.send_table('SUN', HEADER + b'r1,%b,2025-01-01,2025-01-31,1,0\n' % DEVICE.encode())
    made.send_body('SUN', b'{"nonsense')
    odd = b'{"command":"cancel","account":0,"giver":-1}'
    made.take(made.record('SUN', '/v1/requests', odd, 500, b'Set aside\n'))
    made.take(made.record('VOLT', '/v1/requests', b'{"command":"transfer","giver":0,"taker":99}',
                          403, b'Forbidden\n', role='reads'))
    spans = [{'first': f'{first[1] + at:014}', 'last': f'{first[1] + at:014}'} for at in (40, 41)]
    made.send_bundle('SUN', [{'command': 'transfer', 'key': f'b{at}', 'giver': 1, 'taker': 2, **of}
                             for at, of in enumerate(spans)])
    made.must(ISSUER, 'advance', day='2026-08-01')
    (made.folder / 'etc').mkdir()
    (made.folder / 'etc/documents.pub').write_text(PUBLIC)
    old = Content('SUN', 'statement.pdf', 'of the registry before', b'%PDF-1.7')
    Attachments(made.folder / 'attachments').add([old], None)


@pytest.fixture(scope='module')
def made(tmp_path_factory: pytest.TempPathFactory) -> Iterator[Made]:
    whole = Made(Path(tmp_path_factory.mktemp('described')))
    fill(whole)
    yield whole


@pytest.fixture(scope='module')
def known(made: Made) -> dict[str, list[str]]:
    """Values of the acts and the lots, by the parameters that find them."""
    found: dict[str, set[str]] = {}
    for item in [*made.acts(), *made.items(ISSUER, 'holdings')]:
        for name, value in item.items():
            if isinstance(value, str | int):
                found.setdefault(name, set()).add(str(value))
    found['number'] |= {'7000000000001', '7000000000150', '7000000000251'}
    found['numbers'] = {'1'}
    found['q'] = {'north', 'r1', '5000'}
    found['sort'] = {'count', '-count', 'number', '-number', 'act', 'gsrn'}
    found['code'] = {made.asked(ISSUER, '/records/v1/cancellations/1')[1]['code']}
    return {name: sorted(values) for name, values in found.items()}


def test_each_route_is_described_with_its_parameters() -> None:
    told = {of.path.removeprefix('/records/v1/').removeprefix('/').replace('{number}', 'NUMBER'):
            set(RECORDS.parameters(of, 'query')) for of in RECORDS.operations}
    assert told == {name: set(of) for name, of in parameters.PARAMETERS.items()}


@OPERATIONS
def test_answers_are_as_they_are_described(made: Made, known: dict[str, list[str]],
                                           operation: Operation,
                                           monkeypatch: pytest.MonkeyPatch) -> None:
    monkeypatch.setattr(feed, 'wait_for_entry', lambda *_: False)   # nobody waits
    client = made.client()

    def ask(path: str, query: dict[str, str], caller: str) -> int:
        answer = client.open(path, method=operation.method.upper(), query_string=query,
                             headers={'GOO-Caller': caller}, data=TABLES.get(operation.name))
        kind, body = answer.headers['Content-Type'], answer.get_data()
        answer.close()
        assert RECORDS.fault(operation, answer.status_code, kind, body) is None
        return int(answer.status_code)

    @QUICK
    @given(strategies.data())
    def ask_anything(data: Any) -> None:
        status = ask(data.draw(RECORDS.paths(operation, known)),
                     data.draw(RECORDS.queries(operation, known)), data.draw(CALLERS))
        assert status not in (500, 503)

    there = {**THERE, 'code': known['code'][0]}
    needed = {name: there[name] for name, one in RECORDS.parameters(operation, 'query').items()
              if one.get('required') or name == 'holder'}
    number = '7000000000001' if operation.name == 'certificate' else '1'
    caller = 'SUN' if operation.name == 'plan' else ISSUER
    assert ask(operation.path.format(number=number), needed, caller) == 200
    ask_anything()


LISTS = [of for of in RECORDS.operations if 'limit' in RECORDS.parameters(of, 'query')
         or of.name == 'choose']


@pytest.mark.parametrize('operation', LISTS, ids=[of.name for of in LISTS])
def test_each_list_has_items_and_their_columns(made: Made, operation: Operation) -> None:
    """What the schema of an item names is what an item has, and the columns of the file."""
    query: dict[str, dict[str, Any]] = {'choose': {'account': 1, 'count': 3},
                                        'listDeadlines': {'days': 4000}}
    asked = query.get(operation.name, {})
    status, answer = made.asked(ISSUER, operation.path, **asked)
    assert status == 200
    assert answer['items']
    client = made.client()
    file = client.get(operation.path, query_string={**asked, 'format': 'csv'},
                      headers={'GOO-Caller': ISSUER})
    heads = file.get_data(as_text=True).split('\r\n')[0].split(',')
    file.close()
    plain = {name for name, value in answer['items'][0].items() if not isinstance(value, dict)}
    assert plain - {'giver', 'taker'} <= set(heads)


def test_a_member_that_is_not_described_is_told() -> None:
    """The descriptions are closed: more than they say is a fault."""
    item: dict[str, object] = {'code': 'SUN', 'name': 'Sun', 'accounts': 1}
    page: dict[str, object] = {
        'stands': {'code': 7, 'today': '2025-03-01', 'entry': 1, 'time': None}, 'next': None,
        'items': [item]}
    operation = next(of for of in RECORDS.operations if of.name == 'listHolders')

    def fault(value: object) -> str | None:
        return RECORDS.fault(operation, 200, 'application/json', json.dumps(value).encode())

    assert fault(page) is None
    assert fault(page | {'more': 1})
    assert fault(page | {'items': [item | {'more': 1}]})
    assert fault(page | {'items': [{'code': 'SUN'}]})
    assert RECORDS.fault(operation, 404, 'application/json', b'{"error":"x"}')
    assert RECORDS.fault(operation, 200, 'text/html', b'')
