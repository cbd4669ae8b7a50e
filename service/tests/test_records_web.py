"""What is asked of the records of acts: parameters, files, time, and what a choice is made for."""
import csv
import io
import time
from pathlib import Path
from typing import Any

import pytest
from goo_service.records import follow
from goo_service.records import keys
from goo_service.records import parameters
from goo_service.records import web
from goo_service.records.timed import Limits
from goo_service.records.timed import TooLong
from made_book import HEADER
from made_book import Made
from made_book import routes_of
from goo_service.rules.commands import ISSUER

ROUTES = {'acts/NUMBER': 'acts/1', 'certificates/NUMBER': 'certificates/7000000000001',
          'cancellations/NUMBER': 'cancellations/1', 'attachments/NUMBER': 'attachments/1'}
TABLE = HEADER + b'k1,500000000000000012,2026-01-01,2026-01-31,5,0\n'
"""What a route is sent that takes a table."""
NEEDED: dict[str, dict[str, object]] = {
    'choice': {'account': 1, 'count': 1},
    'party': {'account': 1, 'holder': 'SUN'}, 'plan': {'account': 1},
    'papers': {'table': 'a' * 20}, 'documents': {'numbers': 1},
    'verify': {'number': 1, 'code': 'A' * 16}}


def path_of(route: str) -> str:
    return f'/{route}' if route.startswith('verify') else f'/records/v1/{ROUTES.get(route, route)}'


@pytest.fixture
def made(tmp_path: Path) -> Made:
    """A country in which SUN has cancelled five certificates and VOLT holds ten."""
    begun = Made(tmp_path)
    begun.country()
    begun.must('SUN', 'cancel', account=1, first='07000000000001', last='07000000000005',
               beneficiary='Rathaus', use_first='2025-01-01', use_last='2025-12-31')
    begun.must('SUN', 'transfer', giver=1, taker=2, first='07000000000101', last='07000000000110')
    return begun


# ------------------------------------------------------------ parameters

@pytest.mark.parametrize('route', parameters.PARAMETERS)
def test_a_parameter_that_no_route_has_is_named(made: Made, route: str) -> None:
    given, client = {**NEEDED.get(route, {})}, made.client()
    ask = client.post if route in routes_of(made.folder).posted else client.get
    head = {'GOO-Caller': ISSUER}
    other = {'acts': 'offset', 'holdings': 'after'}.get(route, 'before')
    for name in ('tecnology', 'Account', 'limit ', other):
        answer = ask(path_of(route), query_string=given | {name: '1'}, headers=head)
        assert answer.status_code == 400
        assert repr(name) in answer.get_json()['error']
    answer = ask(path_of(route), query_string=given, headers=head, data=TABLE)
    assert answer.status_code in (200, 404)


def test_a_parameter_that_is_given_twice_is_named(made: Made) -> None:
    answer = made.asked(ISSUER, '/records/v1/acts?account=1&account=2')
    assert answer == (400, {'error': 'account is given 2 times'})


@pytest.mark.parametrize(('path', 'name'), [
    ('acts?limit=0', 'limit'), ('acts?limit=-1', 'limit'), ('acts?limit=x', 'limit'),
    ('acts?limit=%s' % ('9' * 5000), 'limit'), ('acts?limit=٣', 'limit'),
    ('acts?before=x', 'before'),
    ('acts?kind=issues', 'kind'), ('acts?outcome=ok', 'outcome'), ('acts?peer=nine', 'peer'),
    ('acts?number=one', 'number'), ('acts?account=SUN', 'account'), ('acts?format=xml', 'format'),
    ('holdings?limit=0', 'limit'), ('holdings?offset=-1', 'offset'),
    ('holdings?tradable=maybe', 'tradable'), ('holdings?origin=seven', 'origin'),
    ('holdings?account=one', 'account'), ('accounts?account=one', 'account'),
    ('cancellations?number=one', 'number'), ('notices?peer=nine', 'peer'),
    ('accounts?limit=0', 'limit'),
    ('holders?limit=0', 'limit'), ('withdrawals?limit=0', 'limit'), ('deadlines?limit=0', 'limit'),
    ('statistics?by=month,month', 'by'), ('statistics?limit=0', 'limit'),
    ('deadlines?days=-1', 'days'),
    ('choice?account=1&count=1&act=give', 'act'), ('choice?account=1&count=1&order=best', 'order'),
    ('documents?numbers=', 'numbers'), ('documents', 'numbers')])
def test_a_value_that_cannot_be_read_is_named(made: Made, path: str, name: str) -> None:
    status, answer = made.asked(ISSUER, f'/records/v1/{path}')
    assert status == 400
    assert answer['error'].startswith(f'{name} is ')


@pytest.mark.parametrize('name', ['acts', 'holdings', 'accounts', 'devices', 'cancellations'])
def test_an_account_that_is_none_has_nothing(made: Made, name: str) -> None:
    for account in (0, 999):
        assert made.asked(ISSUER, f'/records/v1/{name}', account=account)[1]['items'] == []


def test_limit_and_offset_go_through_each_list(made: Made) -> None:
    for name in routes_of(made.folder).lists:
        if name == 'choice':
            continue
        more: dict[str, object] = {'by': 'run'} if name == 'holdings' else {}
        more |= {'days': 4000} if name == 'deadlines' else {}
        whole = made.items(ISSUER, name, **more)
        assert made.items(ISSUER, name, **more, limit=1) == whole, name


# ------------------------------------------------------------ files

def file_of(made: Made, name: str, **parameters: object) -> list[dict[str, str]]:
    client = made.client()
    given: dict[str, object] = {'format': 'csv', **parameters}
    answer = client.get(f'/records/v1/{name}', headers={'GOO-Caller': ISSUER}, query_string=given)
    assert answer.status_code == 200
    return list(csv.DictReader(io.StringIO(answer.get_data(as_text=True), newline='')))


def test_a_file_has_the_rows_of_the_list(made: Made) -> None:
    for name in routes_of(made.folder).lists:
        parameters = NEEDED.get(name, {})
        shown = made.asked(ISSUER, f'/records/v1/{name}', **parameters)[1]['items']
        file = file_of(made, name, **parameters)
        assert len(file) == len(shown), name
        for row, item in zip(file, shown):
            plain = {column: value for column, value in item.items() if isinstance(value, str)}
            assert {column: row[column] for column in plain} == plain
    act = file_of(made, 'acts')[0]
    assert (act['giver_account'], act['giver_holder'], act['taker_name']) == ('1', 'SUN', 'Volt')


def test_the_columns_of_a_file_are_the_same_whatever_is_in_it(made: Made) -> None:
    client, heads = made.client(), set()
    for query in ('', '&kind=transfer', '&kind=date', '&kind=export'):
        answer = client.get(f'/records/v1/acts?format=csv{query}', headers={'GOO-Caller': ISSUER})
        heads.add(answer.get_data(as_text=True).split('\r\n')[0])
    assert len(heads) == 1


def test_a_file_is_written_as_it_is_read(made: Made) -> None:
    """The first part is there before the other rows were read."""
    for at in range(3000):
        made.send_body('SUN', b'%d' % at)
    answer = made.client().get('/records/v1/acts?format=csv', headers={'GOO-Caller': ISSUER},
                               buffered=False)
    parts = [len(part) for part in answer.response]
    assert len(parts) > 3
    assert max(parts) < 100_000


# ------------------------------------------------------------ time

def slow_client(made: Made, **limits: Any) -> Any:
    made.book().close()
    files = made.folder / 'state.json'
    return web.application(made.folder, files, Limits(**limits)).test_client()


HEAD = {'GOO-Caller': ISSUER}


def test_a_question_ends_when_its_time_is_over(made: Made) -> None:
    client = slow_client(made, question=-1)
    for path in ('acts', 'holdings', 'acts/1', ROUTES['certificates/NUMBER'], 'status'):
        answer = client.get(f'/records/v1/{path}', headers=HEAD)
        assert answer.status_code == 503
        assert 'takes longer than' in answer.get_json()['error']
    assert client.get('/verify?number=1&code=A').status_code == 503


def test_a_statement_ends_when_its_time_is_over(made: Made, monkeypatch: Any) -> None:
    """One statement that would run for a minute is ended within its second."""
    endless = ('WITH RECURSIVE n(i) AS (SELECT 1 UNION ALL SELECT i + 1 FROM n LIMIT 90000000) '
               'SELECT max(i) FROM n')
    monkeypatch.setattr(web, 'standing', lambda database: database.execute(endless))
    begun = time.monotonic()
    answer = slow_client(made, question=0.3).get('/records/v1/status', headers=HEAD)
    assert answer.status_code == 503
    assert 0.2 < time.monotonic() - begun < 5


def test_a_file_whose_time_ends_within_is_no_whole_file(made: Made,
                                                        monkeypatch: pytest.MonkeyPatch) -> None:
    for at in range(2000):
        made.send_body('SUN', b'%d' % at)
    client = slow_client(made, file=600)
    answer = client.get('/records/v1/acts?format=csv', headers=HEAD, buffered=False)
    parts = iter(answer.response)
    assert answer.status_code == 200
    assert next(parts).startswith(b'id,')
    later = time.monotonic() + 700
    with monkeypatch.context() as clock, pytest.raises(TooLong):
        clock.setattr(time, 'monotonic', lambda: later)
        list(parts)
    answer.close()


def test_files_that_are_written_at_once_are_few(made: Made) -> None:
    client = slow_client(made)
    under_way = [client.get('/records/v1/acts?format=csv', headers=HEAD, buffered=False)
                 for _ in range(3)]
    assert [answer.status_code for answer in under_way] == [200, 200, 503]
    assert under_way[2].headers['Retry-After']
    assert client.get('/records/v1/acts', headers=HEAD).status_code == 200
    for answer in under_way:
        answer.close()
    assert client.get('/records/v1/acts?format=csv', headers=HEAD).status_code == 200


# ------------------------------------------------------------ the key of check codes

def test_a_key_that_a_crash_left_empty_makes_no_codes(made: Made) -> None:
    for text in ('', 'ab\n'):
        (made.folder / 'code.key').write_text(text)
        assert made.asked(ISSUER, '/records/v1/cancellations/1')[0] == 503
        assert made.asked(None, '/verify', number=1, code='A' * 16)[0] == 503
    assert made.asked(ISSUER, '/records/v1/acts')[0] == 200


def test_a_key_is_made_whole_and_once(tmp_path: Path) -> None:
    path = tmp_path / 'code.key'
    (tmp_path / '.code.key.part').write_text('what a crash left')
    follow.make_key(path)
    key = path.read_text()
    assert len(key) == keys.KEY + 1
    assert path.stat().st_mode & 0o777 == 0o640
    follow.make_key(path)
    assert path.read_text() == key
    assert [found.name for found in tmp_path.iterdir()] == ['code.key']


# ------------------------------------------------------------ what a choice is for

@pytest.fixture
def later(made: Made) -> Made:
    """The same country when the trade of January and of June is over: 95 and 90 certificates."""
    made.must(ISSUER, 'advance', day='2026-07-01')
    return made


def chosen(made: Made, **parameters: object) -> tuple[int, Any]:
    return made.asked('SUN', '/records/v1/choice', account=1, **parameters)


@pytest.mark.parametrize('act', ['', 'transfer', 'export'])
@pytest.mark.parametrize('order', ['', 'oldest', 'expiring', 'fewest'])
def test_what_is_chosen_can_be_traded(later: Made, act: str, order: str) -> None:
    status, answer = chosen(later, count=100, order=order, act=act)
    assert status == 200
    assert {(run['first_day'], run['count']) for run in answer['items']} == {('2025-12-01', 100)}
    run = answer['items'][0]
    moved = later.send('SUN', 'transfer', giver=1, taker=2, first=run['first'], last=run['last'])
    assert moved['outcome'] == 'accepted'


def test_of_what_can_be_traded_there_may_be_too_few(later: Made) -> None:
    status, answer = chosen(later, count=101)
    assert status == 409
    assert answer['error'] == ('100 certificates of account 1 are held that fit and whose trade is '
                               'open, and 101 were asked for')


@pytest.mark.parametrize('act', ['cancel', 'withdraw'])
def test_what_is_cancelled_may_be_older(later: Made, act: str) -> None:
    status, answer = chosen(later, count=96, act=act)
    assert [run['first_day'] for run in answer['items']] == ['2025-01-01', '2025-06-01']
    status, answer = chosen(later, count=96, act=act, tradable='yes')
    assert [run['first_day'] for run in answer['items']] == ['2025-12-01']
    assert chosen(later, count=286, act=act)[0] == 409
