"""A user who may read only some accounts of his holder: what the records and the log show him.

SUN has accounts 1 and 3. All that is of account 3 has a mark in it. Whoever may read account 1
alone finds the mark nowhere, and each list of his two colleagues together is that of the holder.
"""
import json
from collections.abc import Iterator
from typing import Any

import pytest
from goo_service.common.client import Client
from goo_service.log import narrowed
from goo_service.log.registry import Answer
from goo_service.records.parameters import PARAMETERS
from house import House
from made_book import DEVICE
from made_book import OWN
from made_book import PLANT
from made_book import Made
from mutations import gsrn

MARK = 'Verborgen'
OTHER = gsrn(77)
BY_ACCOUNT = ('accounts', 'devices', 'declarations', 'corrections', 'cancellations', 'notices')
SUN = 'SUN'


def ranged(first: int, last: int) -> dict[str, str]:
    return {'first': f'{OWN + first:014}', 'last': f'{OWN + last:014}'}


def cancelled(account: int, first: int, last: int, name: str) -> dict[str, Any]:
    return {'account': account, 'beneficiary': name, 'use_first': '2025-01-01',
            'use_last': '2025-12-31', **ranged(first, last)}


@pytest.fixture(scope='module')
def made(tmp_path_factory: pytest.TempPathFactory) -> Made:
    begun = Made(tmp_path_factory.mktemp('accounts'))
    begun.country()                                         # 1 to 300 are in account 1
    begun.must('ISSUER', 'open_account', holder=SUN)
    begun.must('ISSUER', 'register_device', **{**PLANT, 'device': OTHER, 'account': 3,
                                               'site': f'{MARK} field'})
    for number, month in ((f'{MARK}-1', 3), (f'{MARK}-2', 12)):
        begun.must('ISSUER', 'declare', key=number, device=OTHER, aux_wh=0,
                   first_day=f'2025-{month:02}-01', last_day=f'2025-{month:02}-28',
                   gross_wh=100 * 10 ** 6)                   # 301 to 500 are in account 3
    begun.must('ISSUER', 'correct', key=f'{MARK}-3', device=OTHER, first_day='2025-03-01',
               less_wh=2 * 10 ** 6, reason=MARK, **ranged(399, 400))
    begun.must('ISSUER', 'add_peer', peer=9)
    begun.must(SUN, 'cancel', key='own', **cancelled(1, 1, 5, 'Bakery'))
    begun.must(SUN, 'cancel', key=f'{MARK}-4', **cancelled(3, 301, 305, MARK))
    begun.must(SUN, 'transfer', key=f'{MARK}-5', giver=3, taker=2, **ranged(306, 310))
    begun.must(SUN, 'transfer', key='both', giver=1, taker=3, **ranged(6, 10))
    begun.must(SUN, 'export', key=f'{MARK}-6', giver=3, peer=9, account=5, **ranged(311, 315))
    begun.must(SUN, 'export', key='out', giver=1, peer=9, account=5, **ranged(11, 15))
    begun.must('ISSUER', 'withdraw', key=f'{MARK}-7', reason=MARK, **ranged(316, 320))
    begun.must('ISSUER', 'withdraw', key='w', reason='fraud', **ranged(16, 20))
    begun.send(SUN, 'cancel', key=f'{MARK}-8', **cancelled(3, 1, 5, MARK))           # refused
    begun.send(SUN, 'cancel', key='refused', **cancelled(1, 301, 305, 'Bakery'))
    begun.send_bundle(SUN, [
        {'command': 'cancel', 'key': f'{MARK}-9', **cancelled(3, 321, 321, MARK)},
        {'command': 'cancel', 'key': 'line', **cancelled(1, 21, 21, 'Bakery')}])
    folder = begun.folder / 'attachments'
    folder.mkdir()
    (folder / 'list.json').write_text(json.dumps([
        {'number': 1, 'holder': SUN, 'file': f'{MARK}.pdf', 'about': MARK, 'bytes': 1,
         'sha256': '0' * 64}]))
    return begun


class Asker:
    """A user who may read these accounts alone, or all of them."""

    def __init__(self, made: Made, accounts: str) -> None:
        self.client = made.client()
        self.head = {'GOO-Caller': SUN, 'GOO-User': 'anna',
                     **({'GOO-Accounts': accounts} if accounts else {})}

    def get(self, path: str, **asked: object) -> Any:
        return self.client.get(f'/records/v1/{path}', query_string=asked, headers=self.head)

    def json(self, path: str, **asked: object) -> Any:
        return json.loads(self.get(path, **asked).get_data())

    def items(self, name: str, **asked: object) -> list[Any]:
        answer = self.get(name, limit=1000, **asked)
        assert answer.status_code == 200, answer.get_data()
        return list(json.loads(answer.get_data())['items'])


ASKED: dict[str, list[dict[str, Any]]] = {
    'acts': [{}, {'folded': 'yes'}, {'after': 0}, {'account': 3}, {'account': 1}, {'q': MARK},
             {'q': MARK[:2]}, {'key': f'{MARK}*'}, {'kind': 'cancellation'}, {'device': OTHER},
             {'outcome': 'refused'}, {'format': 'csv'}, {'user': 'user-sun'}],
    'holdings': [{}, {'by': 'run'}, {'account': 3}, {'place': 'cancelled', 'by': 'run'},
                 {'format': 'csv', 'by': 'run'}],
    'deadlines': [{'days': 4000}, {'days': 4000, 'account': 3}],
    'choice': [{'account': 1, 'count': 3}], 'statistics': [{'by': 'device'}],
    'undeclared': [{'month': '2026-05'}],
    'documents': [{'numbers': 1}], 'plan': [], 'doubts': [], 'verify': [], 'verify/key': [],
    'papers': [{'table': 'a' * 26}], 'party': [{'account': 3, 'holder': SUN}],
    'acts/NUMBER': [], 'certificates/NUMBER': [], 'cancellations/NUMBER': [],
    'attachments/NUMBER': [], 'openapi.yaml': []}


def texts(asker: Asker) -> Iterator[tuple[str, str]]:
    """Every answer to every question."""
    for name in PARAMETERS:
        for asked in ASKED.get(name, [{}, {'account': 3}] if name in BY_ACCOUNT else [{}]):
            if name.startswith('verify'):
                continue
            yield f'{name} {asked}', asker.get(name, **asked).get_data(as_text=True)
    for number in range(1, 60):
        for name in ('acts', 'cancellations', 'attachments'):
            yield f'{name}/{number}', asker.get(f'{name}/{number}').get_data(as_text=True)
    for serial in (1, 6, 11, 20, 21, 22, *range(301, 325), 400, 450, 500):
        yield f'{serial}', asker.get(f'certificates/{OWN + serial}').get_data(as_text=True)
    for number in range(1, 6):
        yield f'documents {number}', asker.get('documents',
                                               numbers=number).get_data(as_text=True)


def test_nothing_of_another_account_is_shown(made: Made) -> None:
    of_one, whole = Asker(made, '1'), Asker(made, '')
    assert sum(MARK in text for _, text in texts(whole)) > 40       # the mark can be found
    told = [(name, text) for name, text in texts(of_one)
            if MARK in text or OTHER in text and 'device' not in name]
    assert not told, told[0]
    assert of_one.items('devices')[0]['gsrn'] == DEVICE and len(of_one.items('devices')) == 1


@pytest.mark.parametrize('name', BY_ACCOUNT)
def test_what_colleagues_see_adds_up_to_what_the_holder_sees(made: Made, name: str) -> None:
    whole = Asker(made, '').items(name)
    one, three = Asker(made, '1').items(name), Asker(made, '3').items(name)
    both = Asker(made, '1,3').items(name)
    assert both == whole and sorted(map(str, one + three)) == sorted(map(str, whole))
    assert one or name == 'corrections'
    assert three and Asker(made, '0').items(name) == [] == Asker(made, '2').items(name)


def test_sums_are_of_one_s_own_accounts(made: Made) -> None:
    def count(accounts: str, name: str, **asked: object) -> int:
        return sum(row['count'] for row in Asker(made, accounts).items(name, **asked))

    for name in ('holdings', 'withdrawals'):
        parts = count('1', name), count('3', name)
        assert sum(parts) == count('', name) and all(parts)
    flows = [Asker(made, accounts).items('statistics', by='device') for accounts in ('1', '3', '')]
    assert flows[0][0]['issued'] == 300 and flows[1][0]['device'] != flows[0][0]['device']
    assert [row['cancelled'] for row in flows[0]] == [6]


def test_acts_are_those_that_touched_one_s_own_accounts(made: Made) -> None:
    def keys(accounts: str) -> list[Any]:
        return [row['key'] for row in Asker(made, accounts).items('acts', caller=SUN)]

    assert keys('1') == ['line', 'refused', 'out', 'both', 'own']
    assert keys('3') == [f'{MARK}-{n}' for n in (9, 8, 6)] + ['both'] + [
        f'{MARK}-{n}' for n in (5, 4)]
    assert keys('0') == [] and len(keys('')) == 10
    both, = [row for row in Asker(made, '1').items('acts') if row['key'] == 'both']
    assert both['count'] == 5 and both['taker']['account'] == 3


def test_what_is_not_kept_by_account_is_refused(made: Made) -> None:
    for path in ('attachments', 'attachments/1'):
        assert Asker(made, '1,3').get(path).status_code == 403
        assert Asker(made, '').get(path).status_code != 403
    assert Asker(made, '1').json('status')['attachments'] is False
    assert Asker(made, '').json('status')['attachments'] is True


@pytest.mark.parametrize('field', ['x', '1,', ',1', '-1', '1;3', '1 3', '1' * 10, '٣', '1,,3'])
def test_a_field_in_another_form_shows_nothing(made: Made, field: str) -> None:
    assert narrowed.accounts_in(field) == frozenset()
    if field.isascii():
        assert Asker(made, field).items('accounts') == []
    assert narrowed.accounts_in('') is None
    assert narrowed.accounts_in('1,30') == frozenset((1, 30))


def test_two_fields_show_nothing_and_a_tag_is_of_the_accounts(made: Made) -> None:
    client = made.client()
    answer = client.get('/records/v1/accounts', headers=[
        ('GOO-Caller', SUN), ('GOO-Accounts', '1'), ('GOO-Accounts', '3')])
    assert json.loads(answer.get_data())['items'] == []
    tags = {Asker(made, accounts).get('accounts').headers['ETag'] for accounts in ('', '1', '3')}
    assert len(tags) == 3


# ------------------------------------------------------------------ the log's door

def test_the_log_narrows_what_the_registry_answers(house: House) -> None:
    country = house.make_country()
    second = house.enter('ISSUER', 'open_account', 'narrow-a', holder=SUN)['account']
    first, last = f'{country.first + 50:014}', f'{country.first + 59:014}'
    house.enter(SUN, 'transfer', 'narrow-t', giver=country.sun, taker=second, first=first,
                last=last)
    number = house.enter(SUN, 'cancel', 'narrow-c', **{
        **cancelled(second, 0, 0, 'Bakery'), 'first': first, 'last': first})['cancellation']
    own = house.enter(SUN, 'cancel', 'narrow-d', **{
        **cancelled(country.sun, 0, 0, 'Bakery'), 'first': f'{country.first + 60:014}',
        'last': f'{country.first + 60:014}'})['cancellation']

    def ask(path: str, accounts: str) -> int:
        fields = {'GOO-Caller': SUN, 'GOO-Role': 'full', 'GOO-User': 'anna',
                  **({'GOO-Accounts': accounts} if accounts else {})}
        return Client(str(house.folder / 'door.sock'), 60, fields=fields).get(path).status

    for path, of_own, of_second in (
            (f'/v1/accounts/{country.sun}/statement', 200, 403),
            (f'/v1/accounts/{second}/statement', 403, 200),
            (f'/v1/accounts/0{second}/statement', 403, 200),
            (f'/v1/certificates/{country.first + 70:014}', 200, 404),
            (f'/v1/certificates/{last}', 404, 200),
            (f'/v1/cancellations/{own}', 200, 403), (f'/v1/cancellations/{number}', 403, 200),
            ('/v1/notices/1', 403, 403), ('/v1/audit', 403, 403)):
        assert ask(path, str(country.sun)) == of_own, path
        assert ask(path, str(second)) == of_second, path
        assert ask(path, '0') in (403, 404), path
        assert ask(path, 'x') in (403, 404), path
        if 'audit' not in path and 'notices' not in path:
            assert ask(path, '') == ask(path, f'{country.sun},{second}') == 200, path


def test_an_answer_without_an_account_is_not_shown() -> None:
    for target, body, wanted in (
            ('/v1/cancellations/1', b'CANCELLATION 1\n', 403),
            ('/v1/cancellations/1', b'CANCELLATION 1\nregistry 07\naccount 1\nx\n', 403),
            ('/v1/certificates/07000000000001', b'{"number":"1"}', 404)):
        assert narrowed.narrow(target, Answer(200, 'x', body), frozenset({1})).status == wanted
