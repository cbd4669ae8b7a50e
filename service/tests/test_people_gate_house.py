"""Scopes, access and four eyes through the front door, with the log and the registry behind.

All that was done has to stand in the entries of the log, in the records, and in a replay.
"""
import json
from collections.abc import Iterator
from typing import Any

import pytest
from goo_service.log import reader
from goo_service.log import entries
from goo_service.log import reversal
from fake_log import FakeLog
from fake_log import comes
from calls import Answer
from calls import Country
from house import House
from house_people import Signed

DAY = 86_400


RULES: tuple[dict[str, Any], ...] = (
    {'caller': '*', 'command': 'transfer', 'above': 100, 'days': 7},
    {'caller': 'ISSUER', 'command': 'withdraw', 'above': 0, 'days': 1})


@pytest.fixture(scope='module')
def house() -> Iterator[House]:
    """SUN has two users more, and transfers above 100 and withdrawals wait for a second one."""
    with House(people=True) as made:
        made.make_country(1000)
        made.people.make_user('ada', 'SUN')
        office = made.people.sign_in('office')
        for rule in RULES:
            assert office.post('rules', rule).status == 200
        yield made


@pytest.fixture(scope='module')
def country(house: House) -> Country:
    return house.make_country(1000)


def transfer(country: Country, key: str, first: int, count: int, giver: int = 0) -> dict[str, Any]:
    return {'command': 'transfer', 'key': key, 'giver': giver or country.sun,
            'taker': country.volt, 'first': f'{country.first + first:014}',
            'last': f'{country.first + first + count - 1:014}'}


def post(of: Signed, *requests: dict[str, Any]) -> Answer:
    route = '/v1/bundles' if len(requests) > 1 else '/v1/requests'
    return of.ask('POST', route, '\n'.join(map(json.dumps, requests)))


def bearer(house: House, token: str, method: str, path: str, body: object = '') -> Answer:
    text = body if isinstance(body, str) else json.dumps(body)
    return house.ask(None, method, path, text, Authorization=f'Bearer {token}')


def entry_of(house: House, number: int | None) -> entries.Entry:
    assert number
    return next(reader.read_archive(house.state / 'archive', number - 1)).entry


def confirmed(house: House, request: dict[str, Any]) -> Any:
    """What becomes of a request of anna's that waits, and that ada confirms."""
    anna, ada = map(house.people.sign_in, ('anna', 'ada'))
    waits = post(anna, request)
    assert waits.status == 202, waits
    return ada.post(f'waiting/{waits.json["number"]}/confirm').json


def act_of(house: House, key: str) -> dict[str, Any]:
    house.wait_for_book()
    found, = house.people.sign_in('office').ask(
        'GET', f'/records/v1/acts?key={key}').json['items']
    return dict(found)


def test_a_token_is_made_used_and_revoked(house: House, country: Country) -> None:
    anna = house.people.sign_in('anna')
    ends = int(anna.get('me')['sessions'][0]['begun']) + DAY
    made = anna.post('me/tokens', {'name': 'nightly', 'trades': True, 'most': 20,
                                   'account': country.sun, 'ends': ends})
    token, number = made.json['token'], made.json['id']
    done = bearer(house, token, 'POST', '/v1/requests', transfer(country, 't1', 0, 15))
    assert (done.status, done.json['outcome']) == (200, 'accepted')
    assert bearer(house, token, 'POST', '/v1/requests',
                  transfer(country, 't1', 0, 15)).json['outcome'] == 'repeated'
    before = house.entry()
    for request, why in (
            (transfer(country, 't2', 15, 6), '15 are counted today'),
            (transfer(country, 't2', 15, 1, giver=country.volt), 'not of account'),
            ({'command': 'declare', 'key': 't3', 'device': country.device, 'gross_wh': 1,
              'aux_wh': 0, 'first_day': '2025-02-01', 'last_day': '2025-02-02'}, 'declaration')):
        refused = bearer(house, token, 'POST', '/v1/requests', request)
        assert refused.status == 403 and why in refused.json['error']
    assert bearer(house, token, 'GET', '/records/v1/status').status == 403
    assert bearer(house, token, 'GET', f'/v1/accounts/{country.sun}/statement').status == 403
    assert house.entry() == before
    refused = bearer(house, token, 'POST', '/v1/requests', transfer(country, 't2', 0, 5))
    assert (refused.status, refused.json['name']) == (409, 'NotHeld')       # and is given back
    assert bearer(house, token, 'POST', '/v1/requests',
                  transfer(country, 't2', 15, 5)).status == 200
    assert anna.post(f'me/tokens/{number}/revoke').status == 200
    assert bearer(house, token, 'POST', '/v1/requests',
                  transfer(country, 't1', 0, 15)).status == 401
    entry = entry_of(house, done.entry)
    assert (entry.user, entry.way, entry.confirmed) == ('anna', 'token nightly', '')
    act = act_of(house, 't1')
    assert (act['user'], act['way'], act['confirmed']) == ('anna', 'token nightly', None)


def test_two_users_of_a_holder_send_what_one_may_not(house: House, country: Country) -> None:
    anna, ada, bela = map(house.people.sign_in, ('anna', 'ada', 'bela'))
    assert post(anna, transfer(country, 'f1', 100, 100)).json['outcome'] == 'accepted'
    before = house.entry()
    waits = post(anna, transfer(country, 'f2', 200, 101))
    assert waits.status == 202 and waits.json['outcome'] == 'waiting'
    number = waits.json['number']
    assert waits.json['why'] == 'a transfer above 100'
    assert post(anna, transfer(country, 'f2', 200, 101)).json == waits.json
    assert post(anna, transfer(country, 'f2', 200, 5)).status == 409
    assert house.ask('anna', 'POST', '/v1/requests',            # a program waits too
                     json.dumps(transfer(country, 'f3', 880, 101))).status == 202
    assert anna.post(f'waiting/{number}/confirm').status == 403
    assert bela.post(f'waiting/{number}/confirm').status == 404
    assert house.entry() == before
    seen = ada.get(f'waiting/{number}')
    assert (seen['user'], seen['may']) == ('anna', ['confirm', 'refuse'])
    sent = ada.post(f'waiting/{number}/confirm')
    assert sent.status == 200 and sent.json['status'] == 200
    assert json.loads(sent.json['answer'])['reply'] == {'count': 101}
    assert house.entry() == before + 1 == sent.json['entry']
    assert ada.post(f'waiting/{number}/confirm').status == 409
    again = post(anna, transfer(country, 'f2', 200, 101))
    assert (again.status, again.json['outcome']) == (200, 'repeated')
    entry = entry_of(house, sent.json['entry'])
    assert (entry.user, entry.way, entry.confirmed) == ('anna', 'session', 'ada')
    act = act_of(house, 'f2')
    assert (act['user'], act['way'], act['confirmed']) == ('anna', 'session', 'ada')


def test_a_bundle_with_one_such_line_waits_and_a_refused_one_is_not_sent(
        house: House, country: Country) -> None:
    anna, ada = map(house.people.sign_in, ('anna', 'ada'))
    lines = [transfer(country, 'b1', 600, 5), transfer(country, 'b2', 605, 101)]
    waits = post(anna, *lines)
    assert waits.status == 202
    assert ada.post(f'waiting/{waits.json["number"]}/refuse').status == 200
    waits = post(anna, *lines)
    assert waits.status == 202                                              # asked anew
    sent = ada.post(f'waiting/{waits.json["number"]}/confirm')
    answers = [json.loads(line) for line in sent.json['answer'].split('\n') if line]
    assert [of['reply']['count'] for of in answers] == [5, 101]
    entry = entry_of(house, sent.json['entry'])
    assert (entry.route, entry.confirmed) == ('/v1/bundles', 'ada')


def test_an_act_of_the_body_waits_for_the_second_officer(house: House, country: Country) -> None:
    office = house.people.sign_in('office')
    request = {'command': 'withdraw', 'key': 'w1', 'reason': 'fraud',
               'first': f'{country.first + 900:014}', 'last': f'{country.first + 901:014}'}
    waits = post(office, request)
    assert waits.status == 202
    second = house.people.sign_in('second')
    assert post(second, {**request, 'key': 'w2'}).status == 403
    sent = second.post(f'waiting/{waits.json["number"]}/confirm')
    assert json.loads(sent.json['answer'])['reply']['count'] == 2
    assert entry_of(house, sent.json['entry']).confirmed == 'second'


def test_a_user_of_one_account_reads_and_trades_there_alone(house: House,
                                                            country: Country) -> None:
    other = house.enter('ISSUER', 'open_account', 'one-a', holder='SUN')['account']
    house.people.make_user('nora', 'SUN', account=other)
    house.wait_for_book()
    nora, anna = map(house.people.sign_in, ('nora', 'anna'))
    for account, status in ((other, 200), (country.sun, 403)):
        assert nora.ask('GET', f'/v1/accounts/{account}/statement').status == status
        assert anna.ask('GET', f'/v1/accounts/{account}/statement').status == 200
    seen = nora.ask('GET', '/records/v1/accounts').json['items']
    assert [of['number'] for of in seen] == [other]
    assert nora.ask('GET', '/records/v1/acts?kind=transfer').json['items'] == []
    assert nora.ask('GET', f'/v1/certificates/{country.first + 500:014}').status == 404
    refused = post(nora, transfer(country, 'n1', 720, 5))
    assert (refused.status, refused.json['name']) == (403, 'NotAllowed')
    assert post(anna, transfer(country, 'n2', 720, 5)).status == 200


def test_a_killed_gate_is_told_of_and_sends_what_was_confirmed(house: House,
                                                               country: Country) -> None:
    anna, ada = map(house.people.sign_in, ('anna', 'ada'))
    number = post(anna, transfer(country, 'k1', 750, 101)).json['number']
    house.kill('gate')
    assert post(anna, transfer(country, 'k2', 860, 1)).status in (502, 503)
    sent = ada.post(f'waiting/{number}/confirm')
    assert (sent.status, sent.json['state']) == (202, 'sending')
    house.start('gate')
    comes(lambda: anna.get(f'waiting/{number}')['state'] == 'sent')
    assert anna.get(f'waiting/{number}')['status'] == 200
    assert act_of(house, 'k1')['confirmed'] == 'ada'


def test_a_replay_takes_entries_with_a_way_and_a_second_user(house: House,
                                                             country: Country) -> None:
    """The archive is verified, its entries are applied again, and a copy is made by them."""
    number = confirmed(house, transfer(country, 'r1', 300, 101))['entry']
    assert entry_of(house, number).confirmed == 'ada'
    begun = sorted(house.copies.glob('2*'))[0]
    for words in (('verify',), ('verify', '--from', begun), ('copy',)):
        done = house.log_words(*words)
        assert done.returncode == 0, done.stdout + done.stderr


def test_what_is_sent_again_after_a_reversal_keeps_its_way_and_its_second_user(
        house: House, country: Country) -> None:
    assert confirmed(house, transfer(country, 's1', 430, 101))['status'] == 200
    records = [record for record in reader.read_archive(house.state / 'archive')
               if record.entry.confirmed]
    with FakeLog(house.folder / 'fake.sock') as log:
        sent = list(reversal.send(str(log.path), iter(records)))
    assert len(sent) == len(records) > 0
    for entry, came in zip((record.entry for record in records), log.sent):
        assert (came.fields['GOO-User'], came.fields['GOO-Way'], came.fields['GOO-Confirmed']) == (
            entry.user, entry.way, entry.confirmed)
