"""Bundles in the standing service: one entry, in order, whole or each line by itself, once."""
import contextlib
import json
import threading
from pathlib import Path
from typing import Any

import client
from alone import Alone
from goo_service.log import reader
from goo_service.log import entries
from calls import Answer
from house import House
from service_commands import command

ROUTE, WHOLE = '/v1/bundles', '/v1/bundles?whole=yes'


def transfer(key: str, first: int, count: int = 1, giver: int = 1,
             taker: int = 2) -> dict[str, object]:
    return {'command': 'transfer', 'key': key, 'giver': giver, 'taker': taker,
            'first': f'{first:014}', 'last': f'{first + count - 1:014}'}


def body_of(*requests: dict[str, Any]) -> str:
    return ''.join(f'{json.dumps(of)}\n' for of in requests)


def sent(house: House, route: str, body: str) -> Answer:
    """The answer to a bundle of anna's, which takes its time on a machine that does much else."""
    return house.ask('anna', 'POST', route, body, patience=300)


def answers(answer: Answer) -> list[Any]:
    """What each line came to."""
    assert answer.status == 200, (answer.status, answer.text)
    assert answer.fields['content-type'] == 'application/x-ndjson'
    return [json.loads(line) for line in answer.text.splitlines()]


def held(house: House, user: str, account: int) -> str:
    """How many certificates an account holds; no text where nobody says so now."""
    text = house.ask(user, 'GET', f'/v1/accounts/{account}/statement').text
    return text.partition('\nheld ')[2].partition('\n')[0]


def test_a_bundle_is_one_entry_and_is_repeated_as_a_whole(own_house: House) -> None:
    land = own_house.make_country(10)
    before = own_house.entry()
    body = body_of(*(transfer(f't{at}', land.first + at) for at in range(6)))
    for outcome in ('accepted', 'repeated'):
        answer = sent(own_house, ROUTE, body)
        assert answers(answer) == [{'outcome': outcome, 'reply': {'count': 1}}] * 6
    assert own_house.entry() == before + 2 and answer.entry == before + 2
    assert held(own_house, 'anna', land.sun) == '4'
    assert held(own_house, 'bela', land.volt) == '6'


def test_a_bundle_with_one_bad_line_is_refused_whole(own_house: House) -> None:
    land = own_house.make_country(10)
    lines = [transfer(f't{at}', land.first + at) for at in range(9)]
    lines[7] = transfer('t7', land.first + 3)           # line 4 has moved it by then
    answer = sent(own_house, WHOLE, body_of(*lines))
    assert answer.status == 409 and answer.json == {
        'line': 8, 'key': 't7', 'code': 17, 'name': 'NotHeld', 'outcome': 'refused',
        'number': f'{land.first + 3:014}'}
    assert held(own_house, 'anna', land.sun) == '10'
    lines[7] = transfer('t7', land.first + 7)
    answer = sent(own_house, WHOLE, body_of(*lines))
    assert [of['outcome'] for of in answers(answer)] == ['accepted'] * 9


def test_each_line_by_itself(own_house: House) -> None:
    land = own_house.make_country(10)
    answer = sent(own_house, ROUTE, body_of(
        transfer('a', land.first, 3), transfer('b', land.first + 2), {'key': 'c'},
        transfer('d', land.first + 3)))
    assert [of['outcome'] for of in answers(answer)] == [
        'accepted', 'refused', 'unreadable', 'accepted']
    assert held(own_house, 'anna', land.sun) == '6'


# ------------------------------------------------------------------ beside others

def test_a_colleague_reads_and_sends_meanwhile(own_house: House) -> None:
    """His reads are answered while the bundle is applied, and his request once it is."""
    land = own_house.make_country(200)
    body = body_of(*(transfer(f't{at}', land.first + at) for at in range(150)))
    bundle = in_thread(own_house, WHOLE, body)
    assert client.comes(lambda: bool(own_house.health()['behind']) or not bundle.is_alive(), 120)
    own_house.ask('anna', 'GET', '/v1/accounts/1/statement')
    answer = own_house.ask_log('SUN', 'POST', '/v1/requests',
                               json.dumps(transfer('own', land.first + 190)), user='colleague',
                               patience=300)
    assert answer.status == 200
    bundle.join(300)
    assert not bundle.is_alive()
    assert held(own_house, 'bela', land.volt) == '151'
    records = archived(own_house)
    assert [of.entry.user for of in records[-2:]] == ['anna', 'colleague']


def archived(house: House) -> list[entries.Record]:
    return list(reader.read_archive(house.state / 'archive'))


def in_thread(house: House, route: str, body: str) -> threading.Thread:
    """The bundle is on its way. Whoever kills the log leaves it without an answer."""
    def send() -> None:
        with contextlib.suppress(Exception):
            sent(house, route, body)

    thread = threading.Thread(target=send)
    thread.start()
    return thread


# ------------------------------------------------------------------ a power cut

def cut_in_the_middle(house: House, route: str, body: str) -> None:
    """Log and registry are killed once some lines are applied, and stand again."""
    bundle = in_thread(house, route, body)
    assert client.comes(lambda: held(house, 'bela', 2) not in ('0', ''), 120)
    house.kill('log')
    house.kill('registry')
    bundle.join(60)
    house.start('registry')
    house.start('log')


def test_a_power_cut_in_the_middle_and_the_same_again(own_house: House) -> None:
    """What was refused before stays refused, though later lines would let it through."""
    land = own_house.make_country(300)
    own_house.enter('ISSUER', 'open_account', 'third', holder='SUN')
    first = own_house.entry() + 1
    lines = [transfer('early', land.first + 299, giver=3), transfer('two', land.first),
             transfer('late', land.first + 299, taker=3),
             *(transfer(f't{at}', land.first + at) for at in range(1, 200))]
    cut_in_the_middle(own_house, ROUTE, body_of(*lines))
    again = answers(sent(own_house, ROUTE, body_of(*lines[1:])))
    assert {of['outcome'] for of in again} == {'repeated'}
    assert [held(own_house, user, account) for user, account in
            (('anna', 1), ('bela', 2), ('anna', 3))] == ['99', '200', '1']
    record = archived(own_house)[first - 1]
    told = [json.loads(line)['outcome'] for line in record.outcome.body.splitlines()]
    assert record.entry.route == ROUTE and told[0] == 'refused'
    assert set(told[1:]) <= {'accepted', 'repeated'} and len(told) == 202


def test_a_power_cut_in_a_bundle_that_is_whole(own_house: House) -> None:
    land = own_house.make_country(300)
    body = body_of(*(transfer(f't{at}', land.first + at) for at in range(200)))
    cut_in_the_middle(own_house, WHOLE, body)
    again = answers(sent(own_house, WHOLE, body))
    assert [of['outcome'] for of in again] == ['repeated'] * 200
    assert held(own_house, 'bela', land.volt) == '200'
    holds(own_house)


def holds(house: House) -> None:
    """A copy is what the log makes of the copy before, and its recount and its book hold."""
    house.wait_for_book()
    done = house.log_words('copy')
    assert done.returncode == 0 and ' 0 broken' in done.stdout, done
    verified = house.log_words('verify', '--from', sorted(house.copies.glob('2*'))[0])
    assert verified.returncode == 0, verified
    checked = house.run(*command('goo-records check'), '--copies', house.copies, '--archive',
                        house.state / 'archive', '--into', house.book, check=False)
    assert checked.returncode == 0 and ' agree in ' in checked.stdout, checked


def test_log_copies_recount_and_book_hold_across_bundles(own_house: House) -> None:
    """Of every way in which a bundle ends; also where the book is made anew from the archive."""
    land = own_house.make_country(60)
    cancel: dict[str, Any] = {
        'command': 'cancel', 'account': land.sun, 'beneficiary': 'Rathaus',
        'use_first': '2025-01-01', 'use_last': '2025-12-31'}
    holds(own_house)
    sent(own_house, ROUTE, body_of(
        transfer('a', land.first, 3), transfer('b', land.first), {'key': 'c'},
        {**cancel, 'key': 'd', 'first': f'{land.first + 9:014}', 'last': f'{land.first + 12:014}'}))
    sent(own_house, WHOLE, body_of(
        *({**cancel, 'key': f'e{at}', 'first': f'{land.first + at:014}',
           'last': f'{land.first + at:014}'} for at in range(20, 30))))
    refused = sent(own_house, WHOLE, body_of(
        transfer('f', land.first + 40), transfer('g', land.first + 40)))
    assert refused.status == 409
    holds(own_house)
    shown = own_house.ask('anna', 'GET', '/records/v1/acts?folded=yes&limit=3').json['items']
    assert [(of['acts'], of['outcome'], of['count'], of['number'], of['last_number'])
            for of in shown] == [(1, 'refused', 0, None, None), (10, 'accepted', 10, 2, 11),
                                 (4, 'accepted', 7, None, 1)]
    own_house.stop('records')
    for path in own_house.book.glob('book-*'):
        path.unlink()
    own_house.start('records')
    own_house.wait_for_book()
    again = own_house.ask('anna', 'GET', '/records/v1/acts?folded=yes&limit=3').json['items']
    assert again == shown


# ------------------------------------------------------------------ over etcd

def test_the_largest_bundles_go_through_etcd(tmp_path: Path) -> None:
    """Of a mebibyte, as text and as what is longer than base64 in an entry's line."""
    with Alone(tmp_path, etcd_words=[]) as log:
        for sign in ('a', '\\"'):
            requests = [{'command': 'x', 'key': f'{ord(sign[0])}-{at}', 'text': ''}
                        for at in range(16)]
            room = 1_048_576 - len(body_of(*requests))
            for of in requests:
                of['text'] = sign * (room // 16 // len(json.dumps(sign)[1:-1]))
            body = body_of(*requests)
            assert 1_048_576 - 100 < len(body) <= 1_048_576
            answer = log.ask('POST', ROUTE, body.encode(), patience=60)
            assert answers(answer) == [{'outcome': 'accepted', 'reply': {}}] * 16
        assert [len(body) for *_, body in log.registry.asked] == [
            len(line) for record in log.records() for line in record.entry.body.splitlines()]


def test_a_bundle_that_cannot_be_tried_is_no_entry(tmp_path: Path) -> None:
    with Alone(tmp_path) as log:
        answer = log.ask('POST', WHOLE, body_of(transfer('a', 1)).encode())
        assert answer.status == 503 and answer.fields['retry-after'] == '10'
        assert answer.json['error'].startswith('no bundle can be tried now: ')
        assert log.records() == [] and log.registry.asked == []
        assert log.send(b'{"command":"x","key":"k"}').status == 200
