"""A request on its way through front door, log, archive, registry and records, by every role.

What each part has of it is read from the part's own files, as json and by no module of service/.
"""
import json
import re
from concurrent.futures import ThreadPoolExecutor
from pathlib import Path
from typing import Any

import client
import pytest
from disk import RECEIVES
from disk import read_trace
from disk import watch
from house import PARTS
from calls import Answer
from house import House
from mutations import gsrn
from service_commands import command


def lines(folder: Path) -> list[dict[str, Any]]:
    """The lines of all files of a folder."""
    return [json.loads(line) for path in sorted(folder.glob('*.jsonl'))
            for line in path.read_text().splitlines()]


def in_log(house: House, n: int) -> Any:
    return next(line['entry'] for line in lines(house.state / 'log') if line['entry']['n'] == n)


def in_archive(house: House, n: int) -> Any:
    return next(line for line in lines(house.state / 'archive') if line['entry']['n'] == n)


def at_door(house: House, n: int) -> Any:
    """The line of the front door's own log, which comes a moment after the answer."""
    def found() -> list[Any]:
        text = (house.folder / 'front-door.log').read_text()
        return [line for line in map(json.loads, text.splitlines())
                if line['entry'] == str(n) and line['method'] == 'POST']
    assert client.comes(found, 10)
    return found()[0]


def acts_of(house: House, user: str, n: int) -> list[dict[str, Any]]:
    house.wait_for_book(n)
    return list(house.ask(user, 'GET', f'/records/v1/acts?entry={n}').json['items'])


def seen_everywhere(house: House, user: str, caller: str, body: str, answer: Answer) -> int:
    """A request stands with user, caller, text and outcome wherever a trace of it is kept."""
    n = answer.entry
    assert n
    entry, record, door = in_log(house, n), in_archive(house, n), at_door(house, n)
    assert (entry['user'], entry['caller'], entry['address']) == (user, caller, '127.0.0.1')
    assert entry['body'] == body
    assert record['entry'] == entry
    assert (record['outcome']['status'], record['outcome']['body']) == (answer.status, answer.text)
    assert (door['user'], door['caller'], door['status']) == (user, caller, str(answer.status))
    acts = acts_of(house, 'office', n)
    assert acts and {act['user'] for act in acts} == {user}
    assert {act['caller'] for act in acts} == {caller}
    return n


def post(house: House, user: str, command: str, key: str, **members: Any) -> tuple[str, Answer]:
    body = json.dumps({'command': command, 'key': key, **members})
    return body, house.ask(user, 'POST', '/v1/requests', body)


# -------------------------------------------------------------------- walks

def test_what_the_issuing_body_does_is_seen_everywhere(house: House) -> None:
    house.make_country()
    body, answer = post(house, 'office', 'open_account', 'walk-office', holder='SUN')
    assert answer.json['outcome'] == 'accepted'
    n = seen_everywhere(house, 'office', 'ISSUER', body, answer)
    act, = acts_of(house, 'office', n)
    assert (act['kind'], act['key'], act['day']) == ('account', 'walk-office', house.day)
    account = answer.json['reply']['account']
    shown = house.ask('anna', 'GET', f'/v1/accounts/{account}/statement')
    assert shown.entry == n and 'holder SUN' in shown.text


def test_what_a_holder_does_is_seen_everywhere(house: House) -> None:
    country = house.make_country()
    number = country.first + 50             # trials beside this one take others
    span = {name: f'{number:014}' for name in ('first', 'last')}
    body, answer = post(house, 'anna', 'transfer', 'walk-anna', giver=country.sun,
                        taker=country.volt, **span)
    assert answer.json == {'outcome': 'accepted', 'reply': {'count': 1}}
    n = seen_everywhere(house, 'anna', 'SUN', body, answer)
    assert [act['kind'] for act in acts_of(house, 'bela', n)] == ['transfer']
    shown = house.ask('bela', 'GET', f'/v1/accounts/{country.volt}/statement').text
    assert span['first'] in shown
    body, answer = post(house, 'bela', 'cancel', 'walk-bela', account=country.volt, **span,
                        beneficiary='Somebody', use_first='2025-01-01', use_last='2025-01-31')
    assert answer.json['outcome'] == 'accepted'
    assert seen_everywhere(house, 'bela', 'VOLT', body, answer) > n


def test_what_is_refused_is_seen_everywhere(house: House) -> None:
    house.make_country()
    body, answer = post(house, 'anna', 'open_holder', 'walk-refused', holder='OTHER', name='x')
    assert (answer.status, answer.json['name']) == (403, 'NotAllowed')
    n = seen_everywhere(house, 'anna', 'SUN', body, answer)
    assert [act['outcome'] for act in acts_of(house, 'anna', n)] == ['refused']
    assert not acts_of(house, 'bela', n)


def test_what_a_meter_declares_is_seen_everywhere(house: House) -> None:
    country, device = house.make_country(), gsrn(901)
    house.must('office', 'register_device', key='walk-device', account=country.sun, country='DE',
               device=device, site='South', tech='T010000', source='F01010100', support='none',
               capacity_w=2_000_000_000, commissioned='2020-06-15')
    row = f'walk-meter,{device},2025-02-01,2025-02-28,7000000,0'
    body = f'key,device,first_day,last_day,gross_wh,aux_wh\n{row}\n'
    answer = house.ask('meter', 'POST', '/v1/declarations', body)
    assert answer.text == '1 accepted\n'
    n = seen_everywhere(house, 'meter', 'ISSUER', body, answer)
    act, = acts_of(house, 'office', n)
    assert (act['kind'], act['key'], act['count']) == ('issue', 'walk-meter', 7)


def test_all_parts_tell_one_entry(house: House) -> None:
    """A read stands by the log's last entry; the records do, once they have it."""
    house.make_country()
    for at in range(5):
        written = house.send('office', 'open_account', key=f'one-entry-{at}', holder='VOLT')
        read = house.ask('audit', 'GET', '/v1/audit')
        assert written.entry == read.entry == house.entry()
        assert lines(house.state / 'log')[-1]['entry']['n'] == read.entry
        assert lines(house.state / 'archive')[-1]['entry']['n'] == read.entry
    house.wait_for_book()
    assert house.book_entry() == house.entry()


# -------------------------------------------------------------------- who may what

OPENS = json.dumps({'command': 'open_holder', 'key': 'may', 'holder': 'MAY', 'name': 'May'})
TABLE = 'key,device,first_day,last_day,gross_wh,aux_wh\nmay,1,2,3,4,5\n'
MAY: dict[str, tuple[int, ...]] = {
    # GET of audit, own statement, VOLT's statement, records; POST of a request and of a table
    'office': (200, 200, 200, 200, 200, 200),
    'audit':  (200, 200, 200, 200, 403, 403),
    'meter':  (403, 403, 403, 403, 403, 200),
    'anna':   (403, 200, 403, 200, 403, 200),
    'nemo':   (403, 403, 403, 403, 403, 403),
    'registry09': (403, 403, 403, 403, 403, 403),
}
"""By docs/OPERATING.md: `reads` is GET alone, `declares` declarations alone. `anna` has SUN: each
row of her table is refused, which is told in an answer of 200."""


@pytest.mark.parametrize('user', MAY)
def test_what_a_role_may(house: House, user: str) -> None:
    country = house.make_country()
    asked = (('GET', '/v1/audit', ''), ('GET', f'/v1/accounts/{country.sun}/statement', ''),
             ('GET', f'/v1/accounts/{country.volt}/statement', ''),
             ('GET', '/records/v1/acts', ''), ('POST', '/v1/requests', OPENS),
             ('POST', '/v1/declarations', TABLE))
    assert tuple(house.ask(user, *words).status for words in asked) == MAY[user]


@pytest.mark.parametrize(('user', 'password'), [(None, None), ('anna', 'pw-bela'), ('anna', ''),
                                                ('nobody', 'pw-nobody')])
def test_who_is_not_signed_in_gets_nothing(house: House, user: str | None,
                                           password: str | None) -> None:
    country, before = house.make_country(), house.entry()
    for method, path in (('GET', '/v1/audit'), ('GET', '/records/v1/acts'), ('GET', '/'),
                         ('POST', '/v1/requests'), ('POST', '/v1/declarations'),
                         ('GET', f'/v1/accounts/{country.sun}/statement')):
        body = OPENS if method == 'POST' else ''
        answer = house.ask(user, method, path, body, password=password)
        assert answer.status == 401, (method, path)
    assert house.entry() == before


@pytest.mark.parametrize('name', ['GOO-Caller', 'GOO-Role', 'GOO-User', 'GOO-Address'])
def test_what_a_visitor_says_of_himself_counts_nothing(house: House, name: str) -> None:
    house.make_country()
    word = {'GOO-Caller': 'ISSUER', 'GOO-Role': 'full', 'GOO-User': 'office'}.get(name, '9.9.9.9')
    said: dict[str, Any] = {name.replace('-', '_'): word}
    assert house.ask('anna', 'GET', '/v1/audit', **said).status == 403
    assert house.ask('audit', 'POST', '/v1/requests', OPENS, **said).status == 403
    key = f'said-{name}'
    body = json.dumps({'command': 'open_account', 'key': key, 'holder': 'SUN'})
    answer = house.ask('office', 'POST', '/v1/requests', body, **said)
    assert answer.entry
    entry = in_log(house, answer.entry)
    assert (entry['user'], entry['caller'], entry['address']) == ('office', 'ISSUER', '127.0.0.1')


@pytest.mark.parametrize(('role', 'method', 'path'), [
    ('reads', 'POST', '/v1/requests'), ('reads', 'POST', '/v1/declarations'),
    ('declares', 'POST', '/v1/requests'), ('declares', 'GET', '/v1/audit'),
    ('another', 'GET', '/v1/audit'), ('another', 'POST', '/v1/requests')])
def test_the_log_knows_roles_by_itself(house: House, role: str, method: str, path: str) -> None:
    """What reaches its socket past the front door is held to the role too."""
    body = '' if method == 'GET' else OPENS if path == '/v1/requests' else TABLE
    before = house.entry()
    assert house.ask_log('ISSUER', method, path, body, role=role).status == 403
    assert house.entry() == before


# -------------------------------------------------------------------- parts that end

def send_until_answered(house: House, key: str) -> Answer:
    """As a program does it: the same request under the same key until it is answered."""
    body = json.dumps({'command': 'open_account', 'key': key, 'holder': 'SUN'})
    for _ in range(400):
        try:
            answer = house.ask('office', 'POST', '/v1/requests', body, patience=20)
        except OSError:
            continue
        if answer.status < 500:
            return answer
    raise AssertionError(f'{key} was never answered')


@pytest.mark.parametrize('end', ['stop', 'kill'])
def test_each_part_ends_under_requests(own_house: House, end: str) -> None:
    own_house.make_country()
    accounts: set[int] = set()
    count = 0
    for part in PARTS:
        with ThreadPoolExecutor(4) as pool:
            keys = [f'ends-{part}-{at}' for at in range(12)]
            answers = pool.map(lambda key: send_until_answered(own_house, key), keys)
            getattr(own_house, end)(part)
            own_house.start(part)
            accounts |= {answer.json['reply']['account'] for answer in answers}
        count += len(keys)
    assert len(accounts) == count
    own_house.wait_for_book()
    book = own_house.ask('office', 'GET', '/records/v1/acts?kind=account&limit=1000').json
    opened = {act['key'] for act in book['items'] if act['outcome'] == 'accepted'}
    assert {key for key in opened if key.startswith('ends-')} == {
        f'ends-{part}-{at}' for part in PARTS for at in range(12)}
    audit = own_house.ask('office', 'GET', f'/v1/accounts/{max(accounts)}/statement')
    assert audit.status == 200
    assert own_house.log_words('verify').returncode == 0


def test_a_copy_is_made_recounted_and_verified(own_house: House) -> None:
    country = own_house.make_country()
    own_house.must('anna', 'transfer', giver=country.sun, taker=country.volt,
                   first=f'{country.first:014}', last=f'{country.first + 9:014}')
    done = own_house.log_words('copy')
    assert done.returncode == 0, done
    first, made = sorted(own_house.copies.iterdir())
    audit = own_house.ask('office', 'GET', '/v1/audit')
    assert (made / 'audit.txt').read_text() == audit.text
    assert json.loads((made / 'place.json').read_text())['n'] == audit.entry
    recount = own_house.run(*command('goo-copies recount', own_house.service), made)
    assert recount.returncode == 0
    done = own_house.log_words('verify', '--from', first)
    assert done.returncode == 0 and f'to {audit.entry}' in done.stdout, done


# -------------------------------------------------------------------- once each

def test_the_registry_is_asked_once_for_each_entry(own_house: House) -> None:
    """strace sees what the registry receives: each write as often as it is sent, which is once."""
    own_house.make_country()
    registry, trace = own_house.parts['registry'].processes(), own_house.folder / 'received'
    with watch(registry, trace, calls=RECEIVES), ThreadPoolExecutor(4) as pool:
        keys = [f'once-{at}' for at in range(40)]
        answers = list(pool.map(lambda key: send_until_answered(own_house, key), keys))
    assert [answer.json['outcome'] for answer in answers] == ['accepted'] * len(keys)
    came = b''.join(text for call in read_trace(trace) for text in call.texts)
    assert came.count(b'POST /v1/requests ') == len(keys)
    assert sorted(re.findall(rb'once-\d+', came)) == sorted(key.encode() for key in keys)
