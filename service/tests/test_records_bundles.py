"""Bundles in the book of acts, the history that folds them, the feed of acts, and tags."""
import json
import threading
import time
from pathlib import Path
from typing import Any

import pytest
from goo_service.records import feed
from goo_service.records import web
from goo_service.records.timed import Limits
from goo_service.rules.commands import ISSUER
from hypothesis import given
from hypothesis import strategies as some
from made_book import Made
from made_book import OWN
from made_book import PLANT
from mutations import gsrn

WHOLE = '/v1/bundles?whole=yes'
ACTS = '/records/v1/acts'


def transfer(key: str, first: int, last: int, taker: int = 2) -> dict[str, Any]:
    return {'command': 'transfer', 'key': key, 'giver': 1, 'taker': taker,
            'first': f'{OWN + first:014}', 'last': f'{OWN + last:014}'}


@pytest.fixture
def made(tmp_path: Path) -> Made:
    """SUN holds three lots of 100; VOLT has account 2; SUN has opened a second one, 3."""
    begun = Made(tmp_path)
    begun.country()
    begun.must(ISSUER, 'open_account', holder='SUN')
    return begun


# ------------------------------------------------------------ acts of a bundle

def test_each_line_is_an_act_of_its_bundle(made: Made) -> None:
    answers = made.send_bundle('SUN', [transfer('a', 1, 5), transfer('b', 5, 6),
                                       transfer('c', 7, 9, 3), {'key': 'd'}, {'key': 'e'}])
    assert [of['outcome'] for of in answers] == [
        'accepted', 'refused', 'accepted', 'unreadable', 'unreadable']
    told = [(of['line'], of['rows'], of['lines'], of['kind'], of['outcome'], of['key'], of['count'])
            for of in made.acts(bundle=made.last)]
    assert told == [(4, 2, '4-5', 'unreadable', 'unreadable', None, 0),
                    (3, 1, None, 'transfer', 'accepted', 'c', 3),
                    (2, 1, None, 'transfer', 'refused', 'b', 0),
                    (1, 1, None, 'transfer', 'accepted', 'a', 5)]
    assert {of['bundle'] for of in made.acts()} == {made.last, None}


def test_a_device_of_electricity_may_say_so(made: Made) -> None:
    """What may be left out of a request, and is kept without it."""
    plant = {**PLANT, 'device': gsrn(12), 'carrier': 'electricity'}
    one, other = ({'command': 'register_device', 'key': 'd', **of} for of in (
        plant, {name: value for name, value in plant.items() if name != 'carrier'}))
    assert [of['outcome'] for of in made.send_bundle(ISSUER, [one])] == ['accepted']
    assert made.send_bundle(ISSUER, [other])[0]['outcome'] == 'repeated'
    devices = {of['gsrn']: of['carrier'] for of in made.items(ISSUER, 'devices')}
    assert devices[gsrn(12)] == 'electricity'


def test_a_bundle_that_is_repeated_is_no_further_act(made: Made) -> None:
    requests = [transfer('a', 1, 5), transfer('b', 7, 9)]
    made.send_bundle('SUN', requests)
    before = len(made.acts())
    assert {of['outcome'] for of in made.send_bundle('SUN', requests, WHOLE)} == {'repeated'}
    assert len(made.acts()) == before


@pytest.mark.parametrize(('status', 'answer', 'told'), [
    (409, {'line': 2, 'key': 'b', 'code': 17, 'name': 'NotHeld', 'outcome': 'refused'},
     ('transfer', 'refused', 'NotHeld', 2, 3, 'b')),
    (400, {'line': 3, 'key': 'c', 'fault': 'Field', 'outcome': 'unreadable'},
     ('unreadable', 'unreadable', 'Field', 3, 3, None)),
    (409, {'name': 'TooManyRuns', 'most': 200000, 'outcome': 'refused'},
     ('transfer', 'refused', 'TooManyRuns', 1, 3, 'a')),
    (500, None, ('transfer', 'set aside', 'status 500', 1, 3, 'a')),
])
def test_a_bundle_that_was_not_carried_out_is_one_act(made: Made, status: int, answer: Any,
                                                      told: Any) -> None:
    """It names the line that was why, and moves nothing."""
    text = b'Set aside\n' if answer is None else json.dumps(answer).encode() + b'\n'
    made.send_bundle('SUN', [transfer('a', 1, 5), transfer('b', 7, 9), transfer('c', 10, 11)],
                     WHOLE, status, text)
    found = made.acts(bundle=made.last)
    assert [(of['kind'], of['outcome'], of['refusal'], of['line'], of['rows'], of['key'])
            for of in found] == [told]
    assert found[0]['ranges'] == []


def test_refused_lines_after_a_thousand_are_told_together(made: Made) -> None:
    made.send_bundle('VOLT', [transfer(f'k{at}', 1, 1) for at in range(1200)])
    found = made.acts(bundle=made.last)
    assert len(found) == 1001 and found[0]['rows'] == 200 and found[0]['lines'] == '1001-1200'


# ------------------------------------------------------------ the history

def folded(made: Made, caller: str, **more: object) -> list[dict[str, Any]]:
    return made.acts(caller, folded='yes', **more)


def test_a_bundle_is_one_line_of_the_history(made: Made) -> None:
    """With its sum, its ranges joined, and what all of its acts have in common."""
    made.send_bundle('SUN', [transfer('a', 1, 5), transfer('b', 6, 150), transfer('c', 160, 161),
                             transfer('d', 160, 160)])
    row, *others = folded(made, 'SUN')
    assert (row['acts'], row['failed'], row['count'], row['bundle']) == (4, 1, 152, made.last)
    assert [(of['first'], of['last'], of['count']) for of in row['ranges']] == [
        (f'{OWN + 1:014}', f'{OWN + 150:014}', 150), (f'{OWN + 160:014}', f'{OWN + 161:014}', 2)]
    assert row['ranges_in_all'] == 2 and row['taker']['account'] == 2
    assert {of['acts'] for of in others} == {1}
    assert [of['id'] for of in others] == [of['id'] for of in made.acts('SUN')][4:]


def test_a_taker_sees_his_part_of_a_bundle(made: Made) -> None:
    made.send_bundle('SUN', [transfer('a', 1, 5), transfer('b', 6, 8, 3), transfer('c', 9, 10)])
    row, *_ = folded(made, 'VOLT')
    assert (row['acts'], row['count'], row['user'], row['key']) == (2, 7, None, None)
    assert [of['first'] for of in row['ranges']] == [f'{OWN + 1:014}', f'{OWN + 9:014}']
    row, *_ = folded(made, 'SUN')
    assert (row['acts'], row['count'], row['taker'], row['giver']['account']) == (3, 10, None, 1)


@pytest.mark.parametrize('limit', [1, 2, 3, 1000])
def test_pages_of_the_folded_history_are_of_all_acts_once(made: Made, limit: int) -> None:
    for turn in range(4):
        made.send_bundle('SUN', [transfer(f'{turn}-{at}', 20 * turn + at, 20 * turn + at)
                                 for at in range(1, 1 + 3 * turn)] or [transfer('x', 90, 91)])
        made.send('SUN', 'transfer', giver=1, taker=2, first=f'{OWN + 200 + turn:014}',
                  last=f'{OWN + 200 + turn:014}')
    found: list[dict[str, Any]] = []
    more: dict[str, object] = {}
    while more.get('before', 1):
        _, answer = made.asked('SUN', ACTS, folded='yes', limit=limit, **more)
        found, more = found + answer['items'], {'before': answer['next']}
    assert sum(of['acts'] for of in found) == len(made.acts('SUN'))
    assert sum(of['count'] for of in found) == sum(of['count'] for of in made.acts('SUN'))
    assert [of['id'] for of in found] == sorted({of['id'] for of in found}, reverse=True)


def test_a_filter_holds_inside_a_bundle(made: Made) -> None:
    made.send_bundle('SUN', [transfer('a', 1, 5), transfer('b', 6, 8, 3), transfer('b2', 1, 1)])
    for name, value, acts, count in (('account', '2', 1, 5), ('outcome', 'refused', 1, 0),
                                     ('key', 'b*', 2, 3)):
        row = folded(made, 'SUN', **{name: value})[0]
        assert (row['acts'], row['count']) == (acts, count), name


# ------------------------------------------------------------ the feed

def read_feed(made: Made, caller: str, limit: int, after: str = '0') -> list[dict[str, Any]]:
    found: list[dict[str, Any]] = []
    while True:
        status, answer = made.asked(caller, ACTS, after=after, limit=limit)
        assert status == 200, answer
        found += answer['items']
        if not answer['items']:
            assert answer['next'] == str(answer['stands']['entry'])
            return found
        after = answer['next']


@pytest.mark.parametrize('limit', [1, 2, 3, 5, 1000])
@pytest.mark.parametrize('caller', [ISSUER, 'SUN', 'VOLT'])
def test_a_feed_has_each_act_once_the_oldest_first(made: Made, caller: str, limit: int) -> None:
    made.send_bundle('SUN', [transfer(f'a{at}', at, at) for at in range(1, 8)])
    made.send('SUN', 'transfer', giver=1, taker=3, first=f'{OWN + 50:014}', last=f'{OWN + 51:014}')
    found = read_feed(made, caller, limit)
    assert [of['id'] for of in found] == [of['id'] for of in reversed(made.acts(caller))]
    last = str(made.last - 1)
    assert {of['entry'] for of in read_feed(made, caller, limit, last)} <= {made.last}


@given(some.lists(some.integers(1, 4), min_size=1, max_size=12), some.integers(1, 5))
def test_places_lead_through_all_acts_once(sizes: list[int], limit: int) -> None:
    """Of entries with so many acts each, page by page."""
    entries = [entry for entry, size in enumerate(sizes, 1) for _ in range(size)]
    place, seen = feed.Place(0), 0
    while seen < len(entries) or place.entry < len(sizes):
        below = sum(entry <= place.entry for entry in entries)
        page = entries[below + place.acts:][:limit]
        assert below + place.acts == seen
        seen += len(page)
        place = place.after(page, len(sizes), len(page) == limit)
        assert feed.place_of({'after': str(place)}) == place


@pytest.mark.parametrize('words', [
    {'after': 'x'}, {'after': '-1'}, {'after': '1.'}, {'after': '1', 'before': '2'},
    {'after': '1', 'folded': 'yes'}, {'after': '1', 'format': 'csv'}, {'wait': '5'},
    {'after': '1', 'wait': '31'}, {'after': '1', 'wait': 'x'}, {'folded': 'perhaps'}])
def test_a_feed_names_what_it_cannot_read(made: Made, words: dict[str, object]) -> None:
    status, answer = made.asked(ISSUER, ACTS, **words)
    assert status == 400 and set(answer) == {'error'}


def test_an_answer_is_held_back_until_an_act_comes(made: Made) -> None:
    made.book().close()
    client, answers = made.client(), []

    def ask() -> None:
        answers.append(client.get(ACTS, query_string={'after': made.last, 'wait': 30},
                                  headers={'GOO-Caller': ISSUER}))

    waiter = threading.Thread(target=ask)
    waiter.start()
    waiter.join(0.6)
    assert waiter.is_alive() and not answers
    made.send('SUN', 'transfer', giver=1, taker=2, first=f'{OWN + 1:014}', last=f'{OWN + 1:014}')
    waiter.join(30)
    assert not waiter.is_alive()
    assert [of['kind'] for of in answers[0].get_json()['items']] == ['transfer']


def test_an_answer_without_an_act_comes_when_the_time_is_over(made: Made) -> None:
    began = time.monotonic()
    status, answer = made.asked(ISSUER, ACTS, after=made.last, wait=1)
    assert (status, answer['items'], answer['next']) == (200, [], str(made.last))
    assert time.monotonic() - began >= 1


def test_few_wait_at_once_and_each_user_once(made: Made) -> None:
    waiting = feed.Waiting(2)
    with waiting.one('anna'):
        with pytest.raises(feed.TooMany), waiting.one('anna'):
            pass
        with waiting.one('bela'):
            with pytest.raises(feed.TooMany), waiting.one('carla'):
                pass
        with waiting.one('carla'):
            pass
    assert waiting.users == set()
    made.book().close()
    app = web.application(made.folder, made.folder / 'state.json', Limits(waiting=0))
    answer = app.test_client().get(ACTS, query_string={'after': made.last, 'wait': 1},
                                   headers={'GOO-Caller': ISSUER})
    assert answer.status_code == 503 and answer.headers['Retry-After'] == '10'


# ------------------------------------------------------------ tags

def test_an_answer_that_is_known_is_not_sent_again(made: Made) -> None:
    client = made.client()

    def ask(caller: str, path: str, tag: str = '') -> Any:
        head = {'GOO-Caller': caller, **({'If-None-Match': tag} if tag else {})}
        return client.get(path, headers=head)

    tags = {(caller, path): ask(caller, path).headers['ETag']
            for caller in (ISSUER, 'SUN') for path in (ACTS, f'{ACTS}?limit=2', f'{ACTS}/1')}
    assert len(set(tags.values())) == len(tags)
    for (caller, path), tag in tags.items():
        for named in (tag, f'"x", W/{tag}'):
            again = ask(caller, path, named)
            assert (again.status_code, again.data, again.headers['ETag']) == (304, b'', tag)
    made.send('SUN', 'transfer', giver=1, taker=2, first=f'{OWN + 1:014}', last=f'{OWN + 1:014}')
    for (caller, path), tag in tags.items():
        assert ask(caller, path, tag).status_code == 200
    assert 'ETag' not in ask(ISSUER, f'{ACTS}?before=x').headers
