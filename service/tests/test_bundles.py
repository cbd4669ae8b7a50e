"""Bundles by themselves: their form, their bounds, how a crash leaves them, and their rehearsal."""
import contextlib
import dataclasses
import datetime
import json
import random
import sqlite3
import subprocess
from collections.abc import Callable
from pathlib import Path
from typing import Any

import pytest
from goo_service.copies import rehearse
from goo_service.log import bounds
from goo_service.log import bundles
from goo_service.log import roles
from goo_service.log import underway
from goo_service.log.entries import Entry
from goo_service.log.registry import Answer
from hypothesis import HealthCheck
from hypothesis import given
from hypothesis import settings
from hypothesis import strategies as some
from programs import find_registry

HOST = bounds.Host(datetime.date(2026, 3, 1))
WHOLE = bundles.WHOLE
OK, REFUSED = b'{"outcome":"accepted","reply":{}}\n', b'{"code":17,"outcome":"refused"}\n'


def line(key: str, command: str = 'transfer', **members: object) -> bytes:
    return json.dumps({'command': command, 'key': key, **members}).encode()


def body_of(*lines: bytes) -> bytes:
    return b''.join(one + b'\n' for one in lines)


# ------------------------------------------------------------------ form and bounds

def test_a_bundle_is_its_lines_in_their_order() -> None:
    lines = [line('a'), line('b', 'cancel', note='Ä\u2028'), b' {"key":"c"}\r']
    for body in (body_of(*lines), b'\n'.join(lines)):
        found = bundles.read(body)
        assert [(of.number, of.key, of.command) for of in found] == [
            (1, 'a', 'transfer'), (2, 'b', 'cancel'), (3, 'c', None)]
        assert [of.body for of in found] == lines


FAULTS = {
    'two lines with one key': (body_of(line('a'), line('b'), line('a', 'cancel')),
                               'line 3 has the key a of line 1: a key stands in a bundle once'),
    'an empty line': (body_of(line('a'), b'', line('b')), 'line 2 is no JSON object'),
    'nothing': (b'', 'line 1 is no JSON object'),
    'a list': (b'[1]', 'line 1 is no JSON object'),
    'no JSON': (body_of(line('a'), b'{"key":"b"'), 'line 2 is no JSON object'),
    'no UTF-8': (b'{"key":"\xff"}', 'line 1 is no JSON object'),
    'deep': (b'[' * 100_000, 'line 1 is no JSON object'),
    'no key': (b'{"command":"transfer"}', 'line 1 has no key: 1 to 40 letters, digits and -_.:'),
    'a key that is none': (line('Ä'), 'line 1 has no key: 1 to 40 letters, digits and -_.:'),
}


@pytest.mark.parametrize('what', FAULTS)
def test_what_is_no_bundle_is_refused_by_its_line(what: str) -> None:
    body, told = FAULTS[what]
    found = bounds.of_bundle('SUN', body, False, HOST)
    assert found and (found.status, found.error) == (400, told)


@pytest.mark.parametrize(('count', 'status'), [(5000, None), (5001, 413)])
def test_a_bundle_has_5000_lines_at_most(count: int, status: int | None) -> None:
    body = body_of(*(line(f'k{at}') for at in range(count)))
    found = bounds.of_bundle('SUN', body, False, HOST)
    assert (found and found.status) == status


def test_each_line_has_the_bounds_of_a_request() -> None:
    long = line('b', 'cancel', beneficiary='x' * 65_536)
    found = bounds.of_bundle('SUN', body_of(line('a'), long), False, HOST)
    assert found and found.status == 413 and found.error.startswith('line 2: the request has ')
    late = body_of(line('a'), line('b', 'advance', day='2036-01-01'))
    found = bounds.of_bundle('ISSUER', late, False, HOST)
    assert found and found.status == 403 and found.error.startswith('line 2: the day 2036-01-01')
    assert bounds.of_bundle('ISSUER', late, False,
                            dataclasses.replace(HOST, confirmed='2036-01-01')) is None


def test_whole_bundles_have_the_commands_that_can_be_rehearsed() -> None:
    for command in ('declare', 'advance', 'import', 'close_account', 'correct', 'add_peer', 'x'):
        body = body_of(line('a'), line('b', command))
        found = bounds.of_bundle('ISSUER', body, True, HOST)
        assert found and found.status == 400 and found.error.startswith('line 2: ')
        assert bounds.of_bundle('ISSUER', body, False, HOST) is None
    for command in bundles.TRIED:
        assert bounds.of_bundle('ISSUER', body_of(line('a', command)), True, HOST) is None


@pytest.mark.parametrize('route', bundles.ROUTES)
@pytest.mark.parametrize(('role', 'commands', 'allowed'), [
    ('full', ['cancel', 'declare'], True), ('', ['cancel'], True), ('reads', ['declare'], False),
    ('declares', ['declare', 'declare'], True), ('declares', ['declare', 'transfer'], False),
    ('declares', ['transfer', 'declare'], False), ('other', ['declare'], False)])
def test_a_role_is_judged_for_each_line(route: str, role: str, commands: list[str],
                                        allowed: bool) -> None:
    body = body_of(*(line(f'k{at}', command) for at, command in enumerate(commands)))
    assert roles.allows(role, 'POST', route, body) == allowed


# ------------------------------------------------------------------ a crash in the middle

def entry_of(body: bytes, route: str = bundles.ROUTE) -> Entry:
    return Entry(5, 'before', '2026-03-01T00:00:00Z', 'h', 'u', 'a', 'full', 'SUN', 'POST', route,
                 'v', 'id', body)


class Crash(Exception):
    """Everything ends here."""


class Doubled:
    """A registry in which each line can be accepted once the line behind it was.

    So a line that was refused would be accepted when it comes again.
    """

    def __init__(self) -> None:
        self.accepted: list[bytes] = []
        self.sent = 0
        self.ends_at = -1

    def send(self, body: bytes, _: bool) -> Answer:
        if self.sent == self.ends_at:
            raise Crash
        self.sent += 1
        stated = json.loads(body)
        if stated['needs'] and stated['needs'].encode() not in self.accepted:
            return Answer(409, '', REFUSED)
        if stated['key'].encode() not in self.accepted:
            self.accepted.append(stated['key'].encode())
        return Answer(200, '', OK)


NEEDS = some.lists(some.sampled_from(['', 'k0', 'k1', 'k2', 'k3', 'k4', 'k5']), min_size=1,
                   max_size=7)


@given(NEEDS, some.integers(0, 7), some.binary(max_size=9))
def test_a_bundle_cut_off_anywhere_comes_to_the_same(needs: list[str], end: int,
                                                     torn: bytes) -> None:
    """Whatever a crash leaves of the file behind what was synced."""
    entry = entry_of(body_of(*(line(f'k{at}', needs=of) for at, of in enumerate(needs))))
    whole, cut = Doubled(), Doubled()
    path = Path('/dev/shm') / f'goo-test-bundle-{random.randrange(10 ** 12)}'
    try:
        wanted = underway.apply_lines(entry, {}, lambda *_: None, whole.send)
        cut.ends_at = end
        with contextlib.suppress(Crash):
            run(path, entry, cut)
        with open(path, 'ab') as file:
            file.write(torn.replace(b'\n', b''))
        cut.ends_at = -1
        assert run(path, entry, cut) == wanted
        assert cut.accepted == whole.accepted
        other = entry._replace(n=6)
        assert underway.Refusals(path).begin(underway.mark_of(other)) == {}
    finally:
        path.unlink(missing_ok=True)


def run(path: Path, entry: Entry, registry: Doubled) -> Answer:
    refusals = underway.Refusals(path)
    try:
        kept = refusals.begin(underway.mark_of(entry))
        return underway.apply_lines(entry, kept, refusals.keep, registry.send)
    finally:
        refusals.close()


def test_lines_behind_one_that_is_set_aside_are_not_sent() -> None:
    entry = entry_of(body_of(line('a'), line('b'), line('c')))
    answers = iter([Answer(200, '', OK), None])
    answer = underway.apply_lines(entry, {}, lambda *_: None, lambda *_: next(answers))
    assert (answer.status, answer.body) == (200, OK + 2 * bundles.SET_ASIDE)


# ------------------------------------------------------------------ the rehearsal

GOO = find_registry()
CODE, DAY = 7, '2025-04-05'
DEVICES = ('500000000000000012', '500000000000000029')
NUMBERS = some.integers(1, 45)


def made_of(folder: Path) -> Path:
    """A registry of 40 certificates: some of a lot whose trade is over, some cancelled, exported,
    in another account of the same holder, or VOLT's; and an account that is closed."""
    file = folder / 'registry.db'
    subprocess.run([GOO, 'init', '--db', file, '--code', '7', '--today', DAY], check=True,
                   capture_output=True)
    plant: dict[str, Any] = {
        'country': 'DE', 'site': 'North', 'tech': 'T010000', 'source': 'F01010100',
        'capacity_w': 10 ** 9, 'commissioned': '2020-06-15', 'support': 'none'}

    def span(first: int, last: int) -> dict[str, Any]:
        return {'first': f'{CODE * 10 ** 12 + first:014}', 'last': f'{CODE * 10 ** 12 + last:014}'}

    sent: list[tuple[str, str, dict[str, Any]]] = [
        ('ISSUER', 'open_holder', {'holder': 'SUN', 'name': 'Sun'}),
        ('ISSUER', 'open_holder', {'holder': 'VOLT', 'name': 'Volt'}),
        *(('ISSUER', 'open_account', {'holder': holder})
          for holder in ('SUN', 'VOLT', 'SUN', 'VOLT')),
        *(('ISSUER', 'register_device', {'device': device, 'account': 1, **plant})
          for device in DEVICES),
        ('ISSUER', 'add_peer', {'peer': 9}),
        *(('ISSUER', 'declare', {'device': device, 'first_day': day, 'last_day': day,
                                 'gross_wh': 10 ** 7, 'aux_wh': 0})
          for device, day in ((DEVICES[0], '2024-01-31'), (DEVICES[0], '2025-01-01'),
                              (DEVICES[1], '2025-01-01'), (DEVICES[0], '2025-01-02'))),
        ('SUN', 'cancel', {'account': 1, **span(5, 6), 'beneficiary': 'x',
                           'use_first': '2025-01-01', 'use_last': '2025-01-31'}),
        ('SUN', 'export', {'giver': 1, 'peer': 9, 'account': 5, **span(25, 26)}),
        ('SUN', 'transfer', {'giver': 1, 'taker': 2, **span(30, 34)}),
        ('SUN', 'transfer', {'giver': 1, 'taker': 3, **span(35, 37)}),
        ('VOLT', 'close_account', {'account': 4})]
    lines = [(caller, {'command': command, 'key': f'm{at}', **members})
             for at, (caller, command, members) in enumerate(sent)]
    answers = run_lines(file, [(caller, json.dumps(of).encode()) for caller, of in lines])
    assert all(of['outcome'] == 'accepted' for of in answers)
    return file


def run_lines(file: Path, lines: list[tuple[str, bytes]]) -> list[dict[str, Any]]:
    text = b''.join(b'%b %b\n' % (caller.encode(), body) for caller, body in lines)
    done = subprocess.run([GOO, 'run', '--db', file], input=text, capture_output=True, check=False)
    assert done.returncode in (0, 1), done
    return [json.loads(one) for one in done.stdout.splitlines()]


@pytest.fixture(scope='module')
def file(tmp_path_factory: pytest.TempPathFactory) -> Path:
    return made_of(tmp_path_factory.mktemp('rehearsed'))


@some.composite
def requests(draw: Callable[[Any], Any], at: int = 0) -> dict[str, Any]:
    """A request that may be accepted or not, for one of many reasons."""
    number = draw(NUMBERS)
    first, last = number, number + draw(some.integers(-1, 6))
    account = draw(some.sampled_from([1, 1, 1, 2, 3, 4, 9]))
    span = {'first': f'{CODE * 10 ** 12 + first:014}', 'last': f'{CODE * 10 ** 12 + last:014}'}
    key = draw(some.sampled_from([f'n{at}'] * 9 + ['m15', 'm13']))
    ways: dict[str, dict[str, object]] = {
        'transfer': {'giver': account, 'taker': draw(some.sampled_from([1, 2, 3, 4, 9])), **span},
        'cancel': {'account': account, **span, 'use_first': '2025-02-01',
                   'beneficiary': draw(some.sampled_from(['x', '', 'Ä' * 32, 'y' * 65])),
                   'use_last': draw(some.sampled_from(['2025-03-01', '2025-01-01', '2025-02-30']))},
        'export': {'giver': account, 'peer': draw(some.sampled_from([9, 9, 8])), 'account': 5,
                   **span},
        'withdraw': {**span, 'reason': 'r'},
        'open_holder': {'holder': draw(some.sampled_from(['SUN', 'NEW', 'ISSUER'])), 'name': 'n'},
        'open_account': {'holder': draw(some.sampled_from(['SUN', 'NEW']))},
        'register_device': {
            'device': draw(some.sampled_from([*DEVICES, '500000000000000036'])), 'account': account,
            'country': 'DE', 'site': 'N', 'tech': 'T010000', 'source': 'F01010100',
            'capacity_w': 1, 'commissioned': '2020-06-15', 'support': 'none',
            'carrier': draw(some.sampled_from(['electricity', 'gas', 'coal']))}}
    command = draw(some.sampled_from(['transfer', 'transfer', 'cancel', *ways]))
    return {'command': command, 'key': key, **ways[command]}


BUNDLES = some.lists(some.just(None), min_size=1, max_size=6).flatmap(
    lambda of: some.tuples(*(requests(at) for at, _ in enumerate(of))))


@settings(max_examples=40, suppress_health_check=list(HealthCheck))
@given(BUNDLES, some.sampled_from(['SUN', 'SUN', 'VOLT', 'ISSUER']))
def test_a_rehearsal_says_what_the_program_says(file: Path, tmp_path_factory: Any,
                                                of: tuple[dict[str, Any], ...],
                                                caller: str) -> None:
    """On a copy of the same file: the first line that is not accepted, and why."""
    lines = [json.dumps(one).encode() for one in of]
    copy = tmp_path_factory.mktemp('copy') / 'registry.db'
    copy.write_bytes(file.read_bytes())
    try:
        with contextlib.closing(sqlite3.connect(file)) as database:
            numbered = [bundles.line_of(at, text) for at, text in enumerate(lines, 1)]
            said = rehearse.rehearse(database, GOO, caller, numbered)
        wanted: dict[str, object] = {'rehearsed': len(lines)}
        for at, (text, answer) in enumerate(zip(lines, run_lines(copy, [(caller, text)
                                                                        for text in lines])), 1):
            if answer['outcome'] not in ('accepted', 'repeated'):
                wanted = {'line': at, 'key': of[at - 1]['key'], **answer}
                break
        assert said == wanted
    finally:
        copy.unlink()


def test_a_rehearsal_carries_out_each_line_over_those_before(file: Path) -> None:
    """What a line brings to an account the next one may move on, and nobody moves it twice."""
    span = {'first': f'{CODE * 10 ** 12 + 11:014}', 'last': f'{CODE * 10 ** 12 + 12:014}'}
    ways = [(1, 3), (3, 2), (3, 2)]
    lines = [bundles.line_of(at, line(f'w{at}', giver=giver, taker=taker, **span))
             for at, (giver, taker) in enumerate(ways, 1)]
    with contextlib.closing(sqlite3.connect(file)) as database:
        assert rehearse.rehearse(database, GOO, 'SUN', lines[:2]) == {'rehearsed': 2}
        assert rehearse.rehearse(database, GOO, 'SUN', lines) == {
            'line': 3, 'key': 'w3', 'code': 17, 'name': 'NotHeld', 'number': span['first'],
            'outcome': 'refused'}


def test_more_runs_than_are_rehearsed(file: Path, monkeypatch: pytest.MonkeyPatch) -> None:
    monkeypatch.setattr(rehearse, 'RUNS', 6)
    with contextlib.closing(sqlite3.connect(file)) as database:
        def said(first: int, last: int) -> dict[str, object]:
            text = line('a', giver=1, taker=2, first=f'{CODE * 10 ** 12 + first:014}',
                        last=f'{CODE * 10 ** 12 + last:014}')
            return rehearse.rehearse(database, GOO, 'SUN', [bundles.line_of(1, text)])
        assert said(11, 20) == {'rehearsed': 1}
        assert said(1, 40) == {'name': 'TooManyRuns', 'most': 6, 'outcome': 'refused'}


def test_spans_that_meet_are_read_once() -> None:
    spans = [(5, 9), (1, 3), (4, 4), (8, 12), (20, 20)]
    assert list(rehearse.merge_spans(spans)) == [(1, 12), (20, 20)]
    assert list(rehearse.merge_spans([])) == []
