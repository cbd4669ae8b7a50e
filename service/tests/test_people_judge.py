"""What the gate lets through: scopes of tokens, access by account, rules of four eyes.

Each is tried at its limit and one above. How the registry reads a request is docs/FORMATS.md's to
say; the requests here are written by it.
"""
import json
from dataclasses import replace
from pathlib import Path
from typing import Any

import pytest
from gate_stage import BUNDLES
from gate_stage import GateStage
from gate_stage import REQUESTS
from gate_stage import TABLES
from gate_stage import WHOLE
from gate_stage import advance
from gate_stage import cancel
from gate_stage import close
from gate_stage import correct
from gate_stage import declare
from gate_stage import export
from gate_stage import open_holder
from gate_stage import text
from gate_stage import transfer
from gate_stage import withdraw
from goo_service.people import asked
from goo_service.people import outcomes
from goo_service.people import waiting
from goo_service.people.judge import Passed
from goo_service.people.judge import Refused
from goo_service.people.judge import Verdict
from goo_service.people.judge import Waiting
from goo_service.rules.commands import MEMBERS
from hypothesis import given
from hypothesis import strategies as some

NOT_ALLOWED = {'code': 1, 'name': 'NotAllowed', 'outcome': 'refused'}
TABLE = b'key,device,first_day,last_day,gross_wh,aux_wh\nm1,500000000000000012,2025-01-01,' \
        b'2025-01-31,5,0\n'


@pytest.fixture
def stage(tmp_path: Path) -> GateStage:
    made = GateStage(tmp_path / 'people' / 'people.db')
    made.user('anna')
    made.user('ben')
    made.user('carl', rows=((1, 'rt'), (2, 'rc'), (3, 'r')))
    made.user('reader', rows=((0, 'r'),))
    made.user('olga', 'ISSUER', 'officer')
    made.user('otto', 'ISSUER', 'second')
    made.user('audit', 'ISSUER', 'auditor')
    made.user('meter', 'ISSUER', 'meters')
    return made


def status_of(verdict: Verdict) -> int | str:
    if isinstance(verdict, Passed):
        return 'passed'
    return verdict.status if isinstance(verdict, Refused) else 'waits'


def error_of(verdict: Verdict) -> str:
    assert isinstance(verdict, Refused), verdict
    return str(verdict.members.get('error', ''))


# ------------------------------------------------------------------ access by account

@pytest.mark.parametrize(('request_', 'allowed'), [
    (transfer('k', 5, giver=1), True), (transfer('k', 5, giver=2), False),
    (transfer('k', 5, giver=3), False), (transfer('k', 5, giver=4), False),
    (export('k', 5, giver=1), True), (export('k', 5, giver=2), False),
    (cancel('k', 5, account=2), True), (cancel('k', 5, account=1), False),
    (cancel('k', 5, account=3), False), (close('k', 1), True), (close('k', 2), False)])
def test_a_user_asks_of_the_accounts_that_he_may(stage: GateStage, request_: dict[str, Any],
                                                 allowed: bool) -> None:
    verdict = stage.ask('carl', request_)
    assert status_of(verdict) == ('passed' if allowed else 403)
    if isinstance(verdict, Refused):
        assert verdict.members == NOT_ALLOWED
    assert status_of(stage.ask('anna', request_)) == 'passed'
    assert status_of(stage.ask('reader', request_)) == 403
    bundle = stage.ask('carl', transfer('a', 1), {**request_, 'key': 'b'})
    if allowed:
        assert status_of(bundle) == 'passed'
    else:
        assert isinstance(bundle, Refused)
        assert bundle.members == {**NOT_ALLOWED, 'key': 'b', 'line': 2}


def test_roles_of_the_body_ask_what_is_theirs(stage: GateStage) -> None:
    for request in (withdraw('k'), open_holder('k'), advance('k'), correct('k')):
        assert status_of(stage.ask('olga', request)) == 'passed'
        for user in ('otto', 'audit', 'meter'):
            assert status_of(stage.ask(user, request)) == 403, (user, request)
    for user, wanted in (('olga', 'passed'), ('meter', 'passed'), ('otto', 403), ('audit', 403)):
        assert status_of(stage.ask(user, declare('k'))) == wanted
        assert status_of(stage.ask(user, target=TABLES, body=TABLE)) == wanted
    assert status_of(stage.ask('meter', declare('a'), declare('b'))) == 'passed'
    assert status_of(stage.ask('meter', declare('a'), withdraw('b'))) == 403


def test_a_user_who_ended_or_has_another_caller_asks_nothing(stage: GateStage) -> None:
    call = stage.call('anna', text(transfer('k', 1)))
    with stage.open() as db:
        for other in ({'caller': 'VOLT'}, {'user': 'nobody'}):
            assert status_of(stage.judge.verdict(db, replace(call, **other))) == 403
        stage.end_user('anna')
        assert status_of(stage.judge.verdict(db, call)) == 403


# ------------------------------------------------------------------ what the registry reads

DOUBLED = [
    b'{"command":"transfer","key":"k","giver":2,"giver":1,"taker":2,"first":"07000000000001",'
    b'"last":"07000000000005"}',
    b'{"command":"close_account","command":"transfer","key":"k","giver":1,"taker":2,'
    b'"first":"07000000000001","last":"07000000000005"}',
    b'{"command":"transfer","\\u0063ommand":"open_holder","key":"k","giver":1,"taker":2,'
    b'"first":"07000000000001","last":"07000000000005"}']


@pytest.mark.parametrize('body', DOUBLED)
def test_a_member_that_stands_twice_passes_no_limit(stage: GateStage, body: bytes) -> None:
    """Of two members with one name the registry takes the last one; nobody has to rely on that."""
    assert status_of(stage.ask('carl', body=body, target=REQUESTS)) == 403
    assert status_of(stage.ask('carl', body=text(transfer('a', 1)) + b'\n' + body,
                               target=BUNDLES)) == 403
    for hold in (stage.token('anna', 'm', 't', most=100), stage.token('anna', 'd', 'rd')):
        assert status_of(stage.ask('anna', body=body, target=REQUESTS, hold=hold)) == 403
    assert status_of(stage.ask('anna', body=body, target=REQUESTS)) == 'passed'
    stage.rule('*', 'transfer', 3)
    assert status_of(stage.ask('anna', body=body, target=REQUESTS)) == 403


UNREAD = [
    b'', b'{}', b'[]', b'nothing', b'\xef\xbb\xbf' + text(transfer('k', 9)),
    text(transfer('k', 9)).decode().encode('utf-16'), text(transfer('k', 9)) + b'\x00',
    text({**transfer('k', 9), 'giver': '4'}), text({**transfer('k', 9), 'giver': 4.0}),
    text({**transfer('k', 9), 'more': 1}), text({**transfer('k', 9), 'key': 12}),
    text({**transfer('k', 9), 'command': 'Transfer'}), text({**transfer('k', 9), 'giver': -4}),
    text(transfer('k', 9)).replace(b'"giver": 1', b'"giver": 4e0'),
    text(transfer('k', 9)).replace(b'"giver": 1', b'"giver": 04'),
    text(transfer('k', 9)).replace(b'"giver": 1', b'"giver": 1000000000'),
    text({**transfer('k', 9), 'last': '7000000000009'}),
    text({**transfer('k', 9), 'first': '\u0660' * 14}), 2 * text(transfer('k', 9)),
    b'[' * 60_000]


@pytest.mark.parametrize('body', UNREAD, ids=range(len(UNREAD)))
def test_what_the_registry_cannot_read_goes_on_as_it_is(stage: GateStage, body: bytes) -> None:
    """It is answered 400 there, and changes nothing."""
    stage.rule('*', 'transfer', 3)
    assert status_of(stage.ask('carl', body=body, target=REQUESTS)) == 'passed'


SPELLED = [
    text(transfer('k', 9, giver=4)).replace(b'"giver"', b'"g\\u0069ver"'),
    text(transfer('k', 9, giver=4)).replace(b'"transfer"', b'"\\u0074ransfer"'),
    b' \t\r\n ' + text(transfer('k', 9, giver=4)) + b' \r\n ',
    json.dumps(dict(reversed(transfer('k', 9, giver=4).items())), indent=2).encode(),
    text(transfer('k', 9, giver=4)).replace(b'07000000000001', b'\\u00307000000000001')]


@pytest.mark.parametrize('body', SPELLED, ids=range(len(SPELLED)))
def test_another_spelling_is_the_same_request(stage: GateStage, body: bytes) -> None:
    assert asked.line_of(body) == asked.Line('transfer', 'k', 4, 9)
    assert status_of(stage.ask('carl', body=body, target=REQUESTS)) == 403


MEMBER = some.one_of(some.integers(-3, 10 ** 10), some.text(max_size=4), some.none(),
                     some.floats(allow_nan=False), some.booleans(),
                     some.sampled_from(['07000000000001', '07000000000009', '']))


@given(some.sampled_from(sorted(MEMBERS)), some.dictionaries(
    some.sampled_from(['giver', 'taker', 'first', 'last', 'account', 'key', 'more']), MEMBER))
def test_a_request_with_other_members_is_read_by_its_form_alone(command: str,
                                                                other: dict[str, Any]) -> None:
    whole = {'transfer': transfer('k', 9), 'cancel': cancel('k', 9), 'export': export('k', 9)}
    members = {**whole.get(command, {'command': command, 'key': 'k'}), **other}
    line = asked.line_of(json.dumps(members).encode())
    assert not line.is_doubtful
    if line.command in asked.GIVERS:
        account = members[asked.GIVERS[command]]
        assert type(account) is int and account == line.account and 0 < account < 10 ** 9
    if line.command in ('transfer', 'cancel', 'export'):
        assert line.quantity == int(members['last']) - int(members['first']) + 1 > 0


# ------------------------------------------------------------------ scopes

@pytest.mark.parametrize(('scope', 'request_', 'allowed'), [
    ('rd', transfer('k', 1), False), ('d', cancel('k', 1), False), ('r', transfer('k', 1), False),
    ('t', transfer('k', 1), True), ('t', cancel('k', 1), True), ('rt', export('k', 1), True),
    ('t', declare('k'), False), ('r', declare('k'), False), ('d', declare('k'), True)])
def test_a_token_asks_what_its_scope_says(stage: GateStage, scope: str, request_: dict[str, Any],
                                          allowed: bool) -> None:
    user = 'olga' if request_['command'] == 'declare' else 'anna'
    hold = stage.token(user, scope=scope)
    verdict = stage.ask(user, request_, hold=hold)
    assert status_of(verdict) == ('passed' if allowed else 403)
    if not allowed:
        assert 'the token nightly does not allow this' in error_of(verdict)
    if request_['command'] == 'declare':
        assert status_of(stage.ask(user, target=TABLES, body=TABLE, hold=hold)) == (
            'passed' if allowed else 403)


def test_a_token_of_one_account_asks_of_that_one(stage: GateStage) -> None:
    hold = stage.token('anna', scope='t', account=2)
    for request, wanted in ((transfer('k', 1, giver=2), 'passed'), (transfer('k', 1), 403),
                            (cancel('k', 1, account=2), 'passed'), (cancel('k', 1), 403),
                            (export('k', 1, giver=2), 'passed'), (export('k', 1), 403),
                            (close('k', 2), 'passed'), (close('k', 1), 403),
                            (open_holder('k'), 403)):
        assert status_of(stage.ask('anna', request, hold=hold)) == wanted, request
    assert status_of(stage.ask('anna', transfer('a', 1, giver=2), transfer('b', 1, giver=1),
                               hold=hold)) == 403


def test_a_scope_gives_no_right_that_the_user_has_not(stage: GateStage) -> None:
    hold = stage.token('carl', scope='rdt')
    assert status_of(stage.ask('carl', transfer('k', 1, giver=1), hold=hold)) == 'passed'
    assert status_of(stage.ask('carl', transfer('k', 1, giver=2), hold=hold)) == 403
    other = stage.token('anna', 'of anna')
    assert status_of(stage.ask('carl', transfer('k', 1), hold=other)) == 403


def test_a_token_that_ended_or_was_revoked_asks_nothing(stage: GateStage) -> None:
    over = stage.token('anna', 'over', ends=0)
    revoked = stage.token('anna', 'revoked')
    assert status_of(stage.ask('anna', transfer('k', 1), hold=revoked)) == 'passed'
    with stage.change() as db:
        db.execute('UPDATE token SET revoked = 1 WHERE id = ?', (int(revoked[1:]),))
    for hold in (over, revoked, 't', 't0', 't99', 't1x'):
        assert status_of(stage.ask('anna', transfer('k', 1), hold=hold)) == 403, hold


# ------------------------------------------------------------------ rules of four eyes

@pytest.mark.parametrize(('caller', 'user'), [('*', 'anna'), ('SUN', 'anna')])
@pytest.mark.parametrize('make', [transfer, cancel, export])
def test_a_quantity_above_the_rule_waits(stage: GateStage, caller: str, user: str,
                                         make: Any) -> None:
    stage.rule(caller, make('k', 1)['command'], 1000)
    for key, count, wanted in (('a', 999, 'passed'), ('b', 1000, 'passed'), ('c', 1001, 'waits')):
        assert status_of(stage.ask(user, make(key, count))) == wanted
    waits = stage.ask(user, make('c', 1001))
    assert isinstance(waits, Waiting) and waits.waits.why.endswith('above 1000')
    assert waits.waits.ends - waits.waits.asked == 7 * 86_400
    assert len(stage.rows('SELECT * FROM waiting')) == 1


def test_the_stricter_of_two_rules_counts_and_others_are_not_asked(stage: GateStage) -> None:
    stage.rule('*', 'transfer', 1000)
    stage.rule('SUN', 'transfer', 10)
    stage.rule('VOLT', 'transfer', 1)
    stage.user('vera', 'VOLT')
    assert status_of(stage.ask('anna', transfer('a', 10))) == 'passed'
    assert status_of(stage.ask('anna', transfer('b', 11))) == 'waits'
    assert status_of(stage.ask('vera', transfer('a', 2))) == 'waits'
    assert status_of(stage.ask('anna', cancel('c', 5000))) == 'passed'
    stage.rule('SUN', 'transfer', 5000)
    assert status_of(stage.ask('anna', transfer('d', 1001))) == 'waits'


@pytest.mark.parametrize('request_', [withdraw('k'), correct('k'), advance('k'), open_holder('k')])
def test_each_act_of_the_body_that_a_rule_names_waits(stage: GateStage,
                                                      request_: dict[str, Any]) -> None:
    assert status_of(stage.ask('olga', request_)) == 'passed'
    stage.rule('*', 'transfer', 0)
    assert status_of(stage.ask('olga', {**request_, 'key': 'a'})) == 'passed'
    stage.rule('ISSUER', request_['command'])
    assert status_of(stage.ask('olga', {**request_, 'key': 'b'})) == 'waits'


@pytest.mark.parametrize('target', [BUNDLES, WHOLE])
def test_a_bundle_with_one_such_line_waits_whole(stage: GateStage, target: str) -> None:
    stage.rule('*', 'transfer', 10)
    below = [transfer(f'k{n}', 10) for n in range(5)]
    assert status_of(stage.ask('anna', *below, target=target)) == 'passed'
    lines = [*below[:3], transfer('big', 11), *below[3:]]
    verdict = stage.ask('anna', *lines, target=target)
    assert isinstance(verdict, Waiting)
    assert verdict.waits.body == text(*lines) and verdict.waits.target == target
    assert {row['key'] for row in stage.rows('SELECT key FROM waiting_key')} == {
        'big', 'k0', 'k1', 'k2', 'k3', 'k4'}


def test_a_table_never_waits(stage: GateStage) -> None:
    for command in ('withdraw', 'correct', 'advance', 'open_holder'):
        stage.rule('ISSUER', command)
    assert status_of(stage.ask('olga', target=TABLES, body=TABLE)) == 'passed'


# ------------------------------------------------------------------ the same key again

def test_the_same_key_again_is_the_same_request_or_a_conflict(stage: GateStage) -> None:
    stage.rule('*', 'transfer', 10)
    first = stage.ask('anna', transfer('k', 11))
    again = stage.ask('anna', transfer('k', 11))
    assert isinstance(first, Waiting) and isinstance(again, Waiting)
    assert first.waits.id == again.waits.id
    for other in (transfer('k', 12), transfer('k', 1), cancel('k', 1)):
        verdict = stage.ask('anna', other)
        assert status_of(verdict) == 409 and 'the key k ' in error_of(verdict)
    assert status_of(stage.ask('anna', transfer('a', 1), transfer('k', 1))) == 409
    stage.user('vera', 'VOLT')
    assert status_of(stage.ask('vera', transfer('k', 1))) == 'passed'    # keys are a caller's own
    assert len(stage.rows('SELECT * FROM waiting')) == 1


@pytest.mark.parametrize(('status', 'answer', 'wanted'), [
    (200, b'{"outcome":"accepted","reply":{"count":11}}', 'passed'),
    (200, b'{"outcome":"repeated","reply":{"count":11}}', 'passed'),
    (409, b'{"code":17,"name":"NotHeld","outcome":"refused"}', 'waits'),
    (400, b'{"fault":"Field","outcome":"unreadable"}', 'waits'), (500, b'Set aside\n', 'waits')])
def test_a_confirmation_counts_once(stage: GateStage, status: int, answer: bytes,
                                    wanted: str) -> None:
    """What was accepted is repeated. What was refused would be carried out now, unconfirmed."""
    stage.rule('*', 'transfer', 10)
    verdict = stage.ask('anna', transfer('k', 11))
    assert isinstance(verdict, Waiting)
    with stage.change() as db:
        db.execute("UPDATE waiting SET state = 'sending' WHERE id = ?", (verdict.waits.id,))
        waiting.finish(db, verdict.waits.id, status, answer, outcomes.is_done(status, answer))
    assert status_of(stage.ask('anna', transfer('k', 11))) == wanted
    assert status_of(stage.ask('anna', transfer('k', 12))) == ('waits' if wanted == 'passed'
                                                               else 409)


# ------------------------------------------------------------------ bounds

def test_so_many_wait_of_a_user_and_of_a_caller(stage: GateStage,
                                                monkeypatch: pytest.MonkeyPatch) -> None:
    monkeypatch.setattr(waiting, 'OF_USER', 3)
    monkeypatch.setattr(waiting, 'OF_CALLER', 5)
    stage.rule('*', 'transfer', 10)
    for user, count in (('anna', 3), ('ben', 2)):
        for n in range(count):
            assert status_of(stage.ask(user, transfer(f'{user}{n}', 11))) == 'waits'
    for user, why in (('anna', '3 requests of anna'), ('ben', '5 requests of SUN')):
        verdict = stage.ask(user, transfer('more', 11))
        assert status_of(verdict) == 429 and why in error_of(verdict)
        assert isinstance(verdict, Refused) and verdict.wait
    monkeypatch.setattr(waiting, 'OF_USER', 100)
    monkeypatch.setattr(waiting, 'OF_CALLER', 100)
    size = len(text(transfer('anna0', 11)))
    monkeypatch.setattr(waiting, 'BODIES', 5 * size + 10)
    assert status_of(stage.ask('anna', transfer('more', 11))) == 429
    monkeypatch.setattr(waiting, 'BODIES', 7 * size)
    assert status_of(stage.ask('anna', transfer('more', 11))) == 'waits'


def test_the_bounds_are_those_that_are_told(stage: GateStage) -> None:
    assert (waiting.OF_USER, waiting.OF_CALLER, waiting.BODIES) == (100, 1000, 64 * 1024 * 1024)
