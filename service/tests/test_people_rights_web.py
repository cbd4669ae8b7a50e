"""Tokens, rules and what waits, as goo-people-web answers about them."""
import json
import sqlite3
from pathlib import Path
from typing import Any

import pytest
from fake_log import FakeLog
from fake_log import GateProcess
from gate_stage import REQUESTS
from gate_stage import open_holder
from gate_stage import text
from gate_stage import transfer
from goo_service.people import store
from people_stage import Reply
from people_stage import Stage

YEAR = 365 * 86_400
Rule = dict[str, object]


@pytest.fixture
def stage(tmp_path: Path) -> Stage:
    made = Stage(tmp_path / 'people' / 'people.db')
    made.make_user('anna')
    made.make_user('ben')
    made.make_user('adam', administrator=True)
    made.make_user('olga', 'ISSUER', 'officer')
    made.make_user('oleg', 'ISSUER', 'officer')
    made.make_user('otto', 'ISSUER', 'second')
    made.make_user('meter', 'ISSUER', 'meters')
    return made


def ends(seconds: int = 86_400) -> int:
    return store.now() + seconds


def old_session(stage: Stage, name: str) -> str:
    """A session that began an hour ago."""
    session = stage.sign_in(name)
    with stage.change() as db:
        db.execute('UPDATE session SET begun = begun - 3600')
    return session


def error_of(came: Reply) -> str:
    return str(came.json['error'])


# ------------------------------------------------------------------ tokens

def test_a_token_is_shown_once_and_kept_as_its_hash(stage: Stage) -> None:
    session = stage.sign_in('anna')
    came = stage.post('me/tokens', {'name': 'nightly', 'reads': True, 'trades': True, 'most': 50,
                                    'account': 3, 'ends': ends()}, session=session)
    token = came.json['token']
    assert came.status == 200 and token.startswith('goo_') and len(token) == 47
    row, = stage.rows('SELECT * FROM token')
    assert token not in str(row) and token.encode() not in stage.path.read_bytes()
    assert (row['most'], row['account'], row['declares']) == (50, 3, 0)
    shown, = stage.get('me/tokens', session).json['items']
    assert shown['name'] == 'nightly' and 'hash' not in shown and 'token' not in shown
    asked = stage.ask(authorization=f'Bearer {token}')
    assert (asked.user, asked.entry, asked.way) == ('anna', 'SUN full', 'token nightly')
    assert stage.post(f'me/tokens/{came.json["id"]}/revoke', session=session).status == 200
    assert stage.ask(authorization=f'Bearer {token}').status == 401
    kinds = [row['kind'] for row in stage.rows("SELECT kind FROM act WHERE kind LIKE 'token%'")]
    assert kinds == ['token_made', 'token_revoked']


@pytest.mark.parametrize(('user', 'members', 'why'), [
    ('anna', {'name': ''}, 'name'), ('anna', {'name': 'x' * 41}, 'name'),
    ('anna', {'name': 'a\nb'}, 'name'), ('anna', {'name': 'ä'}, 'name'),
    ('anna', {'name': ' a'}, 'name'), ('anna', {'reads': False}, 'reads, declares or trades'),
    ('anna', {'declares': True}, 'declares'), ('otto', {'trades': True}, 'trades'),
    ('meter', {'reads': False, 'trades': True}, 'trades'), ('anna', {'most': 5}, 'most'),
    ('anna', {'trades': True, 'most': 0}, 'most'), ('anna', {'account': 1}, 'account'),
    ('anna', {'trades': True, 'account': 10 ** 9}, 'account'),
    ('olga', {'trades': True, 'account': 1}, 'account'), ('anna', {'ends': 5}, 'ends'),
    ('anna', {'ends': 5 * YEAR + store.now()}, 'ends'), ('anna', {'ends': None}, 'ends')])
def test_a_token_that_cannot_be_is_refused_by_name(stage: Stage, user: str,
                                                   members: dict[str, Any], why: str) -> None:
    whole = {'name': 'nightly', 'reads': True, 'ends': ends(), **members}
    came = stage.post('me/tokens', whole, session=stage.sign_in(user))
    assert came.status == 400 and why in error_of(came)
    assert not stage.rows('SELECT * FROM token')


def test_a_user_has_few_tokens_and_a_name_once(stage: Stage) -> None:
    session = stage.sign_in('anna')
    for n in range(20):
        given = {'name': f't{n}', 'reads': True, 'ends': ends()}
        assert stage.post('me/tokens', given, session=session).status == 200
        if not n:
            assert 'already' in error_of(stage.post('me/tokens', given, session=session))
    came = stage.post('me/tokens', {'name': 'more', 'reads': True, 'ends': ends()}, session=session)
    assert came.status == 400 and '20 tokens' in error_of(came)
    assert stage.post('me/tokens/1/revoke', session=session).status == 200
    assert stage.post('me/tokens/1/revoke', session=session).status == 404
    came = stage.post('me/tokens', {'name': 'more', 'reads': True, 'ends': ends()}, session=session)
    assert came.status == 200


def test_a_token_is_made_by_a_fresh_factor_and_of_one_s_own(stage: Stage) -> None:
    session = old_session(stage, 'anna')
    given = {'name': 'nightly', 'reads': True, 'ends': ends()}
    assert stage.post('me/tokens', given, session=session).status == 403
    stage.forget_codes()
    came = stage.post('me/tokens', {**given, 'code': stage.code()}, session=session)
    assert came.status == 200
    other = stage.sign_in('ben')
    assert stage.post(f'me/tokens/{came.json["id"]}/revoke', session=other).status == 404
    assert stage.get('me/tokens', other).json == {'items': []}


# ------------------------------------------------------------------ rules

def test_rules_are_set_by_who_may_and_a_looser_one_waits(stage: Stage) -> None:
    adam, olga = stage.sign_in('adam'), stage.sign_in('olga')
    rule: Rule = {'caller': 'SUN', 'command': 'transfer', 'above': 100, 'days': 7}
    assert stage.post('rules', rule, session=adam).status == 200
    assert stage.post('rules', {**rule, 'above': 50}, session=adam).status == 200      # stricter
    changes: tuple[Rule, ...] = ({'above': 60}, {'above': 50, 'days': 8}, {'above': None})
    for looser in changes:
        came = stage.post('rules', {**rule, **looser}, session=adam)
        assert came.status == 202 and came.json['why'] == 'a looser rule'
        again = stage.post('rules', {**rule, **looser}, session=adam)
        assert again.status == 202 and again.json['number'] == came.json['number']
        assert stage.rows('SELECT above FROM rule') == [{'above': 50}]
        assert stage.post('rules', {**rule, 'above': 55}, session=adam).status == 409
        number = came.json['number']
        assert stage.post(f'waiting/{number}/withdraw', session=adam).status == 200
    came = stage.post('rules', {**rule, 'above': None}, session=adam)
    number = came.json['number']
    assert stage.post(f'waiting/{number}/confirm', session=adam).status == 403
    assert stage.post(f'waiting/{number}/confirm', session=olga).status == 404
    done = stage.post(f'waiting/{number}/confirm', session=stage.sign_in('ben'))
    assert done.status == 200 and done.json['state'] == 'sent'
    assert not stage.rows('SELECT * FROM rule')


def test_the_body_s_rules_are_its_officers_to_set(stage: Stage) -> None:
    olga = stage.sign_in('olga')
    for caller, command, above in (('*', 'cancel', 1000), ('ISSUER', 'withdraw', 0)):
        rule = {'caller': caller, 'command': command, 'above': above, 'days': 3}
        for user in ('adam', 'anna', 'otto', 'meter'):
            assert stage.post('rules', rule, session=stage.sign_in(user)).status == 403, user
        assert stage.post('rules', rule, session=olga).status == 200
        came = stage.post('rules', {**rule, 'above': None}, session=olga)
        assert came.status == 202
        number = came.json['number']
        for user in ('adam', 'meter'):
            came = stage.post(f'waiting/{number}/confirm', session=stage.sign_in(user))
            assert came.status in (403, 404)
        confirmed = stage.post(f'waiting/{number}/confirm', session=stage.sign_in('otto'))
        assert confirmed.status == 200
    assert not stage.rows('SELECT * FROM rule')
    shown = stage.get('rules', stage.sign_in('anna')).json
    assert shown['sets'] == [] and shown['items'] == []


@pytest.mark.parametrize('members', [
    {'command': 'declare'}, {'command': 'withdraw'}, {'above': -1}, {'above': 10 ** 13},
    {'days': 0}, {'days': 31}, {'days': None}, {'above': '5'}, {'caller': 'ISSUER'},
    {'caller': 'VOLT'}, {'caller': '*'}])
def test_a_rule_that_cannot_be_is_refused(stage: Stage, members: dict[str, Any]) -> None:
    rule = {'caller': 'SUN', 'command': 'transfer', 'above': 100, 'days': 7, **members}
    assert stage.post('rules', rule, session=stage.sign_in('adam')).status in (400, 403)
    assert not stage.rows('SELECT * FROM rule')


# ------------------------------------------------------------------ what waits

def test_what_waits_is_seen_and_confirmed_by_a_second_user(
        stage: Stage, tmp_path: Path, monkeypatch: pytest.MonkeyPatch) -> None:
    gate = GateProcess(stage.path, tmp_path / 'door.sock', tmp_path / 'gate.sock')
    monkeypatch.setenv('GOO_PEOPLE_GATE', str(gate.listen))
    rule = {'caller': 'SUN', 'command': 'transfer', 'above': 10, 'days': 7}
    assert stage.post('rules', rule, session=stage.sign_in('adam')).status == 200
    with FakeLog(tmp_path / 'door.sock') as log, gate:
        numbers = [gate.post(REQUESTS, text(transfer(key, 11))).members()['number']
                   for key in 'abc']
        anna, ben = stage.sign_in('anna'), stage.sign_in('ben')
        own = stage.get('waiting', anna).json['items']
        assert [(one['number'], one['state'], one['may']) for one in own] == [
            (number, 'waiting', ['withdraw']) for number in numbers]
        seen = stage.get(f'waiting/{numbers[0]}', ben).json
        assert json.loads(seen['body']) == transfer('a', 11) and seen['user'] == 'anna'
        assert seen['may'] == ['confirm', 'refuse'] and seen['why'] == 'a transfer above 10'
        assert stage.get('waiting', stage.sign_in('olga')).json == {'items': []}
        assert stage.post(f'waiting/{numbers[0]}/confirm', session=anna).status == 403
        assert stage.post(f'waiting/{numbers[0]}/confirm',
                          session=old_session(stage, 'ben')).status == 403
        ben = stage.sign_in('ben')
        came = stage.post(f'waiting/{numbers[0]}/confirm', session=ben)
        assert came.status == 200 and came.json['status'] == 200 and came.json['entry'] == 7
        assert json.loads(came.json['answer'])['outcome'] == 'accepted'
        assert stage.post(f'waiting/{numbers[0]}/confirm', session=ben).status == 409
        assert stage.post(f'waiting/{numbers[1]}/refuse', session=ben).status == 200
        assert stage.post(f'waiting/{numbers[2]}/withdraw', session=anna).status == 200
        assert [(one['state'], one['decider']) for one in stage.get('waiting', anna).json['items']
                ] == [('withdrawn', 'anna'), ('refused', 'ben'), ('sent', 'ben')]
        sent, = log.sent
        assert sent.fields['GOO-Confirmed'] == 'ben' and sent.key == 'a'


def test_a_gate_that_is_away_sends_it_later(stage: Stage, tmp_path: Path,
                                            monkeypatch: pytest.MonkeyPatch) -> None:
    gate = GateProcess(stage.path, tmp_path / 'door.sock', tmp_path / 'gate.sock')
    monkeypatch.setenv('GOO_PEOPLE_GATE', str(gate.listen))
    rule = {'caller': 'ISSUER', 'command': 'open_holder', 'above': 0, 'days': 1}
    assert stage.post('rules', rule, session=stage.sign_in('olga')).status == 200
    with gate:
        number = gate.post(REQUESTS, text(open_holder('k')), user='olga',
                           caller='ISSUER').members()['number']
    came = stage.post(f'waiting/{number}/confirm', session=stage.sign_in('oleg'))
    assert came.status == 202 and came.json['state'] == 'sending'
    assert stage.post(f'waiting/{number}/confirm', session=stage.sign_in('otto')).status == 409


def test_a_token_neither_makes_tokens_nor_confirms(stage: Stage) -> None:
    with stage.open() as db, pytest.raises(sqlite3.IntegrityError):
        db.execute('INSERT INTO token (hash, user, name, reads, declares, trades, made, ends) '
                   "VALUES (x'00', 99, 'x', 1, 1, 1, 1, 1)")
    fields = {'GOO-User': 'anna', 'GOO-Way': 'token nightly', 'GOO-Hold': 't1'}
    for path in ('me/tokens', 'rules', 'waiting/1/confirm', 'waiting/1/withdraw'):
        came = stage.client.post(f'/people/v1/{path}', headers=fields, json={})
        assert came.status_code == 403, path
