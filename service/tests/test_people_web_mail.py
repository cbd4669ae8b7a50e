"""What users choose about their mails and webhooks, over HTTP."""
import time
from pathlib import Path
from typing import Any

import pytest

from goo_service.people import hooks
from goo_service.people import mails
from people_stage import Stage

URL = 'https://books.example.org/in'
WANTED: dict[str, Any] = {'address': 'anna@example.org', 'language': 'de', 'off': ['came_in']}


@pytest.fixture
def stage(tmp_path: Path) -> Stage:
    made = Stage(tmp_path / 'people.db')
    made.make_user()
    return made


def test_mails_of_a_user(stage: Stage) -> None:
    session = stage.sign_in()
    assert stage.get('me/mail', session).json == {
        'mail': None, 'language': None, 'off': [], 'kinds': list(mails.KINDS)}
    came = stage.post('me/mail', WANTED, session=session)
    assert came.status == 200 and came.json['off'] == ['came_in']
    me = stage.get('me', session).json
    assert (me['mail'], me['language'], me['off']) == ('anna@example.org', 'de', ['came_in'])
    assert me['kinds'] == list(mails.KINDS) and me['hooks'] == []
    acts = [row['detail'] for row in stage.rows("SELECT detail FROM act WHERE kind = 'mail_set'")]
    assert acts == ['{"address_changed":true,"language":"de","off":["came_in"]}']
    assert stage.post('me/mail', {**WANTED, 'address': None}, session=session).status == 200
    assert stage.get('me/mail', session).json['mail'] is None


@pytest.mark.parametrize('change', [
    {'address': 'anna'}, {'address': 'anna@example.org\nBcc: x@example.org'}, {'address': 5},
    {'address': 'a..b@example.org'}, {'address': f'{"a" * 300}@example.org'}, {'language': 'fr'},
    {'language': None}, {'off': ['password']}, {'off': ['came_in', 'came_in']}, {'off': 'came_in'},
    {'off': [['came_in']]}, {'off': ['came_in'] * 9}])
def test_a_choice_that_cannot_be(stage: Stage, change: dict[str, Any]) -> None:
    session = stage.sign_in()
    assert stage.post('me/mail', {**WANTED, **change}, session=session).status == 400
    assert stage.get('me/mail', session).json['mail'] is None


def later(monkeypatch: pytest.MonkeyPatch, seconds: int) -> None:
    real = time.time
    monkeypatch.setattr(time, 'time', lambda: real() + seconds)


def test_a_stolen_session_takes_no_mails_away(stage: Stage,
                                              monkeypatch: pytest.MonkeyPatch) -> None:
    """Another address asks for a second factor of now, and the one of before is told."""
    session = stage.sign_in()
    stage.post('me/mail', WANTED, session=session)
    later(monkeypatch, 600)
    moved = {**WANTED, 'address': 'thief@example.com'}
    assert stage.post('me/mail', moved, session=session).status == 403
    assert stage.post('me/mail', {**WANTED, 'off': []}, session=session).status == 200
    assert stage.rows('SELECT * FROM mail') == []
    stage.forget_codes()
    came = stage.post('me/mail', {**moved, 'code': stage.code()}, session=session)
    assert came.status == 200, came
    told, = stage.rows('SELECT address, kind, body FROM mail')
    assert (told['address'], told['kind']) == ('anna@example.org', 'address')
    assert 'thief' not in told['body']


def test_webhooks_of_a_user(stage: Stage, monkeypatch: pytest.MonkeyPatch) -> None:
    session = stage.sign_in()
    came = stage.post('me/hooks', {'url': URL, 'kinds': ['sent']}, session=session)
    assert came.status == 200 and len(bytes.fromhex(came.json['secret'])) == 32
    kept, = stage.get('me/hooks', session).json['hooks']
    assert (kept['id'], kept['url'], kept['kinds']) == (came.json['id'], URL, ['sent'])
    assert 'secret' not in kept and stage.get('me', session).json['hooks'] == [kept]
    every = stage.post('me/hooks', {'url': URL, 'kinds': []}, session=session)
    assert every.status == 200
    assert stage.get('me/hooks', session).json['hooks'][1]['kinds'] == list(hooks.KINDS)
    later(monkeypatch, 600)
    assert stage.post('me/hooks', {'url': URL}, session=session).status == 403
    assert stage.post(f'me/hooks/{kept["id"]}/revoke', {}, session=session).status == 200
    assert stage.post(f'me/hooks/{kept["id"]}/revoke', {}, session=session).status == 404
    kinds = [row['kind'] for row in stage.rows("SELECT kind FROM act WHERE kind LIKE 'hook%'")]
    assert kinds == ['hook_made', 'hook_made', 'hook_revoked']
    for row in stage.rows('SELECT detail FROM act'):
        assert came.json['secret'] not in row['detail']


def test_webhooks_of_others_are_not_touched(stage: Stage) -> None:
    stage.make_user('ben')
    anna, ben = stage.sign_in(), stage.sign_in('ben')
    number = stage.post('me/hooks', {'url': URL}, session=anna).json['id']
    assert stage.post(f'me/hooks/{number}/revoke', {}, session=ben).status == 404
    assert stage.get('me/hooks', ben).json['hooks'] == []


@pytest.mark.parametrize('url', ['http://books.example.org/', 'https://127.0.0.1:22/',
                                 'https://u:p@books.example.org/', 'http://127.0.0.1:8080/', ''])
def test_a_webhook_that_cannot_be(stage: Stage, url: str) -> None:
    session = stage.sign_in()
    assert stage.post('me/hooks', {'url': url}, session=session).status == 400
    assert stage.post('me/hooks', {'url': URL, 'kinds': ['x']}, session=session).status == 400


def test_nobody_else_asks(stage: Stage) -> None:
    for path in ('me/mail', 'me/hooks'):
        assert stage.get(path, '').status == 401
        assert stage.post(path, WANTED).status == 401
