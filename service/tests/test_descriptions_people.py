"""docs/people.yaml against goo-people-web: its routes, and answers as they are described."""
import json
import re
from collections.abc import Iterator
from pathlib import Path
from typing import Any

import pytest
from described import Description
from described import Operation
from goo_service.people import store
from goo_service.people import web
from goo_service.people import whose
from people_stage import PASSWORD
from people_stage import QUICK
from people_stage import Reply
from people_stage import Stage

PEOPLE = Description('people.yaml')
BY = {(of.method.upper(), of.path): of for of in PEOPLE.operations}
READS = [{'account': 0, 'reads': True}]


def records(*_: object, **__: object) -> dict[str, Any]:
    """Records that have each holder."""
    return {'items': [{}], 'next': None}


@pytest.fixture
def stage(tmp_path: Path, monkeypatch: pytest.MonkeyPatch) -> Iterator[Stage]:
    monkeypatch.setattr(whose, 'asked', records)
    made = Stage(tmp_path / 'people/people.db')
    made.make_user('olga', 'ISSUER', 'officer')
    made.make_user('ada', administrator=True)
    made.make_user('anna')
    with made.change() as db:
        db.execute("UPDATE user SET mail = name || '@sun.example', language = 'en'")
    yield made


def held(method: str, path: str, came: Reply) -> Reply:
    """An answer, which has to be as it is described."""
    named = re.sub('users/(anna|ada|nobody)/', 'users/{name}/', path.split('?')[0])
    form = re.sub(r'/(\d+)(?=/|$)', '/{number}', named)
    operation: Operation = BY[method, f'/people/v1/{form}']
    body = json.dumps(came.json).encode()
    assert PEOPLE.fault(operation, came.status, 'application/json', body) is None, (path, came)
    return came


def post(stage: Stage, path: str, members: Any = None, session: str = '') -> Reply:
    return held('POST', path, stage.post(path, members or {}, session=session))


def get(stage: Stage, path: str, session: str) -> Reply:
    return held('GET', path, stage.get(path, session))


def test_each_route_is_described_and_no_other(tmp_path: Path) -> None:
    store.make_file(tmp_path / 'people/people.db')
    made = web.application(tmp_path / 'people/people.db', QUICK)
    routes = {(method, re.sub(r'<(?:\w+:)?(\w+)>', r'{\1}', rule.rule))
              for rule in made.url_map.iter_rules() if rule.endpoint != 'static'
              for method in (rule.methods or set()) - {'HEAD', 'OPTIONS'}}
    assert routes == set(BY)


def test_a_day_of_an_administrator_is_answered_as_described(stage: Stage) -> None:
    ada = stage.sign_in('ada')
    for path in ('me', 'users', 'invitations', 'acts', 'rules', 'waiting', 'me/tokens', 'me/mail',
                 'me/hooks', 'users?caller=SUN', 'acts?limit=1'):
        assert get(stage, path, ada).status == 200, path
    wanted = {'mail': 'n@sun.example', 'language': 'en', 'access': READS}
    made = post(stage, 'users/invite', wanted, ada)
    assert made.status == 200 and len(get(stage, 'invitations', ada).json['invitations']) == 1
    assert post(stage, 'accept', {'invitation': made.json['secret']}).status == 200
    assert post(stage, 'accept', {'invitation': made.json['secret'], 'name': 'nina',
                                  'password': PASSWORD}).status == 200
    assert post(stage, 'accept', {'invitation': made.json['secret']}).status == 404
    assert post(stage, 'users/anna/access', {'access': READS}, ada).status == 200
    assert post(stage, 'users/anna/reset', {}, ada).status == 200
    [number] = [of['number'] for of in get(stage, 'invitations', ada).json['invitations']]
    assert post(stage, f'invitations/{number}/revoke', {}, ada).status == 200
    assert post(stage, 'users/anna/end', {}, ada).status == 200
    for name, status in (('ada', 403), ('nobody', 404)):
        assert post(stage, f'users/{name}/end', {}, ada).status == status
    rule = {'caller': 'SUN', 'command': 'transfer', 'above': 100, 'days': 7}
    assert post(stage, 'rules', rule, ada).status == 200
    assert post(stage, 'rules', {**rule, 'above': None}, ada).status == 202
    [waits] = get(stage, 'waiting', ada).json['items']
    assert get(stage, f'waiting/{waits["number"]}', ada).status == 200
    assert post(stage, f'waiting/{waits["number"]}/confirm', {}, ada).status == 403
    assert post(stage, f'waiting/{waits["number"]}/withdraw', {}, ada).status == 200
    assert post(stage, f'waiting/{waits["number"]}/refuse', {}, ada).status == 409


def test_a_day_of_a_user_is_answered_as_described(stage: Stage) -> None:
    assert post(stage, 'sign-in', {'user': 'anna', 'password': PASSWORD}).json == {'next': 'code'}
    assert post(stage, 'sign-in', {'user': 'anna', 'password': 'wrong'}).status == 401
    assert post(stage, 'sign-in', {'user': 1}).status == 400
    anna = stage.sign_in('anna')
    token = {'name': 'erp', 'reads': True, 'ends': store.now() + 999}
    made = post(stage, 'me/tokens', token, anna)
    assert made.status == 200 and get(stage, 'me', anna).json['tokens']
    assert get(stage, 'me/tokens', anna).status == 200
    assert post(stage, f'me/tokens/{made.json["id"]}/revoke', {}, anna).status == 200
    assert post(stage, f'me/tokens/{made.json["id"]}/revoke', {}, anna).status == 404
    assert post(stage, 'me/tokens', {**token, 'ends': 1}, anna).status == 400
    mail = {'language': 'de', 'address': 'a@sun.example'}
    assert post(stage, 'me/mail', mail, anna).status == 200
    begun = post(stage, 'me/factors/totp', {'name': 'Second'}, anna)
    assert begun.status == 200 and set(''.join(begun.json['qr'])) == {'0', '1'}
    confirm = {'id': begun.json['id'], 'code': '000000'}
    assert post(stage, 'me/factors/totp/confirm', confirm, anna).status == 400
    assert post(stage, 'me/factors/key/begin', {'name': 'Blue'}, anna).status == 200
    [factor] = get(stage, 'me', anna).json['factors']
    assert post(stage, f'me/factors/{factor["id"]}/remove', {}, anna).status == 409
    assert get(stage, 'users', anna).status == 403
    [session] = get(stage, 'me', anna).json['sessions']
    assert post(stage, f'me/sessions/{session["id"] + 9}/end', {}, anna).status == 404
    changed = {'old': PASSWORD, 'new': 'another good password'}
    assert post(stage, 'me/password', changed, anna).status == 200
    assert post(stage, 'sign-out-everywhere', {}, anna).status == 200
    assert get(stage, 'me', anna).status == 401
