"""Users, access and invitations over HTTP: who may, what is asked of the records, and that a second
factor of now is asked for."""
from pathlib import Path
from typing import Any

import pytest
from goo_service.people import fresh
from goo_service.people import invitations
from goo_service.people import whose
from goo_service.people.replies import Refused
from people_stage import PASSWORD
from people_stage import Reply
from people_stage import Stage

ACCOUNTS = {'SUN': [1, 2], 'VOLT': [3]}
READS = [{'account': 1, 'reads': True}]
WANTED = {'mail': 'nina@sun.example', 'language': 'de', 'access': READS}
MINUTE = 60


def records(caller: str, name: str, **given: Any) -> dict[str, Any]:
    """The records of a registry with two holders."""
    if name == 'holders':
        return {'items': [{}] if given['holder'] in ACCOUNTS else []}
    rows = [{'number': number, 'holder': caller} for number in ACCOUNTS[caller]]
    return {'items': [*rows, {'number': 99, 'holder': 'OTHER'}], 'next': None}


@pytest.fixture
def stage(tmp_path: Path, monkeypatch: pytest.MonkeyPatch) -> Stage:
    monkeypatch.setattr(whose, 'asked', records)
    made = Stage(tmp_path / 'people/people.db')
    made.make_user('olga', 'ISSUER', 'officer')
    made.make_user('ada', administrator=True, access='r')
    made.make_user('anna')
    made.make_user('bela', 'VOLT')
    with made.change() as db:
        db.execute("UPDATE user SET mail = name || '@sun.example', language = 'en'")
    return made


def invite(stage: Stage, session: str, **more: Any) -> Reply:
    return stage.post('users/invite', {**WANTED, **more}, session=session)


def test_an_invitation_makes_a_user_who_adds_a_second_factor(stage: Stage) -> None:
    made = invite(stage, stage.sign_in('ada'))
    assert made.status == 200 and made.json['mail'] == 'nina@sun.example'
    secret = made.json['secret']
    [mail] = stage.rows("SELECT * FROM mail WHERE kind = 'invitation'")
    assert secret in mail['body'] and mail['address'] == 'nina@sun.example'
    offer = stage.post('accept', {'invitation': secret})
    assert (offer.json['caller'], offer.json['role'], offer.json['user']) == ('SUN', 'user', None)
    body = {'invitation': secret, 'name': 'nina', 'password': PASSWORD}
    assert stage.post('accept', body).json == {'user': 'nina'}
    assert stage.post('accept', body).status == 404
    begun = stage.post('sign-in', {'user': 'nina', 'password': PASSWORD})
    assert begun.json == {'next': 'enrol'}
    session = begun.cookies['__Host-goo']
    assert stage.get('users', session).status == 403
    assert stage.get('me', session).json['access'] == [
        {'account': 1, 'reads': 1, 'trades': 0, 'cancels': 0}]


def test_access_is_given_to_accounts_of_the_holder_alone(stage: Stage) -> None:
    session = stage.sign_in('ada')
    for account in (3, 4, 99):
        rows = [{'account': account, 'reads': True}]
        refused = stage.post('users/anna/access', {'access': rows}, session=session)
        assert (refused.status, refused.json['error']) == (404, f'SUN has no account {account}')
        assert invite(stage, session, access=rows).status == 404
    rows = [{'account': 2, 'reads': True, 'cancels': True}]
    assert stage.post('users/anna/access', {'access': rows}, session=session).status == 200
    [anna] = [of for of in stage.get('users', session).json['users'] if of['name'] == 'anna']
    assert anna['access'] == [{'account': 2, 'reads': True, 'trades': False, 'cancels': True}]


def test_where_the_records_are_silent_nothing_is_given(stage: Stage,
                                                       monkeypatch: pytest.MonkeyPatch) -> None:
    def silent(*_: object, **__: object) -> dict[str, Any]:
        raise Refused(503, 'the records do not answer: try again in a minute', 10)
    monkeypatch.setattr(whose, 'asked', silent)
    session = stage.sign_in('ada')
    before = stage.rows('SELECT * FROM access')
    assert stage.post('users/anna/access', {'access': READS}, session=session).status == 503
    assert invite(stage, session).status == 503
    assert stage.rows('SELECT * FROM access') == before
    assert stage.rows('SELECT * FROM invitation') == []
    each = [{'account': 0, 'reads': True}]                # names no account, so nothing is asked
    assert stage.post('users/anna/access', {'access': each}, session=session).status == 200


def test_a_first_administrator_is_of_a_holder_that_is_there(stage: Stage) -> None:
    session = stage.sign_in('olga')
    more = {'administrator': True, 'access': []}
    unknown = invite(stage, session, caller='NONE', **more)
    assert (unknown.status, unknown.json['error']) == (404, 'there is no holder NONE')
    assert invite(stage, session, caller='SUN', **more).status == 409
    assert invite(stage, session, caller='VOLT', **more).status == 200


CHANGES = [('users/invite', WANTED), ('users/anna/access', {'access': READS}),
           ('users/anna/access', {'administrator': True}), ('users/anna/end', {}),
           ('users/anna/reset', {})]


@pytest.mark.parametrize(('path', 'body'), CHANGES)
def test_a_stolen_cookie_changes_no_user(stage: Stage, path: str, body: dict[str, Any]) -> None:
    """Five minutes after the sign-in a code of now is asked for; one that was used is none."""
    session = stage.sign_in('ada')
    with stage.change() as db:
        db.execute('UPDATE session SET begun = begun - ?', (fresh.LASTS + 5,))
    tables = ('access', 'user', 'invitation', 'factor')
    before = [stage.rows(f'SELECT * FROM {name}') for name in tables]
    asked = stage.post(path, body, session=session)
    assert asked.status == 403 and asked.json['error'].startswith('this needs a fresh second')
    used = stage.post(path, {**body, 'code': stage.code()}, session=session)
    assert used.status == 403
    assert [stage.rows(f'SELECT * FROM {name}') for name in tables] == before
    assert stage.post(path, {**body, 'code': stage.code(1)}, session=session).status == 200


@pytest.mark.parametrize('name', ['anna', 'bela'])
def test_who_is_no_administrator_is_refused_before_anything_else(stage: Stage, name: str) -> None:
    session = stage.sign_in(name)
    for path, body in CHANGES:
        assert stage.post(path, body, session=session).status == 403, path
    for path in ('users', 'invitations', 'acts'):
        assert stage.get(path, session).status == 403, path


def test_users_of_another_holder_are_not_there(stage: Stage) -> None:
    session = stage.sign_in('ada')
    told = set()
    for name in ('bela', 'olga', 'nobody'):
        for path in ('access', 'end', 'reset'):
            came = stage.post(f'users/{name}/{path}', {'access': READS}, session=session)
            assert came.status == 404
            told.add(came.json['error'].replace(name, 'NAME'))
    assert told == {'there is no user NAME whom you manage'}
    assert 'bela' not in str(stage.get('users?caller=VOLT', session).json)


def test_an_ended_user_is_out_at_once(stage: Stage) -> None:
    anna, ada = stage.sign_in('anna'), stage.sign_in('ada')
    assert stage.ask(session=anna).user == 'anna'
    assert stage.post('users/anna/end', session=ada).status == 200
    assert stage.ask(session=anna).status == 401
    assert stage.post('sign-in', {'user': 'anna', 'password': PASSWORD}).status == 401


def test_a_reset_shows_its_link_to_nobody(stage: Stage) -> None:
    came = stage.post('users/anna/reset', session=stage.sign_in('ada'))
    assert (came.status, came.json) == (200, {})
    [mail] = stage.rows("SELECT * FROM mail WHERE kind = 'invitation'")
    assert mail['address'] == 'anna@sun.example'
    secret = mail['body'].split('accept.html#')[1].split()[0]
    assert stage.post('sign-in', {'user': 'anna', 'password': PASSWORD}).status == 401
    assert stage.post('accept', {'invitation': secret}).json['user'] == 'anna'
    accepted = {'invitation': secret, 'password': 'another good one', 'name': 'bela'}
    assert stage.post('accept', accepted).json == {'user': 'anna'}
    again = stage.post('sign-in', {'user': 'anna', 'password': 'another good one'})
    assert again.json == {'next': 'enrol'}


def test_bounds_are_told_with_how_long_to_wait(stage: Stage) -> None:
    session = stage.sign_in('ada')
    for at in range(invitations.OPEN):
        assert invite(stage, session, mail=f'n{at}@sun.example').status == 200
    refused = invite(stage, session, mail='last@sun.example')
    assert refused.status == 429 and int(refused.fields['Retry-After']) > MINUTE
    assert '20 open invitations' in refused.json['error']


@pytest.mark.parametrize(('body', 'word'), [
    ({'invitation': 1}, 'invitation'), ({}, 'invitation'),
    ({'invitation': 'x' * 201}, 'invitation')])
def test_what_is_no_invitation_is_refused_by_its_name(stage: Stage, body: Any, word: str) -> None:
    came = stage.post('accept', body)
    assert (came.status, came.json['error'].split(':')[0]) == (400, word)


def test_a_weak_password_and_a_taken_name_use_up_no_invitation(stage: Stage) -> None:
    secret = invite(stage, stage.sign_in('ada')).json['secret']
    for body, status in (({'name': 'nina', 'password': 'short'}, 400),
                         ({'name': 'n i', 'password': PASSWORD}, 400),
                         ({'name': 'ANNA', 'password': PASSWORD}, 409)):
        assert stage.post('accept', {'invitation': secret, **body}).status == status
    assert stage.post('accept', {'invitation': secret, 'name': 'nina',
                                 'password': PASSWORD}).status == 200


def test_acts_tell_who_did_what(stage: Stage) -> None:
    session = stage.sign_in('ada')
    invite(stage, session)
    acts = stage.get('acts?limit=2', session).json['acts']
    assert [(of['user'], of['kind'], of['caller']) for of in acts] == [
        ('ada', 'invited', 'SUN'), ('ada', 'sign_in', 'SUN')]
    older = stage.get(f'acts?before={acts[1]["id"]}', session).json['acts']
    assert all(of['id'] < acts[1]['id'] for of in older)
    assert stage.get('acts?limit=0', session).status == 400
