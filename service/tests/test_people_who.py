"""The question of nginx: who is there, by a session, a token or a certificate."""
import base64
from pathlib import Path

import pytest
from goo_service.people import csrf
from goo_service.people import secret
from goo_service.people import store
from goo_service.people import users
from goo_service.people.acts import ROOT
from goo_service.people.store import now
from hypothesis import HealthCheck
from hypothesis import given
from hypothesis import settings
from hypothesis import strategies as some
from people_stage import Stage


@pytest.fixture
def stage(tmp_path: Path) -> Stage:
    return Stage(tmp_path / 'people' / 'people.db')


def make_token(stage: Stage, user: int, scope: str = 'rdt', lasts: int = 3600,
               name: str = 'programs') -> str:
    """A token of a user: what it may is some of reads, declares, trades."""
    text = f'goo_{secret.make()}'
    with stage.change() as db:
        db.execute('INSERT INTO token (hash, user, name, reads, declares, trades, made, ends) '
                   'VALUES (?, ?, ?, ?, ?, ?, ?, ?)',
                   (secret.hash_of(text), user, name, 'r' in scope, 'd' in scope, 't' in scope,
                    now(), now() + lasts))
    return text


def basic(name: str, word: str) -> str:
    return 'Basic ' + base64.b64encode(f'{name}:{word}'.encode()).decode()


@pytest.mark.parametrize(('caller', 'role', 'access', 'entry'), [
    ('ISSUER', 'officer', '', 'ISSUER full'), ('ISSUER', 'second', '', 'ISSUER reads'),
    ('ISSUER', 'auditor', '', 'ISSUER reads'), ('ISSUER', 'meters', '', 'ISSUER declares'),
    ('SUN', 'meters', '', 'SUN declares'), ('09', 'peer', '', 'peer 09'),
    ('SUN', 'user', 'r', 'SUN reads'), ('SUN', 'user', 'rt', 'SUN full'),
    ('SUN', 'user', 'rc', 'SUN full'), ('SUN', 'user', '', 'SUN reads')])
def test_a_role_has_its_entry(stage: Stage, caller: str, role: str, access: str,
                              entry: str) -> None:
    user = stage.make_user('anna', caller, role, access=access)
    of = stage.ask(authorization=basic('anna', make_token(stage, user.id)))
    assert (of.status, of.user, of.entry) == (204, 'anna', entry)
    assert (of.way, of.hold) == ('token programs', 't1')


@pytest.mark.parametrize(('role', 'scope', 'entry'), [
    ('user', 'r', 'SUN reads'), ('user', 'd', 'SUN declares'), ('user', 'rd', 'SUN full'),
    ('user', 't', 'SUN full'), ('user', '', 'none'), ('meters', 'rdt', 'SUN declares'),
    ('meters', 'r', 'none')])
def test_a_scope_narrows_the_entry(stage: Stage, role: str, scope: str, entry: str) -> None:
    user = stage.make_user(role=role)
    token = make_token(stage, user.id, scope)
    assert stage.ask(authorization=f'Bearer {token}', method='POST').entry == entry
    read = stage.ask(authorization=f'Bearer {token}')
    assert read.status == (204 if 'r' in scope else 403)


def test_accounts_that_a_user_may_read(stage: Stage) -> None:
    user = stage.make_user(access='r', account=7)
    token = f'Bearer {make_token(stage, user.id)}'
    assert stage.ask(authorization=token).accounts == '7'
    with stage.change() as db:
        users.give_access(db, user, 3, reads=True, trades=True, cancels=False)
        users.give_access(db, user, 5, reads=False, trades=True, cancels=False)
    assert stage.ask(authorization=token).accounts == '3,7'
    with stage.change() as db:
        users.give_access(db, user, 0, reads=True, trades=False, cancels=False)
    assert stage.ask(authorization=token).accounts == ''
    with stage.change() as db:
        db.execute('DELETE FROM access')
    assert stage.ask(authorization=token).accounts == '0'


def test_a_token_is_refused_at_once(stage: Stage) -> None:
    """Revoked, over, of a user who has ended, or sent for another name."""
    user = stage.make_user()
    stage.make_user('bela', 'VOLT')
    token = make_token(stage, user.id)
    shown = f'Bearer {token}'
    assert stage.ask(authorization=shown).status == 204
    assert stage.ask(authorization=basic('ANNA', token)).status == 204
    assert stage.ask(authorization=basic('bela', token)).status == 401
    for table, change, back in (('token', 'revoked = 1', 'revoked = NULL'),
                                ('token', 'ends = ends - 3601', 'ends = ends + 3601'),
                                ('user', 'ended = 1', 'ended = NULL')):
        with stage.change() as db:
            db.execute(f'UPDATE {table} SET {change}')
        assert stage.ask(authorization=shown).status == 401, change
        with stage.change() as db:
            db.execute(f'UPDATE {table} SET {back}')
        assert stage.ask(authorization=shown).status == 204, back


@pytest.mark.parametrize('shown', [
    'Bearer', 'Bearer ', 'Bearer goo_', 'Bearer goo_' + 'x' * 43, 'Basic', 'Basic !!', 'Digest x',
    basic('anna', 'correct horse battery'), basic('', 'goo_' + 'x' * 43), basic('anna', ''),
    'Basic ' + 'A' * 5000, 'Bearer goo_' + 'é' * 43])
def test_what_is_no_token_is_refused(stage: Stage, shown: str) -> None:
    """A person's password is none, and what is wrong here is not made good by a session."""
    stage.make_user()
    assert stage.ask(authorization=shown, session=stage.sign_in()).status == 401


@given(some.text(some.characters(min_codepoint=32, max_codepoint=255), max_size=200))
@settings(suppress_health_check=[HealthCheck.function_scoped_fixture])
def test_nothing_that_is_shown_fails(stage: Stage, shown: str) -> None:
    for authorization, session in ((shown, ''), (f'Bearer {shown}', ''), (f'Basic {shown}', ''),
                                   (basic(shown, shown), ''), ('', shown)):
        assert stage.ask(authorization=authorization, session=session).status == 401


@pytest.mark.parametrize('method', ['POST', 'PUT', 'DELETE', 'PATCH', 'OPTIONS', ''])
def test_a_session_that_changes_something_sends_its_word_along(stage: Stage, method: str) -> None:
    stage.make_user()
    one, other = stage.sign_in(), stage.sign_in()
    word, foreign = (stage.get('me', of).json['csrf'] for of in (one, other))
    assert stage.ask(session=one, method=method, csrf=word).status == 204
    for wrong in ('', foreign, word[:-1], word + 'x', 'ä', word.upper()):
        assert stage.ask(session=one, method=method, csrf=wrong).status == 403, wrong


def test_a_word_is_of_its_file_alone(stage: Stage) -> None:
    with stage.open() as db:
        own = store.secret_of(db)
    one, other = bytes(32), b'x' * 32
    assert not csrf.is_right(bytes(32), one, csrf.word_of(own, one))
    assert not csrf.is_right(own, other, csrf.word_of(own, one))


def test_the_word_of_an_ended_session_is_of_no_later_one(stage: Stage) -> None:
    """SQLite gives the number of the last row again, once the row is gone."""
    stage.make_user()
    stage.make_user('bela', 'VOLT')
    before = stage.sign_in('bela')
    word = stage.get('me', before).json['csrf']
    hold = stage.ask(session=before).hold
    stage.post('sign-out', {}, session=before)
    after = stage.sign_in()
    assert stage.ask(session=after).hold == hold
    assert stage.ask(session=after, method='POST', csrf=word).status == 403


def test_a_certificate_is_a_user_by_its_whole_name(stage: Stage) -> None:
    name = 'CN=anna,O=Sun Power'
    with stage.change() as db:
        users.make(db, ROOT,
                   users.New(name, 'ISSUER', 'officer', source='certificate'))
    of = stage.ask(subject=name)
    assert (of.status, of.user, of.entry, of.way) == (204, name, 'ISSUER full', 'certificate')
    stage.make_user('CN=bela')
    for other in ('CN=ANNA,O=Sun Power', 'CN=anna', f'{name},C=DE', '', 'CN=bela'):
        assert stage.ask(subject=other).status == 401, other


def test_the_last_use_is_noted_once_a_minute(stage: Stage) -> None:
    user = stage.make_user()
    token = f'Bearer {make_token(stage, user.id)}'
    stage.ask(authorization=token)
    used = stage.rows('SELECT used FROM token')[0]['used']
    assert abs(used - now()) <= 2
    for back, moves in ((59, False), (60, True)):
        with stage.change() as db:
            db.execute('UPDATE token SET used = ?', (now() - back,))
        stage.ask(authorization=token)
        assert (now() - stage.rows('SELECT used FROM token')[0]['used'] <= 2) == moves, back


def test_the_question_is_answered_while_another_one_writes(stage: Stage) -> None:
    user = stage.make_user()
    token = f'Bearer {make_token(stage, user.id)}'
    with stage.change() as db:
        db.execute('UPDATE user SET mail = NULL')
        assert stage.ask(authorization=token).status == 204
    assert stage.rows('SELECT used FROM token')[0]['used'] is None
