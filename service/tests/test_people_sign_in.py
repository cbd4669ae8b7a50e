"""Sign-in by goo-people-web: passwords, one-time codes, sessions, delays."""
import base64
import time
from pathlib import Path

import bcrypt
import pyotp
import pytest
from goo_service.people import delays
from goo_service.people import store
from goo_service.people import totp
from goo_service.people.passwords import Passwords
from goo_service.people.passwords import fault_of
from hypothesis import given
from hypothesis import strategies as some
from people_stage import ELSEWHERE
from people_stage import HOME
from people_stage import PASSWORD
from people_stage import QUICK
from people_stage import SEED
from people_stage import Stage

FAILED = {'error': 'the name, the password or the code is wrong'}


@pytest.fixture
def stage(tmp_path: Path) -> Stage:
    return Stage(tmp_path / 'people' / 'people.db')


@pytest.fixture
def stopped(monkeypatch: pytest.MonkeyPatch) -> None:
    """Delays are counted at one moment, however long this machine takes."""
    at = store.now()
    monkeypatch.setattr(delays, 'now', lambda: at)


# ------------------------------------------------------------------ passwords

def test_a_password_is_kept_as_argon2id() -> None:
    kept = QUICK.hash(PASSWORD)
    assert kept.startswith('$argon2id$') and QUICK.matches(kept, PASSWORD)
    assert not QUICK.matches(kept, PASSWORD + ' ') and not QUICK.matches(None, PASSWORD)


def test_a_decoy_is_nobodys_password() -> None:
    assert not QUICK.matches(QUICK.decoy.replace('$', '', 1), PASSWORD)
    assert not QUICK.matches(None, 'wrong') and not QUICK.matches('', 'wrong')


OLD = bcrypt.hashpw(b'another one', bcrypt.gensalt(8)).decode().replace('$2b$', '$2y$')
"""As `htpasswd -B -C 8` keeps it."""


def test_a_wrong_password_takes_as_long_as_a_user_that_is_none() -> None:
    """Whatever is kept, by the time of the processor: on a busy machine the clock tells nothing."""
    passwords = Passwords(memory=8 << 10, turns=2)
    kinds = {'anew': passwords.hash('another one'), 'of the file': OLD, 'none': None}
    took: dict[str, list[float]] = {kind: [] for kind in kinds}
    for _ in range(9):
        for kind, kept in kinds.items():
            begun = time.process_time()
            assert not passwords.matches(kept, PASSWORD)
            took[kind].append(time.process_time() - begun)
    middle = {kind: sorted(times)[4] for kind, times in took.items()}
    assert max(middle.values()) < 1.25 * min(middle.values()), middle


@given(some.text(min_size=1, max_size=40))
def test_any_text_is_compared_and_nothing_fails(text: str) -> None:
    assert not QUICK.matches(None, text)


@pytest.mark.parametrize('password', [
    'short', 'x' * 201, 'aaaaaaaaaaaaaaaa', 'ababababababab', 'tab\tinside it', 'Anna-of-the-sun'])
def test_what_is_no_new_password(password: str) -> None:
    assert fault_of(password, 'anna-of-the-sun')


def test_a_password_of_the_file_is_taken_once_and_kept_anew(stage: Stage) -> None:
    """`htpasswd -B -C 8` writes $2y$08$."""
    old = bcrypt.hashpw(b'short one', bcrypt.gensalt(4)).decode().replace('$2b$', '$2y$')
    user = stage.make_user()
    with stage.change() as db:
        db.execute('UPDATE user SET password = ? WHERE id = ?', (old, user.id))
    assert stage.post('sign-in', {'user': 'anna', 'password': 'short on'}).status == 401
    stage.sign_in(password='short one')
    kept = stage.rows('SELECT password FROM user')[0]['password']
    assert kept.startswith('$argon2id$')
    stage.sign_in(password='short one')


# ------------------------------------------------------------------ sign-in

def test_a_code_is_asked_for_and_a_session_begins(stage: Stage) -> None:
    stage.make_user()
    came = stage.post('sign-in', {'user': 'anna', 'password': PASSWORD})
    assert (came.status, came.json, came.cookies) == (200, {'next': 'code'}, {})
    came = stage.post('sign-in', {'user': 'ANNA', 'password': PASSWORD, 'code': stage.code()})
    assert (came.status, came.json) == (200, {'next': 'done'})
    of = stage.ask(session=came.cookies['__Host-goo'])
    assert (of.status, of.user, of.entry, of.way) == (204, 'anna', 'SUN full', 'session')
    for word in ('Path=/', 'Secure', 'HttpOnly', 'SameSite=Strict'):
        assert word in came.fields['Set-Cookie']
    assert 'Domain' not in came.fields['Set-Cookie']


@pytest.mark.parametrize('members', [
    {'user': 'anna', 'password': 'wrong password'}, {'user': 'nobody', 'password': PASSWORD},
    {'user': 'anna', 'password': PASSWORD, 'code': '000000'},
    {'user': 'gone', 'password': PASSWORD}, {'user': 'anna\' OR 1', 'password': PASSWORD},
    {'user': 'registry09', 'password': PASSWORD}, {'user': 'new', 'password': PASSWORD},
    {'user': 'anna', 'password': PASSWORD, 'code': 'abcdef'}])
def test_each_failure_has_the_same_answer(stage: Stage, members: dict[str, str]) -> None:
    stage.make_user()
    stage.make_user('registry09', '09', 'peer')
    stage.make_user('new', password=None)
    stage.make_user('gone')
    with stage.change() as db:
        db.execute("UPDATE user SET ended = 1 WHERE name = 'gone'")
    came = stage.post('sign-in', members)
    assert (came.status, came.json, came.cookies) == (401, FAILED, {})
    assert stage.rows('SELECT * FROM session') == []


@pytest.mark.parametrize('members', [
    None, [], 'x', {'user': 'anna'}, {'user': 1, 'password': PASSWORD},
    {'user': 'a' * 201, 'password': PASSWORD}, {'user': 'anna', 'password': 'p' * 201},
    {'user': 'anna', 'password': PASSWORD, 'code': 123456},
    {'user': 'anna', 'password': 'nul\0byte'}])
def test_what_is_no_sign_in_is_refused_by_its_form(stage: Stage, members: object) -> None:
    stage.make_user()
    came = stage.post('sign-in', members)
    assert came.status == 400 and came.json['error']


def test_a_body_is_bounded(stage: Stage) -> None:
    came = stage.post('sign-in', {'user': 'anna', 'password': 'p', 'more': 'x' * 65536})
    assert came.status == 413 and came.json['error'] == 'a body has 65536 bytes at most'


# ------------------------------------------------------------------ codes

@pytest.mark.parametrize(('time', 'code'), [
    (59, '287082'), (1111111109, '081804'), (1111111111, '050471'), (1234567890, '005924'),
    (2000000000, '279037'), (20000000000, '353130')])
def test_codes_are_those_of_rfc_6238(time: int, code: str) -> None:
    """Appendix B of the RFC, SHA-1, the last six of its eight digits."""
    assert totp.step_of(SEED, code, time) == time // 30
    assert totp.step_of(SEED, code, time + 30) == time // 30
    assert totp.step_of(SEED, code, time + 90) is None


def test_a_code_is_taken_once(stage: Stage) -> None:
    stage.make_user()
    members = {'user': 'anna', 'password': PASSWORD, 'code': stage.code()}
    assert stage.post('sign-in', members).status == 200
    came = stage.post('sign-in', members)
    assert (came.status, came.json) == (401, FAILED)
    assert stage.post('sign-in', {**members, 'code': stage.code(-1)}).status == 401
    assert stage.post('sign-in', {**members, 'code': stage.code(1)}).status == 200


def test_a_user_without_a_second_factor_adds_one_and_does_nothing_else(stage: Stage) -> None:
    stage.make_user(has_app=False)
    came = stage.post('sign-in', {'user': 'anna', 'password': PASSWORD})
    assert came.json == {'next': 'enrol'}
    half = came.cookies['__Host-goo']
    of = stage.ask(session=half)
    assert (of.entry, of.way) == ('none', 'enrol')
    assert stage.get('me', half).json['sessions'] == []
    assert stage.post('sign-out-everywhere', {}, session=half).status == 403
    assert stage.post('me/password', {'old': PASSWORD, 'new': 'another ' + PASSWORD},
                      session=half).status == 403
    begun = stage.post('me/factors/totp', {'name': 'Phone'}, session=half).json
    assert begun['uri'].startswith('otpauth://totp/localhost:anna?secret=' + begun['secret'])
    seed = base64.b32decode(begun['secret'])
    code = pyotp.TOTP(totp.text_of(seed)).now()
    wrong = f'{(int(code) + 1) % 1000000:06}'
    assert stage.post('me/factors/totp/confirm', {'id': begun['id'], 'code': wrong},
                      session=half).status == 400
    came = stage.post('me/factors/totp/confirm', {'id': begun['id'], 'code': code}, session=half)
    assert came.status == 200
    assert stage.ask(session=half).status == 401
    assert stage.ask(session=came.cookies['__Host-goo']).entry == 'SUN full'
    assert stage.post('sign-in', {'user': 'anna', 'password': PASSWORD, 'code': code}).status == 401


def test_a_password_alone_adds_no_second_app(stage: Stage) -> None:
    """Two begin to add the first one: whoever comes second is refused."""
    stage.make_user(has_app=False)
    members = {'user': 'anna', 'password': PASSWORD}
    one, other = (stage.post('sign-in', members).cookies['__Host-goo'] for _ in range(2))
    begun = stage.post('me/factors/totp', {}, session=one).json
    code = pyotp.TOTP(begun['secret']).now()
    assert stage.post('me/factors/totp/confirm', {'id': begun['id'], 'code': code},
                      session=one).status == 200
    assert stage.post('me/factors/totp', {}, session=other).status == 403


# ------------------------------------------------------------------ delays

@pytest.mark.usefixtures('stopped')
def test_failures_delay_and_do_not_ban(stage: Stage) -> None:
    stage.make_user()
    wrong = {'user': 'anna', 'password': 'wrong password'}
    statuses = [stage.post('sign-in', wrong, net=ELSEWHERE).status for _ in range(7)]
    assert statuses == [401] * 6 + [429]
    came = stage.post('sign-in', {**wrong, 'password': PASSWORD}, net=ELSEWHERE)
    assert came.status == 429 and came.fields['Retry-After'] == '2'
    with stage.change() as db:
        db.execute('UPDATE delay SET until = until - 900')
    stage.sign_in(net=ELSEWHERE)


@pytest.mark.usefixtures('stopped')
def test_an_unknown_name_is_delayed_as_a_user_is(stage: Stage) -> None:
    stage.make_user()
    for name in ('anna', 'nobody'):
        wrong = {'user': name, 'password': 'wrong password'}
        assert [stage.post('sign-in', wrong, net=ELSEWHERE).status for _ in range(7)] == [
            401] * 6 + [429]


@pytest.mark.usefixtures('stopped')
def test_whoever_knows_a_name_does_not_shut_its_owner_out(stage: Stage) -> None:
    stage.make_user()
    stage.sign_in(net=HOME)
    for number in range(120):
        stage.post('sign-in', {'user': 'anna', 'password': 'wrong password'},
                   net=f'198.51.100.{number}')
    came = stage.post('sign-in', {'user': 'anna', 'password': PASSWORD}, net='203.0.113.9')
    assert came.status == 429 and int(came.fields['Retry-After']) <= 10
    stage.sign_in(net=HOME)


@pytest.mark.usefixtures('stopped')
def test_codes_are_not_guessed(stage: Stage) -> None:
    """Whoever has the password tries six codes, and waits for each further one."""
    stage.make_user()
    statuses = []
    for number in range(12):
        members = {'user': 'anna', 'password': PASSWORD, 'code': f'{number:06}'}
        statuses.append(stage.post('sign-in', members, net=f'198.51.100.{number}').status)
    assert statuses == [401] * 6 + [429] * 6


def test_acts_of_failures_do_not_fill_the_file(stage: Stage) -> None:
    stage.make_user()
    for number in range(100):
        for name in ('anna', f'nobody{number}'):
            stage.post('sign-in', {'user': name, 'password': 'wrong password'}, net=ELSEWHERE)
        with stage.change() as db:
            db.execute('UPDATE delay SET until = 0')
    acts = stage.rows("SELECT about, detail FROM act WHERE kind = 'sign_in_refused'")
    assert {act['about'] for act in acts} == {'anna'} and 5 <= len(acts) <= 8


# ------------------------------------------------------------------ sessions

def test_a_session_ends(stage: Stage) -> None:
    """By time without a request, by time in all, by a sign-out, with its user."""
    stage.make_user()
    for change in ('UPDATE session SET seen = seen - 1800',
                   'UPDATE session SET ends = ends - 43200, seen = seen',
                   "UPDATE user SET ended = 1 WHERE name = 'anna'"):
        cookie = stage.sign_in()
        assert stage.ask(session=cookie).status == 204
        with stage.change() as db:
            db.execute(change)
        assert stage.ask(session=cookie).status == 401, change
    with stage.change() as db:
        db.execute('UPDATE user SET ended = NULL')
    cookie = stage.sign_in()
    came = stage.post('sign-out', {}, session=cookie)
    assert came.status == 200 and came.cookies == {'__Host-goo': ''}
    assert stage.ask(session=cookie).status == 401


def test_a_session_lasts_while_it_is_used(stage: Stage) -> None:
    stage.make_user()
    cookie = stage.sign_in()
    for _ in range(3):
        with stage.change() as db:
            db.execute('UPDATE session SET seen = seen - 1700')
        assert stage.ask(session=cookie).status == 204
    with stage.change() as db:
        db.execute('UPDATE session SET seen = seen - 1801')
    assert stage.ask(session=cookie).status == 401


def test_sign_out_everywhere_and_a_new_password_end_the_others(stage: Stage) -> None:
    stage.make_user()
    one, other = stage.sign_in(), stage.sign_in()
    assert one != other
    new = 'another ' + PASSWORD
    assert stage.post('me/password', {'old': 'wrong one', 'new': new}, session=one).status == 403
    assert stage.post('me/password', {'old': PASSWORD, 'new': 'short'}, session=one).status == 400
    came = stage.post('me/password', {'old': PASSWORD, 'new': new}, session=one)
    assert came.json == {'ended': 1}
    assert stage.ask(session=one).status == 204
    assert stage.ask(session=other).status == 401
    third = stage.sign_in(password=new)
    assert stage.post('sign-out-everywhere', {}, session=third).json == {'ended': 2}
    assert {stage.ask(session=of).status for of in (one, third)} == {401}


def test_a_user_ends_one_session_of_the_own_ones(stage: Stage) -> None:
    stage.make_user()
    stage.make_user('bela', 'VOLT')
    one, other, foreign = stage.sign_in(), stage.sign_in(), stage.sign_in('bela')
    listed = stage.get('me', one).json['sessions']
    assert len(listed) == 2 and [of['here'] for of in listed].count(True) == 1
    number = next(of['id'] for of in listed if not of['here'])
    assert stage.post(f'me/sessions/{number}/end', {}, session=foreign).status == 404
    assert stage.post(f'me/sessions/{number}/end', {}, session=one).status == 200
    assert stage.ask(session=other).status == 401
    assert stage.ask(session=one).status == 204


def test_sessions_of_a_user_are_bounded(stage: Stage) -> None:
    stage.make_user()
    first = stage.sign_in()
    for _ in range(20):
        stage.sign_in()
    assert len(stage.rows('SELECT * FROM session')) == 20
    assert stage.ask(session=first).status == 401


def test_no_cookie_is_kept_as_it_is(stage: Stage) -> None:
    stage.make_user()
    cookie = stage.sign_in()
    whole = b''.join(path.read_bytes() for path in stage.path.parent.iterdir())
    assert cookie.encode() not in whole and PASSWORD.encode() not in whole
    assert stage.path.stat().st_mode & 0o777 == 0o600


# ------------------------------------------------------------------ factors

def test_a_second_app_is_added_by_a_fresh_sign_in_alone(stage: Stage) -> None:
    stage.make_user()
    cookie = stage.sign_in()
    assert stage.post('me/factors/totp', {}, session=cookie).status == 200
    with stage.change() as db:
        db.execute('UPDATE session SET begun = begun - 301')
    assert stage.post('me/factors/totp', {}, session=cookie).status == 403
    assert stage.post('me/factors/totp', {'code': stage.code()}, session=cookie).status == 403
    came = stage.post('me/factors/totp', {'code': stage.code(1)}, session=cookie)
    assert came.status == 200


def test_the_last_factor_stays(stage: Stage) -> None:
    stage.make_user()
    cookie, other = stage.sign_in(), stage.sign_in()
    only = stage.get('me', cookie).json['factors'][0]['id']
    assert stage.post(f'me/factors/{only}/remove', {}, session=cookie).status == 409
    begun = stage.post('me/factors/totp', {}, session=cookie).json
    code = pyotp.TOTP(begun['secret']).now()
    stage.post('me/factors/totp/confirm', {'id': begun['id'], 'code': code}, session=cookie)
    assert stage.post(f'me/factors/{only}/remove', {}, session=cookie).json == {'ended': 1}
    assert [of['id'] for of in stage.get('me', cookie).json['factors']] == [begun['id']]
    assert stage.ask(session=other).status == 401
