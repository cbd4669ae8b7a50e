"""Users of the files, taken over into the file of people by one command."""
import base64
import os
import re
import subprocess
from pathlib import Path

import bcrypt
import pytest
from goo_service.people import users
from goo_service.people.store import now
from door import SERVICE
from people_stage import PASSWORD
from people_stage import Stage
from service_commands import command

CALLERS = '''office ISSUER
audit ISSUER reads
meter ISSUER declares
anna SUN
carl SUN reads
sunmeter SUN declares
registry09 peer 09
nohash VOLT
'''
ENTRIES = {'office': 'ISSUER full', 'audit': 'ISSUER reads', 'meter': 'ISSUER declares',
           'anna': 'SUN full', 'carl': 'SUN reads', 'sunmeter': 'SUN declares',
           'registry09': 'peer 09', 'nohash': 'VOLT full'}
"""As the map of nginx has them, by goo-callers."""


@pytest.fixture
def stage(tmp_path: Path) -> Stage:
    return Stage(tmp_path / 'people' / 'people.db')


def old_hash(word: str) -> str:
    """As `htpasswd -B -C 8` writes it, at less cost."""
    return bcrypt.hashpw(word.encode(), bcrypt.gensalt(4)).decode().replace('$2b$', '$2y$')


def take_over(stage: Stage, *words: str, callers: str = CALLERS,
              without: str = 'nohash') -> 'subprocess.CompletedProcess[str]':
    folder = stage.path.parents[1]
    names = [line.split()[0] for line in callers.splitlines()]
    kept = [f'{name}:{old_hash(f"pw-{name}") if name != without else "$apr1$x$y"}'
            for name in [*names, 'stranger']]
    (folder / 'users').write_text('\n'.join([*kept, '']))
    (folder / 'callers').write_text(callers)
    return subprocess.run(
        [*command('goo-people', SERVICE), '--file', str(stage.path), 'take-over',
         '--users', str(folder / 'users'), '--list', str(folder / 'callers'), *words],
        capture_output=True, text=True, check=False)


def basic(name: str, word: str) -> str:
    return 'Basic ' + base64.b64encode(f'{name}:{word}'.encode()).decode()


def test_each_line_becomes_a_user_with_the_same_entry(stage: Stage) -> None:
    done = take_over(stage)
    assert (done.returncode, done.stderr) == (0, ''), done
    rows = stage.rows('SELECT name, caller, role, password, basic_until, source FROM user')
    assert {row['name'] for row in rows} == set(ENTRIES)
    for row in rows:
        with stage.open() as db:
            user = users.find(db, row['name'])
            assert user
            trades = users.rights_of(db, user).trades
        assert users.entry_of(user.caller, user.role, trades) == ENTRIES[user.name]
        assert user.source == 'files'
        assert (row['basic_until'] is not None) == (row['name'] in ('meter', 'sunmeter',
                                                                    'registry09'))
    assert 'stranger: has a password and no line in the list' in done.stdout
    assert 'nohash: VOLT full' in done.stdout and 'goo-people user reset' in done.stdout
    for program in ('meter', 'sunmeter', 'registry09'):
        assert f'{program}: a program' in done.stdout


def test_a_password_signs_in_on_the_page_and_is_kept_anew(stage: Stage) -> None:
    take_over(stage)
    came = stage.post('sign-in', {'user': 'office', 'password': 'pw-office'})
    assert came.json == {'next': 'enrol'}
    kept = stage.rows("SELECT password FROM user WHERE name = 'office'")[0]['password']
    assert kept.startswith('$argon2id$')
    assert stage.post('sign-in', {'user': 'office', 'password': 'pw-offic'}).status == 401
    assert stage.ask(authorization=basic('office', 'pw-office')).status == 401


def test_a_program_signs_in_by_basic_until_its_day(stage: Stage) -> None:
    take_over(stage, '--programs-until', '2099-12-31')
    shown = basic('registry09', 'pw-registry09')
    of = stage.ask(authorization=shown)
    assert (of.status, of.entry, of.way, of.hold) == (204, 'peer 09', 'password', '')
    assert stage.ask(authorization=basic('registry09', 'wrong')).status == 401
    assert stage.ask(authorization=basic('anna', 'pw-anna')).status == 401
    with stage.change() as db:
        db.execute('UPDATE user SET ended = 1 WHERE name = ?', ('registry09',))
    assert stage.ask(authorization=shown).status == 401
    with stage.change() as db:
        db.execute('UPDATE user SET ended = NULL, basic_until = ?', (now(),))
    assert stage.ask(authorization=shown).status == 401


def test_a_changed_password_of_a_program_holds_at_once(stage: Stage) -> None:
    take_over(stage)
    shown = basic('registry09', 'pw-registry09')
    assert stage.ask(authorization=shown).status == 204
    with stage.change() as db:
        db.execute('UPDATE user SET password = ?', (old_hash('another one'),))
    assert stage.ask(authorization=shown).status == 401


def test_guesses_by_basic_are_few(stage: Stage) -> None:
    """Each costs a comparison, whatever the name. A program that is known goes on."""
    take_over(stage)
    right = basic('registry09', 'pw-registry09')
    assert stage.ask(authorization=right).status == 204
    statuses = [stage.ask(authorization=basic(f'nobody{at}', 'guess')).status
                for at in range(40)]
    assert statuses[:19] == [401] * 19 and statuses[-1] == 429
    assert stage.ask(authorization=right).status == 204


def test_taken_over_twice_is_taken_over_once(stage: Stage) -> None:
    take_over(stage)
    with stage.change() as db:
        db.execute("UPDATE user SET mail = 'a@sun.example' WHERE name = 'anna'")
    before = stage.rows('SELECT * FROM user')
    done = take_over(stage, callers=CALLERS + 'dora SUN\n')
    assert done.returncode == 0 and 'anna: is there already' in done.stdout
    after = stage.rows('SELECT * FROM user')
    assert after[:-1] == before and after[-1]['name'] == 'dora'


def test_a_list_with_a_fault_takes_nobody_over(stage: Stage) -> None:
    done = take_over(stage, callers='anna SUN\nAnna VOLT\nbela volt\n')
    assert done.returncode == 1 and 'volt is no holder' in done.stderr
    assert stage.rows('SELECT * FROM user') == []


def test_certificates_are_users_by_their_names(stage: Stage) -> None:
    done = take_over(stage, '--certificates', callers='"CN=anna,O=Sun Power" SUN\n')
    assert done.returncode == 0, done
    of = stage.ask(subject='CN=anna,O=Sun Power')
    assert (of.entry, of.way) == ('SUN full', 'certificate')
    assert stage.rows('SELECT password FROM user') == [{'password': None}]


# ------------------------------------------------------------------ root on the host

def on_host(stage: Stage, *words: str) -> 'subprocess.CompletedProcess[str]':
    etc = stage.path.parents[1] / 'etc'
    etc.mkdir(exist_ok=True)
    (etc / 'host.conf').write_text('server_name registry.example;\n')
    return subprocess.run([*command('goo-people', SERVICE), '--file', str(stage.path), *words],
                          capture_output=True, text=True, check=False,
                          env={**os.environ, 'GOO_ETC': str(etc)})


def secret_in(done: 'subprocess.CompletedProcess[str]') -> str:
    found = re.match(r'https://registry\.example/accept\.html#([A-Za-z0-9_-]{43})\n', done.stdout)
    assert found, done
    return found[1]


def test_root_invites_the_first_officer(stage: Stage) -> None:
    secret = secret_in(on_host(stage, 'user', 'invite', 'office@body.example', 'ISSUER', 'officer'))
    came = stage.post('accept', {'invitation': secret, 'name': 'office', 'password': PASSWORD})
    assert came.status == 200, came
    assert stage.post('sign-in', {'user': 'office', 'password': PASSWORD}).json == {'next': 'enrol'}
    assert stage.rows("SELECT kind, user, way FROM act WHERE kind = 'invited'") == [
        {'kind': 'invited', 'user': 'root', 'way': 'host'}]


def test_root_resets_a_user(stage: Stage) -> None:
    stage.make_user()
    session = stage.sign_in()
    secret = secret_in(on_host(stage, 'user', 'reset', 'anna'))
    assert stage.ask(session=session).status == 401
    assert stage.post('sign-in', {'user': 'anna', 'password': PASSWORD}).status == 401
    came = stage.post('accept', {'invitation': secret, 'password': 'another ' + PASSWORD})
    assert came.status == 200, came
    came = stage.post('sign-in', {'user': 'anna', 'password': 'another ' + PASSWORD})
    assert came.json == {'next': 'enrol'}


@pytest.mark.parametrize(('words', 'why'), [
    (('user', 'reset', 'nobody'), 'there is no such user'),
    (('user', 'end', 'nobody'), 'there is no such user'),
    (('user', 'invite', 'no mail', 'ISSUER', 'officer'), 'no address'),
    (('user', 'invite', 'a@b.example', 'ISSUER', 'user'), 'no role'),
    (('user', 'invite', 'a@b.example', 'sun', 'user'), 'no holder'),
    (('user', 'add', 'CN=x', 'SUN', 'officer'), 'no role')])
def test_what_root_cannot_do_is_told(stage: Stage, words: tuple[str, ...], why: str) -> None:
    done = on_host(stage, *words)
    assert done.returncode == 1 and why in done.stderr, done
    assert stage.rows('SELECT * FROM user') == stage.rows('SELECT * FROM invitation') == []


def test_a_damaged_file_is_told(stage: Stage) -> None:
    assert on_host(stage, 'check').returncode == 0
    stage.path.write_bytes(b'not a database at all' * 400)
    done = on_host(stage, 'check')
    assert done.returncode == 1 and 'people.db' in done.stderr


def test_root_makes_a_token_for_a_program(stage: Stage) -> None:
    take_over(stage)
    for name, entry, method in (('registry09', 'peer 09', 'GET'),
                                ('meter', 'ISSUER declares', 'POST')):
        token = on_host(stage, 'user', 'token', name).stdout.split('\n')[0]
        of = stage.ask(authorization=f'Bearer {token}', method=method)
        assert (of.status, of.user, of.entry) == (204, name, entry)
    assert on_host(stage, 'user', 'add', 'registry08', '08', 'peer').returncode == 0
    assert on_host(stage, 'user', 'add', 'eva', 'ISSUER', 'officer', '--provider').returncode == 0
    assert stage.rows("SELECT source FROM user WHERE name = 'eva'") == [{'source': 'oidc'}]
    assert on_host(stage, 'user', 'provider', 'registry08').returncode == 1
    assert on_host(stage, 'user', 'provider', 'nobody').returncode == 1
    assert on_host(stage, 'user', 'token', 'registry08', '--days', '400').returncode == 1
