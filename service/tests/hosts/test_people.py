"""goo-people on a host: switched on, the first officer, codes, programs, what is killed, a full
disk, a damaged file, and back to the files.
"""
import json
import re
import subprocess
from dataclasses import dataclass
from pathlib import Path
from typing import Any

import pyotp
import pytest
from host import NEW
from host import Done
from host import add_user
from host import at_door
from host import become
from host import blocks
from host import comes
from host import copies
from host import install
from host import is_well
from host import journal
from host import last_entry
from host import outcome
from host import password
from host import run
from host import set_up
from host import shell
from host import start

FOLDER = Path('/var/lib/goo-people')
ROW = 'The file of people is damaged'
WORD = 'a long word of the second officer'
SERVICES = ('goo-people-who', 'goo-people-web', 'goo-people-gate')
SECRET = re.compile(r'/accept\.html#([A-Za-z0-9_-]{43})')
STATUS = '/records/v1/status'


@dataclass
class Came:
    """An answer through the front door."""

    status: int
    text: str
    cookies: dict[str, str]

    @property
    def json(self) -> Any:
        return json.loads(self.text)


@dataclass
class Browser:
    """A browser with a session, and the word that goes with what it sends."""

    cookie: str = ''
    csrf: str = ''
    seed: str = ''

    def ask(self, method: str, path: str, body: Any = None) -> Came:
        """By curl: a browser's other doings are tried by tools/trials/page."""
        fields = ['-H', 'Content-Type: application/json']
        fields += ['-H', f'Cookie: __Host-goo={self.cookie}'] if self.cookie else []
        fields += ['-H', f'GOO-CSRF: {self.csrf}'] if self.csrf else []
        data = [] if body is None else ['--data', json.dumps(body)]
        done = run('curl', '-sk', '--max-time', '60', '-D', '-', '-X', method, *fields, *data,
                   f'https://localhost{path}').stdout
        head, _, text = done.replace('\r', '').partition('\n\n')
        if head.startswith('HTTP/1.1 100') or head.startswith('HTTP/2 100'):
            head, _, text = text.partition('\n\n')
        found = re.findall(r'(?im)^set-cookie: ([^=]+)=([^;]*)', head)
        return Came(int((head.split() or ['', '0'])[1]), text, dict(found))

    def keep(self, came: Came) -> None:
        """The session that an answer begins."""
        self.cookie = came.cookies['__Host-goo']
        self.csrf = self.ask('GET', '/people/v1/me').json['csrf']

    def sign_in(self, name: str, word: str) -> Came:
        self.cookie = self.csrf = ''
        return self.ask('POST', '/people/v1/sign-in', {'user': name, 'password': word})

    def enrol(self, name: str, word: str) -> None:
        """The first sign-in, which adds an app."""
        came = self.sign_in(name, word)
        assert came.status == 200 and came.json == {'next': 'enrol'}, came
        self.keep(came)
        begun = self.ask('POST', '/people/v1/me/factors/totp', {}).json
        self.seed = begun['secret']
        came = self.ask('POST', '/people/v1/me/factors/totp/confirm',
                        {'id': begun['id'], 'code': pyotp.TOTP(self.seed).now()})
        assert came.status == 200, came
        self.keep(came)

    def sign_in_again(self, name: str, word: str) -> Came:
        """With a code that was not taken yet, as soon as there is one."""
        came = Came(0, '', {})

        def is_in() -> bool:
            nonlocal came
            self.cookie = self.csrf = ''
            came = self.ask('POST', '/people/v1/sign-in', {
                'user': name, 'password': word, 'code': pyotp.TOTP(self.seed).now()})
            return came.status == 200
        assert comes(is_in, 70), came
        self.keep(came)
        return came


OFFICE, FIRST = Browser(), Browser()


def switch(*words: str) -> Done:
    return run('goo-setup', 'people', *words, stdin=subprocess.DEVNULL)


def opens(browser: Browser, key: str) -> str:
    """The outcome of a request that opens a holder, or what came."""
    came = browser.ask('POST', '/v1/requests', {
        'command': 'open_holder', 'key': key, 'holder': key.upper(), 'name': key.capitalize()})
    return str(came.json['outcome']) if came.status == 200 else f'{came.status} {came.text}'


# ------------------------------------------------------------------ switched on

def test_a_registry_with_users_in_files() -> None:
    assert install(NEW).returncode == 0
    done = set_up()
    assert done.returncode == 0 and is_well(), done
    assert add_user('meter', 'ISSUER', 'declares').returncode == 0
    assert add_user('registry08', 'peer', '08').returncode == 0
    assert outcome({'command': 'open_holder', 'key': 'before', 'holder': 'BEFORE',
                    'name': 'Before'}) == 'accepted'


def test_one_command_takes_the_users_over() -> None:
    done = switch('on')
    assert done.returncode == 0, done
    for line in ('office: ISSUER full, as officer', 'meter: ISSUER declares, as meters',
                 'registry08: a program: make a token for it; its password is taken until 20'):
        assert line in done.stdout, done.stdout
    assert become('active', *(f'{name}.socket' for name in SERVICES))
    assert FOLDER.stat().st_mode & 0o777 == 0o700 and FOLDER.owner() == 'goo-people'
    assert run('goo-setup', 'doctor').stdout == 'all is well\n'


def test_given_again_it_takes_nobody_over_twice() -> None:
    done = switch('on')
    assert done.returncode == 0 and 'office: is there already' in done.stdout, done
    assert add_user('late', 'ISSUER').returncode == 1


def test_a_person_signs_in_with_a_second_factor_and_a_request_reaches_the_log() -> None:
    assert at_door('office', STATUS)[0] == '401', 'no password of a person by Basic'
    OFFICE.enrol('office', password('office'))
    assert opens(OFFICE, 'sun') == 'accepted'
    entry = json.loads(last_entry())
    assert '"office"' in json.dumps(entry) and '"session"' in json.dumps(entry), entry
    without = Browser(OFFICE.cookie)
    assert opens(without, 'evil').startswith('403 ')


def test_programs_go_on_with_their_passwords_and_then_by_a_token() -> None:
    assert at_door('registry08', '/notices/1')[0] == '404'
    assert at_door('registry08', '/notices/1', word='wrong')[0] == '401'
    token = run('goo-people', 'user', 'token', 'registry08').stdout.split('\n')[0]
    assert at_door('registry08', '/notices/1', word=token)[0] == '404'


def test_an_officer_is_invited_by_root() -> None:
    done = run('goo-people', 'user', 'invite', 'first@body.example', 'ISSUER', 'officer')
    found = SECRET.search(done.stdout)
    assert found and done.stdout.startswith('https://localhost/accept.html#'), done
    came = FIRST.ask('POST', '/people/v1/accept', {'invitation': found[1], 'name': 'first',
                                                   'password': WORD})
    assert came.status == 200, came
    again = FIRST.ask('POST', '/people/v1/accept', {'invitation': found[1], 'name': 'second',
                                                    'password': WORD})
    assert again.status >= 400
    FIRST.enrol('first', WORD)
    assert opens(FIRST, 'volt') == 'accepted'


def test_an_invitation_comes_by_mail(tmp_path: Path) -> None:
    """goo-people-post, shut in as its unit says, hands mails to the mailer of the host."""
    assert become('active', 'goo-people-post.service'), journal('goo-people-post')
    said = tmp_path / 'mails'
    words = ['/usr/bin/python3', '-u', '-m', 'aiosmtpd', '-n', '-l', 'localhost:25', '-c',
             'aiosmtpd.handlers.Debugging', 'stdout']
    with open(said, 'wb') as file, subprocess.Popen(words, stdout=file, stderr=file) as mailer:
        try:
            listens = ('ss', '-Hltn', 'sport = :25')
            assert comes(lambda: run(*listens).stdout.strip()), 'a mail tried before waits a minute'
            came = OFFICE.ask('POST', '/people/v1/users/invite', {
                'mail': 'audit@body.example', 'role': 'auditor', 'language': 'en'})
            assert came.status == 200, came
            link = f'https://localhost/accept.html#{came.json["secret"]}'
            assert comes(lambda: link in said.read_text(), 90), (
                f'{link} {said.read_text()} {journal("goo-people-post")}')
        finally:
            mailer.terminate()
    assert comes(lambda: run('goo-people-post', '--check').stdout == '', 20)


# ------------------------------------------------------------------ killed, full, damaged

@pytest.mark.parametrize('name', SERVICES)
def test_what_is_killed_comes_again_and_sessions_go_on(name: str) -> None:
    assert run('systemctl', 'kill', '--signal=KILL', f'{name}.service').returncode == 0
    assert comes(lambda: OFFICE.ask('GET', '/people/v1/me').status == 200, 60), journal(name)
    assert comes(lambda: opens(OFFICE, f'again-{name[-3:]}') in ('accepted', 'repeated'), 60), (
        journal(name))


def test_a_full_disk_shuts_nobody_out_who_is_signed_in() -> None:
    """The file stands on a disk of its own here, which is filled."""
    units = [f'{name}.{kind}' for name in SERVICES for kind in ('socket', 'service')]
    script = (f'systemctl stop {" ".join(units)} goo-people-post\n'
              'mv /var/lib/goo-people /var/lib/goo-people.kept\n'
              'mkdir -m 700 /var/lib/goo-people\n'
              'mount -t tmpfs -o size=4m,mode=700 none /var/lib/goo-people\n'
              'cp -a /var/lib/goo-people.kept/. /var/lib/goo-people/\n'
              'chown goo-people: /var/lib/goo-people\n'
              f'systemctl start {" ".join(f"{name}.socket" for name in SERVICES)} goo-people-post')
    done = shell(script)
    assert done.returncode == 0, done
    assert OFFICE.ask('GET', STATUS).status == 200
    shell('dd if=/dev/zero of=/var/lib/goo-people/filled bs=64k || true')
    assert OFFICE.ask('GET', STATUS).status == 200
    came = Browser().sign_in('first', 'a wrong word of somebody')
    assert came.status == 503, came
    Path('/var/lib/goo-people/filled').unlink()
    FIRST.sign_in_again('first', WORD)
    assert opens(FIRST, 'afterwards') == 'accepted'
    done = shell(script.replace('mv /var/lib/goo-people /var/lib/goo-people.kept\n'
                                'mkdir -m 700 /var/lib/goo-people\n'
                                'mount -t tmpfs -o size=4m,mode=700 none /var/lib/goo-people\n'
                                'cp -a /var/lib/goo-people.kept/. /var/lib/goo-people/\n'
                                'chown goo-people: /var/lib/goo-people\n',
                                'rm -r /var/lib/goo-people.kept\n'
                                'cp -a /var/lib/goo-people /var/lib/goo-people.new\n'
                                'umount /var/lib/goo-people\n'
                                'rmdir /var/lib/goo-people\n'
                                'mv /var/lib/goo-people.new /var/lib/goo-people\n'))
    assert done.returncode == 0, done
    assert FIRST.ask('GET', STATUS).status == 200


def test_the_nightly_copy_has_the_file() -> None:
    assert start('goo-backup'), journal('goo-backup')
    copy = copies()[-1] / 'people.db'
    assert copy.stat().st_mode & 0o777 == 0o600 and copy.owner() == 'root'


def test_a_damaged_file_is_named_and_put_back_from_the_copy() -> None:
    shell('systemctl stop goo-people-who goo-people-web goo-people-gate goo-people-post; '
          'head -c 8192 /dev/urandom > /var/lib/goo-people/people.db')
    assert FIRST.ask('GET', STATUS).status == 503
    assert ROW in run('goo-setup', 'doctor').stdout
    for script in blocks(ROW):
        done = shell(script)
        assert done.returncode == 0, done
    assert ROW not in run('goo-setup', 'doctor').stdout
    assert FIRST.ask('GET', STATUS).status == 401, 'sessions have ended'
    FIRST.sign_in_again('first', WORD)
    assert opens(FIRST, 'from-a-copy') == 'accepted'


# ------------------------------------------------------------------ back to the files

def test_the_files_sign_in_again() -> None:
    done = switch('off')
    assert done.returncode == 0, done
    assert comes(lambda: at_door('office', STATUS)[0] == '200'), 'nginx goes over within seconds'
    assert FIRST.ask('GET', STATUS).status == 401
    assert Browser().sign_in('first', WORD).status in (401, 404)
    done = switch('on')
    assert done.returncode == 0, done
    assert comes(lambda: FIRST.ask('GET', STATUS).status == 200)
