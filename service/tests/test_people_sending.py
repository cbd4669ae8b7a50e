"""Mails on their way: `goo-people-post` and a mailer that reads them, with kills, a full disk, a
mailer that is away, and addresses that it refuses."""
import datetime
import os
import random
import shutil
import signal
import sqlite3
import ssl
import subprocess
import threading
import time
from collections.abc import Iterator
from pathlib import Path
from typing import Any

import pytest

from goo_service.people import hooks
from goo_service.people import mails
from goo_service.people import post
from goo_service.people import store
from goo_service.people.mails import Notice
from goo_service.people.post_settings import Fault
from goo_service.people.post_settings import Mailer as At
from goo_service.people.post_settings import Settings
from goo_service.people.post_settings import read_settings
from goo_service.people.hook_sender import Ways
from goo_service.records.web import application
from made_book import Made
from made_book import OWN
from people_file import add_user
from people_post import Mailer
from people_post import Post
from people_post import comes
from people_post import serve_records
from test_people_hooks import Receiver

FIELDS: dict[str, object] = {'certificates': 3, 'accounts': [4], 'day': '2026-03-31'}
DECEMBER = OWN + 200
"""The certificates of December 2025 come after it. No deadline of theirs is near: of January's one
is, and is told to whoever has them when the post looks."""


@pytest.fixture
def mailer() -> Iterator[Mailer]:
    standing = Mailer().start()
    yield standing
    standing.stop()


@pytest.fixture
def own_post(tmp_path: Path, mailer: Mailer) -> Iterator[Post]:
    made = Post(tmp_path, mailer)
    yield made
    made.kill()


def tell(of: Post, *names: str, cause: str = 'entry 9') -> None:
    """A mail for each of these users, whom the file gets."""
    db = of.db()
    with store.changing(db):
        for name in names:
            found = db.execute('SELECT id FROM user WHERE name = ?', (name,)).fetchone()
            user = found[0] if found else add_user(db, name, 'SUN', access=[(0, 1, 0, 0)])
            assert mails.tell(db, user, Notice('came_in', cause, FIELDS))
    db.close()


def all_sent(of: Post) -> bool:
    return of.count('sent IS NULL AND given_up IS NULL') == 0


# ------------------------------------------------------------------ from the registry to the mail

def test_what_happened_comes_by_mail_in_the_readers_language(own_post: Post,
                                                             mailer: Mailer) -> None:
    made = OfToday(own_post.folder)
    made.country()
    db = own_post.db()
    add_user(db, 'anna', 'SUN', access=[(0, 1, 1, 1)])
    add_user(db, 'carl', 'VOLT', language='de', access=[(2, 1, 0, 0)])
    made.book().close()
    records = serve_records(application(made.folder, made.folder / 'state.json',
                                        etc=made.folder / 'etc'),
                            own_post.folder / 'records.sock')
    next(records)
    own_post.start()
    comes(lambda: 'acts after entry' in own_post.text)
    made.must('SUN', 'transfer', giver=1, taker=2, first=f'{DECEMBER + 1:014}',
              last=f'{DECEMBER + 10:014}')
    comes(lambda: [str(mail['Subject']) for mail in mailer.to('carl')]
          == ['Eingang: 10 Nachweise'])
    comes(lambda: 'Sent: 10 certificates' in mailer.subjects)
    mail, = mailer.to('carl')
    assert mail['From'] == 'goo@registry.example'
    assert mail['Auto-Submitted'] == 'auto-generated' and mail['Content-Language'] == 'de'
    assert str(mail['Message-ID']).endswith('@registry.example>') and mail['Date']
    assert mail.get_content_type() == 'text/plain'
    text = mail.get_content()
    assert 'Eingang am 15. Januar 2026: 10 Nachweise, Konto 2.' in text
    assert 'Register für Herkunftsnachweise, Umweltamt Beispielstadt' in text
    assert 'https://registry.example' in text and '0700000' not in text
    comes(lambda: {str(mail['Subject']) for mail in mailer.to('anna')} > {'Sent: 10 certificates'})
    comes(lambda: all_sent(own_post))
    assert own_post.count("body <> ''") == 0, 'a text is kept once its mail is sent'
    next(records, None)


class OfToday(Made):
    """A made log whose entries are of this day."""

    def record(self, *words: Any, **more: Any) -> Any:
        now = f'{datetime.datetime.now(datetime.UTC):%Y-%m-%dT%H:%M:%S.%fZ}'
        given: dict[str, Any] = {'time': now, **more}
        return super().record(*words, **given)


def test_an_invitation_comes_with_its_link(own_post: Post, mailer: Mailer) -> None:
    db = own_post.db()
    with store.changing(db):
        db.execute(
            'INSERT INTO invitation (hash, caller, role, administrator, mail, language, access, '
            "made, ends) VALUES (x'00', 'SUN', 'user', 0, 'new@example.org', 'de', '[]', ?, ?)",
            (store.now(), store.now() + 1000))
        mails.invite(db, 1, 'geheimnis')
    own_post.start()
    mail, = comes(lambda: mailer.to('new'))
    assert 'https://registry.example/accept.html#geheimnis' in mail.get_content().splitlines()
    comes(lambda: all_sent(own_post))
    assert own_post.count("body <> ''") == 0


# ------------------------------------------------------------------ a mailer that does not take it

def test_one_refused_address_holds_up_nobody(own_post: Post, mailer: Mailer) -> None:
    mailer.refuses = {'ben@example.org': '550 no such user here',
                      'carl@example.org': '450 mailbox busy'}
    mailer.data = {'dora@example.org': '554 refused', 'emil@example.org': '451 later'}
    tell(own_post, 'anna', 'ben', 'carl', 'dora', 'emil', 'fritz')
    own_post.start()
    comes(lambda: len(mailer.came) == 2)
    comes(lambda: own_post.count('tries = 1') == 6)
    comes(lambda: own_post.count("given_up IS NOT NULL AND fault LIKE '55%'") == 2)
    assert {str(mail['To']) for mail in mailer.came} == {'anna@example.org', 'fritz@example.org'}
    assert own_post.count("fault LIKE '45%' AND sent IS NULL AND given_up IS NULL") == 2
    mailer.refuses, mailer.data = {}, {}
    own_post.hurry()
    comes(lambda: len(mailer.came) == 4 and all_sent(own_post))
    assert own_post.count('sent IS NOT NULL') == 4


def test_a_mailer_that_is_away_for_a_while(own_post: Post, mailer: Mailer) -> None:
    mailer.stop()
    tell(own_post, 'anna', 'ben', 'carl')
    own_post.start()
    comes(lambda: 'Connection refused' in own_post.text)
    assert own_post.count('tries > 0') == 1, 'each mail is tried although the mailer is away'
    mailer.start()
    own_post.hurry()
    comes(lambda: len(mailer.came) == 3 and all_sent(own_post))


def test_a_mailer_that_says_later_to_all(own_post: Post, mailer: Mailer) -> None:
    mailer.refuses = {'anna@example.org': '421 going down'}
    tell(own_post, 'anna', 'ben')
    own_post.start()
    comes(lambda: '421' in own_post.text)
    mailer.refuses = {}
    own_post.hurry()
    comes(lambda: len(mailer.came) == 2 and all_sent(own_post))


@pytest.fixture
def certificate(tmp_path: Path) -> Path:
    path = tmp_path / 'mailer.pem'
    subprocess.run(['openssl', 'req', '-x509', '-newkey', 'rsa:2048', '-nodes', '-days', '2',
                    '-subj', '/CN=localhost', '-addext', 'subjectAltName=DNS:localhost',
                    '-keyout', path, '-out', f'{path}.crt'], check=True, capture_output=True)
    return path


def test_starttls_is_asked_for_and_never_left_out(tmp_path: Path, certificate: Path,
                                                  mailer: Mailer) -> None:
    secure = Mailer(tls=ssl.SSLContext(ssl.PROTOCOL_TLS_SERVER))
    assert secure.tls
    secure.tls.load_cert_chain(f'{certificate}.crt', certificate)
    secure.start()
    of = Post(tmp_path, mailer)
    tell(of, 'anna')
    try:
        of.lay(f'[mail]\nhost = localhost\nport = {mailer.port}\nsecurity = starttls\n')
        of.start()
        comes(lambda: 'STARTTLS' in of.text)
        of.end()
        lines = f'[mail]\nhost = localhost\nport = {secure.port}\nsecurity = starttls\n'
        of.lay(lines)
        of.hurry()
        of.start()
        comes(lambda: 'certificate verify failed' in of.text)
        of.end()
        of.lay(f'{lines}authority = {certificate}.crt\n')
        of.hurry()
        of.start()
        comes(lambda: len(secure.came) == 1)
        assert mailer.came == []
    finally:
        of.kill()
        secure.stop()


# ------------------------------------------------------------------ ends at any moment

def test_killed_between_the_mailers_yes_and_the_row(own_post: Post, mailer: Mailer) -> None:
    """The mail comes again after its pause, with the same Message-ID."""
    tell(own_post, 'anna', 'ben')
    reached = threading.Event()

    def once() -> None:
        if not reached.is_set():
            assert own_post.process
            os.kill(own_post.process.pid, signal.SIGKILL)
            reached.set()

    mailer.at_data = once
    own_post.start()
    assert reached.wait(60)
    own_post.kill()
    own_post.start()
    comes(lambda: own_post.count('sent IS NOT NULL') == 1)
    assert len(set(mailer.ids)) == 2, 'the try of before is forgotten'
    own_post.hurry()
    comes(lambda: len(mailer.came) == 3 and all_sent(own_post))
    first, _, again = mailer.ids
    assert first == again and len(set(mailer.ids)) == 2


def test_killed_at_any_moment_each_mail_comes(own_post: Post, mailer: Mailer) -> None:
    names = [f'u{number}' for number in range(30)]
    tell(own_post, *names)
    chance, kills = random.Random(7), 5
    for _ in range(kills):
        own_post.start()
        time.sleep(chance.random() / 5)
        own_post.kill()
        own_post.hurry()
    own_post.start()
    comes(lambda: len(set(mailer.ids)) == 30 and all_sent(own_post))
    assert len(mailer.came) <= 30 + kills
    assert {str(mail['To']) for mail in mailer.came} == {f'{name}@example.org' for name in names}


class Killed(BaseException):
    """The process has ended here."""


class Ends(sqlite3.Connection):
    """A connection whose process ends at a statement."""

    left = 10 ** 9

    def execute(self, *words: Any) -> sqlite3.Cursor:
        if self.left <= 0:
            raise Killed
        self.left -= 1
        return super().execute(*words)


def test_killed_at_each_step(tmp_path: Path, mailer: Mailer,
                             monkeypatch: pytest.MonkeyPatch) -> None:
    """At each statement of a turn in its turn. What comes twice comes by one kill, under one id."""
    settings = Settings(At('127.0.0.1', mailer.port, sender='goo@registry.example'), Ways(), '')
    shift, steps, at = 0, 0, store.now
    monkeypatch.setattr(store, 'now', lambda: at() + shift)
    while True:
        shift = 0
        path = tmp_path / f'{steps}/people.db'
        store.make_file(path)
        db = store.open_file(path)
        for name in ('anna', 'ben'):
            mails.tell(db, add_user(db, name, 'SUN'), Notice('came_in', 'entry 9', FIELDS))
        db.close()
        mailer.came.clear()
        was_killed = ended_at(path, settings, steps)
        shift = 5 * 3600
        db = store.open_file(path)
        post.Post(db, settings).turn()
        assert db.execute(f'SELECT count(*) FROM mail WHERE {mails.WAITS}').fetchone()[0] == 0
        assert len(set(mailer.ids)) == 2 and len(mailer.came) <= 3, steps
        db.close()
        if not was_killed:
            break
        steps += 1
    assert steps > 20


def ended_at(path: Path, settings: Settings, steps: int) -> bool:
    """A turn that ends at a statement; whether it came to it."""
    db = sqlite3.connect(path, factory=Ends, isolation_level=None)
    assert isinstance(db, Ends)
    db.row_factory = sqlite3.Row
    db.left = steps
    try:
        post.Post(db, settings).turn()
        return False
    except Killed:
        return True
    finally:
        db.left = 10 ** 9
        if db.in_transaction:
            db.rollback()
        db.close()


@pytest.fixture
def small_post(tmp_path: Path, own_post: Post) -> Iterator[Post]:
    """One whose file is on a small disk of its own."""
    made = tmp_path / 'made'
    own_post.state.rename(made)
    own_post.state.mkdir()
    subprocess.run(['mount', '-t', 'tmpfs', '-o', 'size=1m', 'none', own_post.state], check=True)
    try:
        shutil.copytree(made, own_post.state, dirs_exist_ok=True)
        yield own_post
    finally:
        own_post.kill()
        subprocess.run(['umount', '--lazy', own_post.state], check=True)


def test_a_full_disk_sends_no_mail_again_and_again(small_post: Post, mailer: Mailer) -> None:
    """Tries that cannot be counted are not made. Once there is room all goes on."""
    mailer.refuses = {f'{name}@example.org': '450 later' for name in ('anna', 'ben')}
    tell(small_post, 'anna', 'ben')
    small_post.start()
    comes(lambda: small_post.count('tries = 1') == 2)
    filler = small_post.file.with_name('filler')
    small_post.hurry()
    fill(filler)
    mailer.refuses = {}
    comes(lambda: 'full' in small_post.text or 'disk' in small_post.text)
    time.sleep(3)
    came = len(mailer.came)
    filler.unlink()
    comes(lambda: all_sent(small_post))
    assert came <= 2 and len(set(mailer.ids)) == 2 and len(mailer.came) <= 3


def fill(path: Path) -> None:
    """Leaves no room on a disk."""
    with open(path, 'wb', buffering=0) as file:
        try:
            for size in (65536, 4096, 1):
                while True:
                    try:
                        file.write(b'x' * size)
                    except OSError:
                        break
        except OSError:
            pass


def test_two_do_not_send_the_same_file(own_post: Post) -> None:
    own_post.start()
    done = subprocess.run(own_post.words(), capture_output=True, text=True, check=False, timeout=60)
    assert done.returncode == 1 and 'another one sends' in done.stderr


def test_it_ends_at_once_when_told(own_post: Post) -> None:
    own_post.start()
    assert own_post.process
    begun = time.monotonic()
    own_post.process.terminate()
    assert own_post.process.wait(20) == 0 and time.monotonic() - begun < 10


# ------------------------------------------------------------------ what the doctor tells

def checked(of: Post) -> tuple[int, str]:
    done = subprocess.run([*of.words(), '--check'], capture_output=True, text=True, check=False,
                          timeout=60)
    return done.returncode, done.stdout + done.stderr


def test_what_was_given_up_or_waits_is_told(own_post: Post, mailer: Mailer) -> None:
    mailer.refuses = {'ben@example.org': '550 no such user here',
                      'carl@example.org': '450 mailbox busy'}
    tell(own_post, 'anna')
    assert checked(own_post) == (0, '')
    tell(own_post, 'ben', 'carl')
    own_post.start()
    comes(lambda: own_post.count('fault IS NOT NULL') == 2)
    db = own_post.db()
    db.execute("UPDATE mail SET made = made - 7300 WHERE address = 'carl@example.org'")
    db.close()
    assert checked(own_post) == (1, (
        '1 mail was given up in the last seven days, the last one to ben@example.org: '
        '550 no such user here\n1 mail waits, the oldest for 2 h: 450 mailbox busy\n'))


# ------------------------------------------------------------------ settings

@pytest.mark.parametrize('text', [
    '[mail]\nhosst = x\n', '[post]\nhost = x\n', '[mail]\nport = x\n', '[mail]\nsecurity = ssl\n',
    '[mail]\nfrom = a b\n', '[mail]\nuser = x\npassword_file = /dev/null\n',
    '[hooks]\nnetworks = everywhere\n', '[hooks]\nplain = perhaps\n', 'host = x\n'])
def test_settings_with_a_fault_are_told(tmp_path: Path, text: str) -> None:
    (tmp_path / 'people-post.conf').write_text(text)
    with pytest.raises(Fault, match='people-post.conf'):
        read_settings(tmp_path / 'people-post.conf')


def test_settings_without_a_file_are_the_mailer_of_this_host(tmp_path: Path) -> None:
    read = read_settings(tmp_path / 'people-post.conf')
    assert (read.mailer.host, read.mailer.port, read.mailer.security) == ('localhost', 25, 'none')
    assert not read.ways.is_plain_allowed and list(read.ways.networks) == []


def test_no_mailer_at_all(tmp_path: Path, mailer: Mailer) -> None:
    of = Post(tmp_path, mailer)
    of.lay('[mail]\nhost = none\n')
    tell(of, 'anna')
    of.start()
    comes(lambda: of.count('given_up IS NOT NULL') == 1)
    of.kill()
    assert mailer.came == []


# ------------------------------------------------------------------ webhooks

def test_a_slow_receiver_holds_up_nobody_else(tmp_path: Path, mailer: Mailer) -> None:
    of = Post(tmp_path, mailer, '[hooks]\nnetworks = 127.0.0.0/8\nplain = yes\n')
    db = of.db()
    with Receiver() as slow, Receiver() as quick:
        for server in (slow, quick):
            threading.Thread(target=server.serve_forever, daemon=True).start()
        slow.drips = 400
        with store.changing(db):
            for name, server, count in (('anna', slow, 5), ('carl', quick, 1)):
                user = add_user(db, name, name.upper(), mail=None)
                for _ in range(count):
                    hooks.make(db, user, f'http://127.0.0.1:{server.port}/in', ['sent'], True)
                for number in range(20):
                    hooks.queue(db, user, Notice('sent', f'entry {number}', FIELDS))
        begun = time.monotonic()
        of.start()
        comes(lambda: len(quick.came) >= 20)
        assert time.monotonic() - begun < 30
        comes(lambda: of.count('sent IS NOT NULL', 'delivery') == 20)
        assert len({fields['goo-delivery'] for _, fields, _ in quick.came}) == 20
        comes(lambda: of.count("fault <> ''", 'hook') >= 2)
        of.kill()
