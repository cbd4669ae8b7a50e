"""goo-people-who as a process at its socket, as nginx asks it."""
import contextlib
import http.client
import socket
import threading
import time
from collections.abc import Iterator
from pathlib import Path

import bcrypt
import pytest
from fake_log import Served
from fake_log import comes
from goo_service.common.client import Answer
from goo_service.common.client import Client
from goo_service.common.client import Connection
from goo_service.people.store import now
from people_stage import Stage
from test_people_who import basic
from test_people_who import make_token

SLOW, PATIENCE = 12, 120
"""A cost of bcrypt by which a comparison takes a part of a second; seconds for an answer."""


@pytest.fixture
def stage(tmp_path: Path) -> Stage:
    return Stage(tmp_path / 'people' / 'people.db')


@pytest.fixture
def served(stage: Stage) -> Iterator[Served]:
    with Served(stage.path, stage.path.with_name('who.sock')) as of:
        yield of


def ask(of: Served, **fields: str) -> Answer:
    named = {name.replace('_', '-'): value for name, value in fields.items()}
    return Client(str(of.listen), PATIENCE, fields={'GOO-Method': 'GET', **named}).get('/')


def told(answer: Answer) -> dict[str, str]:
    """What an answer says of who is there."""
    return {name: value for name, value in answer.fields.items() if name.startswith('goo-')}


def test_the_answer_names_who_is_there(stage: Stage, served: Served) -> None:
    token = make_token(stage, stage.make_user().id)
    answer = ask(served, Authorization=f'Bearer {token}')
    assert (answer.status, answer.body) == (204, b'')
    assert told(answer) == {'goo-user': 'anna', 'goo-entry': 'SUN full', 'goo-hold': 't1',
                            'goo-way': 'token programs'}
    session = stage.sign_in()
    assert told(ask(served, Cookie=f'__Host-goo={session}'))['goo-way'] == 'session'
    foreign = ask(served, Cookie=f'__Host-goo={session}', GOO_Method='POST')
    nobody = ask(served)
    assert [(of.status, told(of)) for of in (foreign, nobody)] == [(403, {}), (401, {})]


def test_a_file_that_is_not_there_is_told_until_it_is(tmp_path: Path) -> None:
    path = tmp_path / 'later' / 'people.db'
    path.parent.mkdir()
    with Served(path, tmp_path / 'who.sock') as of:
        assert ask(of, Cookie='__Host-goo=' + 'x' * 43).status == 503
        stage = Stage(path)
        stage.make_user()
        assert ask(of, Cookie=f'__Host-goo={stage.sign_in()}').status == 204


def test_a_change_holds_from_the_next_question_of_a_connection_on(stage: Stage,
                                                                  served: Served) -> None:
    fields = {'Authorization': f'Bearer {make_token(stage, stage.make_user().id)}',
              'GOO-Method': 'GET'}
    with contextlib.closing(Connection(str(served.listen), 20)) as connection:
        def status() -> int:
            connection.request('GET', '/', headers=fields)
            with contextlib.closing(connection.getresponse()) as answer:
                answer.read()
                return answer.status

        assert status() == 204
        stays = connection.sock
        for revoked, expected in ((now(), 401), (None, 204), (now(), 401)):
            with stage.change() as db:
                db.execute('UPDATE token SET revoked = ?', (revoked,))
            assert status() == expected
        assert connection.sock is stays, 'the connection was not kept'


def test_the_last_use_is_noted(stage: Stage, served: Served) -> None:
    token = make_token(stage, stage.make_user().id)
    assert ask(served, Authorization=f'Bearer {token}').status == 204
    comes(lambda: stage.rows('SELECT used FROM token')[0]['used'])


def test_whoever_writes_long_holds_up_no_question(stage: Stage, served: Served) -> None:
    """Each of these would note its use, and can't."""
    token = make_token(stage, stage.make_user().id)
    begun = time.monotonic()
    with stage.change() as db:
        db.execute('UPDATE user SET mail = NULL')
        for _ in range(100):
            assert ask(served, Authorization=f'Bearer {token}').status == 204
        assert time.monotonic() - begun < 4
    comes(lambda: ask(served, Authorization=f'Bearer {token}').status == 204
          and stage.rows('SELECT used FROM token')[0]['used'])


def test_a_password_that_is_compared_holds_up_nobody_else(stage: Stage, served: Served) -> None:
    token, word = make_token(stage, stage.make_user().id), 'a long password'
    slow = stage.make_user('registry09', '09', 'peer')
    with stage.change() as db:
        db.execute('UPDATE user SET basic_until = ?, password = ? WHERE id = ?',
                   (now() + 3600, bcrypt.hashpw(word.encode(), bcrypt.gensalt(SLOW)).decode(),
                    slow.id))
    came: list[tuple[float, int]] = []

    def compare() -> None:
        answer = ask(served, Authorization=basic('registry09', word), GOO_Net='192.0.2.9')
        came.append((time.monotonic(), answer.status))

    compared = [threading.Thread(target=compare) for _ in range(2)]
    for thread in compared:
        thread.start()
    time.sleep(0.1)
    for _ in range(3):
        assert ask(served, Authorization=f'Bearer {token}').status == 204
    answered = time.monotonic()
    for thread in compared:
        thread.join()
    assert [status for _, status in came] == [204] * 2
    assert all(answered < moment for moment, _ in came), 'a question waited for a password'


def test_a_half_question_holds_up_nobody(stage: Stage, served: Served) -> None:
    token = make_token(stage, stage.make_user().id)
    with contextlib.ExitStack() as stack:
        for _ in range(50):
            half = stack.enter_context(socket.socket(socket.AF_UNIX))
            half.connect(str(served.listen))
            half.sendall(b'GET / HTTP/1.1\r\nAuthor')
        assert ask(served, Authorization=f'Bearer {token}').status == 204


@pytest.mark.parametrize('head', [
    b'GET / HTTP/1.1\r\nHost: goo\r\nAuthorization: ' + b'x' * 20_000 + b'\r\n\r\n',
    b'GET / HTTP/1.1\r\nHost: goo\r\nCookie\r\n\r\n', b'\x16\x03\x01\x00\xa5\r\n\r\n'])
def test_what_is_no_question_is_refused(stage: Stage, served: Served, head: bytes) -> None:
    with socket.socket(socket.AF_UNIX) as connection:
        connection.settimeout(20)
        connection.connect(str(served.listen))
        connection.sendall(head)
        answer = http.client.HTTPResponse(connection)
        answer.begin()
        assert answer.status == 400
    assert ask(served).status == 401


def test_it_ends_when_told(served: Served) -> None:
    begun = time.monotonic()
    served.process.terminate()
    assert served.process.wait(20) == 0 and time.monotonic() - begun < 10
