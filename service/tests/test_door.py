"""The front door: who gets in, what a sign-in costs, how much a user may send, nginx's answers."""
import subprocess
import time
from collections.abc import Iterator

import pytest

import client
from front import FAST
from front import Front
from front import FEW_COMPARISONS
from front import REQUESTS
from front import STRANGER
from front import Standin
from front import VISITOR
from front import answer_of
from front import at_once
from front import callers
from front import lines_of_log
from front import one_a_minute
from front import reload
from front import request
from front import sent


@pytest.fixture(scope='module')
def front() -> Iterator[Front]:
    """A front door without limits by the second, for all tests that change nothing of it."""
    with Front(rate=FAST) as made:
        made.send('office', 'open_holder', key='a1', holder='SUN', name='Sun Power')
        yield made


# ------------------------------------------------------------------ how nginx itself answers

LONG = b'y' * 9000
BY_ITSELF = {
    'nobody signed in': (
        b'GET /v1/audit HTTP/1.1\r\nHost: localhost\r\nConnection: close\r\n\r\n',
        401,
    ),
    'nobody, at the page': (b'GET / HTTP/1.1\r\nHost: localhost\r\nConnection: close\r\n\r\n', 401),
    'no HTTP': (b'garbage\r\n\r\n', 400),
    'a long target': (
        b'GET /' + LONG + b' HTTP/1.1\r\nHost: localhost\r\nConnection: close\r\n\r\n',
        400,
    ),
    'a long head': (
        b'GET / HTTP/1.1\r\nHost: localhost\r\nX: ' + LONG + b'\r\nConnection: close\r\n\r\n',
        400,
    ),
    'two hosts': (
        b'GET / HTTP/1.1\r\nHost: localhost\r\nHost: localhost\r\nConnection: close\r\n\r\n',
        400,
    ),
    'another name': (b'GET / HTTP/1.1\r\nHost: evil.example\r\nConnection: close\r\n\r\n', 421),
    'a coding that is none': (
        b'GET / HTTP/1.1\r\nHost: localhost\r\nTransfer-Encoding: odd\r\nConnection: close\r\n\r\n',
        501,
    ),
    'no such file': (request('GET', '/none.css', 'anna'), 404),
    'a method that files have not': (request('POST', '/style.css', body=b'x'), 405),
    'a foreign page': (
        request('POST', REQUESTS, 'anna', body=b'{}', Origin='https://evil.example'),
        403,
    ),
    'a write to the records': (request('POST', '/records/v1/acts', 'anna', body=b'{}'), 403),
    'a body above all': (request('POST', REQUESTS, 'office', body=b'x' * 1048577), 413),
    'a user without a role': (request('GET', '/records/v1/acts', 'nemo'), 403),
    'bytes that are no UTF-8': (
        b'GET /\xff HTTP/1.1\r\nHost: localhost\r\nConnection: close\r\n\r\n',
        400,
    ),
}


@pytest.mark.parametrize('what', BY_ITSELF)
def test_nginx_answers_json(front: Front, what: str) -> None:
    text, status = BY_ITSELF[what]
    answer = sent(front, text)
    assert answer.status == status
    assert answer.error()


@pytest.mark.parametrize(
    'text',
    [
        b'garbage\r\n\r\n',
        b'GET /v1/audit HTTP/1.1\r\nHost: evil.example\r\nConnection: close\r\n\r\n',
    ],
)
def test_nginx_answers_json_without_tls(front: Front, text: bytes) -> None:
    assert sent(front, text, port=front.door.plain, tls=False).error()
    assert (
        sent(front, text.replace(b'evil.example', b'localhost'), tls=False)
        .error()
        .startswith('this is no request that can be read')
    )


def test_registry_down_is_json() -> None:
    with Front(rate=FAST) as front:
        front.stop('registry')
        answer = front.ask('office', 'GET', '/v1/audit')
        front.start('registry')
    assert (answer.status, 'again' in answer.error()) == (502, True)


LIMITS = {
    'address': (one_a_minute('zone=goo_rate:10m', 'goo_rate', '20r/s', 60, 1), '/v1/audit', 'anna'),
    'user': (
        one_a_minute('zone=goo_user:2m     ', 'goo_user', '20r/s', 60, 1),
        '/v1/certificates/1',
        'anna',
    ),
    'records': (
        one_a_minute('zone=goo_user:2m     ', 'goo_user', '20r/s', 60, 1),
        '/records/v1/acts',
        'anna',
    ),
    'public': (
        one_a_minute('zone=goo_verify:2m', 'goo_verify', '10r/m', 10, 1),
        '/verify?number=1',
        '',
    ),
    'files': (one_a_minute('zone=goo_files:10m', 'goo_files', '10r/s', 300, 1), '/style.css', ''),
}


@pytest.mark.parametrize('limit', LIMITS)
def test_too_often(limit: str) -> None:
    changes, path, user = LIMITS[limit]
    with Front(changes=changes) as front:
        got = [front.ask(user, 'GET', path) for _ in range(4)]
    over = [answer for answer in got if answer.status == 429]
    assert len(over) == 2 and got[0].status != 429
    assert all(answer.error() and answer.fields['retry-after'] == '10' for answer in over)


def test_wait_that_the_log_asks_for_is_told_once() -> None:
    with Front(rate=FAST) as front:
        log = Standin(
            front.folder / 'door.sock',
            answer_of('429 Too Many Requests', 'Retry-After: 777', body=b'{"error":"a day"}\n'),
        )
        log.may_answer.set()
        answer = front.ask('anna', 'POST', REQUESTS, b'{}')
    assert (answer.status, answer.error()) == (429, 'a day')
    assert answer.fields['retry-after'] == '777'


# ------------------------------------------------------------------ what one request may be


def test_size_of_a_request(front: Front) -> None:
    before = len(front.relay.heads)
    got = [
        front.ask(user, 'POST', REQUESTS, b' ' * size)
        for user, size in (
            ('anna', 65536),
            ('anna', 65537),
            ('anna', 1048576),
            ('office', 1048576),
            ('office', 1048577),
        )
    ]
    assert [answer.status for answer in got] == [400, 413, 413, 400, 413]
    assert [answer.error() for answer in got if answer.status == 413] == [
        'a request has 65,536 bytes at most',
        'a request has 65,536 bytes at most',
        'a body has 1,048,576 bytes at most',
    ]
    assert len(front.relay.heads) == before + 2


@pytest.mark.parametrize('size', [65536, 65537, 99999, 100000, 1000000])
def test_size_of_a_request_in_chunks(front: Front, size: int) -> None:
    head = request('POST', REQUESTS, 'anna', Transfer_Encoding='chunked')
    answer = sent(front, head + f'{size:x}\r\n'.encode() + b' ' * size + b'\r\n0\r\n\r\n')
    assert answer.status == (400 if size == 65536 else 413)


def test_large_bodies_are_refused_as_often_as_they_come(front: Front) -> None:
    got = {front.ask('anna', 'POST', REQUESTS, b'x' * 1048576).status for _ in range(20)}
    assert got == {413}


def test_few_large_requests_under_way() -> None:
    with Front(rate=FAST) as front:
        log = Standin(front.folder / 'door.sock', answer_of('200 OK'))
        large = at_once(
            [lambda: front.ask('office', 'POST', REQUESTS, b' ' * 65537) for _ in range(5)]
        )
        small = at_once(
            [lambda: front.ask('office', 'POST', REQUESTS, b' ' * 65536) for _ in range(5)]
        )
        assert client.comes(
            lambda: sum(answer is not None for answer in large) == 3 and len(log.heads) == 7, 30
        )
        assert [answer for answer in small if answer is not None] == []
        log.may_answer.set()
        assert client.comes(lambda: None not in [*large, *small], 30)
    assert sorted(answer.status for answer in large if answer) == [200, 200, 429, 429, 429]
    assert {answer.status for answer in small if answer} == {200}


def test_two_questions_to_the_records_under_way() -> None:
    with Front(rate=FAST) as front:
        records = Standin(front.folder / 'web.sock', answer_of('200 OK'))
        anna = at_once([lambda: front.ask('anna', 'GET', '/records/v1/acts') for _ in range(4)])
        assert client.comes(
            lambda: sum(answer is not None for answer in anna) == 2 and len(records.heads) == 2, 30
        )
        bela = at_once([lambda: front.ask('bela', 'GET', '/records/v1/acts')])
        assert client.comes(lambda: len(records.heads) == 3, 30)
        records.may_answer.set()
        assert client.comes(lambda: None not in [*anna, *bela], 30)
        assert front.ask('anna', 'GET', '/records/v1/acts').status == 200
    assert sorted(answer.status for answer in anna if answer) == [200, 200, 429, 429]
    assert bela[0] and bela[0].status == 200


# ------------------------------------------------------------------ what a sign-in costs

SHORT = ('proxy_cache_valid     204 30s', 'proxy_cache_valid     204 1s')


def statuses(
    front: Front, count: int, user: str, password: str | None = None, source: str = '127.0.0.1'
) -> list[int]:
    """How so many reads of a user are answered, one after another."""
    return [
        front.ask(user, 'GET', '/v1/certificates/1', password=password, source=source).status
        for _ in range(count)
    ]


def test_right_password_is_compared_once() -> None:
    """Each comparison counts, and there may be three: so twenty requests made one."""
    with Front(changes=FEW_COMPARISONS) as front:
        assert statuses(front, 20, 'anna') == [404] * 20
        assert statuses(front, 20, 'bela') == [404] * 20
        assert {line['user'] for line in lines_of_log(front)} == {'anna', 'bela'}
        assert {line['caller'] for line in lines_of_log(front)} == {'SUN', 'VOLT'}


def test_wrong_password_is_wrong_beside_a_right_one() -> None:
    with Front(rate=FAST) as front:
        assert statuses(front, 1, 'anna') + statuses(front, 2, 'anna', 'pw-bela') == [404, 401, 401]
        assert statuses(front, 1, 'anna') + statuses(front, 1, 'bela', 'pw-anna') == [404, 401]
        for word in (
            'Basic',
            'Basic !',
            'Bearer pw-anna',
            f'basic{client.basic("anna", "pw-anna")}',
        ):
            assert front.ask(None, 'GET', '/', Authorization=word).status == 401
        assert front.ask(None, 'GET', '/').status == 401


def test_wrong_passwords_have_a_limit_of_their_own() -> None:
    with Front(changes=FEW_COMPARISONS) as front:
        got = [
            front.ask(user, 'GET', '/', password='wrong', source=STRANGER)
            for user in ('anna', 'anna', 'nobody', 'nobody', 'anna')
        ]
        assert [answer.status for answer in got] == [401, 401, 401, 429, 429]
        waits = [answer.fields.get('retry-after') for answer in got]
        assert waits == [None, None, None, '10', '10']
        assert 'passwords' in got[-1].error() and got[-1].fields.get('goo-signed-in') is None
        assert statuses(front, 3, 'anna', source=VISITOR) == [404] * 3


def test_requests_without_a_password_are_no_guesses() -> None:
    with Front(changes=FEW_COMPARISONS) as front:
        assert [front.ask(None, 'GET', '/').status for _ in range(10)] == [401] * 10
        assert statuses(front, 1, 'anna', 'wrong') + statuses(front, 1, 'anna') == [401, 404]


def test_guessing_shuts_out_nobody_who_signed_in_there() -> None:
    """A password that was right is right for longer where no more may be compared."""
    with Front(changes=(*FEW_COMPARISONS, SHORT)) as front:
        assert statuses(front, 1, 'anna') == [404]
        assert statuses(front, 4, 'bela', 'wrong') == [401, 401, 429, 429]
        time.sleep(2.1)
        assert statuses(front, 3, 'anna') == [404] * 3
        assert statuses(front, 1, 'bela') == [429]
        subprocess.run(
            ['htpasswd', '-bB', '-C', '4', front.door.etc / 'users', 'anna', 'pw-other'],
            check=True,
            capture_output=True,
        )
        assert statuses(front, 1, 'anna') == [429]


def test_password_is_compared_again_after_its_time() -> None:
    with Front(changes=(*FEW_COMPARISONS, SHORT)) as front:
        for _ in range(3):
            assert statuses(front, 2, 'anna') == [404] * 2
            time.sleep(2.1)
        assert statuses(front, 1, 'bela') == [429]


def change_password(front: Front, *words: str) -> None:
    """A run of htpasswd over the file of a front door, at a second that no earlier one had."""
    time.sleep(1.1)
    subprocess.run(
        ['htpasswd', *words[:-2], front.door.etc / 'users', *words[-2:]]
        if words[0] != '-D'
        else ['htpasswd', '-D', front.door.etc / 'users', words[1]],
        check=True,
        capture_output=True,
    )


def test_user_taken_out_is_refused_at_once() -> None:
    with Front(rate=FAST) as front:
        assert statuses(front, 2, 'anna') + statuses(front, 2, 'bela') == [404] * 4
        change_password(front, '-D', 'anna')
        assert statuses(front, 2, 'anna') + statuses(front, 1, 'bela') == [401, 401, 404]


def test_changed_password_holds_at_once() -> None:
    with Front(rate=FAST) as front:
        assert statuses(front, 2, 'anna') == [404] * 2
        change_password(front, '-bB', '-C', '4', 'anna', 'pw-other')
        assert statuses(front, 2, 'anna') + statuses(front, 2, 'anna', 'pw-other') == [
            401,
            401,
            404,
            404,
        ]


def test_line_taken_out_of_the_list_holds_with_the_reload() -> None:
    with Front(rate=FAST) as front:
        before = len(front.relay.heads)
        assert statuses(front, 1, 'anna') == [404]
        listed = (front.door.etc / 'callers').read_text()
        (front.door.etc / 'callers').write_text(listed.replace('anna SUN\n', ''))
        callers(front)
        reload(front)
        assert statuses(front, 1, 'anna') == [403]
        assert len(front.relay.heads) == before + 1


def test_kept_sign_ins_are_for_nginx_alone(front: Front) -> None:
    statuses(front, 1, 'anna')
    kept = [path for path in (front.folder / 'signed-in').rglob('*') if path.is_file()]
    assert kept
    assert {
        oct(path.stat().st_mode & 0o777)
        for path in (front.folder / 'signed-in', *(path.parent for path in kept))
    } == {'0o700'}
    assert {oct(path.stat().st_mode & 0o777) for path in kept} == {'0o600'}


BEHIND = {
    'door.sock': '/v1/certificates/1',
    'web.sock': '/records/v1/acts',
    'verify.sock': '/verify?number=1',
}


def test_file_of_passwords_is_shown_to_nobody(front: Front) -> None:
    """Not even where what stands behind nginx asks for a file of it by X-Accel-Redirect."""
    shown = answer_of('200 OK', 'X-Accel-Redirect: /users', body=b'{"own":1}\n')
    with Front(rate=FAST) as own:
        for name, path in BEHIND.items():
            Standin(own.folder / name, shown).may_answer.set()
            assert own.ask('anna', 'GET', path).body == b'{"own":1}\n'
    for path in ('/users', '/compare-sign-in', '/sign-in', '/decoy', '/told'):
        assert front.ask('anna', 'GET', path).status == 404


# ------------------------------------------------------------------ whom a browser speaks for


def test_signing_out_is_asked_for_by_our_own_page_alone(front: Front) -> None:
    refused = [
        front.ask('anna', 'GET', '/sign-out'),
        front.ask('anna', 'HEAD', '/sign-out'),
        front.ask('anna', 'POST', '/sign-out', Origin='https://evil.example'),
        front.ask('anna', 'POST', '/sign-out', Sec_Fetch_Site='cross-site'),
        front.ask('anna', 'POST', '/sign-out', Sec_Fetch_Site='same-site'),
    ]
    assert [(answer.status, answer.fields.get('clear-site-data')) for answer in refused] == [
        (403, None)
    ] * 5
    answer = front.ask('anna', 'POST', '/sign-out', Origin=f'https://localhost:{front.port}',
                       Sec_Fetch_Site='same-origin')
    names = ('clear-site-data', 'goo-kept')
    assert (answer.status, *map(answer.fields.get, names)) == (204, '"cookies"', 'password')


@pytest.mark.parametrize('path', ['/v1/certificates/1', '/records/v1/acts'])
def test_foreign_page_asks_nothing(front: Front, path: str) -> None:
    got = {
        site: front.ask('anna', 'GET', path, Sec_Fetch_Site=site).status
        for site in ('cross-site', 'same-site', 'same-origin', 'none', 'odd')
    }
    assert got == {'cross-site': 403, 'same-site': 403, 'same-origin': 404, 'none': 404, 'odd': 403}


def test_revoked_certificate_signs_in_no_more() -> None:
    with Front(rate=FAST, certificates=True) as front:
        assert front.ask(None, 'GET', '/v1/certificates/1', certificate='anna').status == 404
        front.door.revoke('anna')
        reload(front)
        answer = front.ask(None, 'GET', '/v1/certificates/1', certificate='anna')
        assert answer.status == 400 and 'certificate' in answer.error()
        assert front.ask(None, 'GET', '/v1/certificates/1', certificate='bela').status == 404
        assert front.ask(None, 'GET', '/v1/certificates/1').status == 400


def test_no_role_is_the_least(front: Front) -> None:
    before = len(front.relay.heads), len(front.records.heads)
    got = [
        front.ask(user, method, path, b'{}' if method == 'POST' else b'').status
        for user in ('nemo', 'registry09')
        for method, path in (
            ('GET', '/v1/audit'),
            ('POST', REQUESTS),
            ('POST', '/v1/declarations'),
            ('GET', '/records/v1/acts'),
        )
    ]
    assert got == [403] * 8
    assert (len(front.relay.heads), len(front.records.heads)) == before


# ------------------------------------------------------------------ the log


LETTERS = b'\xc3\xa9', b'\xe2\x82\xac', b'\xf0\x9f\x8c\x9e'
NO_LETTERS = b'\xe2\x82', b'\xed\xa0\x80', b'\xf8\x88', b'\xc0\xaf'
"""One that is cut off, half of a pair, one that is too long, and another spelling of a slash."""
END = b' HTTP/1.1\r\nHost: localhost\r\nConnection: close\r\n\r\n'


def test_each_line_of_the_log_is_json() -> None:
    every = [bytes([byte]) for byte in range(1, 256) if byte not in b'\r\n #?']
    texts = [*every, *LETTERS, *NO_LETTERS]
    with Front(rate=FAST) as front:
        for text in texts:
            sent(front, b'GET /v1/' + text + b'/x' + END)
        client.ask(front.door.plain, b'GET /x?y=\xff' + END)
        count = len(texts) + 1
        log = front.folder / 'front-door.log'
        client.comes(lambda: log.read_bytes().count(b'\n') == count, 10)
        routes = [line['route'] for line in lines_of_log(front)]
    assert len(routes) == count
    after = len(every)
    assert routes[after:] == [
        *(f'/v1/{text.decode()}/x' for text in LETTERS),
        *('/v1/\ufffd' for _ in NO_LETTERS),
        '/x?y=\ufffd',
    ]


def test_method_is_logged_as_it_was_sent(front: Front) -> None:
    sent(front, request('POST', '/v1/audit', 'anna', body=b'{}', host='other'))
    front.ask('anna', 'POST', '/v1/audit', b'{}', password='wrong')
    client.comes(lambda: lines_of_log(front)[-1]['status'] == '401', 10)
    assert [(line['method'], line['status']) for line in lines_of_log(front)[-2:]] == [
        ('POST', '400'),
        ('POST', '401'),
    ]


# ------------------------------------------------------------------ errors in words

IMPATIENT = (('proxy_read_timeout        300s', 'proxy_read_timeout        1s'),)
BROWSER = 'text/html,application/xhtml+xml,application/xml;q=0.9,*/*;q=0.8'


def is_told_both_ways(front: Front, status: int, wait: str | None, path: str,
                      body: bytes = b'') -> None:
    """The same sentence as JSON for a program, and as text for a browser."""
    method = 'POST' if body else 'GET'
    answer = front.ask('anna', method, path, body)
    shown = front.ask('anna', method, path, body, Accept=BROWSER)
    assert answer.status == shown.status == status, (answer.status, shown.status)
    assert answer.fields.get('retry-after') == shown.fields.get('retry-after') == wait
    assert shown.fields.get('content-type') == 'text/plain; charset=utf-8'
    assert shown.body.decode() == f'{answer.error()}\n'


def test_errors_are_json_for_programs_and_words_for_browsers() -> None:
    with Front(rate=FAST, changes=IMPATIENT) as front:
        is_told_both_ways(front, 413, None, REQUESTS, b'x' * 1_048_577)
        log = Standin(front.folder / 'door.sock', b'')
        is_told_both_ways(front, 504, '10', '/v1/audit')
        log.may_answer.set()
        is_told_both_ways(front, 502, '10', '/v1/audit')
    with Front(changes=one_a_minute('zone=goo_user:2m     ', 'goo_user', '20r/s', 60, 1)) as front:
        for _ in range(2):
            front.ask('anna', 'GET', '/v1/audit')
        is_told_both_ways(front, 429, '10', '/v1/audit')


def test_a_tag_of_the_records_goes_in_and_nothing_else_that_was_written_there() -> None:
    with Front(rate=FAST) as front:
        tag = f'"{"0123456789abcdef" * 2}"'
        for given in (tag, f'W/{tag}', 'x' * 40, f'{tag}, "y"', '*'):
            front.ask('anna', 'GET', '/records/v1/acts', If_None_Match=given)
        heads = [head.lower() for head in front.records.heads if '/acts' in head]
        assert [head.count('if-none-match') for head in heads] == [1, 1, 0, 0, 0]
