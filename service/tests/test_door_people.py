"""The front door: who is signed in as whom, what a visitor says of himself, and who reads what."""
import os
import pathlib
import re
import ssl
import warnings
from collections.abc import Iterator

import pytest

import client
from calls import Answer
from front import FAST
from front import Front
from front import REQUESTS
from front import callers
from front import put_user
from front import reload
from front import request
from front import sent
from front import workers

AUDIT, STATEMENT = '/v1/audit', '/v1/accounts/1/statement'


@pytest.fixture(scope='module')
def front() -> Iterator[Front]:
    """A front door before a registry with an account of SUN's."""
    with Front(rate=FAST) as made:
        made.send('office', 'open_holder', key='a1', holder='SUN', name='Sun Power')
        made.send('office', 'open_account', key='a2', holder='SUN')
        yield made


def signed_in(front: Front, user: str, password: str | None = None) -> str | None:
    """As whom somebody is signed in."""
    name = front.ask(user, 'HEAD', '/', password=password).fields.get('goo-signed-in')
    return None if name is None else str(name)


def fields(front: Front) -> dict[str, str]:
    """The fields of the last head that came to what stands behind nginx."""
    return dict(line.split(': ', 1) for line in front.relay.heads[-1].split('\r\n')[1:])


# ------------------------------------------------------------------ names of users

def test_another_spelling_is_another_user(front: Front) -> None:
    for user in ('Office', 'OFFICE', 'ANNA'):
        put_user(front, user)
        answer = front.ask(user, 'GET', AUDIT)
        assert (answer.status, answer.fields.get('goo-signed-in')) == (401, None)
    out = callers(front)
    assert out.returncode == 1 and 'Office differs from office' in out.stderr
    for user in ('Office', 'OFFICE', 'ANNA'):
        put_user(front, user, '-D')


ODD = ('~.*', 'b.b', 'a$remote_user', 'c\\d', 'd";e', 'default', 'volatile')
"""Names that nginx or its configuration could read as something else."""


def test_names_that_read_as_patterns_are_names() -> None:
    with Front(rate=FAST) as front:
        for user in ODD:
            put_user(front, user)
        with open(front.door.etc / 'callers', 'a') as file:
            file.writelines(f"'{user}' VOLT\n" for user in ODD)
        callers(front)
        reload(front)
        assert {user: signed_in(front, user) for user in ODD} == dict.fromkeys(ODD, 'VOLT')
        assert [signed_in(front, user) for user in ('office', 'anna')] == ['ISSUER', 'SUN']
        put_user(front, 'bxb')          # a pattern would fit it
        assert front.ask('bxb', 'HEAD', '/').status == 401


def test_who_is_who_is_told_with_answers_that_succeed(front: Front) -> None:
    wrong = [front.ask(user, 'GET', AUDIT, password='wrong') for user in ('office', 'anna')]
    refused = [front.ask('anna', 'GET', AUDIT), front.ask('anna', 'GET', '/none'),
               front.ask('anna', 'POST', REQUESTS, b'x' * 1048577)]
    assert [answer.status for answer in (*wrong, *refused)] == [401, 401, 403, 404, 413]
    assert {answer.fields.get('goo-signed-in') for answer in (*wrong, *refused)} == {None}
    assert signed_in(front, 'office') == 'ISSUER'


def worked(front: Front) -> float:
    """How long nginx's workers have been at work, in seconds."""
    stats = [pathlib.Path(f'/proc/{number}/stat').read_text() for number in workers(front)]
    times = [text.rpartition(')')[2].split() for text in stats]
    return sum(int(of[11]) + int(of[12]) for of in times) / os.sysconf('SC_CLK_TCK')


def test_a_wrong_password_takes_as_long_as_a_user_that_is_none() -> None:
    """Without a guard one takes a bcrypt longer. What the workers have worked is compared."""
    took = dict.fromkeys(('office', 'nobody'), 0.0)
    with Front(rate=FAST, cost=8) as front:
        for _ in range(6):
            for user in took:
                before = worked(front)
                assert {front.ask(user, 'GET', '/', password='wrong').status
                        for _ in range(10)} == {401}
                took[user] += worked(front) - before
    known, unknown = took.values()
    assert abs(known - unknown) < 0.25 * known, took


# ------------------------------------------------------------------ what a visitor says of himself

@pytest.mark.parametrize('name', ['GOO-Caller', 'goo-caller', 'GOO_CALLER', 'Goo-Caller '])
def test_a_forged_caller_sees_no_audit(front: Front, name: str) -> None:
    text = request('GET', AUDIT, 'anna')
    forged = text.replace(b'\r\n', f'\r\n{name}: ISSUER\r\n'.encode(), 1)
    assert sent(front, forged).status in (400, 403)


def test_behind_nginx_six_fields_come_and_none_of_the_visitors(front: Front) -> None:
    text = request('GET', STATEMENT, 'anna', GOO_Caller='VOLT', GOO_User='forged',
                   GOO_Role='forged', GOO_Address='forged', X_Own='forged', GOO_Way='forged',
                   GOO_Hold='s1', GOO_Accounts='2', GOO_Confirmed='forged', GOO_Subject='CN=office')
    answer = sent(front, text.replace(b'\r\n', b'\r\nGOO-Caller: ISSUER\r\n', 1))
    assert answer.status == 200 and b'holder SUN' in answer.body
    assert fields(front) == {'Connection': 'close', 'Host': 'goo', 'GOO-Caller': 'SUN',
                             'GOO-User': 'anna', 'GOO-Role': 'full', 'GOO-Address': '127.0.0.1'}


def test_two_lengths_let_no_second_request_through(front: Front) -> None:
    head = request('POST', REQUESTS, 'anna', Content_Length='4', Transfer_Encoding='chunked')
    within = b'GET /v1/audit HTTP/1.1\r\nHost: x\r\nGOO-Caller: ISSUER\r\n\r\n'
    before = len(front.relay.heads)
    assert sent(front, head + b'0\r\n\r\n' + within).status == 400
    assert len(front.relay.heads) == before


def test_chunks_are_gathered_before_the_registry(front: Front) -> None:
    head = request('POST', REQUESTS, 'office', Transfer_Encoding='chunked')
    assert b'"Shape"' in sent(front, head + b'2\r\n{}\r\n0\r\n\r\n').body
    assert fields(front)['Content-Length'] == '2'


@pytest.mark.parametrize('origin', ['https://evil.example', 'null', 'http://localhost:{port}',
                                    'https://localhost:{port}.evil.example'])
def test_another_page_sends_nothing(front: Front, origin: str) -> None:
    body = b'{"command":"open_holder","key":"evil","holder":"EVIL","name":"x"}'
    before = len(front.relay.heads)
    answer = front.ask('office', 'POST', REQUESTS, body, Origin=origin.format(port=front.port))
    assert answer.status == 403
    assert len(front.relay.heads) == before


def test_our_own_page_sends(front: Front) -> None:
    body = b'{"command":"open_holder","key":"own","holder":"OWN","name":"x"}'
    answer = front.ask('office', 'POST', REQUESTS, body, Origin=f'https://localhost:{front.port}')
    assert answer.status == 200


# ------------------------------------------------------------------ who reads what

def test_a_registry_reads_its_own_notices_and_nothing_else(front: Front) -> None:
    for name, text in (('08/1', 'for eight'), ('09/1', 'for nine'), ('09/2', 'and more'),
                       ('09/.3.part', 'half of it')):
        file = front.door.exchange / 'outbox' / name
        file.parent.mkdir(parents=True, exist_ok=True)
        file.write_text(text)

    def read(user: str, path: str) -> Answer:
        return front.ask(user, 'GET', path)

    own = read('registry09', '/notices/2')
    assert (own.status, own.body) == (200, b'and more')
    assert own.fields['content-type'] == 'application/json'
    assert read('registry08', '/notices/1').body == b'for eight'
    for user, path in (('registry08', '/notices/2'), ('registry08', '/notices/../09/1'),
                       ('registry08', '/notices/%2e%2e/09/1'), ('registry09', '/notices/.3.part'),
                       ('registry09', '/notices/01'), ('registry09', '/notices/'),
                       ('anna', '/notices/1'), ('office', '/notices/1'), ('nemo', '/notices/1')):
        assert read(user, path).status in (400, 404), (user, path)
    assert read('', '/notices/1').status == 401
    assert front.ask('registry09', 'POST', '/notices/1', b'x').status in (403, 405)


def test_the_records_hear_the_question_as_it_came(front: Front) -> None:
    path = '/records/v1/acts?limit=5&q=a%20b'
    front.ask('anna', 'GET', path, GOO_Caller='ISSUER')
    head = front.records.heads[-1].split('\r\n')
    assert head[0] == f'GET {path} HTTP/1.1'
    assert 'GOO-Caller: SUN' in head and 'GOO-Caller: ISSUER' not in head


@pytest.mark.parametrize(('method', 'path', 'status', 'allow'), [
    ('GET', '/v1/audit?x=1', 404, None), ('POST', AUDIT, 405, 'GET'), ('HEAD', AUDIT, 405, 'GET')])
def test_what_the_registry_refuses_comes_back_as_it_is(front: Front, method: str, path: str,
                                                       status: int, allow: str | None) -> None:
    answer = front.ask('office', method, path)
    assert (answer.status, answer.fields.get('allow')) == (status, allow)
    assert answer.body == b'' or method != 'HEAD'


# ------------------------------------------------------------------ certificates

def test_a_certificate_signs_in_in_place_of_a_password() -> None:
    with Front(rate=FAST, certificates=True) as front:
        for subject, file in (('/O=Trial/CN=OFFICE', 'a'), ('/O=TRIAL/CN=office', 'b'),
                              ('/O=Trial/CN=office/CN=anna', 'c')):
            front.door.issue(subject, file)
            assert front.ask(None, 'GET', AUDIT, certificate=file).status == 403, subject
        assert front.ask(None, 'GET', '/', certificate='anna').fields['goo-signed-in'] == 'SUN'
        assert front.ask(None, 'GET', AUDIT, certificate='office', GOO_Caller='SUN').status == 200
        assert [front.ask(user, 'GET', AUDIT).status for user in (None, 'office')] == [400, 400]
        out = front.ask(None, 'POST', '/sign-out', certificate='anna')
        assert (out.status, out.fields.get('goo-kept')) == (204, 'certificate')
        assert 'clear-site-data' not in out.fields
        for cookie, status in (('goo_signed_out=yes', 403), ('goo_signed_out=|CN=office', 403),
                               ('a=b; goo_signed_out=x', 403), ('goo_signed_out=; o=yes', 200)):
            answer = front.ask(None, 'GET', AUDIT, certificate='office', Cookie=cookie)
            assert answer.status == status


# ------------------------------------------------------------------ TLS, and the name

def shakes(front: Front, version: ssl.TLSVersion, ciphers: str = '',
           name: str = 'localhost') -> str:
    """The cipher that a client of this kind gets; nothing where it is refused."""
    context = front.door.tls()
    context.check_hostname = False
    with warnings.catch_warnings():
        warnings.simplefilter('ignore')         # an old version is asked for on purpose
        context.minimum_version = context.maximum_version = version
    if ciphers:
        context.set_ciphers(ciphers)
    try:
        with client.connected(front.port, tls=context, name=name) as stream:
            return str(stream.cipher()[0])
    except (ssl.SSLError, ConnectionError):
        return ''


def test_ciphers_and_names() -> None:
    old, new = ssl.TLSVersion.TLSv1_2, ssl.TLSVersion.TLSv1_3
    with Front(rate=FAST, key=('rsa:2048',)) as front:
        assert 'ECDHE' in shakes(front, old) and shakes(front, new)
        assert shakes(front, old, 'kRSA') == '', 'without forward secrecy'
        assert shakes(front, old, 'ECDHE-RSA-AES256-SHA384:ECDHE-RSA-AES128-SHA') == ''
        assert shakes(front, ssl.TLSVersion.TLSv1_1, 'ALL:@SECLEVEL=0') == ''
        assert shakes(front, new, name='evil.example') == ''
        evil = request('POST', REQUESTS, 'office', body=b'{}', Origin='https://evil.example')
        answer = sent(front, evil.replace(b'Host: localhost', b'Host: evil.example'))
        assert (answer.status, front.relay.heads) == (421, [])


@pytest.mark.parametrize(('host', 'line', 'location'), [
    ('evil.example', '421', None), ('LOCALHOST:80', '301', 'https://localhost/x')])
def test_port_80_leads_to_the_own_name_alone(front: Front, host: str, line: str,
                                             location: str | None) -> None:
    text = f'GET /x HTTP/1.1\r\nHost: {host}\r\nConnection: close\r\n\r\n'
    answer = client.ask(front.door.plain, text.encode()).decode()
    assert answer.split()[1] == line
    assert re.findall(r'(?m)^Location: (.*)\r$', answer) == ([location] if location else [])


# ------------------------------------------------------------------ the page's own files

def test_lists_of_the_issuing_body_take_the_place_of_the_pages(front: Front) -> None:
    shipped, own = front.ask(None, 'GET', '/lists.js').body, front.door.etc / 'lists.js'
    assert b'TECHNOLOGIES' in shipped
    own.write_text('export const LISTS = {};\n')
    answer = front.ask(None, 'GET', '/lists.js')
    own.unlink()
    assert answer.body == b'export const LISTS = {};\n'
    assert 'javascript' in answer.fields['content-type']
    assert front.ask('anna', 'GET', '/lists.js').body == shipped
    for path in ('/users', '/callers', '/tls/key.pem', '/etc/goo/lists.js',
                 f'{front.door.etc}/users', '/lists.js/../users', '/lists.js/'):
        assert front.ask('office', 'GET', path).status in (400, 404), path


# ------------------------------------------------------------------ nginx that was killed

def test_killed_nginx_starts_again_by_its_unit() -> None:
    """What its unit does before takes away the inner sockets that it left."""
    with Front(rate=FAST) as front:
        front.kill('nginx')
        front.start('nginx')
        assert front.ask('anna', 'HEAD', '/').status == 200
