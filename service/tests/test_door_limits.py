"""The front door keeps others out of a visitor's way: limits by address, user and holder, slow
clients, and crowds. Each was seen failing on a door without its guard.
"""
import json
import os
import shutil
import socket
import subprocess
import sys
import time
from collections.abc import Callable
from concurrent.futures import ThreadPoolExecutor

import pytest

import client
from calls import Answer
from door import SERVICE
from front import FAST
from front import Front
from front import REQUESTS
from front import request

HEAD = b'GET /v1/audit HTTP/1.1\r\nHost: localhost\r\n'
FOUND = '/v1/certificates/1'
"""The registry answers 404 here, so a request that came through is told from one that did not."""
FEW = ('zone=goo_rate:10m rate=20r/s', 'zone=goo_rate:10m rate=1r/m')


def limited(zone: str, rate: str, few: str, name: str, burst: int) -> tuple[tuple[str, str], ...]:
    """A limit that a test meets: one a minute, and so many at once beside it."""
    return ((f'zone={zone} rate={rate}', f'zone={zone} rate=1r/m'),
            (f'zone={name} burst={few}', f'zone={name} burst={burst}'))


def together(act: Callable[[int], Answer], count: int) -> list[int]:
    """The statuses of many requests at once."""
    with ThreadPoolExecutor(16) as pool:
        return [answer.status for answer in pool.map(act, range(count))]


def of_one_limit(statuses: list[int], passed: int, burst: int) -> bool:
    """Whether so many passed at once, a few more as time went on, and all others were too many."""
    through = statuses.count(passed)
    return burst < through <= burst + 10 and through + statuses.count(429) == len(statuses)


# ------------------------------------------------------------------ limits

def test_the_public_check_tells_nothing_of_users() -> None:
    limit = ('zone=goo_verify:2m rate=10r/m', 'zone=goo_verify:2m rate=1r/m')
    with Front(changes=(limit,)) as front:
        got = [front.ask('office', 'GET', '/verify?number=1', password='wrong', GOO_Caller='ISSUER')
               for _ in range(15)]
        assert [answer.status for answer in got] == [404] * 11 + [429] * 4
        assert {answer.fields.get('goo-signed-in') for answer in got} == {None}
        heads = ''.join(front.records.heads).lower()
        assert heads.count('get /verify?number=1 ') == 11
        assert 'goo-' not in heads and 'authorization' not in heads


def test_the_pages_files_have_a_limit_of_their_own() -> None:
    files = limited('goo_files:10m', '10r/s', '300', 'goo_files', 30)
    with Front(changes=(*files, *limited('goo_rate:10m', '20r/s', '60', 'goo_rate', 5))) as front:
        got = [front.ask('anna', 'GET', FOUND).status for _ in range(8)]
        assert got == [404] * 6 + [429] * 2
        names = ('/', '/style.css', '/page.js', '/lists.js')
        got = together(lambda at: front.ask('anna', 'GET', names[at % 4]), 40)
        assert 31 <= got.count(200) <= 35 and got.count(200) + got.count(429) == 40


NAMED = ('    server_tokens       off;\n',
         '    server_tokens       off;\n    set_real_ip_from 127.0.0.1;\n'
         '    real_ip_header X-Trial;\n')
"""The test names the address of a visitor."""


def test_a_network_of_ipv6_is_one_address() -> None:
    with Front(changes=(NAMED, *limited('goo_rate:10m', '20r/s', '60', 'goo_rate', 10))) as front:
        def ask(address: str) -> Answer:
            return front.ask('anna', 'GET', '/v1/audit', password='wrong', X_Trial=address)
        got = together(lambda at: ask(f'2001:db8:1:2:{("", "3:4:5")[at % 2]}:{at + 1:x}'), 40)
        assert of_one_limit(got, 401, 10)
        assert ask('2001:db8:1:3::1').status == 401


def test_a_user_has_one_limit_that_no_stranger_uses_up() -> None:
    user = limited('goo_user:2m     ', '20r/s', '60', 'goo_user', 10)
    with Front(changes=(NAMED, *user)) as front:
        together(lambda at: front.ask('anna', 'GET', FOUND, password='wrong',
                                      X_Trial=f'192.0.2.{at + 1}'), 40)
        assert front.ask('anna', 'GET', FOUND, X_Trial='198.51.100.1').status == 404
        got = together(lambda at: front.ask('anna', 'GET', FOUND, X_Trial=f'192.0.2.{at + 1}'), 40)
        assert of_one_limit(got, 404, 9)
        assert front.ask('bela', 'GET', FOUND, X_Trial='192.0.2.1').status == 404


def test_a_user_writes_so_much_in_a_day_and_his_colleagues_write_on() -> None:
    few = limited('goo_writes:2m', '10r/m', '2000', 'goo_writes', 5)
    with Front(changes=few, more=('carla SUN',)) as front:
        def write(user: str) -> int:
            return front.send(user, 'advance', key='k', day='2025-03-01').status
        assert [write('anna') for _ in range(8)] == [403] * 6 + [429] * 2
        assert front.ask('anna', 'GET', '/v1/audit').status == 403
        assert write('carla') == write('bela') == 403
        assert [write('office') for _ in range(8)] == [409] * 8


def test_few_bundles_of_a_user_are_taken() -> None:
    """Each may be tried on a copy of the registry's file, and all who write wait for it."""
    with Front(changes=limited('goo_bundles:2m', '6r/m', '20', 'goo_bundles', 5)) as front:
        def send(user: str) -> int:
            return front.ask(user, 'POST', '/v1/bundles?whole=yes', b'{}').status
        assert [send('anna') for _ in range(8)] == [404] * 6 + [429] * 2    # there is no log here
        assert send('bela') == 404
        assert front.send('anna', 'advance', key='k', day='2025-03-01').status == 403


# In a network of its own: the rule on connections, and a server that keeps each one.
CROWD = """
import fcntl, json, socket, struct, subprocess, sys
with socket.socket() as s:
    fcntl.ioctl(s, 0x8914, struct.pack("16sh", b"lo", 1))           # SIOCSIFFLAGS, IFF_UP
if sys.argv[1]:
    subprocess.run(["nft", "-f", sys.argv[1]], check=True)
door = socket.create_server(("0.0.0.0", 443), backlog=4096)
def connected(source):
    s = socket.socket()
    s.settimeout(10)
    s.bind((source, 0))
    try:
        s.connect(("127.0.0.1", 443))
        return s
    except OSError:
        s.close()
crowd = [c for c in (connected("127.0.0.2") for _ in range(400)) if c]
print(json.dumps([len(crowd), connected("127.0.0.3") is not None]))
"""


@pytest.mark.skipif(os.geteuid() != 0 or not shutil.which('nft'), reason='nftables, or root')
@pytest.mark.parametrize(('rule', 'count'), [('etc/nftables/front.nft', 128), ('', 400)])
def test_an_address_has_128_connections(rule: str, count: int) -> None:
    """Without the rule all 400 come in, so a rule that does nothing is seen."""
    path = str(SERVICE / rule) if rule else ''
    out = subprocess.run(['unshare', '-n', sys.executable, '-c', CROWD, path], text=True,
                         capture_output=True, timeout=200, check=False)
    assert json.loads(out.stdout) == [count, True], out


# ------------------------------------------------------------------ slow clients

def held(port: int, count: int, text: bytes, front: Front | None = None,
         room: int | None = None) -> list[socket.socket]:
    """Connections that have sent this, and neither send nor read any more."""
    made = []
    for _ in range(count):
        made.append(client.connected(port, 60, front.door.tls() if front else None, room=room))
        made[-1].sendall(text)
    return made


def is_ended(stream: socket.socket) -> bool:
    stream.setblocking(False)
    try:
        return stream.recv(4096) == b''
    except BlockingIOError:
        return False
    except OSError as fault:
        return 'not complete' not in str(fault) and 'did not complete' not in str(fault)


def close(streams: list[socket.socket]) -> None:
    for stream in streams:
        stream.close()


def seconds(front: Front, path: str = '/', user: str = 'anna') -> float:
    """How long a visitor waits; fails where none is served."""
    begun = time.monotonic()
    assert front.ask(user, 'GET', path).status == 200
    return time.monotonic() - begun


PATIENT = (('client_body_timeout       20s', 'client_body_timeout 900s'),
           ('send_timeout              30s', 'send_timeout 900s'),
           ('_timeout    300s;', '_timeout 900s;'), ('_timeout        300s;', '_timeout 900s;'))
"""Nobody is cut off before the test ends, however slow the machine is."""
HALF = request('POST', REQUESTS, 'anna', body=b'x' * 1000)[:-999]


def account_of(front: Front) -> str:
    """The statement of an account of SUN's, which is opened."""
    front.send('office', 'open_holder', key='a1', holder='SUN', name='Sun Power')
    front.send('office', 'open_account', key='a2', holder='SUN')
    return '/v1/accounts/1/statement'


def test_half_a_body_holds_up_nobody() -> None:
    with Front(rate=FAST, changes=PATIENT) as front:
        statement = account_of(front)
        half = held(front.port, 20, HALF, front)
        assert seconds(front, statement) < 30
        assert not any(map(is_ended, half))
        close(half)


def test_without_buffers_half_a_body_holds_up_all() -> None:
    """So the test before can fail."""
    with Front(rate=FAST, without='proxy_request_buffering', changes=PATIENT) as front:
        account_of(front)
        before = front.relay.begun
        half = held(front.port, 1, HALF, front)
        assert client.comes(lambda: front.relay.begun > before)
        with pytest.raises((OSError, AssertionError)):
            client.answered(front.port, request('GET', '/v1/accounts/1/statement', 'anna'),
                            patience=4, tls=front.door.tls())
        close(half)


@pytest.mark.slow
def test_an_answer_that_nobody_reads_leaves_the_registry() -> None:
    """The system holds little of it, as it would else take it off the registry by itself."""
    narrow = (' ssl;\n    include', ' ssl sndbuf=8k;\n    include')
    table = b'key,device,first_day,last_day,gross_wh,aux_wh\n' + b'x\n' * 50000
    with Front(rate=FAST, changes=(*PATIENT, narrow)) as front:
        statement = account_of(front)
        text = request('POST', '/v1/declarations', 'office', body=table)
        before = front.relay.begun
        unread = held(front.port, 2, text, front, room=4096)
        assert client.comes(lambda: front.relay.begun == before + 2
                            and front.relay.under_way == 0, seconds=300)
        assert seconds(front, statement) < 30
        close(unread)


KINDS = {'heads': ('plain', HEAD), 'handshakes': ('port', bytes.fromhex('1603010200'))}
COUNT = 5000


@pytest.mark.slow
@pytest.mark.parametrize('kind', KINDS)
@pytest.mark.parametrize('waits', [True, False])
def test_half_sent_beginnings_hold_up_nobody(kind: str, waits: bool) -> None:
    """They wait beside a visitor, and are cut off after their time."""
    name, begin = KINDS[kind]
    patient = (('client_header_timeout     10s', 'client_header_timeout 900s'),) if waits else ()
    subprocess.run(['prlimit', f'--pid={os.getpid()}', f'--nofile={COUNT + 1000}'], check=True)
    with Front(rate=FAST, workers=2, changes=patient) as front:
        half = held(getattr(front, name), COUNT, begin)
        if waits:
            assert seconds(front) < 90
            assert not any(map(is_ended, half))
        else:
            assert client.comes(lambda: all(map(is_ended, half)), seconds=50)
        close(half)


@pytest.mark.slow
def test_statements_whose_reader_left_hold_up_nobody() -> None:
    """One holder asks for 4,000 runs and leaves, sixty times; few are before the registry."""
    with Front() as front:
        long_account(front, 2000)
        text = request('GET', '/v1/accounts/1/statement', 'anna')

        def leave(_: int) -> None:
            with client.connected(front.port, tls=front.door.tls()) as stream:
                stream.sendall(text)
                time.sleep(0.9)
        with ThreadPoolExecutor(20) as pool:
            list(pool.map(leave, range(60)))
        assert seconds(front, '/v1/accounts/2/statement', 'bela') < 300
        assert front.relay.most <= 3


def long_account(front: Front, count: int) -> None:
    """An account with twice as many runs: every other certificate is cancelled by itself."""
    device = '500000000000000012'
    lines: list[tuple[str, dict[str, object]]]
    lines = [('ISSUER', {'command': 'open_holder', 'key': f'h-{holder}', 'holder': holder,
                         'name': holder}) for holder in ('SUN', 'VOLT')]
    lines += [('ISSUER', {'command': 'open_account', 'key': f'a-{name}', 'holder': name})
              for name in ('SUN', 'VOLT')]
    lines += [('ISSUER', {'command': 'register_device', 'key': 'd', 'account': 1, 'country': 'DE',
                          'capacity_w': 2_000_000_000, 'commissioned': '2020-06-15',
                          'device': device, 'site': 'North', 'source': 'F01010100',
                          'support': 'none', 'tech': 'T010000'}),
              ('ISSUER', {'command': 'declare', 'key': 'x', 'device': device, 'aux_wh': 0,
                          'first_day': '2025-01-01', 'last_day': '2025-01-31',
                          'gross_wh': 2_000_000 * count})]
    lines += [('SUN', {'command': 'cancel', 'key': f'c{at}', 'account': 1, 'beneficiary': 'B',
                       'first': f'07{2 * at + 1:012}', 'last': f'07{2 * at + 1:012}',
                       'use_first': '2025-01-01', 'use_last': '2025-01-31'})
              for at in range(count)]
    front.stop('registry')
    text = ''.join(f'{caller} {json.dumps(body)}\n' for caller, body in lines)
    subprocess.run([front.goo, 'run', '--db', front.db], input=text, text=True, check=True,
                   capture_output=True)
    front.start('registry')
