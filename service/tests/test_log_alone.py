"""A replica of the log by itself: what it lets into the log, for whom, and that it starts again."""
import concurrent.futures
import contextlib
import datetime
import json
import os
import socket
import subprocess
import tempfile
import time
from collections.abc import Iterator
from pathlib import Path

import pytest

from goo_service.log import reader
from goo_service.log import entries
from alone import KEY
from alone import Alone
from door import SERVICE
from calls import Answer
from service_commands import command

HEADER = b'key,device,first_day,last_day,gross_wh,aux_wh\n'
ROW = b'k,500000000000000012,2025-02-01,2025-02-14,5,0\n'
MEGABYTE = 1_048_576
REQUEST = b'{"command":"open_account","key":"%d","holder":"SUN"}'
ADVANCE = '{{"command":"advance","day":"{}","key":"a-{}"}}'
TOMORROW = (datetime.date.today() + datetime.timedelta(1)).isoformat()


@pytest.fixture
def folder() -> Iterator[Path]:
    with tempfile.TemporaryDirectory(dir='/dev/shm', prefix='goo-log-') as path:
        Path(path).chmod(0o755)
        yield Path(path)


@pytest.fixture
def log(folder: Path) -> Iterator[Alone]:
    with Alone(folder) as standing:
        yield standing


def error_of(answer: Answer) -> str:
    """What a refusal says. It is JSON, and of no entry."""
    assert answer.fields['content-type'] == 'application/json' and answer.entry is None
    return str(json.loads(answer.body)['error'])


# ------------------------------------------------------------------ bounds before the log

def test_what_is_out_of_bounds_is_no_entry(log: Alone) -> None:
    tables = [(21_001, 413), (21_000, 200)]
    for count, status in tables:
        answer = log.table(HEADER + b'a\n' * count, 'SUN')
        assert answer.status == status
        assert status == 200 or '21001 rows' in error_of(answer)
    for size, caller, word, status in (
            (65_536, 'SUN', 'cancel', 200), (65_537, 'SUN', 'cancel', 413),
            (65_537, 'ISSUER', 'cancel', 413), (MEGABYTE, 'ISSUER', 'import', 200),
            (MEGABYTE, 'SUN', 'import', 413)):
        head = json.dumps({'command': word, 'key': 'a'})[:-1] + ',"reason":"'
        answer = log.send((head + 'x' * (size - len(head) - 2) + '"}').encode(), caller)
        assert answer.status == status
        assert status == 200 or '65536' in error_of(answer)
    with socket.socket(socket.AF_UNIX) as by_length:
        by_length.connect(str(log.door))
        by_length.sendall(b'POST /v1/declarations HTTP/1.1\r\nHost: goo\r\nGOO-Caller: SUN\r\n'
                          b'Content-Length: 1048577\r\n\r\n')
        assert by_length.recv(4096).startswith(b'HTTP/1.1 413 ')
    lengths = [len(record.entry.body) for record in log.records()]
    assert lengths == [len(HEADER) + 42_000, 65_536, MEGABYTE]
    assert [len(body) for *_, body in log.registry.asked] == lengths


def test_a_user_s_bytes_of_a_day_are_counted_over_restarts(log: Alone) -> None:
    """As lines of the log: a body that is no text has four bytes for three there.

    His colleagues send on.
    """
    body = b'\xff' * 1_000_000
    for sent in range(30):
        answer = log.table(body, 'SUN')
        if answer.status != 200:
            break
        if sent in (1, 9, 11):
            log.restart()
    lines = (log.state / 'archive').glob('*.jsonl')
    size = sum(len(line) for path in lines for line, _ in reader.lines(path)
               if b'"caller":"SUN"' in line)
    assert size <= 16_777_216 < size + 1_334_000
    assert answer.status == 429 and 'SUN' in error_of(answer)
    now = datetime.datetime.now(datetime.timezone.utc)
    left = 86_400 - (now.hour * 3600 + now.minute * 60 + now.second)
    assert abs(int(answer.fields['retry-after']) - left) < 5
    assert log.table(body, 'VOLT').status == log.table(body, 'ISSUER').status == 200
    log.restart()
    assert log.table(body, 'SUN').status == 429
    assert log.table(body, 'SUN', GOO_User='a colleague').status == 200
    assert log.table(HEADER + ROW, 'SUN').status == (200 if size < 16_776_000 else 429)


def test_what_waits_is_counted_too(log: Alone) -> None:
    """Sixty requests at once that are together above the bound: no more come into the log."""
    log.registry.pause = lambda: 0.05
    with concurrent.futures.ThreadPoolExecutor(60) as pool:
        answers = list(pool.map(lambda _: log.table(b'\xff' * 900_000, 'SUN'), range(60)))
    statuses = [answer.status for answer in answers]
    assert set(statuses) <= {200, 429, 503} and statuses.count(429) > 20
    assert sum(len(record.entry.body) for record in log.records()) * 4 / 3 < 16_777_216


def test_bodies_on_their_way_are_bounded_by_their_bytes(log: Alone) -> None:
    head = (b'POST /v1/declarations HTTP/1.1\r\nHost: goo\r\nGOO-Caller: SUN\r\n'
            b'Content-Length: 1048576\r\n\r\n')
    with contextlib.ExitStack() as stack:
        opened = [stack.enter_context(socket.socket(socket.AF_UNIX)) for _ in range(70)]
        for one in opened:
            one.connect(str(log.door))
            one.sendall(head)
        time.sleep(0.5)
        told = []
        for one in opened:
            one.setblocking(False)
            with contextlib.suppress(BlockingIOError):
                told.append(one.recv(100)[9:12])
        assert told == [b'503'] * 6
        assert log.send(REQUEST % 1).status == 503
    time.sleep(0.5)
    assert log.send(REQUEST % 1).status == 200


# ------------------------------------------------------------------ the date

def test_a_move_past_the_host_s_day(log: Alone) -> None:
    past = ADVANCE.format(TOMORROW, 1).encode()
    answer = log.send(past)
    assert answer.status == 403 and TOMORROW in error_of(answer)
    assert log.send(past, GOO_Confirm='2099-01-01').status == 403
    assert log.send(ADVANCE.format('2036-01-01', 2).encode(), GOO_Confirm=TOMORROW).status == 403
    assert log.send(past, GOO_Confirm=TOMORROW).status == 200
    assert log.send(past).status == 403
    today = datetime.date.today().isoformat()
    assert log.send(ADVANCE.format(today, 3).encode()).status == 200
    assert [record.entry.body.decode() for record in log.records()] == [
        ADVANCE.format(TOMORROW, 1), ADVANCE.format(today, 3)]


def asked_by(user: int, log: Alone, *fields: str) -> str:
    """The status that another user of the host is told, who may use the socket."""
    log.door.chmod(0o666)
    words = [word for name in ('GOO-Caller: ISSUER', 'GOO-Role: full', *fields)
             for word in ('--header', name)]
    done = subprocess.run(
        ['setpriv', f'--reuid={user}', f'--regid={user}', '--clear-groups', 'curl', '--silent',
         '--output', '/dev/null', '--write-out', '%{http_code}', *words, '--unix-socket', log.door,
         '--data', ADVANCE.format(TOMORROW, 4), 'http://goo/v1/requests'],
        capture_output=True, text=True, timeout=30)
    return done.stdout


@pytest.mark.skipif(os.geteuid() != 0, reason='another user asks for root')
def test_root_alone_confirms(log: Alone) -> None:
    """Whoever is nginx or the agent reaches the socket too, and moves no date past the host's."""
    assert asked_by(65534, log, f'GOO-Confirm: {TOMORROW}') == '403'
    assert asked_by(0, log) == '403'
    assert asked_by(0, log, f'GOO-Confirm: {TOMORROW}') == '200'


def test_the_operator_s_word_confirms(log: Alone) -> None:
    def advance(*words: str) -> subprocess.CompletedProcess[str]:
        program = command('goo-advance', SERVICE)
        return subprocess.run([*program, *words, '--door', str(log.door)], capture_output=True,
                              text=True, timeout=30, check=False)
    assert advance(TOMORROW).returncode == 1
    assert not log.records()
    assert advance(TOMORROW, '--confirm', TOMORROW).returncode == 0
    assert advance().returncode == 0
    assert [json.loads(record.entry.body)['day'] for record in log.records()] == [
        TOMORROW, datetime.date.today().isoformat()]
    assert {record.entry.role for record in log.records()} == {'full'}


# ------------------------------------------------------------------ roles

def test_a_role_is_looked_at_before_the_log(log: Alone) -> None:
    """No role is the least. What a role does not allow is no entry; the journal has it."""
    for role, route in (('', '/v1/requests'), ('reads', '/v1/requests'), ('all', '/v1/requests'),
                        ('declares', '/v1/requests'), ('', '/v1/declarations')):
        answer = log.ask('POST', route, REQUEST % 1, GOO_Role=role, GOO_User='paula')
        assert answer.status == 403 and (role or 'reads') in error_of(answer)
        assert f'refused by role: paula ({role or "reads"}) POST {route}' in log.said()
    assert not log.registry.asked
    assert log.ask('GET', '/v1/audit', GOO_Role='').status == 200
    for role, route in (('declares', '/v1/declarations'), ('full', '/v1/requests')):
        assert log.ask('POST', route, REQUEST % 1, GOO_Role=role).status == 200
    assert [record.entry.role for record in log.records()] == ['declares', 'full']


def older_log(state: Path) -> None:
    """A log as it was written before: a role left out was full, what a role lacks an entry."""
    file = next((state / 'log').glob('*.jsonl'))
    line = file.read_bytes().splitlines()[-1]
    for n, role in enumerate(('', 'reads', 'full'), 2):
        entry = entries.Entry(n, entries.hash_of(line), entries.now(), 'h1', 'paula', '', role,
                              'ISSUER', 'POST', '/v1/requests', 'trial', f'{n}', REQUEST % n)
        line = entries.entry_line(entry, KEY)
        with open(file, 'ab') as log:
            log.write(line + b'\n')


def test_an_older_log_is_applied_as_it_was(folder: Path) -> None:
    with Alone(folder, before=older_log) as log:
        told = [(record.entry.role, record.outcome.status) for record in log.records()]
        assert told == [('', 200), ('reads', 403), ('full', 200)]
        assert [body for *_, body in log.registry.asked] == [REQUEST % 2, REQUEST % 4]
        assert log.send(REQUEST % 9).entry == 5


# ------------------------------------------------------------------ a start

def test_a_damaged_entry_is_told_and_each_start_says_so(log: Alone) -> None:
    for n in range(9):
        log.send(REQUEST % n)
    log.parts['log'].end()
    files = [next((log.state / name).glob('*.jsonl')) for name in ('archive', 'log')]
    for file in files:
        whole = file.read_bytes()
        spoilt = whole.replace(b'"key\\":\\"4', b'"key\\":\\"5', 1)
        file.write_bytes(spoilt)
        for _ in range(2):
            done = subprocess.run([str(word) for word in log.parts['log'].words()],
                                  capture_output=True, text=True, timeout=30)
            assert done.returncode == 1 and 'entry 6' in done.stderr and str(file) in done.stderr
            assert file.read_bytes() == spoilt and not list(file.parent.glob('*.cut'))
        file.write_bytes(whole)
    log.parts['log'].start()
    assert log.send(REQUEST % 10).status == 200


ON_FULL = ('mount -t tmpfs -o size=1m none "$0" && cp -a "$0-made/." "$0" && '
           '! cat /dev/zero > "$0/zeros" 2> /dev/null && exec "$@"')


@pytest.mark.skipif(os.geteuid() != 0, reason='a disk of its own asks for root')
def test_a_start_on_a_full_disk_with_torn_ends(folder: Path) -> None:
    """It comes up, mends both ends without a byte of room, answers reads and says what is wrong."""
    made = folder / 'made'
    made.mkdir()
    with Alone(made) as log:
        for n in range(5):
            log.send(REQUEST % n)
    for file in (next((made / 'state' / name).glob('*.jsonl')) for name in ('archive', 'log')):
        file.write_bytes(file.read_bytes() + b'{"entry":{"n":7,"prev":"')

    def torn(state: Path) -> None:
        made.joinpath('state').rename(f'{state}-made')

    under = ['unshare', '--mount', 'bash', '-c', ON_FULL, str(folder / 'state')]
    with Alone(folder, before=torn, under=under, known=log.known) as log:
        assert log.health()['entry'] == log.health()['end'] == 6
        assert log.said().count('was cut off') == 2
        assert log.ask('GET', '/v1/audit').status == 200
        with pytest.raises(OSError):            # it waits for room as long as its client does
            log.send(REQUEST % 9 + b' ' * 60_000, patience=1)
        assert log.send(REQUEST % 8).status == 503
        assert 'disk of the log is full' in log.health()['why']
        assert 'Traceback' not in log.said()


# ------------------------------------------------------------------ the way of signing in

@pytest.mark.parametrize('over_etcd', [False, True])
def test_an_entry_names_the_way_and_the_second_user(folder: Path, over_etcd: bool) -> None:
    with Alone(folder, etcd_words=[] if over_etcd else None) as log:
        assert log.ask('POST', '/v1/requests', REQUEST % 1, GOO_User='anna',
                       GOO_Way='token nightly', GOO_Confirmed='ben').status == 200
        assert log.send(REQUEST % 2).status == 200
        named, plain = [record.entry for record in log.records()][-2:]
        assert (named.user, named.way, named.confirmed) == ('anna', 'token nightly', 'ben')
        assert (plain.way, plain.confirmed) == ('', '')
        log.restart()
        assert log.send(REQUEST % 3).status == 200


@pytest.mark.parametrize('name', ['GOO-Way', 'GOO-Confirmed', 'GOO-Accounts'])
def test_a_field_that_stands_twice_leaves_no_caller(log: Alone, name: str) -> None:
    with socket.socket(socket.AF_UNIX) as s:
        s.connect(str(log.door))
        head = ('POST /v1/requests HTTP/1.1\r\nHost: goo\r\nGOO-Caller: ISSUER\r\n'
                f'GOO-Role: full\r\n{name}: 1\r\n{name}: 2\r\n')
        s.sendall(f'{head}Content-Length: {len(REQUEST % 9)}\r\n\r\n'.encode() + REQUEST % 9)
        assert s.recv(100).startswith(b'HTTP/1.1 403')


# ------------------------------------------------------------------ over etcd

def test_many_long_requests_hold_up_nobody(folder: Path) -> None:
    """Sixteen bodies that are no text have 1.2 MB, and 1.6 MB as lines: etcd takes 1.5 MiB.

    They gather for one append while the registry is busy with ten others.
    """
    with Alone(folder, etcd_words=[]) as log, concurrent.futures.ThreadPoolExecutor(30) as pool:
        for turn in range(3):
            first = [0.4]
            log.registry.pause = lambda: first.pop() if first else 0.0
            began = time.monotonic()
            busy = [pool.submit(log.send, REQUEST % (20 * turn + n)) for n in range(10)]
            time.sleep(0.2)
            many = [pool.submit(log.table, b'\xff' * 74_000, 'SUN') for _ in range(16)]
            other = pool.submit(log.send, REQUEST % (20 * turn + 11), 'VOLT')
            answers = [one.result() for one in (*busy, *many, other)]
            assert [answer.status for answer in answers] == [200] * 27
            assert time.monotonic() - began < 5


def test_a_request_that_etcd_denies_is_told_at_once_and_alone(folder: Path) -> None:
    """Where etcd takes less than the log thinks: the one that is too large is not sent again."""
    with (Alone(folder, etcd_words=['--max-request-bytes', '200000']) as log,
          concurrent.futures.ThreadPoolExecutor(20) as pool):
        first = [0.5]
        log.registry.pause = lambda: first.pop() if first else 0.0
        began = time.monotonic()
        busy = pool.submit(log.send, REQUEST % 1)
        time.sleep(0.1)
        large = [pool.submit(log.table, b'x' * 300_000, 'SUN') for _ in range(2)]
        others = [pool.submit(log.send, REQUEST % n, 'VOLT') for n in range(2, 7)]
        assert [one.result().status for one in (busy, *others)] == [200] * 6
        told = [one.result() for one in large]
        assert time.monotonic() - began < 5
        assert [answer.status for answer in told] == [413, 413]
        assert 'too large' in error_of(told[0])
        assert log.said().count('was denied') == 2
        assert log.send(REQUEST % 9).status == 200
        assert [record.entry.n for record in log.records()] == list(range(2, 9))
