"""The front door's host: a balancer in front, nginx that ends, and who reads the files of nginx."""
import dataclasses
import os
import pathlib
import re
import shutil
import socket
import subprocess
from collections.abc import Iterator

import pytest

import client
from front import FAST
from front import Front
from front import FEW_COMPARISONS
from front import REQUESTS
from front import STRANGER
from front import Standin
from front import VISITOR
from front import answer_of
from front import lines_of_log
from front import nginx_of
from front import request
from front import sent
from door import SERVICE
from service_commands import command


# ------------------------------------------------------------------ a balancer in front


def balanced(front: Front, port: int, without: str = '') -> str:
    """The balancer's file with ports of this machine: the house is the first host."""
    text = (SERVICE / 'etc/haproxy/haproxy.cfg').read_text()
    for old, new in (
        ('bind :443', f'bind 127.0.0.1:{port}'),
        ('192.0.2.1:8443', f'127.0.0.1:{front.door.behind}'),
        ('192.0.2.2:', '127.0.0.9:'),
        ('192.0.2.3:', '127.0.0.9:'),
        ('port 8475', f'port {front.door.health}'),
    ):
        assert old in text
        text = text.replace(old, new)
    return text.replace(without, '') if without else text


@pytest.fixture(scope='module')
def through() -> Iterator[tuple[Front, int]]:
    """A front door behind the real haproxy, and the port for visitors. Passwords: three at once."""
    port = client.free_port()
    with Front(changes=FEW_COMPARISONS, balancer='127.0.0.1') as front:
        well = Standin(front.folder / 'door.sock', answer_of('200 OK'))
        well.may_answer.set()
        (front.folder / 'haproxy.cfg').write_text(balanced(front, port))
        balancer = subprocess.Popen(
            ['haproxy', '-db', '-f', front.folder / 'haproxy.cfg'], stderr=subprocess.DEVNULL
        )
        try:
            assert client.comes(lambda: is_served(front, port), 20)
            yield front, port
        finally:
            balancer.terminate()
            balancer.wait(20)


def is_served(front: Front, port: int) -> bool:
    """Whether the balancer has found its first host."""
    try:
        return front.ask(None, 'GET', '/style.css', port=port).status == 200
    except OSError:
        return False


def test_balancer_tells_whose_a_connection_is(through: tuple[Front, int]) -> None:
    front, port = through
    got = [
        front.ask('anna', 'GET', '/v1/audit', password='wrong', source=STRANGER, port=port).status
        for _ in range(5)
    ]
    assert got == [401, 401, 401, 429, 429]
    assert front.ask('anna', 'GET', '/v1/audit', source=VISITOR, port=port).status == 200
    assert [line['address'] for line in lines_of_log(front)[-6:]] == [STRANGER] * 5 + [VISITOR]


def test_nobody_else_tells_whose_a_connection_is(through: tuple[Front, int]) -> None:
    """Who comes to the balancer's port by himself keeps his address; at the other none is told."""
    front, _ = through
    said = f'PROXY TCP4 127.0.0.77 127.0.0.1 1000 {front.door.behind}\r\n'.encode()
    with socket.create_connection(('127.0.0.1', front.door.behind), 20, (STRANGER, 0)) as plain:
        plain.sendall(said)
        with front.door.tls().wrap_socket(plain, server_hostname='localhost') as stream:
            stream.sendall(request('GET', '/style.css'))
            client.read_most(stream)
    assert client.comes(lambda: lines_of_log(front)[-1]['route'] == '/style.css', 10)
    assert lines_of_log(front)[-1]['address'] == STRANGER
    got = client.ask(front.port, said + b'GET / HTTP/1.1\r\nHost: localhost\r\n\r\n')
    assert b'400 Bad Request' in got


def test_another_name_is_refused_behind_the_balancer(through: tuple[Front, int]) -> None:
    front, port = through
    text = b'GET / HTTP/1.1\r\nHost: evil.example\r\nConnection: close\r\n\r\n'
    assert sent(front, text, port=port).status == 421


def begun(port: int) -> socket.socket | None:
    """A connection of the stranger's that says nothing; None where it is not taken."""
    try:
        return socket.create_connection(('127.0.0.1', port), 20, (STRANGER, 0))
    except OSError:
        return None


def waits(stream: socket.socket | None) -> bool:
    """Whether a connection is neither ended nor answered."""
    if stream is None:
        return False
    stream.setblocking(False)
    try:
        return stream.recv(1) != b''
    except BlockingIOError:
        return True
    except OSError:
        return False


def test_an_address_has_so_many_connections_at_the_balancer(through: tuple[Front, int]) -> None:
    front, port = through
    held = [begun(port) for _ in range(160)]
    assert client.comes(lambda: sum(map(waits, held)) == 128, 5)
    assert front.ask(None, 'GET', '/style.css', source=VISITOR, port=port).status == 200
    for stream in held:
        if stream:
            stream.close()


def front_health(front: Front) -> subprocess.CompletedProcess[str]:
    """A run of service/libexec/front-health over a house."""
    return subprocess.run(
        [SERVICE / 'libexec/front-health'],
        env={'PATH': '/usr/bin:/bin', 'GOO_ETC': str(front.door.etc),
             'GOO_FRONT_PORT': str(front.port)},
        capture_output=True,
        text=True,
        check=False,
    )


def test_health_asks_the_front_door_itself() -> None:
    with Front(rate=FAST) as front:
        Standin(front.folder / 'door.sock', answer_of('200 OK')).may_answer.set()
        well = front_health(front)
        assert (well.returncode, well.stdout, well.stderr) == (0, '', '')
        assert front.ask(None, 'GET', '/healthz', source=STRANGER).status == 403
        Standin(front.folder / 'door.sock', answer_of('503 Service Unavailable')).may_answer.set()
        assert '503' in front_health(front).stderr
        front.stop('nginx')
        down = front_health(front)
        assert down.returncode and 'connect' in down.stderr
        (front.door.etc / 'host.conf').write_text('# nothing\n')
        assert 'server_name' in front_health(front).stderr


def section(path: str, name: str) -> list[tuple[str, str]]:
    """The settings in one section of a unit or drop-in, in their order."""
    text = (SERVICE / 'etc' / path).read_text().partition(f'[{name}]\n')[2].partition('\n[')[0]
    return [
        (key, value)
        for key, _, value in (
            line.partition('=') for line in text.splitlines() if not line.startswith('#')
        )
        if value or key
    ]


def test_nginx_is_started_again_and_its_end_is_told() -> None:
    unit, service = section('nginx/nginx.service.conf', 'Unit'), section(
        'nginx/nginx.service.conf', 'Service'
    )
    assert ('StartLimitIntervalSec', '0') in unit and ('Restart', 'always') in service
    assert any(key == 'ExecStopPost' and 'goo-alarm@%n.service' in value for key, value in service)
    sockets = set(re.findall(r'listen unix:(\S+);', (SERVICE / 'etc/nginx/goo.conf').read_text()))
    removed = next(value for key, value in service if key == 'ExecStartPre' and 'rm -f' in value)
    assert sockets == set(removed.split()[2:])
    assert ('ExecStart', '/usr/lib/goo/front-health') in section(
        'systemd/goo-health.service', 'Service'
    )


# ------------------------------------------------------------------ who reads what on this host


def test_map_of_callers_is_for_root_alone(tmp_path: pathlib.Path) -> None:
    listed, users, made = tmp_path / 'callers', tmp_path / 'users', tmp_path / 'map'
    listed.write_text('anna SUN\n')
    users.write_text('anna:$2y$08$6oKgfgcaPPdrJFmNPb8Vn.zoMilNsYJFKY9NiC9vva1cP3n9xG/2y\n')
    words = list(map(str, [*command('goo-callers', SERVICE), '--list', listed, '--users', users,
                           '--map', made]))
    made.write_text('')
    made.chmod(0o644)
    for path in (listed, users):
        path.chmod(0o644)
    out = subprocess.run(words, capture_output=True, text=True, check=True, umask=0)
    assert oct(made.stat().st_mode & 0o777) == '0o640'
    assert [line.split(':')[0] for line in out.stderr.splitlines()] == [str(listed), str(users)]
    for path in (listed, users):
        path.chmod(0o640)
    assert subprocess.run(words, capture_output=True, text=True, check=True).stderr == ''


def test_log_is_for_root_and_its_group(tmp_path: pathlib.Path) -> None:
    """systemd-tmpfiles over a folder in place of the root: a new log, and one open to all."""
    (tmp_path / 'etc').mkdir()
    for name in ('passwd', 'group'):
        (tmp_path / 'etc' / name).write_bytes(pathlib.Path('/etc', name).read_bytes())
    words = [
        'systemd-tmpfiles',
        '--create',
        f'--root={tmp_path}',
        str(SERVICE / 'etc/tmpfiles/goo.conf'),
    ]
    subprocess.run(words, check=True, capture_output=True)
    log = tmp_path / 'var/log/goo/front-door.log'
    assert [oct(path.stat().st_mode & 0o777) for path in (log.parent, log)] == ['0o751', '0o640']
    log.write_text('kept\n')
    log.chmod(0o644)
    log.parent.chmod(0o755)
    subprocess.run(words, check=True, capture_output=True)
    assert [oct(path.stat().st_mode & 0o777) for path in (log.parent, log)] == ['0o751', '0o640']
    assert (
        log.read_text() == 'kept\n' and log.owner() == 'www-data' and log.parent.owner() == 'root'
    )


# ------------------------------------------------------------------ the list of callers

LISTS = {'office ISSUER\noffice SUN\n': 'office stands in',
         'office ISSUER\nOffice SUN\n': 'Office differs from office',
         'office\n': 'USER CALLER [ROLE]', 'anna sun\n': "sun is no holder's code",
         'anna SUN boss\n': 'boss is no role', 'registry09 peer 9\n': 'two digits',
         'registry09 peer 00\n': 'two digits', '"anna b" SUN\n': 'no blank',
         '"anna SUN\n': 'a quote', 'änna SUN\n': 'ASCII', 'anna:b SUN\n': 'no colon'}
HASH = '$2y$08$6oKgfgcaPPdrJFmNPb8Vn.zoMilNsYJFKY9NiC9vva1cP3n9xG/2y'


@dataclasses.dataclass
class Listed:
    """Files of callers in a folder, and the run of goo-callers over them."""

    folder: pathlib.Path

    def run(self, *words: str, path: str = '') -> 'subprocess.CompletedProcess[str]':
        own = [f'--list={self.folder}/callers', f'--users={self.folder}/users',
               f'--map={self.folder}/map']
        return subprocess.run([*command('goo-callers', SERVICE), *own, *words], text=True,
                              capture_output=True, check=False,
                              env={**os.environ, 'PATH': path or os.environ['PATH']})

    def calls(self, **statuses: int) -> tuple['subprocess.CompletedProcess[str]', list[str]]:
        """What --reload calls where these programs end with these statuses."""
        called = self.folder / 'called'
        for program, status in statuses.items():
            file = self.folder / program
            file.write_text(f'#!/bin/sh\necho {program} $* >> {called}\nexit {status}\n')
            file.chmod(0o755)
        out = self.run('--reload', path=f'{self.folder}:{os.environ["PATH"]}')
        return out, called.read_text().splitlines()


@pytest.fixture
def listed(tmp_path: pathlib.Path) -> Listed:
    (tmp_path / 'callers').write_text('office ISSUER\n')
    (tmp_path / 'users').write_text(f'office:{HASH}\n')
    made = Listed(tmp_path)
    assert made.run().returncode == 0
    return made


@pytest.mark.parametrize('text', LISTS)
def test_a_list_with_a_fault_leaves_the_map(listed: Listed, text: str) -> None:
    kept = (listed.folder / 'map').read_text()
    (listed.folder / 'callers').write_text(text)
    out = listed.run()
    assert out.returncode == 1 and LISTS[text] in out.stderr
    assert (listed.folder / 'map').read_text() == kept


def test_what_does_not_fit_the_passwords_is_told(listed: Listed) -> None:
    (listed.folder / 'callers').write_text('office ISSUER\nnobody SUN\n')
    with open(listed.folder / 'users', 'a') as file:
        file.write(f'bela:{HASH}\nsha:{{SHA}}W6ph5Mm5Pz8GgiULbPgzG37mj9g=\n')
    out = listed.run()
    assert out.returncode == 0
    for told in ('nobody: no password', 'bela: a password and no line', 'sha: a password that'):
        assert told in out.stderr


def test_nginx_is_reloaded_once_it_takes_the_configuration(listed: Listed) -> None:
    out, called = listed.calls(nginx=0, systemctl=0)
    assert (out.returncode, called) == (0, ['nginx -t -q', 'systemctl reload nginx'])
    (listed.folder / 'called').unlink()
    out, called = listed.calls(nginx=1, systemctl=0)
    assert (out.returncode, called) == (1, ['nginx -t -q'])
    assert 'nginx -t -q: status 1' in out.stderr


# ------------------------------------------------------------------ the log of the front door

def written(front: Front, count: int) -> list[dict[str, str]]:
    """The lines of the log, which come after the answers: so many are waited for."""
    file = front.folder / 'front-door.log'
    assert client.comes(lambda: file.exists() and file.read_text().count('\n') >= count, 30)
    return lines_of_log(front)


def test_log_has_who_asked_what_and_no_password() -> None:
    with Front(rate=FAST) as front:
        front.relay.line = 'GOO-Entry: 17'
        front.send('office', 'open_holder', key='log-1.a:b_c', holder='SUN',
                   name='Say \\"key\\": \\"forged\\"')
        front.relay.line = ''
        body = b'{"command" : "open_account",\n "key" : "log-2", "holder":"SUN"}'
        front.ask('office', 'POST', REQUESTS, body)
        front.ask('anna', 'GET', '/v1/accounts/1/statement')
        front.ask('anna', 'GET', '/v1/audit', password='S3cret-one')
        front.ask('S3cret-two', 'GET', '/v1/audit', password='S3cret-three')
        front.ask('office', 'POST', '/v1/declarations',
                  b'key,device,first_day,last_day,gross_wh,aux_wh\nrow-1,1,2,3,4,5\n')
        got = written(front, 6)
        every = ''.join(file.read_text() for file in front.folder.glob('*.log'))
        rotated(front)
    names = ('user', 'caller', 'status', 'method', 'route', 'key', 'entry')
    assert [tuple(line[name] for name in names) for line in got] == [
        ('office', 'ISSUER', '200', 'POST', '/v1/requests', 'log-1.a:b_c', '17'),
        ('office', 'ISSUER', '200', 'POST', '/v1/requests', 'log-2', ''),
        ('anna', 'SUN', '200', 'GET', '/v1/accounts/1/statement', '', ''),
        ('?anna', '', '401', 'GET', '/v1/audit', '', ''),
        ('', '', '401', 'GET', '/v1/audit', '', ''),
        ('office', 'ISSUER', '200', 'POST', '/v1/declarations', '', '')]
    assert {line['address'] for line in got} == {'127.0.0.1'}
    assert all(re.match(r'\d{4}-\d\d-\d\dT\d\d:\d\d:\d\d', line['time']) for line in got)
    assert 'S3cret' not in every and 'pw-' not in every


def rotated(front: Front) -> None:
    """logrotate keeps ten years; nginx goes on in a new file."""
    text = (SERVICE / 'etc/logrotate/goo').read_text()
    assert re.search(r'(?m)^\s*monthly$', text) and re.search(r'(?m)^\s*rotate 120$', text)
    conf = front.folder / 'logrotate.conf'
    conf.write_text(text.replace('/var/log/goo/', f'{front.folder}/').replace('www-data', 'root')
                    .replace('invoke-rc.d nginx rotate', f'kill -USR1 {nginx_of(front)}'))
    conf.chmod(0o644)
    subprocess.run(['logrotate', '-f', '-s', front.folder / 'logrotate.state', conf], check=True,
                   capture_output=True)

    def is_new() -> bool:
        front.ask('bela', 'GET', '/v1/audit')
        return (front.folder / 'front-door.log').exists() and bool(lines_of_log(front))
    assert client.comes(is_new, 30)
    assert {line['user'] for line in lines_of_log(front)} == {'bela'}
    old, = front.folder.glob('front-door.log-*')
    assert 'log-2' in old.read_text()


# ------------------------------------------------------------------ room for the registry

def test_watch_tells_of_a_registry_that_outgrows_its_host(tmp_path: pathlib.Path) -> None:
    file = tmp_path / 'large.db'

    def told(memory: str) -> tuple[int, str]:
        done = subprocess.run([SERVICE / 'libexec/watch'], text=True, capture_output=True,
                              check=False, env={**os.environ, 'GOO_DB': str(file),
                                                'GOO_MEMORY': memory})
        return done.returncode, done.stdout + done.stderr
    status, text = told(str(2 << 30))
    assert status == 1 and str(file) in text, 'no file'
    os.truncate(os.open(file, os.O_CREAT | os.O_WRONLY), 100 << 20)
    assert told(str(2 << 30))[0] == 0 and '100 MB' in told(str(2 << 30))[1]
    assert told(str(250 << 20))[0] == 1 and 'MemoryMax' in told(str(250 << 20))[1]
    assert told('infinity')[0] == 0
    os.truncate(os.open(f'{file}-wal', os.O_CREAT | os.O_WRONLY), 400 << 20)
    assert told(str(1 << 30))[0] == 1, 'the log beside it counts'
    os.truncate(file, shutil.disk_usage(tmp_path).free + (1 << 30))
    status, text = told('infinity')
    assert status == 1 and 'free' in text, 'no room for a copy'
