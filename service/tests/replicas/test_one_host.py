"""A registry behind its log on one host: crashes, restores, a weak goo, bad clients, shipping."""
import collections
import contextlib
import itertools
import os
import random
import re
import shutil
import signal
import socket
import struct
import subprocess
import threading
import time
from collections.abc import Callable
from collections.abc import Iterator
from pathlib import Path

import client
import pytest
from goo_service.log import reader
from goo_service.log import entries
from mutations import gsrn
from replicas.clients import Clients
from replicas.clients import HEAD
from replicas.cluster import Cluster
from replicas.cluster import DELAY
from replicas.cluster import Rows
from replicas.cluster import dump
from replicas.conftest import Make
from replicas.conftest import must_have
from replicas.faults import Weak
from replicas.held import Bare
from replicas.held import first_copy
from replicas.held import is_carried_out
from replicas.held import without_numbers
from replicas.host import Host
from replicas.talk import CRASHING
from replicas.talk import GOO
from replicas.talk import Port
from replicas.talk import REPLICA
from replicas.talk import REPLICA_LOG
from replicas.talk import VERSION
from replicas.talk import ask
from replicas.talk import day
from replicas.talk import group_of
from replicas.talk import must
from replicas.talk import open_account
from replicas.talk import run
from replicas.talk import until

slow = pytest.mark.slow
PROGRAMS = ('replica', 'goo')
LACKING = {'rsync': 'rsync', 'ssh': 'openssh-client', 'sshd': 'openssh-server', 'ip': 'iproute2'}


@pytest.fixture(scope='module')
def cluster(begin: Make) -> Iterator[Cluster]:
    with begin(1) as made:
        yield made


def must_be_as_replayed(cluster: Cluster) -> None:
    """The registry has the rows of one that takes the archive in one pass."""
    host = cluster.hosts[0]
    cluster.even(60)
    cluster.stop(*PROGRAMS)
    try:
        rows = dump(host.disk / 'goo/registry.db', cluster.folder / 'rows')
        assert replayed_archive(cluster) == rows
        done = host.op('verify', '--from', first_copy(cluster))
        assert done.returncode == 0, done
    finally:
        host.release('goo', 'replica')
    cluster.even(60)


def replayed_archive(cluster: Cluster) -> Rows:
    """The rows of a fresh registry after all entries of the archive."""
    db = cluster.folder / 'again/registry.db'
    shutil.rmtree(db.parent, ignore_errors=True)
    db.parent.mkdir()
    shutil.copy(cluster.folder / 'begun.db', db)
    bare = Bare(cluster, db)
    for one in reader.read_archive(cluster.hosts[0].state / 'archive'):
        if is_carried_out(one.entry) and one.outcome.status != entries.SET_ASIDE:
            bare.ask('POST', one.entry.route, one.entry.caller, one.entry.body)
    bare.stop()
    return dump(db, cluster.folder / 'rows-again')


# -------------------------------------------------------------------- crashes

@slow
def test_crashes_before_the_place_is_recorded(cluster: Cluster, clients: Clients) -> None:
    """The registry has the entry, and the replica does not know of it."""
    host, count = cluster.hosts[0], 60
    host.replica, cluster.delay = (*CRASHING, host.folder / 'crash'), (0, 0)
    host.restart()
    cluster.even(60)
    before = host.starts['replica']
    assert clients.some(count, 'crash') == count
    cluster.even(60)
    assert host.starts['replica'] - before >= count // 3
    host.replica, cluster.delay = (REPLICA,), DELAY
    host.restart()
    must_be_as_replayed(cluster)


@slow
def test_one_of_the_two_processes_is_killed(cluster: Cluster, clients: Clients) -> None:
    """The other one ends with it, also while the registry is at an entry; and clients go on."""
    host, ended, alone = cluster.hosts[0], threading.Event(), []
    threads = [threading.Thread(target=send_until, args=(clients, k, ended)) for k in range(3)]
    for thread in threads:
        thread.start()
    for i in range(12):
        pids = until(lambda: cluster.is_well(20) and len(found := host.pids('replica')) == 2
                     and found)
        assert pids, host.log('replica')[-300:]
        if i % 4 < 2:
            host.send('goo', signal.SIGSTOP)
            time.sleep(0.1)
        os.kill(pids[i % 2], signal.SIGKILL)
        began = time.monotonic()
        until(lambda: not set(pids) & set(group_of(pids[0])), 10, 0.01)
        alone.append(time.monotonic() - began)
        for pid in group_of(pids[0]):
            os.kill(pid, signal.SIGKILL)
        host.send('goo', signal.SIGCONT)
    ended.set()
    for thread in threads:
        thread.join(60)
    assert max(alone) < 3, (alone, host.log('replica')[-300:])
    must_be_as_replayed(cluster)


def send_until(clients: Clients, k: int, ended: threading.Event) -> None:
    for n in itertools.count():
        if ended.is_set():
            return
        clients.request('ISSUER', 0, 'open_account', f'half-{k}-{n}',
                        holder=('C1', 'NONE')[n % 3 == 2])


@slow
def test_goo_is_killed_within_a_table(cluster: Cluster, clients: Clients) -> None:
    """It applies all of it again: what stands is repeated, what was refused is refused again."""
    host, chance, cut = cluster.hosts[0], random.Random(9), 0
    for i in range(10):
        cut += is_cut(host, clients, torn_table(clients, chance, i), chance.uniform(0.01, 0.1))
        cluster.even(60)
    assert cut > 1
    must_be_as_replayed(cluster)


def torn_table(clients: Clients, chance: random.Random, i: int) -> bytes:
    """A table of 299 rows for two new devices, with rows out of order and keys used twice."""
    devices = [gsrn(100 + 2 * i + k) for k in (0, 1)]
    for k, device in enumerate(devices):
        clients.register(k + 1, device, f'torn-{i}-{k}')
    rows = [HEAD]
    for n in range(1, 300):
        first = day(max(0, n - chance.choice((0, 0, 0, 1, 5))))
        key = chance.choice((n, n, n, n, max(1, n - chance.randint(1, 9))))
        rows.append(f'torn-{i}-r{key},{chance.choice(devices)},{first},{first},'
                    f'{chance.randint(0, 3000000)},0')
    return '\n'.join(rows).encode()


def is_cut(host: Host, clients: Clients, body: bytes, after: float, home: int = 0) -> bool:
    """Whether a goo that is killed so soon was sent the table again, and it was answered."""
    before = host.log('replica').count('again in')
    killer = threading.Timer(after, host.send, ('goo', signal.SIGKILL))
    killer.start()
    op = clients.do('ISSUER', '/v1/declarations', body, home, patience=60)
    killer.join()
    until(lambda: host.health().get('ok'))
    return host.log('replica').count('again in') > before and op['status'] == 200


@slow
def test_a_table_that_was_cut_after_any_of_its_rows() -> None:
    """Applied again whole it gives the report that it gives at once, and the same audit.

    The number of a refused row may be another one: its later rows stand by then, so it may be
    refused as one before the device's last day (11), or as a used key (2).
    """
    chance, other = random.Random(5), set()
    for _ in range(3):
        rows = [HEAD]
        for n in range(1, 30):
            first = day(max(0, n - chance.choice((0, 0, 0, 1, 3, 9))))
            key = max(1, n - 4) if chance.random() < 0.2 else n
            gross = chance.choice((0, 999999, 3000000, '12x'))
            rows.append(f't{key},{gsrn(chance.choice((1, 2, 9)))},{first},{first},{gross},'
                        f'{chance.choice((0, 0, 5))}')
        report, audit = reports(rows, 0)
        for cut in range(1, len(rows)):
            again, audit_again = reports(rows, cut)
            assert (without_numbers(again), audit_again) == (without_numbers(report), audit)
            other |= set(again.splitlines()) - set(report.splitlines())
    assert all(re.search(r'refused (2|11)$', line) for line in other), other


def reports(rows: list[str], cut: int) -> tuple[str, str]:
    """The report of a table in a fresh registry, and its audit.

    With a cut, so many of its first rows were applied before.
    """
    bare = Port(None, client.free_port())
    registry = subprocess.Popen(
        [GOO, 'serve', '--memory', '--code', '7', '--today', '2025-06-01', '--port',
         str(bare.port), '--count', '100'], stdout=subprocess.PIPE)
    assert registry.stdout
    registry.stdout.readline()

    def send(method: str, route: str, body: str = '') -> str:
        return ask(bare, method, route, 'ISSUER', body.encode(), 20).text

    try:
        for more in ('"open_holder","key":"b0","name":"C"', '"open_account","key":"b1"'):
            send('POST', '/v1/requests', f'{{"command":{more},"holder":"C0"}}')
        for device in (1, 2):
            send('POST', '/v1/requests',
                 f'{{"command":"register_device","key":"d{device}","account":1,'
                 f'"device":"{gsrn(device)}","country":"DE","site":"N","tech":"T010000",'
                 '"source":"F01010100","capacity_w":2000000000,"commissioned":"2020-06-15",'
                 '"support":"none"}')
        if cut:
            send('POST', '/v1/declarations', '\n'.join(rows[:cut + 1]))
        report = send('POST', '/v1/declarations', '\n'.join(rows))
        return report.replace('repeated', 'accepted'), send('GET', '/v1/audit')
    finally:
        registry.terminate()
        registry.communicate(timeout=20)


# -------------------------------------------------------------------- a weak goo, bad clients

@slow
def test_a_weak_goo(cluster: Cluster, clients: Clients) -> None:
    """It answers 503, or loses answers or requests: all are answered at last."""
    host = cluster.hosts[0]
    relay = Weak(host)
    host.goo_port = relay.port
    host.restart()
    cluster.even(60)
    assert clients.some(60, 'weak') == 60
    host.goo_port = host.inner
    host.restart()
    assert min(relay.count.values()) > 5, relay.count
    must_be_as_replayed(cluster)


@slow
def test_clients_that_go_before_they_are_answered(cluster: Cluster, clients: Clients) -> None:
    """None is left, the next one is answered, and nothing is said of them."""
    host = cluster.hosts[0]
    before, at = host.health()['entry'], len(host.log('replica'))
    host.send('goo', signal.SIGSTOP)
    for n in range(40):
        body = b'{"command":"open_account","key":"gone-%d","holder":"C1"}' % n
        with socket.create_connection(('127.0.0.1', host.port)) as near:
            near.sendall(b'POST /v1/requests HTTP/1.1\r\nHost: goo\r\nGOO-Caller: ISSUER\r\n'
                         b'GOO-Role: full\r\nContent-Length: %d\r\n\r\n' % len(body)
                         + body[:len(body) - n % 3 // 2])
            near.setsockopt(socket.SOL_SOCKET, socket.SO_LINGER, struct.pack('ii', n % 2, 0))
            time.sleep(0.05)
    host.send('goo', signal.SIGCONT)
    assert until(lambda: 'goo_replica_waiting 0\n' in host.metrics())
    done = clients.request('ISSUER', 0, 'open_account', 'gone-after', holder='C1')
    assert done['status'] == 200 and done['entry'] > before + 1
    assert not host.log('replica')[at:]
    must_be_as_replayed(cluster)


@slow
def test_who_sends_half_a_request_is_cut_off(cluster: Cluster, clients: Clients) -> None:
    """After ten seconds; and nobody waits behind it meanwhile."""
    began, ends, said = time.monotonic(), [], []
    halves = [b'', b'POST /v1/req', b'POST /v1/requests HTTP/1.1\r\nHost: goo\r\n'
              b'GOO-Caller: ISSUER\r\nContent-Length: 50\r\n\r\n{']
    address = '127.0.0.1', cluster.hosts[0].port
    with contextlib.ExitStack() as stack:
        opened = [stack.enter_context(socket.create_connection(address, 30)) for _ in halves]
        for near, half in zip(opened, halves):
            near.sendall(half)
        done = clients.request('ISSUER', 0, 'open_account', 'beside-slow-senders', holder='C1')
        for near in opened:
            with contextlib.suppress(ConnectionResetError, TimeoutError):
                said.append(near.recv(100))
            ends.append(time.monotonic() - began)
    assert all(9 < end < 15 for end in ends) and not any(said), (ends, said)
    assert done['status'] == 200 and done['answered'] - began < 5


@slow
def test_a_full_disk(cluster: Cluster, clients: Clients) -> None:
    """Either the log is full first, and reads go on, or the registry's own file is, and it ends
    until there is room."""
    host, ballast = cluster.hosts[0], cluster.hosts[0].disk / 'ballast'
    must_have('' if cluster.memory else 'mounts in memory')
    with contextlib.suppress(OSError), open(ballast, 'wb', buffering=0) as file:
        while True:
            file.write(b'x' * 4096)
    told = collections.Counter(open_account(host, f'full-{n}').status for n in range(6))
    health = host.health()
    read = ask(host, 'GET', '/v1/accounts/1/statement', 'ISSUER', b'', 30).status
    ballast.unlink()
    done = clients.request('ISSUER', 0, 'open_account', 'full-0', holder='C1')
    assert told[503] and done['status'] == 200, (told, done)
    assert read == 200 or 'does not answer' in health['why'], (read, health)
    must_be_as_replayed(cluster)


# -------------------------------------------------------------------- versions and copies

def set_version(host: Host, version: str) -> None:
    """An entry of the log, and the program that the host says it has."""
    (host.folder / 'version').write_text(version)
    host.hold('replica')
    must(*host.inside(REPLICA_LOG, 'version', version, *host.common()))
    host.release('replica')


@slow
def test_a_program_of_another_version(cluster: Cluster, clients: Clients) -> None:
    host = cluster.hosts[0]
    (host.folder / 'version').write_text('next')
    host.restart('goo', 'replica')
    host.must_refuse('version')
    set_version(host, 'next')
    done = clients.request('ISSUER', 0, 'open_account', 'next-version', holder='C1')
    last = next(iter(reader.read_archive(host.state / 'archive', done['entry'] - 1))).entry
    assert last.version == 'next' and done['status'] == 200
    set_version(host, VERSION)
    cluster.even(60)


def test_back_from_a_copy(cluster: Cluster, clients: Clients) -> None:
    """Database and place are put back, and the replica applies the entries since."""
    host = cluster.hosts[0]
    made = host.op('copy')
    clients.some(25, 'since')
    entry = cluster.even(30)
    cluster.stop(*PROGRAMS)
    right = dump(host.disk / 'goo/registry.db', cluster.folder / 'right')
    copy = host.copy()
    put_back(host, copy)
    placed = host.op('place', copy)
    host.release(*PROGRAMS)
    assert cluster.even(60) == entry, (made, placed)
    cluster.stop(*PROGRAMS)
    assert dump(host.disk / 'goo/registry.db', cluster.folder / 'back') == right
    put_back(host, copy)
    host.release(*PROGRAMS)
    host.must_refuse('older than the place')
    cluster.stop(*PROGRAMS)
    put_back(host, copy)
    host.op('place', copy)
    host.release(*PROGRAMS)
    assert cluster.even(60) == entry


def put_back(host: Host, copy: Path) -> None:
    for file in (host.disk / 'goo').glob('registry.db*'):
        file.unlink()
    for file in copy.glob('registry.db*'):
        shutil.copy(file, host.disk / 'goo')


@slow
def test_an_older_place_beside_a_newer_database(cluster: Cluster, clients: Clients) -> None:
    """What was refused then may be accepted now, so each outcome has to be the archived one."""
    host = cluster.hosts[0]
    clients.some(5, 'old')
    cluster.even(60)
    host.hold('replica')
    shutil.copy(host.state / 'place', cluster.folder / 'older')
    host.release('replica')
    clients.request('ISSUER', 0, 'open_account', 'old-account', holder='LATER')
    clients.request('ISSUER', 0, 'open_holder', 'old-holder', holder='LATER', name='Later')
    entry = cluster.even(60)
    cluster.stop(*PROGRAMS)
    rows, place = cluster.folder / 'rows-kept', (host.state / 'place').read_bytes()
    shutil.copytree(host.disk / 'goo', rows)
    shutil.copy(cluster.folder / 'older', host.state / 'place')
    host.release(*PROGRAMS)
    host.must_refuse('something else')
    cluster.stop(*PROGRAMS)
    shutil.rmtree(host.disk / 'goo')
    shutil.copytree(rows, host.disk / 'goo')
    (host.state / 'place').write_bytes(place)
    host.release(*PROGRAMS)
    assert cluster.even(60) == entry


# -------------------------------------------------------------------- the log elsewhere

def must_be_whole(folder: Path, cluster: Cluster, entry: int) -> None:
    """Log and archive are there up to an entry."""
    key = entries.read_key(cluster.folder / 'mac.key')
    log = [line for path in sorted((folder / 'log').glob('*.jsonl'))
           for line, _ in reader.lines(path)]
    archive = list(reader.read_archive(folder / 'archive', 0, key))
    assert entries.read_entry(log[-1], key).n == archive[-1].entry.n == entry


def lacks(*programs: str) -> str:
    return ', '.join(LACKING[name] for name in programs if not shutil.which(name))


@slow
def test_the_log_goes_to_another_folder(cluster: Cluster, clients: Clients) -> None:
    must_have(lacks('rsync'))
    host, target = cluster.hosts[0], cluster.folder / 'elsewhere'
    target.mkdir()
    sent = host.op('ship', target, '--once')
    clients.some(10, 'ship')
    entry, again = cluster.even(30), host.op('ship', target, '--once')
    assert sent.returncode == again.returncode == 0, (sent, again)
    must_be_whole(target, cluster, entry)
    metrics = host.metrics()
    form = r'# TYPE goo_replica_\w+ (gauge|counter)|goo_replica_\w+ -?[0-9.]+'
    assert all(re.fullmatch(form, line) for line in metrics.splitlines()), metrics
    assert 'goo_replica_shipped_lag_entries' in metrics


@slow
def test_the_log_goes_to_another_host_by_ssh(cluster: Cluster, clients: Clients) -> None:
    """sshd and ssh as Debian has them, with keys of the trial, in a network of their own."""
    must_have(lacks(*LACKING) or '' if os.geteuid() == 0 else 'root')
    folder, network = cluster.folder / 'ssh', f'gr{os.getpid()}-ssh'
    (folder / 'there').mkdir(parents=True)
    for name in ('host', 'user'):
        must('ssh-keygen', '-q', '-t', 'ed25519', '-N', '', '-f', folder / name)
    (folder / 'sshd_config').write_text(
        f'ListenAddress 127.0.0.1\nHostKey {folder}/host\nAuthorizedKeysFile {folder}/user.pub\n'
        'StrictModes no\nPermitRootLogin prohibit-password\nPasswordAuthentication no\n'
        'UsePAM no\nPidFile none\n')
    (folder / 'known').write_text(f'127.0.0.1 {(folder / "host.pub").read_text()}')
    must('ip', 'netns', 'add', network)
    try:
        must('ip', '-n', network, 'link', 'set', 'lo', 'up')
        ship_by_ssh(cluster, clients, folder, ['ip', 'netns', 'exec', network])
    finally:
        run('ip', 'netns', 'del', network)


def ship_by_ssh(cluster: Cluster, clients: Clients, folder: Path, inside: list[str]) -> None:
    shell = (f'ssh -F none -i {folder}/user -o UserKnownHostsFile={folder}/known '
             '-o StrictHostKeyChecking=yes -o BatchMode=yes')

    def ship() -> subprocess.CompletedProcess[str]:
        return run(*inside, REPLICA_LOG, 'ship', f'127.0.0.1:{folder}/there', '--once',
                   *cluster.hosts[0].common(), env={**os.environ, 'RSYNC_RSH': shell})

    clients.some(10, 'ssh')
    entry, down = cluster.even(30), ship()
    assert down.returncode == 1 and 'not shipped' in down.stderr, down
    # with a /run of its own, where it looks for an empty folder
    serve = ('mount -t tmpfs none /run && mkdir /run/sshd && '
             f'exec $(command -v sshd) -D -e -f {folder}/sshd_config')
    with open(folder / 'sshd.log', 'w', encoding='utf-8') as log:
        sshd = subprocess.Popen([*inside, 'unshare', '--mount', 'sh', '-c', serve], stderr=log)
    try:
        assert until(lambda: ship().returncode == 0), (folder / 'sshd.log').read_text()
        must_be_whole(folder / 'there', cluster, entry)
    finally:
        sshd.terminate()
        sshd.wait(20)


@slow
def test_a_reader_on_the_shipped_log(cluster: Cluster, clients: Clients) -> None:
    """A second registry, begun from a copy, follows it and answers reads; a write is 503."""
    must_have(lacks('rsync'))
    host, folder, target = cluster.hosts[0], cluster.folder / 'reader', cluster.folder / 'shipped'
    (folder / 'state').mkdir(parents=True)
    target.mkdir()
    host.op('copy')
    for file in host.copy().glob('registry.db*'):
        shutil.copy(file, folder)
    key = '--key', cluster.folder / 'mac.key'
    must(REPLICA_LOG, 'place', host.copy(), '--state', folder / 'state', *key)
    host.op('ship', target, '--once')
    reader, inner = Port(None, client.free_port()), client.free_port()
    with standing([GOO, 'serve', '--db', folder / 'registry.db', '--port', inner,
                   '--count', '1000000'],
                  [REPLICA, '--reads-only', '--store', target / 'log', '--listen',
                   f'127.0.0.1:{reader.port}', '--registry', f'127.0.0.1:{inner}',
                   '--state', folder / 'state', *key, '--version', VERSION, '--name', 'reader']):
        assert until(lambda: ask(reader, 'GET', '/healthz', '', b'', 5).status == 200)
        done = clients.request('ISSUER', 0, 'open_account', 'followed', holder='C1')
        host.op('ship', target, '--once')
        shown = f'/v1/accounts/{done["reply"]["reply"]["account"]}/statement'
        read = until(lambda: (told := ask(reader, 'GET', shown, 'ISSUER', b'', 10)).status == 200
                     and told)
        assert read and read.stale and read.entry >= done['entry']
        assert open_account(reader, 'no', 10).status == 503


@contextlib.contextmanager
def standing(*commands: list[object],
             inside: Callable[..., list[str]] = lambda *words: [*map(str, words)]
             ) -> Iterator[None]:
    """Programs that stand meanwhile."""
    started = [subprocess.Popen(inside(*words), stdout=subprocess.DEVNULL,
                                stderr=subprocess.DEVNULL) for words in commands]
    try:
        yield
    finally:
        for process in reversed(started):
            process.terminate()
            process.wait(20)
