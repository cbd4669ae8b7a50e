"""Three hosts with etcd: crashes, no quorum, hosts that are changed, replaced or upgraded."""
import collections
import json
import random
import re
import shutil
import signal
import subprocess
import threading
import time
from collections.abc import Iterator

import client
import pytest
from goo_service.log import entries
from goo_service.log import reader
from mutations import gsrn
from replicas.clients import Clients
from replicas.clients import HEAD
from replicas.cluster import Cluster
from replicas.cluster import DELAY
from replicas.conftest import Make
from replicas.faults import Weak
from replicas.held import must_be_the_same
from replicas.host import Host
from replicas.talk import CODE
from replicas.talk import CRASHING
from replicas.talk import GOO
from replicas.talk import Port
from replicas.talk import REPLICA
from replicas.talk import REPLICA_LOG
from replicas.talk import VERSION
from replicas.talk import ask
from replicas.talk import day
from replicas.talk import must
from replicas.talk import open_account
from replicas.talk import run
from replicas.talk import until
from replicas.test_one_host import is_cut
from replicas.test_one_host import standing
from replicas.test_one_host import torn_table
from service_commands import command

pytestmark = pytest.mark.slow
PROGRAMS = ('replica', 'goo')
KILL = signal.SIGKILL
MOST_BODY = 1048576


@pytest.fixture(scope='module')
def cluster(begin: Make) -> Iterator[Cluster]:
    with begin(3) as made:
        yield made


def must_be_even(cluster: Cluster) -> None:
    """All are stopped and have the same rows; and they go on."""
    cluster.even(200)
    cluster.stop(*PROGRAMS)
    must_be_the_same(cluster.dumps())
    for host in cluster.hosts:
        host.release('goo', 'replica')
    cluster.even(60)


def begin_from(host: Host, other: Host) -> None:
    """As the handbook says: both stopped, database and replica's folder are copied together."""
    for one in (host, other):
        one.hold(*PROGRAMS)
    for name in PROGRAMS:
        shutil.rmtree(host.disk / name, ignore_errors=True)
        shutil.copytree(other.disk / name, host.disk / name)
    for one in (other, host):
        one.release(*PROGRAMS)


# -------------------------------------------------------------------- who asked, and who confirmed

def test_each_host_has_the_way_of_signing_in_and_the_second_user(cluster: Cluster) -> None:
    """Of what any host took, in the archives of all."""
    body, told = b'{"command":"open_holder","key":"way-%d","holder":"W%d","name":"W"}', []
    for number, host in enumerate(cluster.hosts):
        told.append(ask(host, 'POST', '/v1/requests', 'ISSUER', body % (number, number), 30,
                        user='anna', way=f'token nightly{number}', confirmed='ben'))
    assert [one.status for one in told] == [200] * 3, told
    cluster.even(60)
    key = entries.read_key(cluster.folder / 'mac.key')
    for host in cluster.hosts:
        records = reader.read_archive(host.state / 'archive', 0, key)
        named = [(one.entry.n, one.entry.user, one.entry.way, one.entry.confirmed)
                 for one in records if one.entry.user == 'anna']
        assert named == [(one.entry, 'anna', f'token nightly{number}', 'ben')
                         for number, one in enumerate(told)], host.name


# -------------------------------------------------------------------- crashes, a weak goo

def test_crashes_before_the_place_is_recorded(cluster: Cluster, clients: Clients) -> None:
    host, count = cluster.hosts[0], 90
    host.replica, cluster.delay = (*CRASHING, host.folder / 'crash'), (0, 0)
    host.restart()
    cluster.even(60)
    before = host.starts['replica']
    assert clients.some(count, 'crash', 1) == count
    cluster.even(400)
    assert host.starts['replica'] - before >= count // 4
    host.replica, cluster.delay = (REPLICA,), DELAY
    host.restart()
    must_be_even(cluster)


def test_the_newest_place_is_lost(cluster: Cluster, clients: Clients) -> None:
    """As by a power failure. Accepted requests since are applied once more, long after."""
    host, back = cluster.hosts[0], []
    for i in range(10):
        clients.some(random.Random(i).randint(0, 6), f'place{i}', 1)
        clients.request('ISSUER', 1, 'open_account', f'place{i}-last', holder='C1')
        n = cluster.even(60)
        host.hold('replica', number=KILL)
        lose_newest_place(host)
        host.release('replica')
        cluster.even(60)
        back.append(n - int(re.findall(r'at entry (\d+)\n', host.log('replica'))[-1]))
    assert min(back) >= 1 and max(back) > 1, back
    must_be_even(cluster)


def lose_newest_place(host: Host) -> None:
    """Of the two slots of the place the newer one is not what was written."""
    with open(host.state / 'place', 'r+b') as file:
        numbers = []
        for slot in (0, 1):
            file.seek(4096 * slot)
            words = file.read(20).split()
            numbers.append(int(words[0]) if words else -1)
        file.seek(4096 * numbers.index(max(numbers)))
        file.write(b'?' * 512)


def test_goo_is_killed_within_a_table(cluster: Cluster, clients: Clients) -> None:
    host, chance, cut = cluster.hosts[0], random.Random(9), 0
    for i in range(15):
        body = torn_table(clients, chance, i)
        cut += is_cut(host, clients, body, chance.uniform(0.02, 0.15), 1)
        cluster.even(60)
    assert cut > 3
    must_be_even(cluster)


def test_a_weak_goo(cluster: Cluster, clients: Clients) -> None:
    host = cluster.hosts[0]
    relay = Weak(host)
    host.goo_port = relay.port
    host.restart()
    cluster.even(60)
    assert clients.some(60, 'weak') == 60
    cluster.even(60)
    host.goo_port = host.inner
    host.restart()
    assert min(relay.count.values()) > 10, relay.count
    must_be_even(cluster)


# -------------------------------------------------------------------- without a quorum

def test_no_quorum(cluster: Cluster, clients: Clients) -> None:
    """A write is 503, soon; a read is as the records stand, and says so, or with --strict 503."""
    one, two, three = cluster.hosts
    for host in (two, three):
        host.hold('etcd', number=KILL)
    assert open_account(one, 'nq').status == 503
    time.sleep(3)
    assert open_account(one, 'nq').status == 503
    read = ask(one, 'GET', '/v1/audit', 'ISSUER', b'', 30)
    assert read.status == 200 and read.stale and read.entry
    assert ask(one, 'GET', '/healthz', '', b'', 30).status == 503
    one.words = ['--strict']
    one.restart()
    assert until(lambda: ask(one, 'GET', '/v1/audit', 'ISSUER', b'', 30).status == 503)
    one.words = []
    for host in (two, three):
        host.release('etcd')
    one.restart()
    done = clients.request('ISSUER', 0, 'open_account', 'nq', holder='C1')
    assert done['reply'].get('outcome') in ('accepted', 'repeated'), done
    cluster.even(60)


def test_a_request_that_was_given_up_is_not_carried_out_later(cluster: Cluster,
                                                              clients: Clients) -> None:
    """It was refused when it was sent again elsewhere. The replica could not append it, or has not
    even read it."""
    one, seen = cluster.hosts[0], collections.Counter[object]()
    for i in range(12):
        cluster.even(30)
        body = json.dumps({'command': 'open_account', 'key': f'late-{i}',
                           'holder': f'LATE{i}'}).encode()
        seen[given_up(one, body, cannot_append=i % 3 == 2)] += 1
        refused = clients.do('ISSUER', '/v1/requests', body, 1)
        opened = clients.request('ISSUER', 1, 'open_holder', f'late-h{i}', holder=f'LATE{i}',
                                 name='Late')
        one.send('replica', signal.SIGCONT)
        time.sleep(1.5)
        free = clients.request('ISSUER', 1, 'open_account', f'late-{i}', holder='C1')
        assert (refused['status'], opened['status']) == (409, 200), (seen, refused, opened)
        assert free['reply'].get('outcome') == 'accepted', (seen, free)
    cluster.even(60)


def given_up(host: Host, body: bytes, cannot_append: bool) -> object:
    """What a client has that waits for 1.5 seconds. The replica stands still then."""
    left: list[object] = []

    def send() -> None:
        try:
            left.append(ask(host, 'POST', '/v1/requests', 'ISSUER', body, 1.5).status)
        except OSError as fault:
            left.append(type(fault).__name__)

    if cannot_append:
        host.set_line('down')
    else:
        host.send('replica', signal.SIGSTOP)
    thread = threading.Thread(target=send)
    thread.start()
    if cannot_append:
        time.sleep(1)
        host.send('replica', signal.SIGSTOP)
    thread.join()
    if cannot_append:
        host.set_line('up')
        time.sleep(1)
    return left[0]


# -------------------------------------------------------------------- large tables, a reader

def test_a_table_as_large_as_goo_takes(cluster: Cluster, clients: Clients) -> None:
    """Alone, and six of them at once; one byte more is 413."""
    rows = [f'big-{i},{gsrn(3)},{day(300)},{day(300)},{"12x" if i % 1000 else 1000000},0'
            for i in range(20000)]
    body = '\n'.join([HEAD, *rows]).encode()[:MOST_BODY]
    op = clients.do('ISSUER', '/v1/declarations', body, 1, patience=120)
    assert (op['status'], op['tries']) == (200, 1)
    with client.connected(8470) as near:            # this thread is in a host's network
        near.sendall(b'POST /v1/declarations HTTP/1.1\r\nHost: goo\r\nGOO-Caller: ISSUER\r\n'
                     b'Content-Length: %d\r\n\r\n' % (MOST_BODY + 1))
        assert near.recv(65536).startswith(b'HTTP/1.1 413')
    threads = [threading.Thread(target=clients.do,
                                args=('ISSUER', '/v1/declarations', body, k),
                                kwargs={'patience': 120}) for k in range(6)]
    for thread in threads:
        thread.start()
    for thread in threads:
        thread.join()
    assert [op['status'] for op in clients.ops[-6:]] == [200] * 6
    cluster.even(60)


def test_a_reader_beside_three_replicas(cluster: Cluster, clients: Clients) -> None:
    """It takes no writes, and its reads have all that was answered before they were sent."""
    two, three = cluster.hosts[1:]
    folder = cluster.folder / 'reader'
    two.hold(*PROGRAMS)
    for name in PROGRAMS:
        shutil.copytree(two.disk / name, folder / name)
    two.release(*PROGRAMS)
    cluster.even(60)
    words = [word if word != three.state else folder / 'replica' for word in three.common()]
    words[words.index('--name') + 1] = 'reader'
    with standing([GOO, 'serve', '--db', folder / 'goo/registry.db', '--port', '8491',
                   '--count', '1000000'],
                  [REPLICA, *words, '--reads-only', '--listen', '127.0.0.1:8490',
                   '--registry', '127.0.0.1:8491', '--version', f'@{three.folder}/version'],
                  inside=three.inside):
        reader = Port(three.fd, 8490)
        assert until(lambda: json.loads(ask(reader, 'GET', '/healthz', '', b'', 5).text)['ok'])
        time.sleep(2)
        for n in range(20):
            done = clients.request('ISSUER', 0, 'open_account', f'reader-{n}', holder='C1')
            shown = f'/v1/accounts/{done["reply"]["reply"]["account"]}/statement'
            read = ask(reader, 'GET', shown, 'ISSUER', b'', 20)
            assert read.status == 200 and not read.stale and (read.entry or 0) >= done['entry']
        assert open_account(reader, 'no', 20).status == 503
    cluster.hosts[0].op('forget', 'reader')


# -------------------------------------------------------------------- a host that differs

def test_digests_tell_a_registry_that_was_changed(cluster: Cluster, clients: Clients) -> None:
    """A forged digest of one host is a warning. A registry with a row that is not in the log is
    outvoted and takes nothing; the others go on, and it does once it is begun from a copy."""
    one, two, three = cluster.hosts
    to = fill_hundred(cluster, clients, 'digest')
    digest = f'/goo/{CODE:02}/digest/{to:020}/'

    def digests() -> list[str]:
        return must(*one.etcdctl('get', '--prefix', digest)).split()

    cluster.even(60)
    until(lambda: len(digests()) == 6)
    assert len(digests()) == 6 and len(set(digests()[1::2])) == 1, digests()
    must(*one.etcdctl('put', f'{digest}h2', '0' * 64))
    assert until(lambda: all('WARNING' in host.log('replica') for host in (one, three)))
    assert all(host.health().get('ok') for host in cluster.hosts)
    two.hold(*PROGRAMS)
    run(GOO, 'run', '--db', two.disk / 'goo/registry.db',
        input='ISSUER {"command":"open_holder","key":"behind","holder":"BEHIND","name":"B"}\n')
    two.release(*PROGRAMS)
    fill_hundred(cluster, clients, 'tamper')
    two.must_refuse('came to something else')
    cluster.even(30, [one, three])
    assert clients.some(5, 'majority') == 5
    begin_from(two, one)
    cluster.even(90)
    must_be_even(cluster)


def fill_hundred(cluster: Cluster, clients: Clients, tag: str) -> int:
    """Sends requests until some after the next full hundred; that entry."""
    n = cluster.even(60)
    to = (n // 100 + 1) * 100
    assert clients.some(to - n + 3, tag) == to - n + 3
    return to


def test_an_older_place_beside_a_newer_database(cluster: Cluster, clients: Clients) -> None:
    """What was refused then is accepted now, on this host alone. The archive tells."""
    one, two, three = cluster.hosts
    clients.some(5, 'old')
    cluster.even(60)
    two.hold('replica')
    shutil.copy(two.state / 'place', cluster.folder / 'older')
    two.release('replica')
    clients.request('ISSUER', 0, 'open_account', 'old-account', holder='LATER')
    clients.request('ISSUER', 0, 'open_holder', 'old-holder', holder='LATER', name='Later')
    cluster.even(60)
    two.hold('replica')
    shutil.copy(cluster.folder / 'older', two.state / 'place')
    two.release('replica')
    two.must_refuse('something else than before')
    cluster.even(30, [one, three])
    assert clients.some(5, 'oldest') == 5
    begin_from(two, one)
    cluster.even(90)


def test_an_entry_that_no_registry_decides(cluster: Cluster, clients: Clients) -> None:
    """A majority sets it aside, its client is told, and writes go on. One that a single registry
    fails at is not set aside."""
    from goo_service.log import reader
    for host in cluster.hosts:
        host.goo_port, host.words = Weak(host, b'"poison"').port, ['--aside', '3']
        host.restart()
    cluster.even(60)
    told = open_account(cluster.hosts[0], 'poison', 60)
    after = clients.request('ISSUER', 1, 'open_account', 'after-the-poison', holder='C1')
    cluster.even(60)
    assert told.status in (500, 503) and after['status'] == 200, (told, after)
    for host in cluster.hosts:
        assert open_account(host, 'poison', 60).status == 500
        archived = {one.entry.n: one.outcome.status
                    for one in reader.read_archive(host.state / 'archive')}
        assert told.entry and archived[told.entry] == 500
        assert 'ALARM' in host.log('replica')
    for host in cluster.hosts[1:]:
        host.goo_port = host.inner
        host.restart()
    time.sleep(2)
    for home, body in ((0, b'"key":"poison2","holder":"\"poison\""'),
                       (1, b'"key":"alone","holder":"C1","beneficiary":"poison"')):
        alone = clients.do('ISSUER', '/v1/requests', b'{"command":"open_account",%b}' % body, home)
        assert alone['status'] != 500
    for host in cluster.hosts:
        host.goo_port, host.words = host.inner, []
        host.restart()
    must_be_even(cluster)


# -------------------------------------------------------------------- versions, a lost host

def test_another_version_of_the_program(cluster: Cluster, clients: Clients) -> None:
    """An entry moves the version, and each host waits until it has that program."""
    one, two, three = cluster.hosts
    cluster.even(60)
    must(*one.inside(REPLICA_LOG, 'version', 'next', *one.common()))
    for host in cluster.hosts:
        host.must_refuse('version')
    (two.folder / 'version').write_text('next')
    two.restart('goo')
    done = clients.request('ISSUER', 1, 'open_account', 'upgraded', holder='C1')
    assert done['status'] == 200 and 'version' in one.health()['why'], (done, one.health())
    for host in (one, three):
        (host.folder / 'version').write_text('next')
        host.restart('goo')
    cluster.even(60)
    must(*one.inside(REPLICA_LOG, 'version', VERSION, *one.common()))
    for host in cluster.hosts:
        (host.folder / 'version').write_text(VERSION)
        host.restart('goo')
    cluster.even(60)


def heard(*words: object) -> str:
    """What etcdctl says once it is heard: while a leader is elected it is not."""
    for _ in range(20):
        done = run(*words)
        if done.returncode == 0 or 'not found' in done.stderr or 'exists' in done.stderr:
            return done.stdout
        time.sleep(1)
    raise AssertionError((words, done.stderr))


def member_of(host: Host, of: str) -> str:
    """The number of etcd's member of which a line says this."""
    lines = heard(*host.etcdctl('member', 'list')).splitlines()
    return next(line.split(',')[0] for line in lines if of in line)


def test_a_host_is_lost_for_good(cluster: Cluster, clients: Clients) -> None:
    """Its member of etcd is replaced by a new one, and its replica is begun from a copy, while
    requests are answered."""
    one, two, three = cluster.hosts
    ended, answered = threading.Event(), list[int]()

    def send() -> None:
        while not ended.is_set():
            n = len(answered)
            answered.append(clients.request('ISSUER', n % 2, 'open_account', f'replaced-{n}',
                                            holder='C1')['status'])

    thread = threading.Thread(target=send)
    thread.start()
    three.hold(*three.names, number=KILL)
    for folder in (three.folder / 'etcd/data', three.disk / 'goo', three.state):
        shutil.rmtree(folder)
    heard(*one.etcdctl('member', 'remove', member_of(one, three.address)))
    heard(*one.etcdctl('member', 'add', three.name, f'--peer-urls={three.peer_url}'))
    cluster.etcd_state = 'existing'
    three.release('etcd', 'rows')
    time.sleep(2)
    begin_from(three, two)
    cluster.even(60)
    ended.set()
    thread.join()
    assert must(*one.etcdctl('member', 'list')).count('started') == 3
    assert set(answered) == {200}
    must_be_even(cluster)


def test_the_date_is_moved_on_all_hosts_at_once(cluster: Cluster, clients: Clients) -> None:
    """One moves it, and the others are told that it was moved."""
    day_of, words = '2026-03-02', command('goo-advance')
    cluster.even(60)
    begun = [subprocess.Popen(host.inside(*words, day_of, '--door', f'127.0.0.1:{host.port}'),
                              stdout=subprocess.PIPE, stderr=subprocess.STDOUT, text=True)
             for host in cluster.hosts]
    told = [one.communicate(timeout=120)[0] for one in begun]
    assert not any(one.returncode for one in begun), told
    assert sum('accepted' in text for text in told) == 1, told
    for host in cluster.hosts:
        shown = ask(host, 'GET', '/v1/accounts/1/statement', 'ISSUER', b'', 20).text
        assert f'date {day_of}' in shown


def test_etcd_knows_of_the_nightly_copy(cluster: Cluster, clients: Clients) -> None:
    host = cluster.hosts[0]
    assert host.op('copy').returncode == 0
    known = must(*host.etcdctl('get', '--print-value-only', f'/goo/{CODE:02}/copy/h1'))
    assert int(known) == cluster.even(30)
