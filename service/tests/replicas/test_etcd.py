"""What becomes of three hosts where etcd's log is pruned, full, forged, set back or lost."""
import json
import shutil
import signal
from collections.abc import Iterator
from pathlib import Path

import pytest
from goo_service.log import entries
from door import SERVICE
from replicas.clients import Clients
from replicas.cluster import Cluster
from replicas.conftest import Make
from replicas.host import Host
from replicas.talk import CODE
from replicas.talk import VERSION
from replicas.talk import ask
from replicas.talk import must
from replicas.talk import open_account
from replicas.talk import until
from replicas.test_three_hosts import PROGRAMS
from replicas.test_three_hosts import begin_from
from replicas.test_three_hosts import must_be_even

pytestmark = pytest.mark.slow
PREFIX = f'/goo/{CODE:02}'
LOSING = '''
import runpy, sys
sys.path.insert(0, {service!r})
from goo_service.log import etcd, store
call = etcd.Etcd.call

async def lost(self, path, words):
    etcd.Etcd.call = call
    await call(self, path, words)
    raise store.NoAnswer("the answer is lost")

etcd.Etcd.call = lost
runpy.run_module("goo_service.log.command", run_name="__main__")
'''
"""`goo-replica-log` whose first call of etcd is carried out, and its answer lost."""


@pytest.fixture(scope='module')
def cluster(begin: Make) -> Iterator[Cluster]:
    with begin(3) as made:
        yield made


def value(host: Host, key: str) -> str:
    return must(*host.etcdctl('get', '--print-value-only', f'{PREFIX}/{key}')).strip()


def put(host: Host, key: str, text: str) -> None:
    must(*host.etcdctl('put', f'{PREFIX}/{key}', text))


def must_be_reported(*hosts: Host) -> None:
    """Waits until etcd knows that these hosts have applied what they have."""
    entry = hosts[0].cluster.even(60, hosts)
    assert until(lambda: all(int(value(host, f'replica/{host.name}') or 0) >= entry
                             for host in hosts))


def test_prune(cluster: Cluster, clients: Clients) -> None:
    """It keeps what a replica that is down has not applied, and asks for all replicas. One that
    was forgotten says that it is behind, takes nothing, and is begun from a copy."""
    one, two, three = cluster.hosts
    must_be_reported(*cluster.hosts)
    three.hold('replica')
    assert clients.some(30, 'prune') == 30
    one.hold(*PROGRAMS)
    one.op('copied', 'night')
    assert clients.some(5, 'copying') == 5
    one.release(*PROGRAMS)
    must_be_reported(one, two)
    kept = one.op('prune')
    assert kept.returncode == 0, kept
    three.release('replica')
    cluster.even(60)
    three.hold('replica')
    clients.some(30, 'prune2')
    one.op('forget', 'h3')
    refused = one.op('prune')
    assert refused.returncode == 1, refused
    one.hold('replica')
    one.op('copied', 'night')
    one.release('replica')
    must_be_reported(one, two)
    done = one.op('prune', '--replicas', '2')
    assert done.returncode == 0, done
    three.release('replica')
    three.must_refuse('no longer in the log')
    assert ask(three, 'GET', '/v1/audit', 'ISSUER', b'', 30).status == 503
    assert clients.some(5, 'without') == 5
    begin_from(three, two)
    cluster.even(90)
    must_be_even(cluster)


def test_a_quota_that_is_nearly_reached(cluster: Cluster, clients: Clients) -> None:
    """Requests are refused before etcd refuses them, and the operator is told."""
    host = cluster.hosts[0]
    status = json.loads(must(*host.etcdctl('-w', 'json', 'endpoint', 'status')))
    host.words = ['--quota', status[0]['Status']['dbSize']]
    host.restart()
    host.must_refuse("etcd's file")
    assert open_account(host, 'quota').status == 503
    assert 'goo_replica_etcd_quota_bytes' in host.metrics()
    host.words = []
    host.restart()
    cluster.even(60)


def test_an_entry_without_the_key_is_applied_nowhere(cluster: Cluster, clients: Clients) -> None:
    """Whoever reaches etcd alone cannot write as the issuing body."""
    n, one = cluster.even(60), cluster.hosts[0]
    cluster.stop('replica')
    end = value(one, 'end')
    entry = entries.Entry(n + 1, end.split()[1], entries.now(), 'h1', 'u', '', 'full', 'ISSUER',
                          'POST', '/v1/requests', VERSION, 'x',
                          b'{"command":"open_account","key":"forged","holder":"C1"}')
    line = entries.entry_line(entry, b"somebody else's key")
    put(one, f'log/{n + 1:020}', line.decode())
    put(one, 'end', f'{n + 1} {entries.hash_of(line)} {VERSION}')
    for host in cluster.hosts:
        host.release('replica')
    for host in cluster.hosts:
        host.must_refuse('keyed hash')
    must(*one.etcdctl('del', f'{PREFIX}/log/{n + 1:020}'))
    put(one, 'end', end)
    for host in cluster.hosts:
        host.restart()
    assert cluster.even(60) == n


def test_etcd_is_lost_whole(cluster: Cluster, clients: Clients) -> None:
    """A new one is begun where a replica is. The answer to that is lost, and a member is asked
    again: the log is begun once, and all replicas go on from there."""
    n = cluster.even(60)
    cluster.stop('replica')
    for host in cluster.hosts:
        host.hold('etcd', number=signal.SIGKILL)
        shutil.rmtree(host.folder / 'etcd/data')
    cluster.etcd_state = 'new'
    for host in cluster.hosts:
        host.release('etcd')
    losing = '/usr/bin/python3', '-c', LOSING.format(service=str(Path(SERVICE)))
    one, two, _ = cluster.hosts

    def begun() -> bool:
        done = one.op('found', program=losing)
        return done.returncode == 0 or 'there is a log' in done.stderr

    assert until(begun)
    assert [host.op('found').returncode for host in (one, two)] == [1, 1]
    for host in cluster.hosts:
        host.release('replica')
    assert cluster.even(60) == n + 1
    assert clients.some(10, 'anew') == 10
    assert cluster.even(60) == n + 11


def test_an_end_of_the_log_that_was_set_back(cluster: Cluster, clients: Clients) -> None:
    """All replicas stop and say so."""
    n, three = cluster.even(60), cluster.hosts[2]
    clients.some(3, 'behind-the-end')
    cluster.even(60)
    cluster.stop('replica')
    end = value(three, 'end')
    put(three, 'end', f'{n} {"0" * 64} {VERSION}')
    for host in cluster.hosts:
        host.release('replica')
    for host in cluster.hosts:
        host.must_refuse('another log')
    put(three, 'end', end)
    for host in cluster.hosts:
        host.restart()
    cluster.even(60)
