"""Figures of a registry behind its log beside the same registry bare: ratios of one run.

Nothing is compared with a bound but the longest time without an answer; bench/ measures.
"""
import collections
import contextlib
import itertools
import json
import os
import shutil
import signal
import subprocess
import threading
import time
from collections.abc import Callable
from collections.abc import Iterator
from pathlib import Path
from typing import NamedTuple

import pytest
from mutations import gsrn
from replicas.clients import Clients
from replicas.clients import HEAD
from replicas.cluster import Cluster
from replicas.conftest import Make
from replicas.held import Bare
from replicas.host import Host
from replicas.talk import CODE
from replicas.talk import GOO
from replicas.talk import Reachable
from replicas.talk import TODAY
from replicas.talk import ask
from replicas.talk import day
from replicas.talk import must
from replicas.talk import open_account
from replicas.talk import run
from replicas.test_by_chance import show

pytestmark = pytest.mark.slow
TURNS, SECONDS = 7, 1
"""How often each is measured, in turn, and for how long: the machine has other work too."""
CLIENTS = (1, 8, 32)
MOST_GAP = 9
"""Seconds without a write answered when a host is lost."""
ROWS, PER_DEVICE = 20000, 440
"""Declarations of a large registry, and how many of a device are still tradable."""
STATEMENT = '/v1/accounts/1/statement'


class Load(NamedTuple):
    """Requests a second, and the middle and the slowest hundredth in milliseconds."""

    rate: float
    p50: float
    p99: float


@pytest.fixture(scope='module', params=[1, 3])
def cluster(begin: Make, request: pytest.FixtureRequest) -> Iterator[Cluster]:
    with begin(request.param) as made:
        yield made


def load(hosts: list[Reachable], count: int, tag: str, method: str) -> Load:
    """Clients that each send again as soon as they are answered."""
    times: list[float] = []
    end = time.monotonic() + SECONDS

    def send(k: int) -> None:
        host = hosts[k % len(hosts)]
        for n in itertools.count():
            if (began := time.monotonic()) >= end:
                return
            with contextlib.suppress(OSError):
                told = (open_account(host, f'{tag}-{k}-{n}') if method == 'POST' else
                        ask(host, 'GET', STATEMENT, 'ISSUER', b'', 30))
                if told.status == 200:
                    times.append(time.monotonic() - began)

    together([lambda k=k: send(k) for k in range(count)])       # type: ignore[misc]
    times.sort()
    assert times
    return Load(len(times) / SECONDS, times[len(times) // 2] * 1000,
                times[int(len(times) * 0.99)] * 1000)


def together(acts: list[Callable[[], None]]) -> None:
    threads = [threading.Thread(target=act) for act in acts]
    for thread in threads:
        thread.start()
    for thread in threads:
        thread.join()


def spent(cluster: Cluster) -> dict[str, float]:
    """Processor seconds so far, by program, over all hosts."""
    total: dict[str, float] = collections.defaultdict(float)
    for host in cluster.hosts:
        for name in host.names:
            for pid in host.pids(name):
                fields = Path(f'/proc/{pid}/stat').read_text().rsplit(')', 1)[1].split()
                ticks = int(fields[11]) + int(fields[12])
                total[name] += ticks / os.sysconf('SC_CLK_TCK')
    return total


def median(loads: list[Load]) -> Load:
    """Of several runs the middle of each figure."""
    return Load(*(sorted(column)[len(column) // 2] for column in zip(*loads)))


@pytest.fixture(scope='module')
def bare_db(cluster: Cluster, clients: Clients) -> Path:
    """The file of a registry as the cluster's are."""
    db, host = cluster.folder / 'bare/registry.db', cluster.hosts[-1]
    db.parent.mkdir()
    host.hold('replica', 'goo')
    for file in host.disk.glob('goo/registry.db*'):
        shutil.copy(file, db.parent)
    host.release('goo', 'replica')
    cluster.even(60)
    return db


@pytest.mark.parametrize('count', CLIENTS)
@pytest.mark.parametrize('method', ['POST', 'GET'])
def test_figures(cluster: Cluster, bare_db: Path, method: str, count: int) -> None:
    """Bare, through one replica and through all."""
    runs: dict[str, list[Load]] = collections.defaultdict(list)
    hosts: list[Reachable] = [*cluster.hosts]
    each: dict[str, float] = collections.defaultdict(float)
    for turn in range(TURNS):
        tag = f'{turn}-{count}-{os.getpid()}'
        bare = Bare(cluster, bare_db)
        runs['bare'].append(load([bare], count, f'b{tag}', method))
        bare.stop()
        before = spent(cluster)
        runs['one'].append(load(hosts[:1], count, f'o{tag}', method))
        for name, seconds in spent(cluster).items():
            each[name] += (seconds - before[name]) / (runs['one'][-1].rate * SECONDS * TURNS)
        if cluster.count > 1:
            runs['three'].append(load(hosts, count, f't{tag}', method))
        cluster.even(60)
    found = {name: median(loads) for name, loads in runs.items()}
    show(f'{method}, {count} clients: ' + '; '.join(
        f'{name} {of.rate:.0f}/s p50 {of.p50:.2f} p99 {of.p99:.1f} ms, '
        f'{of.rate / found["bare"].rate:.2f} of bare' for name, of in found.items()) +
         f'; processor ms each { {name: round(1000 * one, 2) for name, one in each.items()} }')


def test_writes_go_on_while_a_host_is_lost(cluster: Cluster, clients: Clients) -> None:
    """Also the one that leads etcd."""
    if cluster.count == 1:
        pytest.skip('one host has no other')
    for host in cluster.hosts:
        gap = gap_without(cluster, host)
        show(f'{host.name} lost: {gap:.2f} s without a write answered')
        assert gap < MOST_GAP


def gap_without(cluster: Cluster, host: Host) -> float:
    """The longest time without a write answered when a host is lost, under 8 clients."""
    clients, ended = Clients(cluster, 8, host.i), threading.Event()

    def send(k: int) -> None:
        for n in itertools.count():
            if ended.is_set():
                return
            clients.request('ISSUER', k, 'open_account', f'l{host.i}-{k}-{n}', holder='C1')

    threads = [threading.Thread(target=send, args=(k,), daemon=True) for k in range(8)]
    for thread in threads:
        thread.start()
    time.sleep(2)
    status = json.loads(must(*host.etcdctl('-w', 'json', 'endpoint', 'status')))[0]['Status']
    show(f'{host.name} leads etcd: {status["leader"] == status["header"]["member_id"]}')
    began = time.monotonic()
    host.set_line('down')
    host.hold(*host.names, number=signal.SIGKILL)
    time.sleep(10)
    gap = clients.longest_gap(began - 0.5, began + 10)
    host.set_line('up')
    host.release(*host.names)
    ended.set()
    for thread in threads:
        thread.join(60)
    cluster.even(60)
    return gap


# -------------------------------------------------------------------- a large registry

def fill(db: Path) -> None:
    """A registry with many declarations, each of which has its certificates."""
    must(GOO, 'init', '--db', db, '--code', CODE, '--today', TODAY)
    devices = -(-ROWS // PER_DEVICE)
    plant = ('"country":"DE","site":"North","tech":"T010000","source":"F01010100",'
             '"capacity_w":2000000000,"commissioned":"2018-06-15","support":"none"')
    lines = ['ISSUER {"command":"open_holder","key":"h0","holder":"C1","name":"Client"}',
             'ISSUER {"command":"open_account","key":"a0","holder":"C1"}']
    lines += [f'ISSUER {{"command":"register_device","key":"d{d}","account":1,'
              f'"device":"{gsrn(d + 1)}",{plant}}}' for d in range(devices)]
    run(GOO, 'run', '--db', db, input='\n'.join(lines) + '\n')
    table = [HEAD, *(f'r{d}-{k},{gsrn(d + 1)},{day(k - 22)},{day(k - 22)},3000000,0'
                     for d in range(devices) for k in range(PER_DEVICE))]
    subprocess.run([GOO, 'declare', '--db', db], input='\n'.join(table).encode() + b'\n',
                   stdout=subprocess.DEVNULL, check=False)


def test_a_copy_of_a_large_registry(begin: Make, tmp_path: Path) -> None:
    """Nobody is answered anything but 200 while it is made."""
    fill(tmp_path / 'large.db')
    with begin(1, tmp_path / 'large.db', memory=False) as cluster:
        host = cluster.hosts[0]
        cluster.even(300)
        before = answers_during(host, lambda: time.sleep(10))
        began = time.monotonic()
        while_copied = answers_during(host, lambda: host.op('copy'))
        show(f'a copy in {time.monotonic() - began:.1f} s: the longest wait '
             f'{max(wait for _, wait in while_copied):.2f} s, without it '
             f'{max(wait for _, wait in before):.2f} s')
        assert len(list((cluster.folder / 'copies').glob('????-*'))) == 2
        assert {status for status, _ in while_copied} == {200}


def answers_during(host: Host, act: Callable[[], object]) -> list[tuple[int, float]]:
    """What four visitors, who write and read now and then, are told while something is done, and
    how long each waits."""
    waits: list[tuple[int, float]] = []
    ended = threading.Event()

    def visit(k: int) -> None:
        for n in itertools.count():
            if ended.is_set():
                return
            began, number = time.monotonic(), f'{CODE:02}{n % 1000 + 1:012}'
            told = (open_account(host, f'v{id(act)}-{k}-{n}', 300) if n % 2 else
                    ask(host, 'GET', f'/v1/certificates/{number}', 'ISSUER', b'', 300))
            waits.append((told.status, time.monotonic() - began))
            time.sleep(0.05)

    threads = [threading.Thread(target=visit, args=(k,)) for k in range(4)]
    for thread in threads:
        thread.start()
    act()
    ended.set()
    for thread in threads:
        thread.join()
    return waits
