"""Clients send requests while processes, networks and disks fail by chance; then all must hold."""
import collections
import os
import random
import time
from pathlib import Path

import pytest
from replicas.clients import Clients
from replicas.cluster import Cluster
from replicas.conftest import Make
from replicas.faults import Faults
from replicas.held import all_must_hold
from replicas.talk import memory_of

COUNTS = (1, 3)
CERTIFICATES = 40000
"""Of each client at the beginning of hours: some days of requests."""
MORE_KB, MORE_FILES = 40 << 10, 8
"""What a process may have more at the end of hours than after the first quarter, beside a
connection for each client."""


def show(*words: object) -> None:
    """Figures of a run, which tools/trials/replicas shows."""
    print('    ', *words, flush=True)


def show_run(cluster: Cluster, clients: Clients, faults: Faults, until: float) -> None:
    ops, logs = clients.ops, [host.log('replica') for host in cluster.hosts]
    show(f'{len(ops)} requests, answered {dict(collections.Counter(op["status"] for op in ops))}, '
         f'tries {dict(clients.tries)}, faults {dict(faults.count)}, '
         f'starts {[dict(host.starts) for host in cluster.hosts]}')
    show(f'{sum(op["tries"] > 1 for op in ops)} were sent more than once; '
         f'longest time without a write answered '
         f'{clients.longest_gap(ops[0]["answered"], until):.1f} s; '
         f'{sum(log.count("again in") for log in logs)} entries sent to goo again; resident KB '
         f'of the replicas {[memory_of(host.pids("replica")) for host in cluster.hosts]}')


@pytest.mark.parametrize('count', COUNTS)
def test_faults(begin: Make, request: pytest.FixtureRequest, count: int) -> None:
    """All replicas take requests again, none has halted, and nothing that was told is lost."""
    option = request.config.getoption
    with begin(count) as cluster:
        clients = Clients(cluster, option('--clients'), option('--seed'))
        faults = Faults(cluster, option('--seed'))
        clients.set_up()
        clients.start()
        faults.go(option('--seconds'))
        healed = time.monotonic()
        assert cluster.is_well(90), [host.log('replica')[-300:] for host in cluster.hosts]
        time.sleep(1)
        clients.end()
        cluster.even(60)
        show_run(cluster, clients, faults, healed)
        for log in (host.log('replica') for host in cluster.hosts):
            assert not any(word in log for word in ('HALTED', 'OUTVOTED', 'Traceback')), log[-900:]
        all_must_hold(cluster, clients)


@pytest.mark.slow
@pytest.mark.parametrize('count', COUNTS)
def test_all_processes_end_at_once(begin: Make, request: pytest.FixtureRequest,
                                   count: int) -> None:
    """Again and again, under load."""
    option = request.config.getoption
    with begin(count) as cluster:
        clients = Clients(cluster, option('--clients'), option('--seed'))
        faults = Faults(cluster, option('--seed'))
        clients.set_up()
        clients.start()
        for _ in range(5):
            time.sleep(random.uniform(1, 3))
            faults.power()
            cluster.is_well(60)
        clients.end()
        cluster.even(60)
        all_must_hold(cluster, clients)


# -------------------------------------------------------------------- hours of low load

def of_processes(cluster: Cluster) -> dict[str, tuple[int, int]]:
    """Resident KB and open files of each program's processes, by host and program."""
    pids = {f'{host.name} {name}': host.pids(name) for host in cluster.hosts
            for name in host.names}
    return {who: (memory_of(each), sum(len(os.listdir(f'/proc/{pid}/fd')) for pid in each))
            for who, each in pids.items()}


def size_of(folder: Path) -> int:
    return sum(path.stat().st_size for path in folder.rglob('*') if path.is_file())


def show_hosts(cluster: Cluster, clients: Clients, seen: int) -> dict[str, tuple[int, int]]:
    processes = of_processes(cluster)
    for host in cluster.hosts:
        log = host.state / 'log' if host.alone else host.folder / 'etcd'
        show(f'{host.name}: {processes}; log {size_of(log) >> 10} KB, archive '
             f'{size_of(host.state / "archive") >> 10} KB, registry '
             f'{size_of(host.disk / "goo") >> 10} KB')
    lately = clients.ops[seen:]
    longest = max((op['answered'] - op['sent'] for op in lately), default=0)
    show(f'{len(clients.ops)} requests, {sum(op["tries"] > 1 for op in lately)} of the last '
         f'{len(lately)} sent again, longest answer {longest:.3f} s')
    return processes


@pytest.mark.parametrize('count', [1, pytest.param(3, marks=pytest.mark.slow)])
def test_low_load_for_hours(begin: Make, request: pytest.FixtureRequest, count: int) -> None:
    """No process is started again, and what a replica has of memory and files does not grow."""
    option = request.config.getoption
    hours, many = option('--hours'), option('--clients')
    with begin(count, room='4g') as cluster:
        clients = Clients(cluster, many, option('--seed'), CERTIFICATES, many / option('--rate'))
        clients.set_up()
        clients.start()
        began, seen, told = time.monotonic(), 0, []
        while (left := began + hours * 3600 - time.monotonic()) > 0:
            time.sleep(min(left, 300, hours * 900))
            told.append(show_hosts(cluster, clients, seen))
            seen = len(clients.ops)
        clients.end()
        early, late = told[(len(told) - 1) // 4], told[-1]
        for who in (who for who in late if who.endswith('replica')):
            assert late[who][0] - early[who][0] < MORE_KB, (who, told)
            assert late[who][1] - early[who][1] < MORE_FILES + many, (who, told)
        assert all(set(host.starts.values()) == {1} for host in cluster.hosts)
        cluster.even(60)
        all_must_hold(cluster, clients)
