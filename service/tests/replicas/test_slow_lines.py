"""Slow lines between three hosts: many kernels have no netem, so relays hand on after a while."""
import asyncio
import contextlib
import signal
import threading
import time
from collections.abc import Awaitable
from collections.abc import Callable
from collections.abc import Iterator

import pytest
from replicas.clients import Clients
from replicas.cluster import Cluster
from replicas.cluster import GATE
from replicas.conftest import Make
from replicas.host import Host
from replicas.talk import enter
from replicas.talk import must
from replicas.test_three_hosts import heard
from replicas.test_three_hosts import member_of
from replicas.test_three_hosts import must_be_even

pytestmark = pytest.mark.slow
DELAY = 0.03
"""Seconds one way. A member waits a second for its leader."""
Parts = asyncio.Queue[tuple[float, bytes]]
Carry = Callable[[asyncio.StreamReader, asyncio.StreamWriter], Awaitable[None]]


@pytest.fixture(scope='module')
def cluster(begin: Make) -> Iterator[Cluster]:
    with begin(3) as made:
        yield made


class Relays(threading.Thread):
    """For each host a port at the switch that leads to its etcd, as the others reach it."""

    def __init__(self, cluster: Cluster) -> None:
        super().__init__(daemon=True)
        self.cluster, self.ready = cluster, threading.Event()
        self.start()
        self.ready.wait(20)

    def url(self, host: Host) -> str:
        return f'{host.scheme}://{GATE}:{2390 + host.i}'

    def run(self) -> None:
        enter(self.cluster.gate)
        asyncio.run(self.serve())

    async def serve(self) -> None:
        for host in self.cluster.hosts:
            await asyncio.start_server(self.carrier(host.address), GATE, 2390 + host.i)
        self.ready.set()
        await asyncio.Event().wait()

    def carrier(self, to: str) -> Carry:
        async def carry(reader: asyncio.StreamReader, writer: asyncio.StreamWriter) -> None:
            with contextlib.suppress(OSError):
                far, back = await asyncio.open_connection(to, 2380)
                await asyncio.gather(self.hand_on(reader, back), self.hand_on(far, writer))
            writer.close()

        return carry

    async def hand_on(self, reader: asyncio.StreamReader, writer: asyncio.StreamWriter) -> None:
        """All parts in their order, each after the delay; many are under way at once."""
        parts: Parts = asyncio.Queue()
        sends = asyncio.create_task(self.send_late(parts, writer))
        with contextlib.suppress(OSError):
            while part := await reader.read(65536):
                parts.put_nowait((time.monotonic() + DELAY, part))
        parts.put_nowait((time.monotonic() + DELAY, b''))
        await sends

    async def send_late(self, parts: Parts, writer: asyncio.StreamWriter) -> None:
        while True:
            at, part = await parts.get()
            await asyncio.sleep(max(0, at - time.monotonic()))
            if not part or writer.is_closing():
                break
            writer.write(part)
        writer.close()


def tell_members(cluster: Cluster, url: Callable[[Host], str]) -> None:
    """Tells etcd where its members are reached from now on, and has them connect anew."""
    one = cluster.hosts[0]
    for host in cluster.hosts:
        member = member_of(one, f' {host.name},')
        heard(*one.etcdctl('member', 'update', member, f'--peer-urls={url(host)}'))
    for host in cluster.hosts:
        host.restart('etcd')
    cluster.even(90)


@contextlib.contextmanager
def by_relays_alone(cluster: Cluster) -> Iterator[None]:
    """Breaks the lines that go from member to member: one that was started again may have dialled
    before it read where the others are reached now."""
    rule = (f'table inet direct {{ chain in {{ type filter hook input priority 0; iifname eth0 '
            f'ip saddr != {GATE} tcp dport 2380 reject with tcp reset; }}; }}')
    for host in cluster.hosts:
        must(*host.inside('nft', rule))
    cluster.even(90)
    yield
    for host in cluster.hosts:
        must(*host.inside('nft', 'delete table inet direct'))


def quickest(clients: Clients, tag: str) -> float:
    ops = [clients.request('ISSUER', n % 3, 'open_account', f'{tag}-{n}', holder='C1')
           for n in range(12)]
    return min(float(op['answered'] - op['sent']) for op in ops)


def test_slow_lines(cluster: Cluster, clients: Clients) -> None:
    """Each write takes as long as a majority is away, and nothing else changes."""
    relays = Relays(cluster)
    tell_members(cluster, relays.url)
    with by_relays_alone(cluster):
        assert quickest(clients, 'far') > 2 * DELAY
        assert clients.some(30, 'slow') == 30
        cluster.hosts[0].hold('etcd', number=signal.SIGKILL)
        answered = clients.some(10, 'slower', 1)
        cluster.hosts[0].release('etcd')
        assert answered == 10
        must_be_even(cluster)
    tell_members(cluster, lambda host: host.peer_url)
    members = must(*cluster.hosts[0].etcdctl('member', 'list'))
    assert '2390' not in members and members.count('started') == 3, members
    cluster.even(60)
