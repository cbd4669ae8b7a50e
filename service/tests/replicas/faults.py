"""Faults by chance: processes that are killed or stopped, hosts cut off, disks full; a weak goo."""
import collections
import contextlib
import itertools
import random
import re
import signal
import socket
import threading
import time

import client
from replicas.cluster import Cluster
from replicas.host import Host
from replicas.talk import enter
from replicas.talk import must

KINDS = {'kill goo': 3, 'kill replica': 4, 'kill etcd': 3, 'cut': 3, 'deaf': 2, 'lossy': 2,
         'full': 2, 'stop goo': 1, 'stop replica': 2, 'stop etcd': 2, 'kill host': 2, 'power': 1}
"""Each fault, and how often it comes."""
OF_NETWORK = ('cut', 'deaf', 'lossy')
ALL = slice(None)
UNAVAILABLE = (b'HTTP/1.1 503 Service Unavailable\r\nContent-Type: text/plain\r\n'
               b'Content-Length: 20\r\n\r\nService Unavailable\n')
INCOMING = 'chain in {{ type filter hook input priority 0; iifname eth0 {} drop; }};'
"""What is dropped of what comes to a host."""


class Faults:
    """One after another, and now and then two at once."""

    def __init__(self, cluster: Cluster, seed: int) -> None:
        self.cluster, self.chance = cluster, random.Random(seed)
        self.count: collections.Counter[str] = collections.Counter()

    def go(self, seconds: float) -> None:
        end = time.monotonic() + seconds
        while time.monotonic() < end:
            time.sleep(self.chance.uniform(0.2, 2.5))
            at_once = 2 if self.chance.random() < 0.25 else 1
            threads = [threading.Thread(target=self.one) for _ in range(at_once)]
            for thread in threads:
                thread.start()
            for thread in threads:
                thread.join()

    def one(self) -> None:
        host = self.chance.choice(self.cluster.hosts)
        kinds = {kind: weight for kind, weight in KINDS.items() if self.can_be(host, kind)}
        kind, = self.chance.choices(list(kinds), list(kinds.values()))
        self.count[kind] += 1
        getattr(self, kind.split()[0])(host, kind.split()[-1])

    def can_be(self, host: Host, kind: str) -> bool:
        if host.alone and (kind in OF_NETWORK or kind.endswith('etcd')):
            return False
        return kind != 'full' or self.cluster.memory

    def some_of(self, name: str) -> slice:
        """Of the two processes of a replica both, or one of them."""
        return self.chance.choice((ALL, slice(0, 1), slice(1, 2))) if name == 'replica' else ALL

    def kill(self, host: Host, name: str) -> None:
        for one in host.names if name == 'host' else [name]:
            host.send(one, signal.SIGKILL, self.some_of(name))

    def power(self, *_: object) -> None:
        """Everything ends at once. test_power.py tries what a disk has then that was not synced."""
        for host in self.cluster.hosts:
            self.kill(host, 'host')

    def stop(self, host: Host, name: str) -> None:
        host.send(name, signal.SIGSTOP, self.some_of(name))
        time.sleep(self.chance.choice((0.3, 1, 3, 6, 11)))
        host.send(name, signal.SIGCONT)

    def cut(self, host: Host, _: str) -> None:
        host.set_line('down')
        time.sleep(self.chance.uniform(1, 6))
        host.set_line('up')

    def deaf(self, host: Host, _: str) -> None:
        """What the host sends arrives; what is sent to it does not."""
        self.drop(host, 'deaf', '')

    def lossy(self, host: Host, _: str) -> None:
        """Of what is sent to the host a part is lost: lines become slow."""
        part = self.chance.choice((5, 20, 40))
        self.drop(host, 'lossy', f'numgen random mod 100 < {part}')

    def drop(self, host: Host, name: str, which: str) -> None:
        must(*host.inside('nft', f'table inet {name} {{ {INCOMING.format(which)} }}'))
        time.sleep(self.chance.uniform(1, 6))
        must(*host.inside('nft', f'delete table inet {name}'))

    def full(self, host: Host, *_: object) -> None:
        ballast = host.disk / 'ballast'
        with contextlib.suppress(OSError), open(ballast, 'wb', buffering=0) as file:
            while file.tell() < 70 << 20:
                file.write(b'x' * (1 << 20))
        time.sleep(self.chance.uniform(1, 4))
        ballast.unlink()


class Weak(threading.Thread):
    """Before a goo: answers 503, or loses the answer, or the request, by chance.

    With `poison`, a request that has it is always answered 503, and all others pass.
    """

    ports = itertools.count(8500)

    def __init__(self, host: Host, poison: bytes = b'') -> None:
        super().__init__(daemon=True)
        self.host, self.chance, self.poison = host, random.Random(5), poison
        self.port: int = client.free_port() if host.alone else next(self.ports)
        self.count: collections.Counter[str] = collections.Counter()
        self.start()

    def run(self) -> None:
        enter(self.host)
        with socket.create_server(('127.0.0.1', self.port)) as listener:
            while True:
                near, _ = listener.accept()
                with near, contextlib.suppress(OSError):
                    self.carry(near)

    def carry(self, near: socket.socket) -> None:
        request = b''
        while b'\r\n\r\n' not in request:
            if not (part := near.recv(65536)):
                return                          # a connection that was opened ahead
            request += part
        head, _, rest = request.partition(b'\r\n\r\n')
        length = re.search(rb'(?i)content-length: *(\d+)', head)
        while length and len(rest) < int(length[1]):
            rest += near.recv(65536)
        fate = self.fate_of(head, rest)
        self.count[fate] += 1
        if fate == '503':
            near.sendall(UNAVAILABLE)
        if fate in ('503', 'lost'):
            return
        with socket.create_connection(('127.0.0.1', self.host.inner)) as far:
            far.sendall(head + b'\r\n\r\n' + rest)
            while part := far.recv(65536):
                if fate == 'passed':
                    near.sendall(part)

    def fate_of(self, head: bytes, body: bytes) -> str:
        if self.poison:
            return '503' if self.poison in body else 'passed'
        if not head.startswith(b'POST'):
            return 'passed'
        return self.chance.choice(('503', 'unheard', 'lost', 'passed', 'passed'))
