"""One host, or three with etcd. What ended is started again, as systemd does it."""
import concurrent.futures
import os
import random
import shutil
import signal
import ssl
import threading
import time
from collections.abc import Sequence
from dataclasses import dataclass
from pathlib import Path
from typing import Self

from replicas.host import Host
from replicas.talk import CODE
from replicas.talk import GOO
from replicas.talk import Port
from replicas.talk import TODAY
from replicas.talk import must
from replicas.talk import run

GATE = '10.99.0.9'
"""The address of what stands between the hosts and everybody else."""
DELAY = 0.2, 1.5
"""Seconds after which what ended is started again."""
CURVE = ('-newkey', 'ec', '-pkeyopt', 'ec_paramgen_curve:prime256v1', '-nodes')
Rows = tuple[str, str]
"""The rows of a registry as text, and its audit."""


@dataclass(frozen=True)
class Ground:
    """What a cluster stands on: TLS between its parts; its disks in memory, which asks for root,
    and the size of each."""

    tls: bool = False
    memory: bool = True
    room: str = '64m'


class Cluster:
    """Hosts whose registries begin as copies of one."""

    def __init__(self, folder: Path, count: int, ground: Ground,
                 registry: Path | None = None) -> None:
        self.folder, self.count, self.registry = folder, count, registry
        self.tls, self.room = ground.tls, ground.room
        self.memory = ground.memory and os.geteuid() == 0
        self.switch, self.ended = f'gr{os.getpid()}-s', False
        self.delay: tuple[float, float] = DELAY
        self.etcd_state = 'new'
        self.gate = Port(None, 443, GATE)
        self.keeper: threading.Thread | None = None
        self.hosts = [Host(self, i) for i in range(1, count + 1)]
        self.chance = random.Random(1)

    def __enter__(self) -> Self:
        self.folder.mkdir(parents=True)
        (self.folder / 'mac.key').write_text('a key that replicas of a trial have')
        (self.folder / 'copies').mkdir()
        try:
            self.begin()
        except BaseException:
            self.__exit__()
            raise
        return self

    def begin(self) -> None:
        begun = self.folder / 'begun.db'
        if self.count > 1:
            self.lay_switch()
        for host in self.hosts:
            host.lay()
        if self.tls:
            self.make_certificates()
        if self.registry:
            shutil.copy(self.registry, begun)
        else:
            must(GOO, 'init', '--db', begun, '--code', CODE, '--today', TODAY)
        for host in self.hosts:
            shutil.copy(begun, host.disk / 'goo/registry.db')
            for name in host.names[:-1]:
                host.start(name)
        self.begin_log()
        self.keeper = threading.Thread(target=self.supervise, daemon=True)
        self.keeper.start()
        self.even(60)

    def lay_switch(self) -> None:
        must('ip', 'netns', 'add', self.switch)
        for words in (('link', 'add', 'br0', 'type', 'bridge'), ('link', 'set', 'br0', 'up'),
                      ('addr', 'add', f'{GATE}/24', 'dev', 'br0'), ('link', 'set', 'lo', 'up')):
            must('ip', '-n', self.switch, *words)
        self.gate = Port(os.open(f'/run/netns/{self.switch}', os.O_RDONLY), 443, GATE)

    def begin_log(self) -> None:
        """Whoever got no answer may find that the log was begun all the same."""
        first, there = self.hosts[0], 'there is a log in this etcd, which ends at entry 1\n'
        for unanswered in range(50):
            done = first.op('found')
            begun = done.returncode == 0 or unanswered and there in done.stderr
            if begun:
                break
            time.sleep(0.3)
        assert begun, done
        shutil.copy(first.state / 'place', self.folder / 'place-0')
        for host in self.hosts[1:]:
            shutil.copy(first.state / 'place', host.state / 'place')
        first.op('first-copy')

    def make_certificates(self) -> None:
        ca = self.folder / 'ca.pem'
        must('openssl', 'req', '-x509', *CURVE, '-days', '2', '-subj', '/CN=goo etcd',
             '-keyout', self.folder / 'ca.key', '-out', ca)
        for host in self.hosts:
            tls = host.folder / 'tls'
            tls.mkdir()
            (tls / 'ext').write_text(f'subjectAltName=IP:{host.address},IP:127.0.0.1,IP:{GATE}\n'
                                     'extendedKeyUsage=serverAuth,clientAuth\n')
            must('openssl', 'req', *CURVE, '-subj', f'/O={host.name}', '-keyout', tls / 'key',
                 '-out', tls / 'csr')
            must('openssl', 'x509', '-req', '-in', tls / 'csr', '-CA', ca, '-CAkey',
                 self.folder / 'ca.key', '-CAcreateserial', '-days', '2', '-extfile',
                 tls / 'ext', '-out', tls / 'pem')

    def context(self) -> ssl.SSLContext | None:
        """With which etcd is asked."""
        if not self.tls:
            return None
        tls = self.hosts[0].folder / 'tls'
        context = ssl.create_default_context(cafile=self.folder / 'ca.pem')
        context.load_cert_chain(tls / 'pem', tls / 'key')
        return context

    # ---------------------------------------------------------------- what systemd does

    def supervise(self) -> None:
        while not self.ended:
            for host in self.hosts:
                for name in host.names:
                    self.supervise_one(host, name)
            time.sleep(0.05)

    def supervise_one(self, host: Host, name: str) -> None:
        process = host.processes.get(name)
        if name in host.held or process and process.poll() is None:
            return
        at = host.again_at.get(name)
        if at is None:
            at = host.again_at[name] = time.monotonic() + self.chance.uniform(*self.delay)
        if time.monotonic() >= at and not self.ended:
            host.again_at[name] = None
            host.start(name)

    def stop(self, *names: str) -> None:
        for host in self.hosts:
            host.hold(*names)

    # ---------------------------------------------------------------- how it stands

    def even(self, patience: float, hosts: Sequence[Host] = ()) -> int:
        """Waits until all replicas have applied the whole log; up to which entry."""
        end, said = time.monotonic() + patience, []
        while time.monotonic() < end:
            said = [host.health() for host in hosts or self.hosts]
            if (all(one.get('ok') and one['behind'] == 0 for one in said)
                    and len({one['entry'] for one in said}) == 1):
                return int(said[0]['entry'])
            time.sleep(0.2)
        raise AssertionError(f'not even after {patience} s: {said}')

    def is_well(self, patience: float) -> bool:
        """Whether all replicas take requests, before this time is over."""
        end = time.monotonic() + patience
        while not (is_well := all(host.health().get('ok') for host in self.hosts)):
            if time.monotonic() > end:
                break
            time.sleep(0.2)
        return is_well

    def dumps(self) -> list[Rows]:
        """The rows of each stopped registry."""
        with concurrent.futures.ThreadPoolExecutor() as pool:
            return list(pool.map(lambda host: dump(host.disk / 'goo/registry.db', self.folder
                                                   / f'copy-{host.name}'), self.hosts))

    # ---------------------------------------------------------------- its end

    def __exit__(self, *_: object) -> None:
        # told to end once more, it would leave the rest behind
        before, self.ended = signal.signal(signal.SIGTERM, signal.SIG_IGN), True
        if self.keeper:
            self.keeper.join(20)
        self.take_away()
        signal.signal(signal.SIGTERM, before)

    def take_away(self) -> None:
        for host in self.hosts:
            for name in host.names:
                host.send(name, signal.SIGCONT)
                host.send(name, signal.SIGKILL)
        for host in self.hosts:
            for name in host.names:
                host.wait(name, 20)
            if host.fd is not None:
                os.close(host.fd)
                run('ip', 'netns', 'del', host.ns)
            if self.memory:
                run('umount', host.disk)
        if self.count > 1:
            if self.gate.fd is not None:
                os.close(self.gate.fd)
            run('ip', 'netns', 'del', self.switch)


def dump(db: Path, folder: Path) -> Rows:
    """The rows of a registry, and its audit."""
    shutil.rmtree(folder, ignore_errors=True)
    folder.mkdir()
    for file in db.parent.glob('registry.db*'):
        shutil.copy(file, folder)
    audit = run(GOO, 'audit', '--db', folder / 'registry.db')
    if audit.returncode:
        return f'audit: {audit}', audit.stdout
    return run('sqlite3', folder / 'registry.db', '.dump').stdout, audit.stdout
