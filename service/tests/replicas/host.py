"""One host of a cluster: its network, its disk and its processes."""
import collections
import contextlib
import json
import os
import signal
import subprocess
from pathlib import Path
from typing import Any
from typing import TYPE_CHECKING

import client
from door import SERVICE
from replicas.talk import CODE
from replicas.talk import Done
from replicas.talk import GOO
from replicas.talk import REPLICA
from replicas.talk import REPLICA_LOG
from replicas.talk import VERSION
from replicas.talk import ask
from replicas.talk import group_of
from replicas.talk import must
from replicas.talk import run
from replicas.talk import until
from service_commands import command

if TYPE_CHECKING:
    from replicas.cluster import Cluster

DIGEST = ' '.join(command('goo-copies digest', SERVICE))
Words = list[object]


class Host:
    """A host that is alone has this machine's network, and ports that were free."""

    def __init__(self, cluster: 'Cluster', i: int) -> None:
        self.cluster, self.i, self.name = cluster, i, f'h{i}'
        self.folder = cluster.folder / self.name
        self.disk = self.folder / 'disk'            # small, so that it can be filled
        self.state = self.disk / 'replica'
        self.alone = cluster.count == 1
        self.ns, self.address = f'gr{os.getpid()}-{i}', f'10.99.0.{i}'
        self.port, self.inner = 8470, 8471
        self.names = ['etcd', 'rows', 'goo', 'replica']
        if self.alone:
            self.ns, self.address = '', '127.0.0.1'
            self.port, self.inner = client.free_port(), client.free_port()
            self.names = ['goo', 'replica']
        self.processes: dict[str, subprocess.Popen[bytes]] = {}
        self.held: set[str] = set()
        self.again_at: dict[str, float | None] = {}
        self.words: Words = []
        self.starts: collections.Counter[str] = collections.Counter()
        self.replica: tuple[object, ...] = (REPLICA,)
        self.goo_port = self.inner
        self.fd: int | None = None

    def lay(self) -> None:
        (self.folder / 'etcd').mkdir(parents=True)
        self.disk.mkdir()
        if self.cluster.memory:
            must('mount', '-t', 'tmpfs', '-o', f'size={self.cluster.room}', 'none', self.disk)
        (self.disk / 'goo').mkdir()
        self.state.mkdir()
        (self.folder / 'version').write_text(VERSION)
        if self.ns:
            self.lay_network()

    def lay_network(self) -> None:
        switch = self.cluster.switch
        must('ip', 'netns', 'add', self.ns)
        must('ip', 'link', 'add', 'eth0', 'netns', self.ns, 'type', 'veth', 'peer', 'name',
             f'v{self.i}', 'netns', switch)
        must('ip', '-n', self.ns, 'addr', 'add', f'{self.address}/24', 'dev', 'eth0')
        for link in ('lo', 'eth0'):
            must('ip', '-n', self.ns, 'link', 'set', link, 'up')
        must('ip', '-n', switch, 'link', 'set', f'v{self.i}', 'master', 'br0', 'up')
        self.fd = os.open(f'/run/netns/{self.ns}', os.O_RDONLY)

    def set_line(self, state: str) -> None:
        """The line to the other hosts: `up` or `down`."""
        must('ip', '-n', self.cluster.switch, 'link', 'set', f'v{self.i}', state)

    def inside(self, *words: object) -> list[str]:
        """The words of a program, in the host's network."""
        return [*(('ip', 'netns', 'exec', self.ns) if self.ns else ()), *map(str, words)]

    # ---------------------------------------------------------------- commands

    @property
    def scheme(self) -> str:
        return 'https' if self.cluster.tls else 'http'

    def command(self, name: str) -> Words:
        db = self.disk / 'goo/registry.db'
        if name == 'etcd':
            return self.etcd_command()
        if name == 'rows':
            socket = self.folder / 'rows.sock'
            return ['sh', '-c', f'rm -f {socket}; exec systemd-socket-activate --accept --inetd '
                    f'--listen {socket} {DIGEST} --db {db} --into {self.folder}']
        if name == 'goo':
            return [GOO, 'serve', '--db', db, '--port', self.inner, '--count', '1000000000']
        store: Words = ['--store', self.state / 'log'] if self.alone else []
        return [*self.replica, *self.common(), '--listen', f'127.0.0.1:{self.port}',
                '--registry', f'127.0.0.1:{self.goo_port}', '--digest', '100',
                '--rows', self.folder / 'rows.sock', *store,
                '--version', f'@{self.folder}/version', *self.words]

    def etcd_command(self) -> Words:
        cluster, tls = self.cluster, self.folder / 'tls'
        here, there = f'{self.scheme}://127.0.0.1', f'{self.scheme}://{self.address}'
        of: Words = []
        for mark in ('--', '--peer-') if cluster.tls else ():
            of += [f'{mark}trusted-ca-file', cluster.folder / 'ca.pem', f'{mark}cert-file',
                   tls / 'pem', f'{mark}key-file', tls / 'key', f'{mark}client-cert-auth']
        members = ','.join(f'{host.name}={host.peer_url}' for host in cluster.hosts)
        return ['etcd', '--name', self.name, '--data-dir', self.folder / 'etcd/data',
                '--logger', 'zap', '--log-level', 'warn',
                '--listen-client-urls', f'{here}:2379,{there}:2379',
                '--advertise-client-urls', f'{there}:2379',
                '--listen-peer-urls', self.peer_url,
                '--initial-advertise-peer-urls', self.peer_url, '--initial-cluster', members,
                '--initial-cluster-token', 'goo-07',
                '--initial-cluster-state', cluster.etcd_state,
                '--auto-compaction-mode', 'revision', '--auto-compaction-retention', '10000',
                '--quota-backend-bytes', 8 << 30, *of]

    @property
    def peer_url(self) -> str:
        return f'{self.scheme}://{self.address}:2380'

    def etcdctl(self, *words: object) -> list[str]:
        """The words of etcdctl on this host."""
        tls, of = self.folder / 'tls', list[object]()
        if self.cluster.tls:
            of = ['--cacert', self.cluster.folder / 'ca.pem', '--cert', tls / 'pem',
                  '--key', tls / 'key']
        return self.inside('etcdctl', '--endpoints', f'{self.scheme}://127.0.0.1:2379', *of, *words)

    def common(self) -> Words:
        """The words of the replica and of replica-log."""
        said: Words = ['--name', self.name, '--state', self.state,
                       '--key', self.cluster.folder / 'mac.key']
        return said if self.alone else said + self.to_etcd()

    def to_etcd(self) -> Words:
        cluster, tls = self.cluster, self.folder / 'tls'
        others = [host.address for host in cluster.hosts if host is not self]
        urls = ','.join(f'{self.scheme}://{one}:2379' for one in ('127.0.0.1', *others))
        keys: Words = []
        if cluster.tls:
            keys = ['--ca', cluster.folder / 'ca.pem', '--cert', tls / 'pem',
                    '--cert-key', tls / 'key']
        return ['--code', CODE, '--etcd', urls, *keys]

    def op(self, *words: object, program: tuple[object, ...] = (REPLICA_LOG,)) -> Done:
        """replica-log, as the operator of this host says it; or another program with its words."""
        version = ['--version', VERSION] if words[0] in ('found', 'first-copy') else []
        environment = {**os.environ, 'TMPDIR': str(self.cluster.folder),
                       'GOO_EXCHANGE': '/nowhere', 'GOO_CONFIGURATION': '/nowhere'}
        return run(*self.inside(*program, *words, *self.common(),
                                '--door', f'127.0.0.1:{self.port}', '--goo', GOO,
                                '--copies', self.cluster.folder / 'copies',
                                '--db', self.disk / 'goo/registry.db', *version), env=environment)

    # ---------------------------------------------------------------- processes

    def start(self, name: str) -> None:
        with open(self.folder / f'{name}.log', 'ab') as log:
            self.processes[name] = subprocess.Popen(
                self.inside(*self.command(name)), stdin=subprocess.DEVNULL, stdout=log,
                stderr=log, start_new_session=True)
        self.starts[name] += 1

    def pids(self, name: str) -> list[int]:
        """The processes of a name, the first one first: a replica has two."""
        return group_of(self.processes[name].pid) if name in self.processes else []

    def send(self, name: str, number: int, which: slice = slice(None)) -> None:
        """To all of its processes, as systemd does it, or to some."""
        for pid in self.pids(name)[which]:
            with contextlib.suppress(ProcessLookupError):
                os.kill(pid, number)

    def wait(self, name: str, seconds: float = 60) -> None:
        """Until all of its processes have ended."""
        if name in self.processes:
            self.processes[name].wait(seconds)
            until(lambda: not self.pids(name), seconds, 0.01)

    def hold(self, *names: str, number: int = signal.SIGTERM) -> None:
        """Ends processes, one after another, and they stay down."""
        for name in names:
            self.held.add(name)
            self.send(name, signal.SIGCONT)
            self.send(name, number)
            self.wait(name)

    def release(self, *names: str) -> None:
        for name in names:
            self.held.discard(name)
            self.again_at[name] = 0

    def restart(self, *names: str) -> None:
        names = names or ('replica',)
        self.hold(*names)
        self.release(*names)

    # ---------------------------------------------------------------- what it says

    def log(self, name: str) -> str:
        return (self.folder / f'{name}.log').read_text(errors='replace')

    def health(self) -> dict[str, Any]:
        try:
            found: dict[str, Any] = json.loads(ask(self, 'GET', '/healthz', '', b'', 5).text)
            return found
        except (OSError, ValueError):
            return {}

    def must_refuse(self, why: str) -> None:
        """Waits until this host takes nothing, for this reason."""
        until(lambda: why in self.health().get('why', ''))
        assert why in self.health().get('why', ''), (self.health(), self.log('replica')[-300:])

    def metrics(self) -> str:
        return ask(self, 'GET', '/metrics', '', b'', 20).text

    def copy(self) -> Path:
        """The newest copy in the cluster's folder of copies."""
        return sorted((self.cluster.folder / 'copies').glob('????-*'))[-1]
