"""haproxy in front of three hosts with nginx, by service/etc."""
import contextlib
import signal
import subprocess
import time
from collections.abc import Iterator
from pathlib import Path

import pytest
from door import SERVICE
from replicas.clients import Clients
from replicas.cluster import Cluster
from replicas.cluster import GATE
from replicas.conftest import Make
from replicas.conftest import must_have
from replicas.host import Host
from replicas.talk import ask
from replicas.talk import open_account
from replicas.talk import run
from replicas.talk import until
from suite import is_there

pytestmark = pytest.mark.slow
ETC = Path(SERVICE) / 'etc'
TEMPORARY = ('client_body', 'proxy', 'fastcgi', 'uwsgi', 'scgi')


@pytest.fixture(scope='module')
def cluster(begin: Make) -> Iterator[Cluster]:
    """Three hosts behind a balancer."""
    must_have(', '.join(name for name in ('nginx', 'haproxy') if not is_there(name)))
    with begin(3) as made, contextlib.ExitStack() as stack:
        folder = made.folder / 'doors'
        folder.mkdir()
        balancer = (ETC / 'haproxy/haproxy.cfg').read_text()
        for host in made.hosts:
            stack.enter_context(front_door(host, folder / host.name))
            balancer = balancer.replace(f'192.0.2.{host.i}:', f'{host.address}:')
        (folder / 'haproxy.cfg').write_text(balancer)
        words = ['ip', 'netns', 'exec', made.switch, 'haproxy', '-f', str(folder / 'haproxy.cfg')]
        stack.enter_context(standing(words))
        yield made


@contextlib.contextmanager
def standing(words: list[str]) -> Iterator[None]:
    process = subprocess.Popen(words, stderr=subprocess.DEVNULL)
    try:
        yield
    finally:
        process.terminate()
        process.wait(10)


def front_door(host: Host, folder: Path) -> contextlib.AbstractContextManager[None]:
    """nginx on a host, as a stand-in for its front door, and with /healthz for the balancer."""
    folder.mkdir()
    door = f'127.0.0.1:{host.port}'
    health = (ETC / 'nginx/health.conf').read_text()
    health = health.replace('192.0.2.10', GATE).replace('unix:/run/goo/door.sock', door)
    temporary = ''.join(f'{kind}_temp_path {folder}/{kind};\n' for kind in TEMPORARY)
    (folder / 'nginx.conf').write_text(
        f'user root;\ndaemon off;\nworker_processes 1;\npid {folder}/pid;\n'
        f'error_log {folder}/error.log;\nevents {{ }}\nhttp {{\n{temporary}{health}\n'
        f'server {{ listen {host.address}:8443 proxy_protocol; location / {{ '
        f'proxy_pass http://{door}; proxy_set_header Host goo; '
        f'proxy_set_header Connection close; proxy_next_upstream off; }} }}\n}}\n')
    return standing(host.inside('nginx', '-p', folder, '-e', folder / 'error.log',
                                '-c', folder / 'nginx.conf'))


def seconds_until_answered(cluster: Cluster, tag: str) -> float:
    """Sends one request until it is answered, and then four more."""
    began, first = time.monotonic(), 0.0
    for n in range(5):
        while time.monotonic() - began < 60:
            with contextlib.suppress(OSError):
                if open_account(cluster.gate, f'door-{tag}-{n}', 20).status == 200:
                    break
            time.sleep(0.1)
        first = first or time.monotonic() - began
    return first


def test_writes_go_on_without_programs_of_a_host(cluster: Cluster, clients: Clients) -> None:
    one = cluster.hosts[0]
    assert until(lambda: ask(cluster.gate, 'GET', '/v1/audit', 'ISSUER', b'', 20).status == 200)
    assert seconds_until_answered(cluster, 'up') < 20
    for names in (['replica'], ['goo'], ['etcd'], one.names):
        one.hold(*names, number=signal.SIGKILL)
        assert seconds_until_answered(cluster, names[0] + str(len(names))) < 40
        one.release(*names)
        cluster.even(60)


def test_nobody_but_the_balancer_reads_healthz(cluster: Cluster) -> None:
    one, two, _ = cluster.hosts
    stranger = run(*two.inside('curl', '-s', '-o', '/dev/null', '-w', '%{http_code}',
                               f'http://{one.address}:8475/healthz'))
    assert stranger.stdout == '403', stranger
