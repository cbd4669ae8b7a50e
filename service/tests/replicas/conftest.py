"""Clusters for the tests of a file, and the words that say how they are tried."""
import shutil
import tempfile
from collections.abc import Callable
from collections.abc import Iterator
from contextlib import AbstractContextManager
from contextlib import contextmanager
from pathlib import Path
from typing import Any

import pytest
from replicas.clients import Clients
from replicas.cluster import Cluster
from replicas.cluster import Ground
from replicas.talk import run
from tally import is_left_out

FOR_THREE = {'ip': 'iproute2', 'nft': 'nftables', 'etcd': 'etcd-server', 'etcdctl': 'etcd-client'}
ROOM = '/dev/shm'
Make = Callable[..., AbstractContextManager[Cluster]]


def pytest_addoption(parser: pytest.Parser) -> None:
    parser.addoption('--seconds', type=float, default=60, help='of faults by chance')
    parser.addoption('--clients', type=int, default=8, help='beside faults by chance')
    parser.addoption('--hours', type=float, default=1, help='of low load')
    parser.addoption('--rate', type=float, default=20, help='requests a second, of low load')
    parser.addoption('--tls', action='store_true', help='between the parts of three hosts')
    parser.addoption('--disk', action='store_true', help='files on the disk, not in memory')


def lacks_for_three() -> str:
    """What this machine lacks for three hosts, if anything."""
    lacking = [name for program, name in FOR_THREE.items() if not shutil.which(program)]
    if not lacking and run('unshare', '-n', 'true').returncode:
        lacking.append('namespaces of networks')
    return ', '.join(lacking)


def must_have(lack: str) -> None:
    """What this machine lacks fails, unless it is left out on purpose."""
    if lack and is_left_out(lack):
        pytest.skip(lack)
    assert not lack, f'this machine lacks {lack}'


@pytest.fixture(scope='session')
def begin(request: pytest.FixtureRequest) -> Make:
    """`begin(3)`: a cluster of three hosts, in a folder that goes with it."""
    option = request.config.getoption

    @contextmanager
    def begun(count: int, registry: Path | None = None, **ground: Any) -> Iterator[Cluster]:
        must_have(lacks_for_three() if count > 1 else '')
        made = Ground(**{'tls': option('--tls'), 'memory': not option('--disk'), **ground})
        where = ROOM if Path(ROOM).is_dir() else None
        with tempfile.TemporaryDirectory(prefix='goo-replicas-', dir=where) as folder:
            with Cluster(Path(folder) / 'cluster', count, made, registry) as cluster:
                yield cluster

    return begun


@pytest.fixture(scope='module')
def clients(cluster: Cluster) -> Iterator[Clients]:
    """Three clients of a file's cluster. Nobody is left without an answer."""
    made = Clients(cluster, 3, 1)
    made.set_up()
    yield made
    made.must_be_answered()
