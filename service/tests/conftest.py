"""What all tests of the service share: where modules are found, the houses, and how chance goes."""
import os
import signal
import sys
import tempfile
from collections.abc import Iterator
from pathlib import Path

import pytest

sys.dont_write_bytecode = True
TOP = Path(__file__).resolve().parents[2]
SERVICE = os.environ.get('GOO_SERVICE', str(TOP / 'service'))
sys.path[:0] = [str(TOP / 'service/tests'), str(TOP / 'tools/lib'), SERVICE]

import hypothesis
from house import House

signal.signal(signal.SIGTERM, signal.default_int_handler)
"""An end from outside ends the houses too: tools/lib/programs.py would end one test alone by it."""
hypothesis.settings.register_profile('goo', database=None, deadline=None, print_blob=True)
hypothesis.settings.load_profile('goo')


collect_ignore = [] if os.environ.get('GOO_ON_HOST') else ['hosts']
"""Those tests are for a host of their own, where tools/lib/hosts.py runs them."""


def pytest_addoption(parser: pytest.Parser) -> None:
    parser.addoption('--slow', action='store_true', help='runs the tests of minutes too')
    parser.addoption('--seed', type=int, default=1, help='of requests by chance')
    parser.addoption('--acts', type=int, default=1200, help='how many requests by chance')
    parser.addoption('--histories', type=int, default=20, help='registries by chance')
    parser.addoption('--pictures', metavar='FOLDER', help='keeps pictures of the page there')


def pytest_configure(config: pytest.Config) -> None:
    config.addinivalue_line('markers', 'slow: takes a minute and more')
    config.addinivalue_line('markers', 'thorough: of the page, and left out by --quick')


def pytest_collection_modifyitems(config: pytest.Config, items: list[pytest.Item]) -> None:
    """Without --slow, tests of minutes are left out."""
    if not config.getoption('--slow'):
        items[:] = [item for item in items if not item.get_closest_marker('slow')]


@pytest.fixture(scope='session', autouse=True)
def ways(tmp_path_factory: pytest.TempPathFactory) -> None:
    """A test that runs something as another user has it pass through the folders above its own."""
    own = tmp_path_factory.getbasetemp()
    for folder in (own, *own.parents):
        if folder == Path(tempfile.gettempdir()) or folder.parent == folder:
            return
        folder.chmod(folder.stat().st_mode | 0o011)


@pytest.fixture(scope='session')
def house() -> Iterator[House]:
    """One house for all tests: each uses holders, accounts and keys of its own in it."""
    with House() as standing:
        yield standing


@pytest.fixture
def own_house() -> Iterator[House]:
    """A house for one test."""
    with House() as standing:
        yield standing
