"""The page's modules, by service/tests/web: in headless Chromium, and in node where it is.

Chromium has them from a server of this process, with a stand-in for the part of node's test runner
that they use; node has a stand-in for the part of a browser that the modules use.
"""
import contextlib
import http.server
import json
import os
import queue
import re
import shutil
import signal
import subprocess
import threading
from collections.abc import Iterator
from pathlib import Path

import pytest

TESTS = Path(__file__).resolve().parent / 'web'
WEB = Path(os.environ.get('GOO_WEB', TESTS.parents[2] / 'web'))
"""What is tried: another folder than web/ is one with a fault planted in it."""
SECONDS = 120
KINDS = {'.html': 'text/html', '.js': 'text/javascript', '.mjs': 'text/javascript'}
NAMES = sorted(path.name for path in TESTS.glob('*.test.mjs'))
TITLE = re.compile(r"(?m)^test\('((?:[^'\\]|\\.)*)'")
EACH = pytest.mark.parametrize('name', NAMES, ids=[name.split('.')[0] for name in NAMES])


def count_of(name: str) -> int:
    """How many tests a file has."""
    return len(TITLE.findall((TESTS / name).read_text(encoding='utf-8')))


class Pages(http.server.BaseHTTPRequestHandler):
    """The files of both folders, the names of the tests, and where their end is told."""

    came: 'queue.Queue[list[tuple[str, str]]]' = queue.Queue()

    def do_GET(self) -> None:
        folder, _, name = self.path[1:].partition('/')
        path = {'web': WEB, 'tests': TESTS}.get(folder, TESTS) / Path(name).name
        if self.path == '/names':
            self.reply(200, 'application/json', json.dumps(NAMES).encode())
        elif path.is_file():
            self.reply(200, KINDS.get(path.suffix, 'text/plain'), path.read_bytes())
        else:
            self.reply(404, 'text/plain', b'')

    def do_POST(self) -> None:
        length = min(int(self.headers.get('Content-Length', 0)), 10**7)
        self.came.put([(title, fault) for title, fault in json.loads(self.rfile.read(length))])
        self.reply(200, 'text/plain', b'')

    def reply(self, status: int, kind: str, body: bytes) -> None:
        self.send_response(status)
        self.send_header('Content-Type', f'{kind}; charset=utf-8')
        self.send_header('Content-Length', str(len(body)))
        self.end_headers()
        self.wfile.write(body)

    def log_message(self, *_: object) -> None:
        """Nothing is told."""


@contextlib.contextmanager
def pages() -> Iterator[str]:
    """The address of the page that runs all tests."""
    with http.server.ThreadingHTTPServer(('127.0.0.1', 0), Pages) as server:
        threading.Thread(target=server.serve_forever, daemon=True).start()
        yield f'http://127.0.0.1:{server.server_address[1]}/tests/page.html'
        server.shutdown()


@pytest.mark.skipif(not shutil.which('node'), reason='node is not there; Chromium runs them')
@EACH
def test_in_node(tmp_path: Path, name: str) -> None:
    shutil.copytree(WEB, tmp_path / 'web')
    shutil.copytree(TESTS, tmp_path / 'tests')
    (tmp_path / 'package.json').write_text('{"type": "module"}')
    done = subprocess.run(['node', '--import', './tests/dom.mjs', '--test-reporter=tap', '--test',
                           f'tests/{name}'], cwd=tmp_path, timeout=SECONDS, capture_output=True,
                          text=True, check=False)
    assert re.findall(r'(?m)^ *not ok .*(?:\n.*){0,12}', done.stdout) == []
    assert done.returncode == 0 and f'\n# pass {count_of(name)}\n' in done.stdout, done.stdout


@pytest.fixture(scope='module')
def in_chromium(tmp_path_factory: pytest.TempPathFactory) -> list[tuple[str, str]]:
    """Each test with its file in front, and its fault."""
    words = ['chromium', '--headless=new', '--no-sandbox', '--disable-gpu', '--no-first-run',
             '--disable-dev-shm-usage', '--lang=en',
             f'--user-data-dir={tmp_path_factory.mktemp("chromium")}']
    with pages() as address:
        browser = subprocess.Popen([*words, address], stdout=subprocess.DEVNULL,
                                   stderr=subprocess.DEVNULL, env={**os.environ, 'LANGUAGE': 'en'},
                                   start_new_session=True)
        try:
            return Pages.came.get(timeout=SECONDS)
        finally:
            os.killpg(browser.pid, signal.SIGKILL)
            browser.wait()


@EACH
def test_in_chromium(in_chromium: list[tuple[str, str]], name: str) -> None:
    came = [fault for title, fault in in_chromium if title.startswith(name)]
    assert [fault for fault in came if fault] == []
    assert len(came) == count_of(name)
