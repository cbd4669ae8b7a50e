"""A replica of the log by itself, before a registry that this process stands in for.

It is there within a second, and the registry does what a trial wants: it takes its time, answers
what it is told, and keeps what it was asked. Over etcd the replica has a member of its own.
"""
import http.server
import json
import signal
import socketserver
import subprocess
import threading
import time
from collections.abc import Callable
from dataclasses import dataclass
from dataclasses import field
from pathlib import Path
from typing import Any
from typing import Self

import client
from goo_service.log import reader
from goo_service.log import entries
from goo_service.log import position
from door import SERVICE
from service_commands import command
from calls import Answer
from calls import fields_of
from calls import read_answer
from parts import Guard
from parts import Part

KEY = b'a key of a log by itself'
OUTCOME = b'{"outcome":"%b","reply":{}}'
ORIGIN = 64 * '0'


class StandIn(socketserver.ThreadingUnixStreamServer):
    """A registry that accepts all requests, and each row of a table. `known` were accepted."""

    daemon_threads = True

    def __init__(self, path: Path, known: set[bytes]) -> None:
        self.known = known
        self.asked: list[tuple[str, str, bytes]] = []
        """Caller, path and body of each request that could change something."""
        self.pause: Callable[[], float] = lambda: 0.0
        super().__init__(str(path), Taken)
        threading.Thread(target=self.serve_forever, daemon=True).start()


class Taken(http.server.BaseHTTPRequestHandler):
    """One request to the registry."""

    server: StandIn

    def do_GET(self) -> None:
        self.reply(b'nothing\n', 'text/plain')

    def do_POST(self) -> None:
        body = self.rfile.read(int(self.headers.get('Content-Length', 0)))
        time.sleep(self.server.pause())
        self.server.asked.append((self.headers.get('GOO-Caller', ''), self.path, body))
        outcome = b'repeated' if body in self.server.known else b'accepted'
        self.server.known.add(body)
        is_table = self.path == '/v1/declarations'
        self.reply(b'2 %b\n' % outcome if is_table else OUTCOME % outcome, 'application/json')

    def reply(self, body: bytes, kind: str) -> None:
        self.send_response(200)
        self.send_header('Content-Type', kind)
        self.send_header('Content-Length', str(len(body)))
        self.end_headers()
        self.wfile.write(body)

    def log_message(self, *_: object) -> None:
        """Nothing is told."""


@dataclass
class Alone:
    """`with Alone(folder) as log`: a replica, its log begun, and the registry behind it."""

    folder: Path
    words: list[str] = field(default_factory=list)
    """Further words of the replica's."""
    etcd_words: list[str] | None = None
    """Of an etcd whose log it is; None: its log is in files."""
    before: Callable[[Path], None] = lambda state: None
    """What is done to the folder of its state before the first start."""
    under: list[str] = field(default_factory=list)
    """A command that the replica is started by."""
    known: set[bytes] = field(default_factory=set)
    """What the registry has accepted before."""
    parts: dict[str, Part] = field(default_factory=dict)

    def __enter__(self) -> Self:
        self.state, self.door = self.folder / 'state', self.folder / 'door.sock'
        self.state.mkdir()
        (self.folder / 'key').write_bytes(KEY)
        self.registry = StandIn(self.folder / 'registry.sock', self.known)
        self.guard = Guard([self.folder])
        self.common = ['--state', str(self.state), '--key', str(self.folder / 'key'),
                       '--name', 'h1', '--version', 'trial']
        try:
            if self.etcd_words is not None:
                self.begin_etcd(self.etcd_words)
            position.begin(self.state / 'place', 0, ORIGIN)
            self.found()
            self.before(self.state)
            words = [*self.under, *command('goo-replica', SERVICE), *self.common, *self.words,
                     '--listen', str(self.door), '--registry', str(self.folder / 'registry.sock'),
                     *([] if self.etcd_words is not None else ['--store', str(self.state / 'log')])]
            self.part('log', words, lambda _: self.is_well())
        except BaseException:
            self.__exit__()
            raise
        return self

    def __exit__(self, *_: object) -> None:
        for part in reversed(self.parts.values()):
            part.end(signal.SIGKILL)
        self.registry.shutdown()
        self.registry.server_close()
        self.guard.end()

    def part(self, name: str, words: list[str], is_there: Callable[[float], bool]) -> None:
        self.parts[name] = Part(name, lambda: words, is_there, self.folder, self.guard)
        self.parts[name].start()

    def begin_etcd(self, more: list[str]) -> None:
        port, peers = client.free_port(), client.free_port()
        self.common += ['--code', '7', '--etcd', f'http://127.0.0.1:{port}', '--replicas', '1']
        own, peer = f'http://127.0.0.1:{port}', f'http://127.0.0.1:{peers}'
        self.part('etcd', [
            'etcd', '--name', 'h1', '--data-dir', str(self.folder / 'etcd'), '--logger', 'zap',
            '--log-level', 'error', '--listen-client-urls', own, '--advertise-client-urls', own,
            '--listen-peer-urls', peer, '--initial-advertise-peer-urls', peer,
            '--initial-cluster', f'h1={peer}', *more], lambda _: bool(client.is_open(port)))

    def found(self) -> None:
        program = command('goo-replica-log', SERVICE)
        done = subprocess.run([*program, 'found', *self.common], capture_output=True, text=True,
                              timeout=30, check=False)
        assert done.returncode == 0, done

    # ---------------------------------------------------------------- asking

    def ask(self, method: str, path: str, body: bytes = b'', caller: str = 'ISSUER',
            patience: float = 30, **fields: str) -> Answer:
        lines = [client.CLOSE, *fields_of({'GOO_Role': 'full', **fields})]
        lines = [line for line in lines if not line.endswith(': ')]
        sent = client.request(method, path, caller, lines, 'goo', body)
        return read_answer(client.answered(self.door, sent, patience=patience))

    def send(self, body: bytes, caller: str = 'ISSUER', **fields: Any) -> Answer:
        return self.ask('POST', '/v1/requests', body, caller, **fields)

    def table(self, body: bytes, caller: str = 'ISSUER', **fields: Any) -> Answer:
        return self.ask('POST', '/v1/declarations', body, caller, **fields)

    def health(self) -> dict[str, Any]:
        return dict(json.loads(self.ask('GET', '/healthz').body))

    def is_well(self) -> bool:
        try:
            return bool(self.health()['ok'])
        except (OSError, ValueError):
            return False

    def records(self) -> list[entries.Record]:
        """The entries of requests that were applied, from the archive."""
        found = list(reader.read_archive(self.state / 'archive', 0, KEY))
        return [record for record in found if record.entry.method == 'POST']

    def said(self) -> str:
        return self.parts['log'].said.read_text(errors='replace')

    def restart(self, number: int = signal.SIGKILL) -> None:
        self.parts['log'].end(number)
        self.parts['log'].start()
