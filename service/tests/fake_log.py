"""A log that tells what it was sent, and a gate in front of it as a process of its own."""
import json
import os
import signal
import socket
import subprocess
import sys
import threading
import time
from collections.abc import Callable
from collections.abc import Iterable
from dataclasses import dataclass
from dataclasses import field
from pathlib import Path
from typing import Any
from typing import Self

from goo_service.common.client import Answer
from goo_service.common.client import Client

SERVICE = Path(os.environ.get('GOO_SERVICE', Path(__file__).resolve().parents[1]))
ACCEPTED = b'{"outcome":"accepted","reply":{"count":11}}'
REPEATED = b'{"outcome":"repeated","reply":{"count":11}}'


@dataclass(frozen=True)
class Sent:
    """A request that came."""

    line: str
    fields: dict[str, str]
    """By their names as they came."""
    body: bytes

    @property
    def key(self) -> str:
        return str(json.loads(self.body.split(b'\n')[0])['key'])


Steps = Callable[[str, socket.socket], None]
"""What happens at a step of an exchange: 'came', 'read', 'half', 'whole'."""


def nothing(step: str, connection: socket.socket) -> None:
    pass


@dataclass
class FakeLog:
    """Answers at a socket as the log does: each key once."""

    path: Path
    sent: list[Sent] = field(default_factory=list)
    keys: list[str] = field(default_factory=list)
    """The keys that were carried out, each once."""
    steps: Steps = nothing
    answer: tuple[int, bytes] | None = None
    """What is answered in place of the outcome."""
    more: str = ''
    """Further fields of an answer."""

    def __enter__(self) -> Self:
        self.server = socket.socket(socket.AF_UNIX)
        self.server.bind(str(self.path))
        self.server.listen(64)
        threading.Thread(target=self.accept, daemon=True).start()
        return self

    def __exit__(self, *_: object) -> None:
        self.server.close()
        self.path.unlink(missing_ok=True)

    def accept(self) -> None:
        while True:
            try:
                connection, _ = self.server.accept()
            except OSError:
                return
            threading.Thread(target=self.serve, args=(connection,), daemon=True).start()

    def serve(self, connection: socket.socket) -> None:
        with connection:
            try:
                self.exchange(connection)
            except OSError:
                return

    def exchange(self, connection: socket.socket) -> None:
        self.steps('came', connection)
        received = b''
        while b'\r\n\r\n' not in received:
            if not (part := connection.recv(65536)):
                return
            received += part
        head, _, body = received.partition(b'\r\n\r\n')
        line, *lines = head.decode().split('\r\n')
        fields = dict(one.split(': ', 1) for one in lines)
        while len(body) < int(fields['Content-Length']):
            if not (part := connection.recv(65536)):
                return
            body += part
        sent = Sent(line, fields, body)
        self.sent.append(sent)
        self.steps('read', connection)
        status, text = self.answer or self.outcome(sent)
        whole = (f'HTTP/1.1 {status} Told\r\nContent-Type: application/json\r\nGOO-Entry: 7\r\n'
                 f'{self.more}Content-Length: {len(text)}\r\n\r\n').encode() + text
        connection.sendall(whole[:len(whole) // 2])
        self.steps('half', connection)
        connection.sendall(whole[len(whole) // 2:])
        self.steps('whole', connection)

    def outcome(self, sent: Sent) -> tuple[int, bytes]:
        try:
            key = sent.key
        except (ValueError, KeyError, TypeError):
            return 400, b'{"fault":"NotJson","outcome":"unreadable"}'
        if key in self.keys:
            return 200, REPEATED
        self.keys.append(key)
        return 200, ACCEPTED


@dataclass
class Served:
    """A part of goo-people as a process, over a file and at a socket."""

    file: Path
    listen: Path
    module: str = 'goo_service.people.who_server'
    more: Iterable[object] = ()
    """Further words of its command line."""
    under: Iterable[str] = ()
    """What starts it."""

    def __enter__(self) -> Self:
        self.start()
        return self

    def __exit__(self, *_: object) -> None:
        self.end(signal.SIGTERM)

    def start(self) -> None:
        self.listen.unlink(missing_ok=True)
        words = [*self.under, sys.executable, '-B', '-m', self.module, '--file', str(self.file),
                 '--listen', str(self.listen), *map(str, self.more)]
        self.said = open(self.listen.with_suffix('.said'), 'ab')
        self.process = subprocess.Popen(words, stdout=self.said, stderr=self.said,
                                        env={**os.environ, 'PYTHONPATH': str(SERVICE)})
        comes(self.is_there)

    def is_there(self) -> bool:
        assert self.process.poll() is None, self.listen.with_suffix('.said').read_text()
        try:
            with socket.socket(socket.AF_UNIX) as s:
                s.connect(str(self.listen))
            return True
        except OSError:
            return False

    def end(self, number: int = signal.SIGKILL) -> None:
        if self.process.poll() is None:
            self.process.send_signal(number)
        self.process.wait(60)
        self.said.close()


class GateProcess(Served):
    """goo-people-gate over a file and a log."""

    def __init__(self, file: Path, log: Path, listen: Path, under: Iterable[str] = ()) -> None:
        super().__init__(file, listen, 'goo_service.people.gate', ['--log', log], under)

    def post(self, target: str, body: bytes, *, user: str = 'anna', caller: str = 'SUN',
             hold: str = 's1', way: str = 'session', patience: float = 30,
             **more: str) -> Answer:
        fields = {'GOO-Caller': caller, 'GOO-User': user, 'GOO-Role': 'full', 'GOO-Way': way,
                  'GOO-Hold': hold, 'GOO-Address': '192.0.2.7',
                  **{name.replace('_', '-'): value for name, value in more.items()}}
        return Client(str(self.listen), patience, fields=fields).post(target, body)


def comes(is_so: Callable[[], Any], patience: float = 20) -> None:
    """Waits until something is so."""
    until = time.monotonic() + patience
    while not is_so():
        assert time.monotonic() < until, 'it did not come'
        time.sleep(0.02)
