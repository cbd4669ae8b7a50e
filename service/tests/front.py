"""A front door before a registry alone, and what may stand behind it in place of other parts."""
import contextlib
import json
import os
import re
import socket
import subprocess
import threading
from collections.abc import Callable
from dataclasses import dataclass
from dataclasses import field
from pathlib import Path
from typing import Any

import client
from calls import Answer
from calls import read_answer
from house import House
from relays import Relay

FAST = 200
"""Requests a second, where no limit is tried."""
REQUESTS = '/v1/requests'
STRANGER = '127.0.0.2'
VISITOR = '127.0.0.3'


class Front(House):
    """nginx and the registry: relays in the place of the log and of the records keep each head."""

    always = ('registry',)

    def __init__(self, *, rate: int | None = None, **settings: Any) -> None:
        own: dict[str, Any] = {'rate': rate, 'more': (), **settings}
        super().__init__(parts=('nginx',), **own)

    def lay_parts(self) -> None:
        super().lay_parts()
        self.relay = Relay(self.registry_port, path=self.folder / 'door.sock')
        self.records = Relay(self.registry_port, path=self.folder / 'web.sock')
        (self.folder / 'verify.sock').symlink_to('web.sock')


def sent(front: House, text: bytes, source: str = '', port: int = 0, tls: bool = True) -> Answer:
    """The answer to bytes that come from an address of this machine."""
    method, own = text.partition(b' ')[0].decode('latin-1'), front.door.tls() if tls else None
    with client.connected(port or front.port, tls=own, source=source) as stream:
        stream.sendall(text)
        came, _ = client.read_most(stream)
    return read_answer(client.read_answer(came, method))


def request(
    method: str, path: str, user: str = '', password: str = '', body: bytes = b'', **fields: str
) -> bytes:
    """The bytes of a request of a user."""
    lines = [f'{method} {path} HTTP/1.1', 'Host: localhost', 'Connection: close']
    if user:
        lines.append(f'Authorization: Basic {client.basic(user, password or f"pw-{user}")}')
    lines += [f'{name.replace("_", "-")}: {value}' for name, value in fields.items()]
    lines += [f'Content-Length: {len(body)}'] if body else []
    return '\r\n'.join([*lines, '', '']).encode() + body


def lines_of_log(front: House) -> list[dict[str, str]]:
    """The lines of the front door's log, each of which has to be JSON in UTF-8."""
    return [
        json.loads(line.decode('utf-8'))
        for line in (front.folder / 'front-door.log').read_bytes().splitlines()
    ]


def put_user(front: House, user: str, *words: str) -> None:
    """A user of the file of passwords alone; with -D he is taken out."""
    given = words or ('-bB', '-C', '4')
    password = () if words else (f'pw-{user}',)
    subprocess.run(['htpasswd', *given, front.door.etc / 'users', user, *password], check=True,
                   capture_output=True)


def callers(front: House, *words: str, path: str = '') -> 'subprocess.CompletedProcess[str]':
    """A run of goo-callers over the files of a house; `path` has its programs."""
    return subprocess.run([*front.door.callers_words(), *words], text=True, capture_output=True,
                          check=False, env={**os.environ, 'PATH': path or os.environ['PATH']})


def nginx_of(front: House) -> int:
    """The number of nginx's first process."""
    process = front.parts['nginx'].process
    assert process
    return process.pid


def workers(front: House) -> list[int]:
    """The numbers of nginx's workers."""
    number = nginx_of(front)
    return [int(one) for one in Path(f'/proc/{number}/task/{number}/children').read_text().split()]


def reload(front: House) -> None:
    """nginx reads its files again, and the old workers are gone."""
    before = set(workers(front))
    front.run(*front.door.words(), '-s', 'reload')
    assert client.comes(lambda: workers(front) and not before & set(workers(front)))


@dataclass
class Standin:
    """What stands for the log or the records: holds each request until it may answer, all alike."""

    path: Path
    answer: bytes
    may_answer: threading.Event = field(default_factory=threading.Event)
    heads: list[bytes] = field(default_factory=list)

    def __post_init__(self) -> None:
        self.path.unlink(missing_ok=True)
        self.listener = socket.create_server(str(self.path), family=socket.AF_UNIX, backlog=128)
        threading.Thread(target=self.run, daemon=True).start()

    def run(self) -> None:
        """Takes in connections until the trial ends."""
        while True:
            near, _ = self.listener.accept()
            threading.Thread(target=self.serve, args=(near,), daemon=True).start()

    def serve(self, near: socket.socket) -> None:
        """Reads one request whole, waits, and answers it."""
        with near:
            text = b''
            while b'\r\n\r\n' not in text:
                text += near.recv(65536)
            head, _, rest = text.partition(b'\r\n\r\n')
            length = re.search(rb'(?i)content-length: *(\d+)', head)
            left = int(length[1]) - len(rest) if length else 0
            while left > 0:
                left -= len(near.recv(65536))
            self.heads.append(head)
            self.may_answer.wait(60)
            with contextlib.suppress(BrokenPipeError):      # nginx has given it up
                near.sendall(self.answer)


def answer_of(status: str, *fields: str, body: bytes = b'{}\n') -> bytes:
    """The bytes of an answer."""
    lines = [f'HTTP/1.1 {status}', 'Content-Type: application/json', *fields,
             f'Content-Length: {len(body)}', 'Connection: close', '', '']
    return '\r\n'.join(lines).encode() + body


def at_once(asks: list[Callable[[], Answer]]) -> list[Answer | None]:
    """Begins all of them together; None where an answer has not come yet when this returns."""
    got: list[Answer | None] = [None] * len(asks)

    def one(at: int) -> None:
        got[at] = asks[at]()

    for at in range(len(asks)):
        threading.Thread(target=one, args=(at,), daemon=True).start()
    return got


def one_a_minute(
    zone: str, name: str, rate: str, burst: int, few: int
) -> tuple[tuple[str, str], ...]:
    """A limit made so small that a trial meets it."""
    return (f'{zone} rate={rate}', f'{zone} rate=1r/m'), (
        f'zone={name} burst={burst}',
        f'zone={name} burst={few}',
    )


FEW_COMPARISONS = one_a_minute('zone=goo_sign_ins:10m', 'goo_sign_ins', '1r/s', 20, 2)
