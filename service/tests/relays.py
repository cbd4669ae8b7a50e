"""What stands between two parts of a trial: it keeps what comes, and fails as it is told."""
import contextlib
import random
import re
import socket
import threading
from collections.abc import Callable
from dataclasses import dataclass
from dataclasses import field
from pathlib import Path

PART = 65536


@dataclass
class Relay:
    """In front of a registry, at a Unix socket or at a port of its own: keeps each head that came.

    `fate` is asked for each POST: 'passed', 'cut' (the connection ends in the middle of the
    request), 'unheard' (the registry answers, and the answer is lost) or 'twice' (sent a second
    time, and the second answer comes back).
    """

    target: int
    fate: Callable[[], str] = lambda: 'passed'
    path: Path | None = None
    line: str = ''
    """A line that the head of each answer gets."""
    heads: list[str] = field(default_factory=list)
    """Those of the requests that came whole."""
    begun: int = 0
    """Requests of which a head came."""
    under_way: int = 0
    """Those that the registry has not answered yet."""
    most: int = 0
    """How many were under way at once."""

    def __post_init__(self) -> None:
        self.counting = threading.Lock()
        self.listener = listen(self.path)
        self.port = 0 if self.path else int(self.listener.getsockname()[1])
        threading.Thread(target=self.run, daemon=True).start()

    def run(self) -> None:
        while True:
            near, _ = self.listener.accept()
            threading.Thread(target=self.carry, args=(near,), daemon=True).start()

    def count(self, more: int) -> None:
        with self.counting:
            self.begun, self.under_way = self.begun + (more > 0), self.under_way + more
            self.most = max(self.most, self.under_way)

    def carry(self, near: socket.socket) -> None:
        """One request, in a thread of its own."""
        with (contextlib.suppress(OSError), near,
              socket.create_connection(('127.0.0.1', self.target)) as far):
            request = b''
            while b'\r\n\r\n' not in request:
                part = near.recv(PART)
                if not part:
                    return
                request += part
            self.count(1)
            try:
                self.pass_on(near, far, request)
            finally:
                self.count(-1)

    def pass_on(self, near: socket.socket, far: socket.socket, request: bytes) -> None:
        head = request.partition(b'\r\n\r\n')[0]
        fate = self.fate() if head.startswith(b'POST') else 'passed'
        if fate == 'cut':                           # the registry gets the head, and no body
            far.sendall(head + b'\r\n\r\n')
            return
        whole = send_body(near, far, request)
        if not whole:
            return
        self.heads.append(head.decode())
        if fate == 'twice':
            while far.recv(PART):
                pass
            with socket.create_connection(('127.0.0.1', self.target)) as anew:
                anew.sendall(whole)
                while part := anew.recv(PART):
                    near.sendall(part)
        more = f'\r\n{self.line}\r\n'.encode() if self.line else b'\r\n'
        while part := far.recv(PART):
            if fate == 'passed':
                near.sendall(part.replace(b'\r\n', more, 1))
            more = b'\r\n'


def send_body(near: socket.socket, far: socket.socket, begin: bytes) -> bytes:
    """The body part by part as it comes: whoever is slow holds the registry as he would by himself.

    All that was sent; nothing where it ended before its end.
    """
    far.sendall(begin)
    head, _, rest = begin.partition(b'\r\n\r\n')
    length = re.search(rb'(?i)content-length: *(\d+)', head)
    left = int(length[1]) - len(rest) if length else 0
    parts = [begin]
    while left > 0:
        part = near.recv(PART)
        if not part:
            return b''
        left -= len(part)
        parts.append(part)
        far.sendall(part)
    return b''.join(parts)


def listen(path: Path | None) -> socket.socket:
    """At a Unix socket, or at a port of its own."""
    if path:
        return socket.create_server(str(path), family=socket.AF_UNIX, backlog=128)
    return socket.create_server(('127.0.0.1', 0))


@dataclass
class Wire:
    """Connections that break: one in three, by chance, ends after a few bytes of the answer."""

    target: int
    chance: random.Random
    broken: int = 0

    def __post_init__(self) -> None:
        self.listener = listen(None)
        self.port = int(self.listener.getsockname()[1])
        threading.Thread(target=self.run, daemon=True).start()

    def run(self) -> None:
        while True:
            near, _ = self.listener.accept()
            breaks = self.chance.randrange(3) == 0
            self.broken += breaks
            far = socket.create_connection(('127.0.0.1', self.target))
            for source, sink, most in ((near, far, 0), (far, near, 600 if breaks else 0)):
                threading.Thread(target=pour, args=(source, sink, most), daemon=True).start()


def pour(source: socket.socket, sink: socket.socket, most: int) -> None:
    """All that comes, or so many bytes at most; then both ends are closed."""
    with contextlib.suppress(OSError):
        while part := source.recv(most or PART):
            sink.sendall(part)
            if most:
                break
    for end in (source, sink):
        with contextlib.suppress(OSError):
            end.shutdown(socket.SHUT_RDWR)
