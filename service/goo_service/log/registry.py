"""What a replica sends to the registry beside it: each request has a connection of its own.

Bare sockets, without http.client and asyncio's streams: these cost several times as much, and the
log does this for each entry.
"""
import asyncio
import errno
import functools
import select
import socket
from collections.abc import Callable
from dataclasses import dataclass

from goo_service.common.client import Address
from goo_service.common.client import address_of

BROKEN = (OSError, TimeoutError, EOFError, ValueError, LookupError)
"""What is raised where no whole answer came."""
SOON = 1
"""Milliseconds within which most answers come."""
TURN = 16
"""Reads after which all others have a turn."""
PART = 1 << 16
"""Bytes that are received at once."""
APPLY = 300
"""Seconds for the answer to an entry."""


@dataclass(slots=True)
class Answer:
    """An answer, its kind being the content type. `allow`: the methods that a route knows."""

    status: int
    kind: str
    body: bytes
    allow: str = ''


@dataclass(frozen=True, slots=True)
class Head:
    """The head of an answer, and the length of its body."""

    status: int
    kind: str
    allow: str
    length: int


@functools.lru_cache(256)
def head_of(text: bytes) -> Head:
    first, *lines = text.decode('latin-1').split('\r\n')
    fields = {name.lower(): value.strip()
              for name, _, value in (line.partition(':') for line in lines)}
    return Head(int(first.split()[1]), fields.get('content-type', ''), fields.get('allow', ''),
                int(fields['content-length']))


def request_of(method: str, target: str, caller: str, body: bytes = b'') -> bytes:
    by = f'GOO-Caller: {caller}' if caller else 'Accept: */*'
    head = f'{method} {target} HTTP/1.1\r\nHost: goo\r\n{by}\r\nContent-Length: {len(body)}\r\n\r\n'
    return head.encode('latin-1') + body


def connect(family: socket.AddressFamily, address: Address) -> socket.socket:
    """A connection, which is there at once or not at all on this host.

    A port of this host says a moment later that nobody listens, so what is sent first tells.
    """
    s = socket.socket(family, socket.SOCK_STREAM | socket.SOCK_NONBLOCK)
    fault = s.connect_ex(address)
    if fault not in (0, errno.EINPROGRESS):
        s.close()
        raise OSError(fault, 'no connection')
    return s


class Exchange:
    """One request and its answer on a connection."""

    def __init__(self, connection: socket.socket, method: str) -> None:
        self.connection, self.method = connection, method
        self.received, self.begin, self.end = bytearray(), 0, 0
        self.head: Head | None = None

    def send(self, request: bytes) -> bytes:
        """Sends what goes out at once; what is left of the request."""
        try:
            return request[self.connection.send(request):]
        except BlockingIOError:
            return request

    def receive_soon(self) -> Answer | None:
        """The answer where it comes within a millisecond, as most do.

        To turn to others meanwhile would take longer.
        """
        try:
            return self.add(self.connection.recv(PART))
        except BlockingIOError:
            ready = select.poll()
            ready.register(self.connection, select.POLLIN)
            return self.add(self.connection.recv(PART)) if ready.poll(SOON) else None

    async def receive(self, rest: bytes) -> Answer:
        """The whole answer, once the rest of the request is sent."""
        loop = asyncio.get_running_loop()
        if rest:
            await loop.sock_sendall(self.connection, rest)
        while True:
            if answer := self.add(await loop.sock_recv(self.connection, PART)):
                return answer

    def add(self, part: bytes) -> Answer | None:
        """Adds what came; the answer, once all of it is there."""
        self.received += part
        if self.head is None and (end := self.received.find(b'\r\n\r\n')) >= 0:
            self.head = head_of(bytes(self.received[:end]))
            self.begin = end + 4
            self.end = self.begin + (0 if self.method == 'HEAD' else self.head.length)
        if self.head and len(self.received) >= self.end:
            body = bytes(self.received[self.begin:self.end])
            return Answer(self.head.status, self.head.kind, body, self.head.allow)
        if not part:
            raise EOFError('cut off')
        return None


class Registry:
    """For reads. Between two of them no connection is open.

    The registry answers one after another, and entries would wait behind an idle connection.
    """

    def __init__(self, address: str) -> None:
        """`address` is the path of a socket, or HOST:PORT."""
        self.family, self.address = address_of(address)
        self.count = 0

    async def fetch(self, method: str, target: str, caller: str, patience: float = 300) -> Answer:
        """The registry's answer, which came whole. Anything else raises one of BROKEN."""
        with connect(self.family, self.address) as s:
            exchange = Exchange(s, method)
            rest = exchange.send(request_of(method, target, caller))
            self.count += 1
            if self.count % TURN == 0:
                await asyncio.sleep(0)      # all others have a turn while the registry is at it
            if answer := exchange.receive_soon():
                return answer
            async with asyncio.timeout(patience):
                return await exchange.receive(rest)


def nothing() -> None:
    """What is done meanwhile, unless a caller has something to do."""


class EntryCalls:
    """For entries: one request after another, without asyncio.

    Where a next entry is sure to come its connection is opened while the registry is at this one,
    so that it comes there at once. No connection waits there without a request: the registry
    answers one after another, and would let reads wait behind it.
    """

    def __init__(self, address: str, wait: Callable[[socket.socket], None]) -> None:
        """`wait` comes back once something came by a connection, or raises TimeoutError."""
        self.family, self.address = address_of(address)
        self.wait = wait
        self.next: socket.socket | None = None
        self.last: socket.socket | None = None

    def call(self, method: str, target: str, caller: str, body: bytes = b'',
             meanwhile: Callable[[], None] = nothing) -> Answer:
        """The answer, which came whole. Anything else raises one of BROKEN.

        `meanwhile` is called while the registry is at the request.
        """
        s, self.next = self.next or connect(self.family, self.address), None
        try:
            exchange = Exchange(s, method)
            if rest := exchange.send(request_of(method, target, caller, body)):
                s.settimeout(APPLY)
                s.sendall(rest)
            self.close_last()
            meanwhile()
            while True:
                self.wait(s)
                if answer := exchange.add(s.recv(PART)):
                    return answer
        except BROKEN:
            self.close()
            raise
        finally:
            self.last = s

    def connect_ahead(self) -> None:
        try:
            self.next = self.next or connect(self.family, self.address)
        except OSError:
            pass                                # the next request tells

    def close_last(self) -> None:
        """Closes the connection of the last request.

        That takes a while, and is done while the registry has something to do.
        """
        if self.last:
            self.last.close()
        self.last = None

    def close(self) -> None:
        """No next request comes for now."""
        self.close_last()
        if self.next:
            self.next.close()
        self.next = None
