"""A replica's own door: receives requests over HTTP/1.1, one on each connection, and answers them.

The rules for what is answered by a status alone are the registry's (docs/HTTP.md). Of a request's
head nothing goes on but the method, the path and what the front door sets: GOO-Caller, GOO-User,
GOO-Address, GOO-Role, GOO-Way (how the user signed in), GOO-Confirmed (a second user who confirmed
the request) and GOO-Accounts (where the user may read only these accounts of his holder). Without a
role it is `reads`, the least. One more, GOO-Confirm, names a day that is confirmed on this host: it
counts from root alone, and from this process' own user, by the Unix socket. The front door sends
none.
"""
import asyncio
import functools
import math
import os
import re
import socket
import struct
import time
from collections.abc import Callable
from dataclasses import dataclass
from typing import NamedTuple
from typing import Protocol
from typing import cast

from goo_service.common.client import address_of
from goo_service.log import bounds
from goo_service.log.registry import Answer

HEAD, FIELDS = 8192, 32
"""Bytes and fields of a head: the registry's own limits."""
COMING = 64 << 20
"""Bytes of all bodies that are being sent."""
SEND = 10
"""Seconds to send a request, and to receive the answer."""
BACKLOG = 512
TEXT = 'text/plain; charset=utf-8'
PHRASES = {
    200: 'OK', 400: 'Bad Request', 403: 'Forbidden', 404: 'Not Found', 405: 'Method Not Allowed',
    409: 'Conflict', 413: 'Content Too Large', 429: 'Too Many Requests',
    500: 'Internal Server Error', 501: 'Not Implemented', 503: 'Service Unavailable'}
WHOLE = re.compile(r'([A-Z]+) ([!-~]+) HTTP/1\.([01])'
                   r"((?:\r\n[!#$%&'*+.^_`|~0-9A-Za-z-]+:[\t -~\x80-\xff]*)*)")
CALLER = re.compile('[!-~]{0,40}')
OURS = ('goo-caller', 'goo-user', 'goo-address', 'goo-role', 'goo-way', 'goo-confirmed',
        'goo-accounts', 'goo-confirm')
Fields = dict[str, object]
"""Further fields of an answer."""


class Refused(Exception):
    """A request that goes no further."""

    def __init__(self, answer: Answer, fields: Fields) -> None:
        super().__init__(answer.status)
        self.answer, self.fields = answer, fields


def by_status(status: int) -> Refused:
    return Refused(plain(status), {})


class Head(NamedTuple):
    """What of a request's head goes on."""

    method: str
    target: str
    caller: str
    user: str
    address: str
    role: str
    way: str
    confirmed: str
    """By this user."""
    accounts: str
    day: str
    """It is confirmed on this host."""


@dataclass(eq=False, slots=True)
class Call:
    """A request that came whole."""

    method: str
    target: str
    caller: str
    user: str
    address: str
    role: str
    way: str = ''
    confirmed: str = ''
    accounts: str = ''
    day: str = ''
    body: bytes = b''
    gone: bool = False
    """The client has closed its end."""
    close: Callable[[], None] | None = None
    """Closes a connection that stays open after its answer."""


class Reply(Protocol):
    """Sends an answer with further fields, once for a call."""

    def __call__(self, answer: Answer, fields: Fields, stays: bool = False) -> None:
        """`stays`: the connection stays open until the call's `close`."""


def plain(status: int, why: str = '') -> Answer:
    return Answer(status, TEXT, (why or PHRASES[status]).encode() + b'\n')


def refusal_answer(refusal: bounds.Refusal) -> tuple[Answer, Fields]:
    """The answer and the fields of what is out of bounds."""
    return Answer(refusal.status, 'application/json', refusal.body), {**refusal.fields}


@functools.lru_cache(256)
def head_of(text: bytes) -> tuple[Head, int]:
    """The head of a request, and the length of its body. Most heads have come before."""
    head = WHOLE.fullmatch(text.decode('latin-1'))
    if not head or head[4].count('\r\n') > FIELDS:
        raise by_status(400)
    named: dict[str, list[str]] = {}
    for line in head[4].split('\r\n')[1:]:
        name, _, value = line.partition(':')
        named.setdefault(name.lower(), []).append(value.strip(' \t'))
    hosts = len(named.get('host', ()))
    if hosts > 1 or hosts == 0 and head[3] == '1':
        raise by_status(400)
    if 'transfer-encoding' in named:
        raise by_status(501)
    length = length_of(named.get('content-length', ['0']))
    if any(len(named.get(name, ())) > 1 for name in OURS):
        # two of one: nobody knows which the front door set, so there is no caller
        named.pop('goo-caller', None)
    caller, user, address, role, way, confirmed, accounts, day = (
        named.get(name, [''])[0] for name in OURS)
    caller = caller if CALLER.fullmatch(caller) else ''
    return Head(head[1], head[2], caller, readable(user), readable(address), role or 'reads',
                readable(way), readable(confirmed), accounts, day), length


def length_of(values: list[str]) -> int:
    if len(values) > 1 or not re.fullmatch('[0-9]{1,19}', values[0]):
        raise by_status(400)
    if refusal := bounds.of_length(int(values[0])):
        raise Refused(*refusal_answer(refusal))
    return int(values[0])


def readable(field: str) -> str:
    return field.encode('latin-1').decode('utf-8', 'replace')[:255]


def may_confirm(transport: asyncio.BaseTransport) -> bool:
    """Whether root, or this process' own user, is at the other end.

    Whoever else reaches the socket acts for people who sign in.
    """
    s = transport.get_extra_info('socket')
    if s is None or s.family != socket.AF_UNIX:
        return False
    peer = struct.unpack('3i', s.getsockopt(socket.SOL_SOCKET, socket.SO_PEERCRED, 12))
    return peer[1] in (0, os.geteuid())


class Connection(asyncio.Protocol):
    """One request, and its answer."""

    transport: asyncio.Transport

    def __init__(self, door: 'Door') -> None:
        self.door, self.received = door, bytearray()
        self.call: Call | None = None
        self.begin = self.end = 0               # of the body
        self.whole = self.answered = False
        self.length = 0                         # of a body that is being sent
        self.until = 0.0

    def connection_made(self, transport: asyncio.BaseTransport) -> None:
        self.transport = cast(asyncio.Transport, transport)
        self.until = time.monotonic() + SEND
        self.door.open.add(self)

    def data_received(self, data: bytes) -> None:
        if not self.whole and not self.answered:
            self.received += data
            try:
                self.look()
            except Refused as refusal:
                self.answer(refusal.answer, refusal.fields)

    def look(self) -> None:
        """Serves the request, once all of it came."""
        call = self.call or self.read_head()
        if call is None or len(self.received) < self.end:
            return
        call.body = bytes(self.received[self.begin:self.end])
        self.forget()
        self.whole, self.until = True, math.inf
        self.door.serve(call, self.answer)

    def read_head(self) -> Call | None:
        """The request without its body, once its head came."""
        end = self.received.find(b'\r\n\r\n', 0, HEAD)
        if end < 0:
            if len(self.received) >= HEAD:
                raise by_status(400)
            return None
        head, length = head_of(bytes(self.received[:end]))
        if self.door.coming + length > COMING:
            raise by_status(503)
        self.length, self.door.coming = length, self.door.coming + length
        self.call, self.begin, self.end = Call(*head), end + 4, end + 4 + length
        if self.call.day and not may_confirm(self.transport):
            self.call.day = ''
        return self.call

    def forget(self) -> None:
        """Nothing more of the request is kept here."""
        self.door.coming -= self.length
        self.received, self.length = bytearray(), 0

    def eof_received(self) -> bool:
        if self.call:
            self.call.gone = True
        if not self.whole and not self.answered:
            self.answer(plain(400), {})
        return True

    def connection_lost(self, fault: Exception | None) -> None:
        self.door.open.discard(self)
        self.forget()
        if self.call:
            self.call.gone = True

    def answer(self, answer: Answer, fields: Fields, stays: bool = False) -> None:
        """Sends the answer with further fields, and closes once all of it is sent. Where the client
        has gone the transport drops it."""
        self.forget()
        self.answered, self.until = True, math.inf if stays else time.monotonic() + SEND
        has_body = not (self.call and self.call.method == 'HEAD')
        self.transport.write(head_text(answer, fields, stays) + (answer.body if has_body else b''))
        if not stays:
            self.transport.close()
        elif self.call:
            self.call.close = self.transport.abort


def head_text(answer: Answer, fields: Fields, stays: bool) -> bytes:
    """The head of an answer."""
    if answer.allow:
        fields = {**fields, 'Allow': answer.allow}
    more = ''.join([f'{name}: {value}\r\n' for name, value in fields.items()])
    head = (f'HTTP/1.1 {answer.status} {PHRASES.get(answer.status, "Other")}\r\n'
            f'Content-Type: {answer.kind}\r\n{more}Content-Length: {len(answer.body)}\r\n'
            f'Connection: {"keep-alive" if stays else "close"}\r\n\r\n')
    return head.encode('latin-1')


class Door:
    """Receives connections. `serve` gets each request that came whole, and replies once to it."""

    def __init__(self, serve: Callable[[Call, Reply], None]) -> None:
        self.serve, self.coming = serve, 0
        self.open: set[Connection] = set()

    def connection(self) -> Connection:
        return Connection(self)

    async def sweep(self) -> None:
        """Cuts off who takes too long to send a request, or to receive the answer."""
        while True:
            await asyncio.sleep(1)
            for one in [one for one in self.open if one.until < time.monotonic()]:
                one.transport.abort()

    async def listen(self, listen: str) -> asyncio.Server:
        """A server at a path, at HOST:PORT, or at the socket that systemd has opened for us."""
        loop = asyncio.get_running_loop()
        if is_opened_by_systemd():
            given = socket.socket(fileno=3)
            if given.family == socket.AF_UNIX:
                return await loop.create_unix_server(self.connection, sock=given, backlog=BACKLOG)
            return await loop.create_server(self.connection, sock=given, backlog=BACKLOG)
        _, address = address_of(listen)
        if isinstance(address, str):
            return await loop.create_unix_server(self.connection, address, backlog=BACKLOG)
        return await loop.create_server(self.connection, *address, backlog=BACKLOG)


def is_opened_by_systemd() -> bool:
    own = str(os.getpid())
    return os.environ.get('LISTEN_FDS') == '1' and os.environ.get('LISTEN_PID') == own
