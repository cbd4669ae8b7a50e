"""Serves requests at a socket that nginx reaches, for goo-people-who and goo-people-gate.

aiohttp's parser reads them, in C. Its server is left out: it costs several times as much as the
rest of an answer. A request is answered once it came whole, and the next one of a connection after
it. Only nginx connects, which sends a request at once and closes what it does not use: so no timer
cuts a connection off.
"""
import asyncio
import collections
import contextlib
import signal
import socket
import sys
import time
from collections.abc import AsyncIterator
from collections.abc import Awaitable
from collections.abc import Callable
from collections.abc import Mapping
from dataclasses import dataclass
from dataclasses import field
from http import HTTPStatus
from typing import Any

from aiohttp.base_protocol import BaseProtocol
from aiohttp.http import HttpProcessingError
from aiohttp.http import HttpRequestParser

from goo_service.log.bounds import BODY
from goo_service.log.door import is_opened_by_systemd

BACKLOG = 512
COMING, UNDER_WAY = 64 << 20, 512
"""Bytes of bodies, and requests, that are under way at once."""
AHEAD = 4
"""Requests of a connection that came before the one before was answered. nginx sends none."""
SENT = 5
"""Seconds for answers to be sent when the process ends, and for a request that was refused."""


@dataclass(frozen=True, slots=True)
class Request:
    """A request that came whole."""

    method: str
    target: str
    fields: Any
    """A mapping of names in any letters; `getall` has the values of a field that came twice."""
    body: bytes


@dataclass(frozen=True, slots=True)
class Reply:
    """What is answered."""

    status: int
    fields: Mapping[str, str] = field(default_factory=dict)
    body: bytes = b''

    def text(self) -> bytes:
        """As it is sent. A value with a line end would begin another field."""
        lines = [f'HTTP/1.1 {self.status} {HTTPStatus(self.status).phrase}']
        lines += [f'{name}: {value}' for name, value in self.fields.items()]
        if self.status != HTTPStatus.NO_CONTENT:
            lines.append(f'Content-Length: {len(self.body)}')
        head = '\r\n'.join(lines)
        if head.count('\n') != len(lines) - 1 or head.count('\r') != len(lines) - 1:
            raise ValueError('a field has a line end')
        return f'{head}\r\n\r\n'.encode('utf-8', 'surrogateescape') + self.body


@dataclass
class Server:
    """Answers requests. `answer` has one at once, or works for it; `told` has that of a request
    which is refused by a status."""

    answer: Callable[[Request], Reply | Awaitable[Reply]]
    told: Callable[[int], Reply] = Reply
    coming: int = 0
    under_way: int = 0
    is_ending: bool = False
    connections: set['Connection'] = field(default_factory=set)

    def takes(self, size: int) -> bool:
        """Whether there is room for one more request; it then has it until `let_go`."""
        if self.under_way >= UNDER_WAY or self.coming + size > COMING:
            return False
        self.under_way, self.coming = self.under_way + 1, self.coming + size
        return True

    def let_go(self, size: int) -> None:
        self.under_way, self.coming = self.under_way - 1, self.coming - size

    def end(self) -> None:
        """Closes each connection, once what is under way on it is answered."""
        self.is_ending = True
        for one in list(self.connections):
            one.close_if_idle()


class Connection(BaseProtocol):
    """Requests one after another."""

    __slots__ = ('server', 'parser', 'coming', 'size', 'is_busy', 'is_last', 'task')

    def __init__(self, server: Server) -> None:
        super().__init__(asyncio.get_running_loop())
        self.server = server
        self.parser = HttpRequestParser(self, self._loop, BODY, auto_decompress=False)
        self.coming: collections.deque[tuple[Any, Any]] = collections.deque()
        self.size: int | None = None            # of the first one's body, while it has room
        self.is_busy = self.is_last = False
        self.task: asyncio.Future[Reply] | None = None

    def connection_made(self, transport: asyncio.BaseTransport) -> None:
        super().connection_made(transport)
        self.server.connections.add(self)

    def connection_lost(self, fault: BaseException | None) -> None:
        """What was begun goes on. A request that did not come whole is forgotten."""
        super().connection_lost(fault)
        self.server.connections.discard(self)
        if not self.is_busy:
            self.let_go()

    def data_received(self, data: bytes) -> None:
        if self.is_last and not self.is_busy:
            return                              # it was refused, and is being closed
        try:
            messages, is_upgraded, _ = self.parser.feed_data(data)
        except HttpProcessingError:
            return self.refuse(400)
        self.coming.extend(messages)
        if is_upgraded or len(self.coming) > AHEAD:
            return self.refuse(400)
        self.go_on()

    def go_on(self) -> None:
        """Answers the next request, once it came whole."""
        if self.is_busy or self.is_last or not self.coming:
            return
        message, payload = self.coming[0]
        length = int(message.headers.get('Content-Length', 0))
        if length > BODY or payload.total_bytes > BODY:
            return self.refuse(413)
        if self.size is None:
            if not self.server.takes(length):
                return self.refuse(503)
            self.size = length
        if payload.is_eof():
            self.coming.popleft()
            self.begin(message, payload.read_nowait())

    def begin(self, message: Any, body: bytes) -> None:
        self.is_busy, self.is_last = True, message.should_close
        answer = self.server.answer(Request(message.method, message.path, message.headers, body))
        if isinstance(answer, Reply):
            self.finish(answer)
        else:
            self.task = asyncio.ensure_future(answer)
            self.task.add_done_callback(self.done)

    def done(self, task: 'asyncio.Future[Reply]') -> None:
        fault = None if task.cancelled() else task.exception()
        if fault:
            print(f'{type(fault).__name__}: {fault}', file=sys.stderr, flush=True)
        self.finish(self.server.told(503) if task.cancelled() or fault else task.result())

    def finish(self, reply: Reply) -> None:
        self.is_busy, self.task = False, None
        self.let_go()
        self.send(reply)
        self.close_if_idle() if self.is_last or self.server.is_ending else self.go_on()

    def let_go(self) -> None:
        if self.size is not None:
            self.server.let_go(self.size)
            self.size = None

    def refuse(self, status: int) -> None:
        """Answers by a status, and hears no more on this connection. What is still being sent is
        dropped for a while: who sends into a connection that is closed does not read the answer.
        """
        self.is_last = True
        self.coming.clear()
        if not self.is_busy:
            self.let_go()
            self.send(self.server.told(status))
            if self.transport and not self.transport.is_closing():
                self.transport.write_eof()
                self._loop.call_later(SENT, self.close_if_idle)

    def send(self, reply: Reply) -> None:
        if self.transport and not self.transport.is_closing():
            self.transport.write(reply.text())

    def close_if_idle(self) -> None:
        if self.transport and not self.is_busy:
            self.transport.close()


@contextlib.asynccontextmanager
async def served(name: str, server: Server, listen: str) -> AsyncIterator[None]:
    """Serves until the process is told to end, and then goes on to the body with no connection
    coming any more. Those that are open are closed behind it."""
    ended, loop = asyncio.Event(), asyncio.get_running_loop()
    for number in (signal.SIGTERM, signal.SIGINT):
        loop.add_signal_handler(number, ended.set)
    listening = await site_of(server, listen)
    print(f'{name}: requests come by {listen or "the socket of systemd"}', flush=True)
    await ended.wait()
    listening.close()
    yield
    server.end()
    until = time.monotonic() + SENT
    while server.connections and time.monotonic() < until:
        await asyncio.sleep(0.01)


async def site_of(server: Server, listen: str) -> asyncio.Server:
    """A server at a path, or at the socket that systemd has opened."""
    loop = asyncio.get_running_loop()
    if is_opened_by_systemd():
        given = socket.socket(fileno=3)
        return await loop.create_unix_server(lambda: Connection(server), sock=given,
                                             backlog=BACKLOG)
    return await loop.create_unix_server(lambda: Connection(server), listen, backlog=BACKLOG)
