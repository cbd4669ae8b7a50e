"""A request of the gate to the log, over the log's socket, and the log's answer.

One connection for each, without a library between: what came goes on byte for byte, and what is
answered comes back so. Bare sockets, as asyncio's streams cost twice as much.
"""
import asyncio
import errno
import os
import socket
import time
from collections.abc import Mapping
from dataclasses import dataclass

CONNECT, ANSWER = 10, 300
"""Seconds until a connection is there, and until an answer has come whole, as nginx waits."""
FULL = 0.02
"""Seconds until a connection is tried again where as many wait as may."""
HEAD, PART = 16 << 10, 1 << 16
"""Bytes of the head of an answer at most, and those that are received at once."""
MOST = 64 << 20
"""Bytes of the body of an answer."""
PASSED_ON = ('content-type', 'allow', 'goo-entry', 'goo-stale', 'retry-after')
"""Fields of an answer that go back to whoever asked."""


class Away(Exception):
    """The log takes no connection: nothing was sent."""


class NoAnswer(Exception):
    """The log has the request, or a part of it, and has not answered it whole."""


class TooLate(NoAnswer):
    """It has not answered in time."""


@dataclass(frozen=True, slots=True)
class Answer:
    """An answer that came whole."""

    status: int
    fields: dict[str, str]
    """Those that are passed on, by their names in small letters."""
    body: bytes


def text_of(method: str, target: str, fields: Mapping[str, str], body: bytes) -> bytes:
    """A request. A field with a line end in it is none, so a value can't begin another one."""
    lines = [f'{method} {target} HTTP/1.1', 'Host: goo']
    for name, value in fields.items():
        if '\r' in value or '\n' in value:
            raise ValueError(f'{name} has a line end')
        lines.append(f'{name}: {value}')
    head = '\r\n'.join([*lines, f'Content-Length: {len(body)}', 'Connection: close', '', ''])
    return head.encode('utf-8', 'surrogateescape') + body


async def ask(path: str, request: bytes, patience: float = ANSWER) -> Answer:
    """The log's answer."""
    with socket.socket(socket.AF_UNIX, socket.SOCK_STREAM | socket.SOCK_NONBLOCK) as connection:
        try:
            await connect(connection, path)
        except (OSError, TimeoutError) as fault:
            raise Away(f'{path}: {fault}') from fault
        try:
            async with asyncio.timeout(patience):
                return await exchange(connection, request)
        except TimeoutError as fault:
            raise TooLate(f'{path}: no answer in {patience:g} s') from fault
        except (OSError, EOFError, ValueError, LookupError) as fault:
            raise NoAnswer(f'{path}: {fault}') from fault


async def connect(connection: socket.socket, path: str) -> None:
    """A connection, which is there at once, or as soon as the log's queue has room."""
    until = time.monotonic() + CONNECT
    while fault := connection.connect_ex(path):
        if fault != errno.EAGAIN or time.monotonic() > until:
            raise OSError(fault, os.strerror(fault))
        await asyncio.sleep(FULL)


async def exchange(connection: socket.socket, request: bytes) -> Answer:
    """Sends the request, and receives the answer to its end."""
    loop = asyncio.get_running_loop()
    await loop.sock_sendall(connection, request)
    received, head, end = bytearray(), -1, 0
    while head < 0 or len(received) < end:
        part = await loop.sock_recv(connection, PART)
        if not part:
            raise EOFError('the answer was cut off')
        received += part
        if head < 0 and (head := received.find(b'\r\n\r\n', 0, HEAD)) >= 0:
            answer, length = head_of(bytes(received[:head]))
            end = head + 4 + length
        elif head < 0 and len(received) >= HEAD:
            raise ValueError('a head that is too long')
    return Answer(answer.status, answer.fields, bytes(received[head + 4:end]))


def head_of(text: bytes) -> tuple[Answer, int]:
    """An answer without its body, and the length of the body."""
    first, *lines = text.decode('latin-1').split('\r\n')
    fields = {name.lower(): value.strip()
              for name, _, value in (line.partition(':') for line in lines)}
    length = int(fields['content-length'])
    if not 0 <= length <= MOST:
        raise ValueError(f'a body of {length} bytes')
    kept = {name: fields[name] for name in PASSED_ON if name in fields}
    return Answer(int(first.split()[1]), kept, b''), length
