"""The one HTTP client of the service, for what listens on this host: a Unix socket, or a port.

A call has an end in time and in bytes: `patience` counts from the connection to the last byte, and
an answer that is longer than `most` is refused. Whatever keeps an answer from coming whole raises
NoAnswer, whose text names the address.
"""
import contextlib
import http.client
import json
import select
import socket
import time
from collections.abc import Iterator
from collections.abc import Mapping
from dataclasses import dataclass
from dataclasses import field

MOST = 64 << 20
"""Bytes of an answer, unless the caller gives another bound."""
Address = str | tuple[str, int]
Fields = Mapping[str, str]
NONE: Fields = {}
FULL: Fields = {'GOO-Caller': 'ISSUER', 'GOO-Role': 'full'}
"""The fields of a request that the issuing body's own programs send."""


class NoAnswer(ConnectionError):
    """No whole answer came in time, or it was longer than its bound."""


@dataclass(frozen=True)
class Answer:
    """An answer that came whole. The names of its fields are in small letters."""

    status: int
    fields: dict[str, str]
    body: bytes

    @property
    def text(self) -> str:
        return self.body.decode(errors='replace')

    @property
    def entry(self) -> int:
        """The entry of the log by which the answer stands; 0 where it names none."""
        number = self.fields.get('goo-entry', '')
        return int(number) if number.isdecimal() else 0

    def members(self) -> dict[str, object]:
        """The members of the JSON object in the body; none where it has another form."""
        try:
            read = json.loads(self.body)
        except (ValueError, RecursionError):
            return {}
        return read if isinstance(read, dict) else {}


@dataclass(frozen=True)
class Kept:
    """An answer whose connection stays open, since something lasts as long as it does."""

    answer: Answer
    connection: socket.socket

    def lasts(self) -> bool:
        """Whether the other end has kept it open: a connection that was closed can be read."""
        return not select.select([self.connection], [], [], 0)[0]


def address_of(text: str) -> tuple[socket.AddressFamily, Address]:
    """Family and address of a socket: a path, or HOST:PORT."""
    if '/' in text:
        return socket.AF_UNIX, text
    host, _, port = text.rpartition(':')
    return socket.AF_INET, (host or '127.0.0.1', int(port))


class TimedSocket(socket.socket):
    """A socket on which all calls together end in time, and not only each by itself."""

    until = float('inf')

    def seconds_left(self) -> float:
        """The seconds that are left. TimeoutError where there are none."""
        left = self.until - time.monotonic()
        if left <= 0:
            raise TimeoutError('no time is left')
        return left

    def recv_into(self, *words: object, **options: object) -> int:
        """As a file over the socket calls it for each part."""
        self.settimeout(self.seconds_left())
        return super().recv_into(*words, **options)     # type: ignore[arg-type]

    def sendall(self, *words: object, **options: object) -> None:
        """Python bounds this call as a whole."""
        self.settimeout(self.seconds_left())
        super().sendall(*words, **options)              # type: ignore[arg-type]


class Connection(http.client.HTTPConnection):
    """A connection to a socket or a port of this host."""

    def __init__(self, address: str, patience: float) -> None:
        super().__init__('localhost')
        self.address, self.patience = address, patience

    def connect(self) -> None:
        family, address = address_of(self.address)
        self.sock = timed = TimedSocket(family)
        timed.until = time.monotonic() + self.patience
        timed.settimeout(self.patience)
        timed.connect(address)


@contextlib.contextmanager
def faults_of(address: str) -> Iterator[None]:
    """Has each fault of a connection become NoAnswer."""
    try:
        yield
    except (OSError, EOFError, ValueError, http.client.HTTPException) as fault:
        raise NoAnswer(f'{address}: {str(fault) or type(fault).__name__}') from fault


def whole(response: http.client.HTTPResponse, most: int) -> Answer:
    """The answer with all of its body. http.client gives a body that was cut off as a whole one."""
    body = response.read(most + 1)
    if len(body) > most:
        raise ValueError(f'the answer has more than {most} bytes')
    if response.length:
        raise EOFError(f'the answer was cut off {response.length} bytes before its end')
    return Answer(response.status, fields_of(response), body)


def fields_of(response: http.client.HTTPResponse) -> dict[str, str]:
    return {name.lower(): value for name, value in response.getheaders()}


@dataclass(frozen=True)
class Client:
    """Calls what listens at an address: a path, or HOST:PORT. Each call has its own connection."""

    address: str
    patience: float = 300
    most: int = MOST
    fields: Fields = field(default_factory=lambda: FULL)
    """Fields of each request."""

    def get(self, route: str) -> Answer:
        return self.call('GET', route)

    def post(self, route: str, body: bytes, fields: Fields = NONE) -> Answer:
        return self.call('POST', route, body, fields)

    def call(self, method: str, route: str, body: bytes = b'', fields: Fields = NONE) -> Answer:
        """The answer to a request. Further fields stand behind those of the client."""
        with faults_of(self.address), self.connection() as connection:
            return whole(self.response(connection, method, route, body, fields), self.most)

    def beginning(self, route: str, size: int) -> Answer:
        """The answer with so many bytes of its body at most. The rest is not read."""
        with faults_of(self.address), self.connection() as connection:
            response = self.response(connection, 'GET', route)
            return Answer(response.status, fields_of(response), response.read(size))

    @contextlib.contextmanager
    def keep_open(self, route: str) -> Iterator[Kept]:
        """The answer, whose connection stays open for as long as the block lasts."""
        with self.connection() as connection:
            with faults_of(self.address):
                answer = whole(self.response(connection, 'GET', route), self.most)
                if connection.sock is None:
                    raise ValueError('the connection was closed behind the answer')
            yield Kept(answer, connection.sock)

    def connection(self) -> contextlib.closing[Connection]:
        return contextlib.closing(Connection(self.address, self.patience))

    def response(self, connection: Connection, method: str, route: str, body: bytes = b'',
                 fields: Fields = NONE) -> http.client.HTTPResponse:
        """The head of the answer to a request, whose fields are sent in UTF-8.

        http.client gives a head that was cut off as a whole one. It then lacks the length.
        """
        given = {**self.fields, **fields}
        connection.request(method, route, body or None, {name: value.encode().decode('latin-1')
                                                         for name, value in given.items()})
        response = connection.getresponse()
        if response.length is None and not response.chunked:
            raise EOFError('the answer tells no length, or was cut off in its head')
        return response
