"""Requests to other hosts: HTTPS, one end in time for all of a request, no redirect, a bounded
answer."""
import http.client
import socket
import ssl
import time
from collections.abc import Mapping
from collections.abc import Sequence
from dataclasses import dataclass

from goo_service.common.client import TimedSocket
from goo_service.people.hook_address import Address


class TimedTLS(ssl.SSLSocket):
    """A connection with TLS on which all reads together end in time."""

    until = float('inf')

    def recv_into(self, *words: object, **options: object) -> int:
        left = self.until - time.monotonic()
        if left <= 0:
            raise TimeoutError('no time is left')
        self.settimeout(left)
        return super().recv_into(*words, **options)     # type: ignore[arg-type]


@dataclass(frozen=True)
class Sent:
    """A request: a method, its fields and its body."""

    method: str
    body: bytes
    fields: Mapping[str, str]


def connected(address: Address, numbers: Sequence[str], authority: str,
              until: float) -> TimedSocket | TimedTLS:
    """A connection to the first of these addresses that takes one."""
    faults = []
    for number in numbers:
        plain = TimedSocket(socket.AF_INET6 if ':' in number else socket.AF_INET)
        plain.until = until
        try:
            plain.settimeout(plain.seconds_left())
            plain.connect((number, address.port))
            return secured(plain, address.host, authority) if address.is_secure else plain
        except OSError as fault:
            faults.append(fault)
            plain.close()
    raise faults[0] if faults else OSError(f'{address.host} has no address')


def secured(plain: TimedSocket, host: str, authority: str) -> TimedTLS:
    """TLS over a connection, with the other side known by its name."""
    context = ssl.create_default_context(cafile=authority or None)
    context.sslsocket_class = TimedTLS
    plain.settimeout(plain.seconds_left())
    made = context.wrap_socket(plain, server_hostname=host)
    assert isinstance(made, TimedTLS)
    made.until = plain.until
    return made


def answered(connection: socket.socket, address: Address, sent: Sent,
             most: int = 0) -> tuple[int, bytes]:
    """The status of the answer, and its body where so many bytes of it are wanted. ValueError where
    it is longer."""
    with connection:
        asked = http.client.HTTPConnection(address.host)
        asked.sock = connection
        asked.request(sent.method, address.target, sent.body or None, {
            'Host': address.authority, 'Connection': 'close', 'User-Agent': 'goo', **sent.fields})
        with asked.getresponse() as response:
            body = response.read(most + 1) if most else b''
            if len(body) > most:
                raise ValueError(f'{address.host} answers more than {most} bytes')
            return response.status, body


def addresses_of(address: Address) -> list[str]:
    """The addresses of a host that the operator named."""
    found = socket.getaddrinfo(address.host, address.port, type=socket.SOCK_STREAM)
    return list(dict.fromkeys(str(where[0]) for *_, where in found))[:4]
