"""Where a webhook may go: the form of its address, and the networks behind a name.

A user writes the address, so it must lead to nothing that this host alone can reach: not to this
host, not to a private network, not to a port of another service below 1024. The name is looked up
once, each address that it has is judged, and the connection goes to one that was judged.
"""
import ipaddress
import re
import socket
from collections.abc import Sequence
from dataclasses import dataclass
from urllib.parse import urlsplit

LONGEST = 500
HOST = re.compile(r'[A-Za-z0-9](?:[A-Za-z0-9.-]{0,251}[A-Za-z0-9])?')
PORTS = (443, *range(1024, 65536))
LOOPBACK = '127.0.0.1'
Network = ipaddress.IPv4Network | ipaddress.IPv6Network
Number = ipaddress.IPv4Address | ipaddress.IPv6Address
INNER = tuple(map(ipaddress.ip_network, (
    '0.0.0.0/8', '10.0.0.0/8', '100.64.0.0/10', '127.0.0.0/8', '169.254.0.0/16', '172.16.0.0/12',
    '192.0.0.0/24', '192.0.2.0/24', '192.88.99.0/24', '192.168.0.0/16', '198.18.0.0/15',
    '198.51.100.0/24', '203.0.113.0/24', '224.0.0.0/4', '240.0.0.0/4')))
"""What no address in the Internet is in, by the registry of special-purpose addresses of IANA."""
OUTER6 = ipaddress.ip_network('2000::/3')
"""Of IPv6 all that is handed out; of it these are not, or have an address of IPv4 within."""
INNER6 = tuple(map(ipaddress.ip_network, (
    '2001::/23', '2001:db8::/32', '2002::/16', '3fff::/20')))


class BadAddress(Exception):
    """An address to which nothing is sent. The text says why."""


@dataclass(frozen=True)
class Address:
    """An address as it was written, in its parts."""

    is_secure: bool
    host: str
    port: int
    target: str

    @property
    def authority(self) -> str:
        """The field Host."""
        usual = 443 if self.is_secure else 80
        return self.host if self.port == usual else f'{self.host}:{self.port}'


def parse_address(url: str, is_plain_allowed: bool = False) -> Address:
    """The parts of an address. BadAddress where it is none, or is of another kind than may be."""
    if len(url) > LONGEST or not url.isascii() or not url.isprintable() or ' ' in url:
        raise BadAddress(f'an address has up to {LONGEST} letters of ASCII and no blank')
    try:
        parts = urlsplit(url)
        port = parts.port
    except ValueError as fault:
        raise BadAddress(f'no address: {fault}') from fault
    host = parts.hostname or ''
    if '@' in parts.netloc or parts.fragment or not HOST.fullmatch(host) or '..' in host:
        raise BadAddress('an address is https://HOST/PATH, without user and without #')
    is_trial = is_plain_allowed and host == LOOPBACK
    if parts.scheme != 'https' and not (parts.scheme == 'http' and is_trial):
        raise BadAddress('an address begins with https://')
    if port is None:
        port = 443 if parts.scheme == 'https' else 80
    if port not in PORTS:
        raise BadAddress(f'port {port} is neither 443 nor above 1023')
    target = (parts.path or '/') + (f'?{parts.query}' if parts.query else '')
    return Address(parts.scheme == 'https', host, port, target)


def is_outer(number: Number) -> bool:
    """Whether an address is one of the Internet."""
    if isinstance(number, ipaddress.IPv4Address):
        return not any(number in network for network in INNER)
    return number in OUTER6 and not any(number in network for network in INNER6)


def is_own(number: Number) -> bool:
    """Whether an address is of this host: what is sent there comes from the same address."""
    family = socket.AF_INET if number.version == 4 else socket.AF_INET6
    with socket.socket(family, socket.SOCK_DGRAM) as probe:
        try:
            probe.connect((str(number), 9))
            return ipaddress.ip_address(probe.getsockname()[0].partition('%')[0]) == number
        except OSError:
            return False


def may_be_reached(number: Number, allowed: Sequence[Network]) -> bool:
    """Whether something is sent to an address. What the body allows is allowed, also on this host.
    """
    inside = getattr(number, 'ipv4_mapped', None) or number
    if any(inside in network for network in allowed if network.version == inside.version):
        return True
    return is_outer(inside) and not is_own(inside)


def judged(address: Address, allowed: Sequence[Network]) -> list[Number]:
    """The addresses of a host. All of them have to be allowed: one that is not shows that the name
    is not what it seems."""
    try:
        found = socket.getaddrinfo(address.host, address.port, type=socket.SOCK_STREAM)
    except (OSError, UnicodeError) as fault:
        raise BadAddress(f'{address.host} has no address: {fault}') from fault
    numbers = list(dict.fromkeys(
        ipaddress.ip_address(str(where[0]).partition('%')[0]) for *_, where in found))
    for number in numbers:
        if not may_be_reached(number, allowed):
            raise BadAddress(f'{address.host} is {number}, an address of this host or of a network '
                             'to which nothing is sent')
    return numbers[:4]
