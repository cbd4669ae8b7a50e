"""How long the largest requests that the log takes hold `goo serve`, and so everybody else.

usage: python3 bench/largest.py [tmpfs|disk ..]

The bounds are those of service/goo_service/log/bounds.py. Each request is sent alone to a registry in a file: a
transfer through LOTS lots, the largest bodies of a holder and of the issuing body, and
tables of the most rows. A row of the table is the bytes sent, the status, and the seconds from the
first byte sent to the last one received. All of it stays on 127.0.0.1.
"""
import json
import subprocess
import sys
import time
from collections.abc import Callable
from collections.abc import Iterator
from dataclasses import dataclass

from measured import HERE
from measured import PROGRAM
from measured import goo
from measured import head
from measured import machine
from measured import room
from measured import row
from measured import usable

sys.path.insert(0, str(HERE.parent / 'service'))
from goo_service.log import bounds
from client import CLOSE
from client import answered
from client import listening
from client import request

LOTS = 8_000
"""Lots of one certificate each that one transfer moves: more than 20 devices have in 30 years."""
DEVICES = 700
"""Devices that declare the table: each has one row for each of some days."""
LETTERS = '0123456789abcdefghijklmnopqrstuvwxyz'
HEADER = b'key,device,first_day,last_day,gross_wh,aux_wh\n'


@dataclass(frozen=True)
class Sent:
    """One request, and what it is called in the table."""

    title: str
    caller: str
    path: str
    body: bytes


def gsrn(number: int) -> str:
    """A device number of 18 digits with its check digit (GS1)."""
    digits = f'5{number:016}'
    total = sum(int(digit) * (3 if at % 2 == 0 else 1) for at, digit in enumerate(digits))
    return f'{digits}{-total % 10}'


def line(command: str, key: str, **members: object) -> str:
    return 'ISSUER ' + json.dumps({'command': command, 'key': key, **members})


def day(number: int) -> str:
    """A day of January 2025, in which trade is still open."""
    return f'2025-01-{number % 31 + 1:02}'


def beginning() -> Iterator[str]:
    """Two holders, the devices, and LOTS lots of one certificate each in SUN's account."""
    for holder in ('SUN', 'VOLT'):
        yield line('open_holder', f'h{holder}', holder=holder, name=holder)
        yield line('open_account', f'a{holder}', holder=holder)
    for number in range(DEVICES + LOTS // 31 + 1):
        yield line('register_device', f'd{number}', account=1, device=gsrn(number), country='DE',
                   site='Site', tech='T010000', source='F01010100', capacity_w=2_000_000,
                   commissioned='2020-06-15', support='none')
    for number in range(LOTS):
        yield line('declare', f'l{number}', device=gsrn(DEVICES + number // 31),
                   first_day=day(number), last_day=day(number), gross_wh=1_000_000, aux_wh=0)


def table(row_of: Callable[[int], bytes]) -> bytes:
    """As many rows as the bounds allow."""
    text = bytearray(HEADER)
    for number in range(bounds.ROWS):
        text += row_of(number)
    return bytes(text[:text.rindex(b'\n', 0, bounds.BODY) + 1])


def key(number: int) -> str:
    """A short key: four letters at most."""
    letters = ''
    while number or not letters:
        number, at = divmod(number, len(LETTERS))
        letters = LETTERS[at] + letters
    return letters


def declared(number: int) -> bytes:
    """A short row that is accepted: a key, a device, one day."""
    on = day(number // DEVICES)
    return f'{key(number)},{gsrn(number % DEVICES)},{on},{on},9,0\n'.encode()


def largest() -> Iterator[Sent]:
    most = bounds.REQUEST
    span = {'first': '07000000000001', 'last': f'07{LOTS:012}'}
    body = {'command': 'transfer', 'key': 'all', 'giver': 1, 'taker': 2, **span}
    yield Sent(f'a transfer through {LOTS:,} lots', 'SUN', bounds.REQUESTS,
               json.dumps(body).encode())
    pieces = ','.join(f'"k{number}":1' for number in range(most // 11))
    yield Sent('a request of as many members as fit', 'SUN', bounds.REQUESTS,
               b'{' + pieces.encode()[:most - 2].rsplit(b',', 1)[0] + b'}')
    yield Sent('a request of one long text', 'SUN', bounds.REQUESTS,
               b'{"command":"' + b'a' * (most - 14) + b'"}')
    part = b'{"first":"07000000000001","last":"07000000000001"},'
    start = b'{"command":"import","key":"i1","notice":{"parts":['
    parts = part * ((bounds.BODY - len(start) - 4) // len(part))
    yield Sent('an import of a notice of a mebibyte', 'ISSUER', bounds.REQUESTS,
               start + parts[:-1] + b']}}')
    yield Sent('a table of rows that nobody can read', 'SUN', bounds.TABLES,
               table(lambda number: b'a\n'))
    yield Sent('a table of a holder, each row refused', 'SUN', bounds.TABLES, table(declared))
    yield Sent('a table of the issuing body, each row accepted', 'ISSUER', bounds.TABLES,
               table(declared))


def measure(place: str) -> None:
    with room(place) as folder:
        path = folder / 'registry'
        goo('init', '--db', path, '--code', '7', '--today', '2025-03-01')
        given = folder / 'given'
        given.write_text('\n'.join([*beginning(), '']), encoding='utf-8')
        goo('run', '--db', path, given=given)
        port, server, _ = listening(lambda port: subprocess.Popen(
            [PROGRAM, 'serve', '--db', str(path), '--port', str(port), '--count', '1000'],
            stdout=subprocess.PIPE))
        try:
            for sent in largest():
                show(place, sent, port)
        finally:
            server.terminate()
            server.communicate()


def show(place: str, sent: Sent, port: int) -> None:
    text = request('POST', sent.path, sent.caller, [CLOSE], 'goo', sent.body)
    begun = time.monotonic()
    status, _, body = answered(port, text)
    took = time.monotonic() - begun
    outcome = body.split(b'\n', 1)[0][:60].decode(errors='replace')
    row([sent.title, place, f'{len(sent.body):,}', f'{status}', f'`{outcome}`', f'{took:.2f}'])


def main() -> None:
    machine()
    head(['Request', 'Where', 'Bytes', 'Status', 'Begins with', 'Seconds'])
    for place in sys.argv[1:] or ['tmpfs', 'disk']:
        if usable(place):
            measure(place)


if __name__ == '__main__':
    main()
