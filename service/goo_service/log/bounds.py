"""The bounds of what one request, and one holder in a day, may put into the log of requests.

The front door counts requests. What a request costs, and what it leaves, is bounded here, before
anything is logged. docs/SECURITY.md states each bound. Nothing here keeps a state: what is bounded
is given, and a refusal comes back, or None.
"""
import dataclasses
import datetime
import json
import re

from goo_service.log import bundles

ISSUER = 'ISSUER'
TABLES, REQUESTS = '/v1/declarations', '/v1/requests'
BODY = 1 << 20                  # bytes of any body: the registry's own limit
ROWS = 21_000                   # rows of a table: BODY has no more, with keys of four letters
REQUEST = 64 << 10              # bytes of a request; an import by the issuing body may have BODY
DAY = 64 << 20                  # bytes of a holder's entries in a day (UTC)
USER = 16 << 20                 # of them, those of one user: the others of his holder have the rest
READER = json.JSONDecoder(parse_int=str, parse_float=str)
DATE = re.compile('[0-9]{4}-[0-9]{2}-[0-9]{2}')


@dataclasses.dataclass(frozen=True)
class Refusal:
    """Why nothing was logged. After `wait` seconds the same request may be taken."""
    status: int
    error: str
    wait: int = 0

    @property
    def body(self) -> bytes:
        return json.dumps({'error': self.error}).encode() + b'\n'

    @property
    def fields(self) -> dict[str, str]:
        return {'Retry-After': str(self.wait)} if self.wait else {}


def of_length(length: int) -> Refusal | None:
    """Of any body, by the length that its head states."""
    if length <= BODY:
        return None
    return Refusal(413, f'the body has {length} bytes; at most {BODY} are taken')


def rows(table: bytes) -> int:
    """The lines behind the header, without blank ones.

    A line ends with a line feed, a carriage return or both, as the registry reads tables. A field
    in quotes may hold line ends, so there may be fewer rows than this, and never more.
    """
    lines = table.replace(b'\r', b'\n').split(b'\n')
    return max(0, len(lines) - lines.count(b'') - 1)


def of_table(table: bytes) -> Refusal | None:
    if table.count(b'\n') + table.count(b'\r') < ROWS:
        return None
    found = rows(table)
    if found <= ROWS:
        return None
    return Refusal(413, f'the table has {found} rows; at most {ROWS} are taken')


def members(body: bytes) -> dict[str, object]:
    """The members of a request; none where the body is no object.

    All that the registry reads as an object is one here, with the same members: of two with one
    name the last one counts. Numbers stay texts, since a long number takes long to make.
    """
    try:
        read = READER.decode(body.decode())
    except (ValueError, RecursionError):
        return {}
    return read if isinstance(read, dict) else {}


@dataclasses.dataclass(frozen=True)
class Host:
    """What a host says of itself: its day, the day that was confirmed on it, closed registries."""

    today: datetime.date
    confirmed: str = ''
    closed: frozenset[str] = frozenset()


def of_request(caller: str, body: bytes, host: Host) -> Refusal | None:
    """Of a request by itself.

    The issuing body's requests alone are read: no other caller imports notices or moves the date.
    """
    read = members(body) if caller == ISSUER else {}
    command, day = read.get('command'), read.get('day')
    if len(body) > REQUEST and command != 'import':
        return Refusal(413, f'the request has {len(body)} bytes; at most {REQUEST} are taken, '
                            f'and {BODY} of an import by the issuing body')
    if command == 'advance' and is_later(day, host.today) and host.confirmed != day:
        return Refusal(403, f'the day {day} is after the day of the host, {host.today}: '
                            f'such a move of the date has to be confirmed on the host')
    notice = read.get('notice')
    sender = notice.get('sender') if command == 'import' and isinstance(notice, dict) else None
    if isinstance(sender, str) and sender in host.closed:
        return Refusal(403, f'registry {sender} is closed: its notices are taken no more')
    return None


def of_bundle(caller: str, body: bytes, is_whole: bool, host: Host) -> Refusal | None:
    """Of a bundle: its form, its lines, and each of them as a request by itself."""
    try:
        lines = bundles.read(body)
    except bundles.Unreadable as fault:
        return Refusal(413 if body.count(b'\n') > bundles.LINES else 400, str(fault))
    for line in lines:
        if refusal := of_request(caller, line.body, host):
            return Refusal(refusal.status, f'line {line.number}: {refusal.error}')
        if is_whole and line.command not in bundles.TRIED:
            return Refusal(400, f'line {line.number}: a bundle that is applied whole or not at all '
                                f'has these commands alone: {", ".join(bundles.TRIED)}')
    return None


def is_later(day: object, today: datetime.date) -> bool:
    """Whether a day is after today. What states no day is not: the registry refuses it."""
    return isinstance(day, str) and bool(DATE.fullmatch(day)) and day > today.isoformat()


def of_day(caller: str, sent: int, by_user: int, size: int,
           now: datetime.datetime) -> Refusal | None:
    """Of an entry of `size` bytes, where the caller's entries have `sent` bytes today (UTC).

    Those of its user have `by_user`.
    """
    for who, had, most in ((caller, sent, DAY), (f'this user of {caller}', by_user, USER)):
        if caller != ISSUER and had + size > most:
            return Refusal(429, f'{who} has put {had} bytes into the log today, and this entry has '
                                f'{size}; at most {most} bytes are taken in a day (UTC)',
                           seconds_left(now))
    return None


def seconds_left(now: datetime.datetime) -> int:
    """Until the day is over; one at least."""
    return 24 * 3600 - (now.hour * 3600 + now.minute * 60 + now.second)
