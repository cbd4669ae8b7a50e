"""A bundle: many requests that come as one, are one entry of the log, and get an answer each.

The body is lines of JSON. Each line is a request as /v1/requests takes it, and each key stands in a
bundle once. The lines are applied in their order, and nothing comes between. docs/HTTP.md has the
routes.
"""
import json
import re
from collections.abc import Iterator
from dataclasses import dataclass
from typing import Any

from goo_service.rules.refusals import REFUSALS

ROUTE, WHOLE = '/v1/bundles', '/v1/bundles?whole=yes'
"""Each line by itself, or all of them or none."""
ROUTES = (ROUTE, WHOLE)
LINES = 5000
"""Lines of a bundle."""
KIND = 'application/x-ndjson'
"""The content type of an answer with a line for each line."""
TRIED = ('transfer', 'cancel', 'export', 'withdraw', 'register_device', 'open_holder',
         'open_account')
"""The commands of a bundle that is applied whole or not at all."""
KEY = re.compile(r'[A-Za-z0-9._:-]{1,40}')
READER = json.JSONDecoder(parse_int=str, parse_float=str)
SET_ASIDE = b'{"outcome":"set aside"}\n'
"""The answer of a line that the registry did not decide, and of those after it."""
STATUSES = {'accepted': 200, 'repeated': 200, 'unreadable': 400}
NOT_ALLOWED = 'NotAllowed'


class Unreadable(Exception):
    """A body that is no bundle. The text names the line."""


@dataclass(frozen=True, slots=True)
class Line:
    """One request of a bundle."""

    number: int
    """Counted from 1."""
    key: str
    command: object
    body: bytes


def lines_of(body: bytes) -> list[bytes]:
    """The lines, without their ends. An end behind the last one begins no further line."""
    return body.removesuffix(b'\n').split(b'\n')


def read(body: bytes) -> list[Line]:
    """The requests of a bundle."""
    found = lines_of(body)
    if len(found) > LINES:
        raise Unreadable(f'the bundle has {len(found)} lines; at most {LINES} are taken')
    keys: dict[str, int] = {}
    made = [line_of(number, text) for number, text in enumerate(found, 1)]
    for line in made:
        before = keys.setdefault(line.key, line.number)
        if before != line.number:
            raise Unreadable(f'line {line.number} has the key {line.key} of line {before}: '
                             'a key stands in a bundle once')
    return made


def line_of(number: int, text: bytes) -> Line:
    try:
        members = READER.decode(text.decode().strip())
    except (ValueError, RecursionError) as fault:
        raise Unreadable(f'line {number} is no JSON object') from fault
    if not isinstance(members, dict):
        raise Unreadable(f'line {number} is no JSON object')
    key = members.get('key')
    if not isinstance(key, str) or not KEY.fullmatch(key):
        raise Unreadable(f'line {number} has no key: 1 to 40 letters, digits and -_.:')
    return Line(number, key, members.get('command'), text)


# ------------------------------------------------------------------ answers

def line_answer(body: bytes) -> bytes:
    """The registry's answer to a line, as a line."""
    return b' '.join(body.split(b'\n')).strip() + b'\n'


def outcome_in(line: bytes) -> dict[str, Any]:
    """What a line of an answer states."""
    stated = json.loads(line)
    if not isinstance(stated, dict):
        raise ValueError(f'no outcome: {line[:80]!r}')
    return stated


def refusal(line: Line, name: str, number: int | None) -> dict[str, object]:
    """Why a bundle is refused whole: the line, its key, and what the registry would answer it."""
    named = {} if number is None else {'number': f'{number:014}'}
    return {'line': line.number, 'key': line.key, 'code': REFUSALS.index(name) + 1, 'name': name,
            **named, 'outcome': 'refused'}


def status_of(stated: dict[str, Any]) -> int:
    """The status of a bundle that is refused whole, which is that of its line."""
    if stated.get('name') == NOT_ALLOWED:
        return 403
    return STATUSES.get(str(stated.get('outcome')), 409)


def read_outcomes(body: bytes, answer: bytes) -> Iterator[tuple[Line, dict[str, Any]]]:
    """Each line of an applied bundle with what it came to."""
    lines, answers = read(body), lines_of(answer)
    if len(lines) != len(answers):
        raise ValueError(f'a bundle of {len(lines)} lines has an answer of {len(answers)}')
    for line, text in zip(lines, answers):
        yield line, outcome_in(text)
