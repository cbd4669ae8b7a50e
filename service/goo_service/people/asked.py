"""What a request asks, read as the registry reads it: which commands, of which account, how many
certificates.

A body is one request, a bundle with one on each line, or a table of declarations. The forms are
those of docs/FORMATS.md. A line that the registry can't read asks nothing: the registry answers it
by itself, and it changes nothing. Where two programs might read a line in two ways it is doubtful.
"""
import json
import re
from dataclasses import dataclass
from typing import Any

from goo_service.log import bundles
from goo_service.log.bounds import REQUESTS
from goo_service.log.bounds import TABLES
from goo_service.rules.commands import MEMBERS

WRITES = (REQUESTS, TABLES, *bundles.ROUTES)
"""The targets by which something can change. The log takes them letter by letter."""
GIVERS = {'transfer': 'giver', 'export': 'giver', 'cancel': 'account', 'close_account': 'account'}
"""The member with the account that is asked of, for each command that a holder may give."""
MOVING = ('transfer', 'export', 'cancel', 'withdraw', 'correct')
"""Commands that name the certificates that they move."""
ACCOUNT = re.compile('[1-9][0-9]{0,8}')
NUMBER = re.compile('[0-9]{14}')


class Whole(str):
    """A whole number as it was written: a long one would take long to make."""


class Twice(dict[str, Any]):
    """An object that names a member twice."""


@dataclass(frozen=True, slots=True)
class Line:
    """One request."""

    command: str = ''
    """Empty where the registry reads none."""
    key: str = ''
    account: int | None = None
    """The account that is asked of."""
    quantity: int = 0
    """The certificates that it moves."""
    is_doubtful: bool = False


UNREADABLE = Line()


def lines_of(target: str, body: bytes) -> tuple[Line, ...]:
    """The requests of a body. A table counts as one, as all of its rows are declarations."""
    if target == TABLES:
        return (Line('declare'),)
    bodies = bundles.lines_of(body) if target in bundles.ROUTES else [body]
    return tuple(map(line_of, bodies))


def members_in(pairs: list[tuple[str, Any]]) -> dict[str, Any]:
    """The members of an object. Of two with one name the last one counts."""
    members = dict(pairs)
    return members if len(members) == len(pairs) else Twice(members)


READER = json.JSONDecoder(object_pairs_hook=members_in, parse_int=Whole, parse_float=float)


def line_of(body: bytes) -> Line:
    """A request. All that the registry reads as JSON is JSON here too."""
    try:
        members = READER.decode(body.decode())
    except (ValueError, RecursionError):
        return UNREADABLE
    command = members.get('command') if isinstance(members, dict) else None
    if type(command) is not str or command not in MEMBERS:
        return twice(members) if isinstance(members, Twice) else UNREADABLE
    optional = {'carrier'} if command == 'register_device' else set()
    key, names = members.get('key'), members.keys() - {'command', 'key'}
    is_key = type(key) is str and bundles.KEY.fullmatch(key)
    if names - optional != MEMBERS[command] or not is_key:
        return twice(members) if isinstance(members, Twice) else UNREADABLE
    return read_line(command, members)


def twice(members: dict[str, Any]) -> Line:
    """An object with a member twice of which nothing is sure."""
    key = members.get('key')
    return Line('', key if type(key) is str else '', is_doubtful=True)


def read_line(command: str, members: dict[str, Any]) -> Line:
    """A request with all members of its command."""
    is_doubtful, account = isinstance(members, Twice), None
    if command in GIVERS:
        account = account_in(members[GIVERS[command]])
        if account is None:
            return twice(members) if is_doubtful else UNREADABLE
    quantity = quantity_in(command, members) if command in MOVING else 0
    if quantity is None:
        return twice(members) if is_doubtful else UNREADABLE
    return Line(command, members['key'], account, quantity, is_doubtful)


def account_in(value: object) -> int | None:
    """The number of an account; None where the registry takes it for none."""
    return int(value) if isinstance(value, Whole) and ACCOUNT.fullmatch(value) else None


def quantity_in(command: str, members: dict[str, Any]) -> int | None:
    """How many certificates a range has; None where the registry takes it for none."""
    first, last = members['first'], members['last']
    if command == 'correct' and first == last == '':
        return 0
    if type(first) is not str or type(last) is not str:
        return None
    if not NUMBER.fullmatch(first) or not NUMBER.fullmatch(last) or first[:2] != last[:2]:
        return None
    count = int(last) - int(first) + 1
    return count if count > 0 else None
