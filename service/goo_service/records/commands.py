"""Whom and what a request names, as the book of acts keeps it: also of requests that were refused,
or that nobody could read."""
import json
import re
from collections.abc import Mapping
from dataclasses import dataclass
from typing import Any

Command = dict[str, Any]
COLUMNS = ('key', 'device', 'first_day', 'last_day', 'gross_wh', 'aux_wh')
ENERGY = re.compile('[0-9]{1,16}')
"""Wh in a row of a table."""
LONE = re.compile('[\ud800-\udfff]')
"""Half of a letter of two, which JSON can write and no UTF-8 has."""
MOST_TEXT = 200
"""Letters of a text that the registry has not read. What it reads is shorter."""
MOST_WH = 10 ** 16


@dataclass(frozen=True, slots=True)
class Parties:
    """The columns of an act for whom and what its request names."""

    holder: str | None = None
    giver: int | None = None
    taker: int | None = None
    device: str | None = None
    peer: int | None = None
    wh: int | None = None
    note: str | None = None


NOBODY = Parties()


def number_in(command: Mapping[str, Any], *names: str) -> int | None:
    """The first of these members that is a number."""
    return next((command[name] for name in names if type(command.get(name)) is int), None)


def text_in(command: Mapping[str, Any], *names: str) -> str | None:
    """The first of these members that is a text."""
    return next((command[name] for name in names if isinstance(command.get(name), str)), None)


def parties_of(command: Command, devices: Mapping[str, Any]) -> Parties:
    """Accounts, holder, device, peer, energy and words of a command."""
    word, notice = command.get('command'), command.get('notice')
    notice = notice if isinstance(notice, dict) and isinstance(notice.get('account'), int) else None
    device = text_in(command, 'device')
    return Parties(
        holder=text_in(command, 'holder'), device=device,
        giver=giver_of(command), taker=taker_of(command, notice, devices),
        peer=notice.get('sender') if notice else number_in(command, 'peer'),
        wh=number_in(command, 'less_wh') if word == 'correct' else net_of(command),
        note=text_in(command, 'beneficiary', 'reason', 'name', 'day', 'site'))


def giver_of(command: Command) -> int | None:
    word = command.get('command')
    if word in ('transfer', 'export'):
        return number_in(command, 'giver')
    return number_in(command, 'account') if word in ('cancel', 'close_account') else None


def taker_of(command: Command, notice: Command | None, devices: Mapping[str, Any]) -> int | None:
    word = command.get('command')
    if word == 'transfer':
        return number_in(command, 'taker')
    if word == 'register_device':
        return number_in(command, 'account')
    if notice:
        return int(notice['account'])
    device = devices.get(text_in(command, 'device') or '') if word == 'declare' else None
    return int(device['account']) if device else None


def net_of(command: Command) -> int | None:
    """The net energy of a declaration."""
    gross, aux = command.get('gross_wh'), command.get('aux_wh')
    if command.get('command') != 'declare' or not (isinstance(gross, int) and isinstance(aux, int)):
        return None
    return gross - aux if abs(gross) + abs(aux) <= MOST_WH else None


def command_of(body: bytes) -> Command:
    """The members of a request; none where it is no object."""
    try:
        command = json.loads(body)
    except (ValueError, RecursionError):
        return {}
    return command if isinstance(command, dict) else {}


def is_kept(value: object) -> bool:
    """Whether a book can keep a value that the registry has not read."""
    if type(value) is int:
        return abs(value) < 2 ** 63
    return isinstance(value, str) and len(value) <= MOST_TEXT and not LONE.search(value)


def unread_members(command: Command) -> Command:
    """The texts and numbers of a command that the registry has not read."""
    return {name: value for name, value in command.items() if is_kept(value)}


def command_of_row(fields: list[str]) -> Command:
    """The request that a row of a table makes."""
    if len(fields) != len(COLUMNS):
        return {}
    row = dict(zip(COLUMNS, fields))
    energy = {name: int(row[name]) for name in ('gross_wh', 'aux_wh')
              if ENERGY.fullmatch(row[name])}
    return {'command': 'declare', **row, **energy}
