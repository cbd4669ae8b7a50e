"""The commands: their members, and the one text of each."""
import json
from typing import Any

from goo_service.rules.lots import ELECTRICITY
from goo_service.rules.refusals import must

ISSUER = 'ISSUER'
Command = dict[str, Any]
"""The members of a request, but for its key."""
MEMBERS = {name: set(members.split()) for name, members in {
    'open_holder': 'holder name',
    'open_account': 'holder',
    'close_account': 'account',
    'register_device': 'device account country site tech source capacity_w commissioned support',
    'declare': 'device first_day last_day gross_wh aux_wh',
    'correct': 'device first_day less_wh first last reason',
    'transfer': 'giver taker first last',
    'cancel': 'account first last beneficiary use_first use_last',
    'withdraw': 'first last reason',
    'advance': 'day',
    'add_peer': 'peer',
    'export': 'giver peer account first last',
    'import': 'notice'}.items()}
"""The members of each command (docs/FORMATS.md)."""
INTEGERS = ('account', 'capacity_w', 'gross_wh', 'aux_wh', 'less_wh', 'giver', 'taker', 'peer')
KINDS: dict[str, type] = {'notice': dict, **dict.fromkeys(INTEGERS, int)}
"""The kinds of members that are not strings."""


def compact(value: object) -> str:
    """The one JSON text of a command or a notice."""
    return json.dumps(value, sort_keys=True, separators=(',', ':'), ensure_ascii=False)


def plain_of(members: Command) -> Command:
    """The command of a request as it is kept: without its key, and without what may be left out."""
    is_plain = members.get('command') == 'register_device' and members.get('carrier') == ELECTRICITY
    left_out = ('key', 'carrier') if is_plain else ('key',)
    return {name: value for name, value in members.items() if name not in left_out}


def must_have_shape(command: Command) -> None:
    """A command has its members, each of its kind."""
    name = command['command']
    optional = {'command', 'carrier'} if name == 'register_device' else {'command'}
    must(name in MEMBERS and command.keys() - optional == MEMBERS[name], 'Shape')
    must(all(type(value) is KINDS.get(member, str) for member, value in command.items()),
         'Shape')
    must(command.get('carrier') != ELECTRICITY, 'Shape')        # it is left out
