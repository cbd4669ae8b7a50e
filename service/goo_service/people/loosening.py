"""A rule of four eyes that is made looser waits for a second user itself.

Else whoever may set rules could take one away, act alone, and set it again. A new rule, and a
stricter one, counts at once.
"""
import json
import sqlite3

from goo_service.people import four_eyes
from goo_service.people import waiting
from goo_service.people.access import Access
from goo_service.people.acts import Doer
from goo_service.people.four_eyes import HOLDERS
from goo_service.people.four_eyes import Rule
from goo_service.people.waiting import Asked
from goo_service.people.waiting import Waits
from goo_service.rules.commands import ISSUER

TARGET = '/people/v1/rules'
"""What stands in the place of a route of the log."""
DAYS = 7
"""Days that it waits."""


def may_set(db: sqlite3.Connection, of: Access, caller: str) -> bool:
    """Whether a user sets the rules of a caller."""
    if of.caller == ISSUER:
        return of.role == 'officer' and caller in (ISSUER, HOLDERS)
    row = db.execute('SELECT administrator FROM user WHERE id = ?', (of.user,)).fetchone()
    return of.caller == caller and of.role == 'user' and bool(row and row['administrator'])


def callers_of(of: Access) -> tuple[str, ...]:
    """Those of whose requests and rules a user may know."""
    return (ISSUER, HOLDERS) if of.caller == ISSUER else (of.caller,)


def may_confirm(of: Access, caller: str) -> bool:
    """Whether a user may confirm a looser rule, when another one asked for it: an officer or a
    second officer of the body, a user of the holder who may trade and cancel on all accounts."""
    if of.caller == ISSUER:
        return of.role in ('officer', 'second') and caller in callers_of(of)
    return of.caller == caller and of.is_unlimited


def text_of(caller: str, command: str, rule: Rule | None) -> bytes:
    """A change of a rule, as it waits."""
    members = {'caller': caller, 'command': command,
               'above': rule.above if rule else None, 'days': rule.days if rule else None}
    return json.dumps(members, sort_keys=True, separators=(',', ':')).encode()


def ask(db: sqlite3.Connection, of: Access, doer: Doer, caller: str, command: str,
        rule: Rule | None) -> Waits:
    """Has a looser rule wait, inside a change. The same one that waits already is that one."""
    key = f'rule:{command}'
    body = text_of(caller, command, rule)
    of_rule = Asked(caller, of.user, doer, '', 'full', TARGET, body, (key,))
    if there := waiting.same(db, of_rule):
        return there
    return waiting.keep(db, of_rule, Rule(caller, 'rule', 0, DAYS))


def carry_out(db: sqlite3.Connection, doer: Doer, waits: Waits) -> None:
    """Sets the rule that was confirmed, or takes it away, inside a change."""
    members = json.loads(waits.body)
    caller, command = members['caller'], members['command']
    if members['above'] is None:
        four_eyes.remove_rule(db, doer, caller, command)
    else:
        four_eyes.set_rule(db, doer, Rule(caller, command, members['above'], members['days']))
    waiting.finish(db, waits.id, 200, b'', True)
