"""Rules by which a request waits for a second user.

The issuing body has rules for its own acts (caller ISSUER) and for all holders (caller *); a holder
has rules of its own. Of two rules for one command the stricter counts. There is none at first.
"""
import sqlite3
from collections.abc import Mapping
from collections.abc import Sequence
from dataclasses import dataclass

from goo_service.people import acts
from goo_service.people.acts import Doer
from goo_service.people.asked import Line
from goo_service.rules.commands import ISSUER

HOLDERS = '*'
"""The caller of the body's rules for all holders."""
OF_BODY = ('withdraw', 'correct', 'advance', 'open_holder')
"""Commands of the body that may wait: all of them, whatever their quantity."""
OF_HOLDERS = ('transfer', 'cancel', 'export')
"""Commands of a holder that may wait, above a quantity."""
MOST_ABOVE, MOST_DAYS = 10 ** 12, 30
WORDS = {'withdraw': 'a withdrawal', 'correct': 'a correction', 'advance': 'a move of the date',
         'open_holder': 'a new holder', 'transfer': 'a transfer', 'cancel': 'a cancellation',
         'export': 'an export', 'rule': 'a looser rule'}


class WrongRule(ValueError):
    """A rule that can't be. The text names what is wrong."""


@dataclass(frozen=True, slots=True)
class Rule:
    """A command waits where it moves more than `above`, and for `days` at most."""

    caller: str
    command: str
    above: int
    days: int

    def takes(self, line: Line) -> bool:
        """Whether a request waits by this rule."""
        if line.command != self.command:
            return False
        return self.caller == ISSUER or line.quantity > self.above

    @property
    def why(self) -> str:
        above = f' above {self.above}' if self.command in OF_HOLDERS else ''
        return WORDS[self.command] + above


Rules = Mapping[str, Sequence[Rule]]
"""The rules for each command."""


def fault_of(rule: Rule) -> str:
    """What keeps a rule from being set; empty where nothing does."""
    commands = OF_BODY if rule.caller == ISSUER else OF_HOLDERS
    if rule.command not in commands:
        return f'command: one of {", ".join(commands)}'
    if not 0 <= rule.above <= MOST_ABOVE:
        return f'above: a whole number of 0 to {MOST_ABOVE}'
    if rule.caller == ISSUER and rule.above:
        return 'above: 0, as each act of the body waits, whatever its quantity'
    return '' if 1 <= rule.days <= MOST_DAYS else f'days: a whole number of 1 to {MOST_DAYS}'


def list_of(db: sqlite3.Connection, *callers: str) -> list[Rule]:
    """The rules that these callers have set."""
    places = ', '.join('?' * len(callers))
    rows = db.execute(f'SELECT caller, command, above, days FROM rule WHERE caller IN ({places}) '
                      'ORDER BY caller, command', callers)
    return [Rule(*row) for row in rows]


def rules_for(db: sqlite3.Connection, caller: str) -> Rules:
    """The rules by which requests of a caller wait."""
    found: dict[str, list[Rule]] = {}
    for rule in list_of(db, *((ISSUER,) if caller == ISSUER else (HOLDERS, caller))):
        found.setdefault(rule.command, []).append(rule)
    return found


def rule_of(rules: Rules, lines: Sequence[Line]) -> Rule | None:
    """The rule by which a body waits: the strictest of the first line that has one."""
    for line in lines:
        taking = [rule for rule in rules.get(line.command, ()) if rule.takes(line)]
        if taking:
            return min(taking, key=lambda rule: (rule.above, rule.days))
    return None


def is_doubtful(rules: Rules, lines: Sequence[Line]) -> bool:
    """Whether a line may be read in two ways, of which a rule might take one."""
    return bool(rules) and any(line.is_doubtful for line in lines)


def find(db: sqlite3.Connection, caller: str, command: str) -> Rule | None:
    row = db.execute('SELECT caller, command, above, days FROM rule '
                     'WHERE caller = ? AND command = ?', (caller, command)).fetchone()
    return Rule(*row) if row else None


def is_looser(before: Rule | None, after: Rule | None) -> bool:
    """Whether less waits for a second user than before, or longer."""
    if before is None:
        return False
    return after is None or after.above > before.above or after.days > before.days


def set_rule(db: sqlite3.Connection, doer: Doer, rule: Rule) -> None:
    """Sets a rule in the place of the one before, inside a change."""
    if fault := fault_of(rule):
        raise WrongRule(fault)
    db.execute('INSERT OR REPLACE INTO rule VALUES (?, ?, ?, ?)',
               (rule.caller, rule.command, rule.above, rule.days))
    acts.add(db, doer, 'rule_set', f'{rule.caller} {rule.command}',
             {'above': rule.above, 'days': rule.days})


def remove_rule(db: sqlite3.Connection, doer: Doer, caller: str, command: str) -> None:
    """Takes a rule away, inside a change."""
    db.execute('DELETE FROM rule WHERE caller = ? AND command = ?', (caller, command))
    acts.add(db, doer, 'rule_set', f'{caller} {command}', {'removed': True})
