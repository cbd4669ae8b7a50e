"""What the gate does with a write: it goes on, is refused, or waits for a second user.

In this order: the token's scope, the user's access, rules of four eyes, the token's quantity of the
day. All of it is read from the file in one transaction.
"""
import json
import sqlite3
from collections.abc import Sequence
from dataclasses import dataclass
from dataclasses import field

from goo_service.log import bundles
from goo_service.people import access
from goo_service.people import asked
from goo_service.people import four_eyes
from goo_service.people import scopes
from goo_service.people import waiting
from goo_service.people.access import Access
from goo_service.people.acts import Doer
from goo_service.people.asked import Line
from goo_service.people.faults import LineFault
from goo_service.people.faults import first_fault
from goo_service.people.scopes import Scope
from goo_service.people.store import changing
from goo_service.people.token_use import Reserved
from goo_service.people.token_use import TooMuch
from goo_service.people.token_use import Uses
from goo_service.people.waiting import Waits

NOT_ALLOWED = {'code': 1, 'name': 'NotAllowed', 'outcome': 'refused'}
"""As the registry refuses what a caller may not ask."""


@dataclass(frozen=True, slots=True)
class Call:
    """A write as the front door sends it on."""

    target: str
    caller: str
    user: str
    role: str
    way: str
    hold: str
    address: str
    body: bytes


@dataclass(frozen=True, slots=True)
class Passed:
    """It goes on to the log."""

    reserved: Reserved | None = None


@dataclass(frozen=True, slots=True)
class Refused:
    """It is answered so, and nothing else happens."""

    status: int
    members: dict[str, object]
    wait: int = 0

    @property
    def body(self) -> bytes:
        return json.dumps(self.members, separators=(',', ':'), ensure_ascii=False).encode()


@dataclass(frozen=True, slots=True)
class Waiting:
    """It waits for a second user."""

    waits: Waits


Verdict = Passed | Refused | Waiting
PASSED = Passed()


class Stop(Exception):
    """A request that goes no further."""

    def __init__(self, refused: Refused) -> None:
        super().__init__(refused.status)
        self.refused = refused


def error(status: int, text: str, wait: int = 0) -> Stop:
    return Stop(Refused(status, {'error': text}, wait))


@dataclass
class Judge:
    """Judges writes over one file, one after another."""

    uses: Uses = field(default_factory=Uses)

    @staticmethod
    def at_once(db: sqlite3.Connection, call: Call) -> Verdict | None:
        """What becomes of a write of which the file keeps nothing; None where it may keep
        something. It only reads."""
        try:
            return PASSED if looked_at(db, call) is None else None
        except Stop as stop:
            return stop.refused

    def verdict(self, db: sqlite3.Connection, call: Call) -> Verdict:
        """What becomes of a write."""
        try:
            lines = looked_at(db, call)
            if lines is None:
                return PASSED
            with changing(db):
                verdict = judged(db, call, known(db, call), lines)
        except Stop as stop:
            return stop.refused
        if isinstance(verdict, Passed) and verdict.reserved:
            self.uses.depart(verdict.reserved)
        return verdict


def looked_at(db: sqlite3.Connection, call: Call) -> Sequence[Line] | None:
    """The lines of a write that a rule takes, that is counted, or that may wait already; None where
    it goes on as it is."""
    db.execute('BEGIN')
    try:
        of, scope = known(db, call)
        rules = four_eyes.rules_for(db, of.caller)
        has_waiting = bool(db.execute(
            'SELECT 1 FROM waiting_key WHERE caller = ? LIMIT 1', (of.caller,)).fetchone())
    finally:
        db.execute('COMMIT')
    if scope is None and of.is_unlimited and not rules and not has_waiting:
        return None
    lines = asked.lines_of(call.target, call.body)
    check_rights(of, scope, lines, call)
    if four_eyes.is_doubtful(rules, lines):
        raise error(403, 'a line names a member twice: nobody could say what would wait')
    is_counted = scope is not None and scope.most is not None and any(
        line.quantity for line in lines)
    is_taken = four_eyes.rule_of(rules, lines) is not None
    return lines if is_taken or has_waiting or is_counted else None


def judged(db: sqlite3.Connection, call: Call, who: tuple[Access, Scope | None],
           lines: Sequence[Line]) -> Verdict:
    """What rules and quantities say, inside a change. Rights are as they are by now."""
    of, scope = who
    check_rights(of, scope, lines, call)
    rules = four_eyes.rules_for(db, of.caller)
    request = as_asked(of, call, lines)
    try:
        if there := waiting.same(db, request):
            return Waiting(there)
    except waiting.Conflict as conflict:
        raise error(409, str(conflict)) from conflict
    rule = four_eyes.rule_of(rules, lines)
    reserved = reserve(db, scope, lines)
    if rule is None or waiting.is_done(db, request):
        return Passed(reserved)
    try:
        return Waiting(waiting.keep(db, request, rule))     # it stays counted on this day
    except waiting.TooMany as fault:
        raise error(429, str(fault), 60) from fault


def reserve(db: sqlite3.Connection, scope: Scope | None,
            lines: Sequence[Line]) -> Reserved | None:
    """Counts what a token moves."""
    if scope is None or scope.most is None:
        return None
    try:
        return Uses.reserve(db, scope, lines)
    except TooMuch as fault:
        raise error(403, str(fault)) from fault


def known(db: sqlite3.Connection, call: Call) -> tuple[Access, Scope | None]:
    """Who asks, by the file: a user who has not ended, and the scope of a token."""
    of = access.access_of(db, call.user)
    if of is None or of.caller != call.caller:
        raise error(403, f'{call.user} may not ask anything')
    if not call.hold.startswith('t'):
        return of, None
    scope = scopes.scope_of(db, call.hold)
    if scope is None or scope.user != of.user:
        raise error(403, f'the {call.way} of {of.name} is no longer good')
    return of, scope


def check_rights(of: Access, scope: Scope | None, lines: Sequence[Line], call: Call) -> None:
    """Stops what the token's scope or the user's access does not allow."""
    if scope and (fault := first_fault(scope.fault_of, lines)):
        at = f'line {fault.number}' if call.target in bundles.ROUTES else 'the request'
        raise error(403, f'the token {scope.name} does not allow this: {at} {fault.why}')
    if fault := first_fault(of.fault_of, lines):
        raise Stop(Refused(403, not_allowed(call.target, fault)))


def not_allowed(target: str, fault: LineFault) -> dict[str, object]:
    """The registry's own refusal; of a bundle with the line that it is about."""
    if target not in bundles.ROUTES:
        return dict(NOT_ALLOWED)
    return dict(sorted({**NOT_ALLOWED, 'key': fault.key, 'line': fault.number}.items()))


def as_asked(of: Access, call: Call, lines: Sequence[Line]) -> waiting.Asked:
    """A write as it is kept where it waits."""
    doer = Doer(of.name, call.way, call.address, of.caller)
    keys = tuple(line.key for line in lines if line.key)
    return waiting.Asked(of.caller, of.user, doer, call.hold, call.role, call.target, call.body,
                         keys)
