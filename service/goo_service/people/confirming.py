"""What a user does with a request that waits: confirms it, refuses it, withdraws it.

Nobody confirms what he asked himself. Whoever confirms has the right to ask the same, or is a
second officer of the body. Both rights are read when it is confirmed: a request of a user who has
lost the right, or of a token that was revoked, is not sent any more.
"""
import sqlite3

from goo_service.people import access
from goo_service.people import asked
from goo_service.people import loosening
from goo_service.people import scopes
from goo_service.people import waiting
from goo_service.people.access import Access
from goo_service.people.acts import Doer
from goo_service.people.acts import SERVICE
from goo_service.people.asked import Line
from goo_service.people.faults import first_fault
from goo_service.people.store import changing
from goo_service.people.store import now
from goo_service.people.waiting import Waits


class NotFound(Exception):
    """There is no such request, or the user may not know of it."""


class NotAllowed(Exception):
    """The user may not do this. The text says why."""


class Conflict(Exception):
    """What became of the request forbids it. The text says what."""


STATES = {'sending': 'is being sent', 'sent': 'was sent', 'refused': 'was refused',
          'withdrawn': 'was withdrawn', 'lapsed': 'has lapsed'}


def lines_of(waits: Waits) -> tuple[Line, ...]:
    return () if waits.target == loosening.TARGET else asked.lines_of(waits.target, waits.body)


def may_confirm(of: Access, waits: Waits) -> bool:
    """Whether a user has the right that a request needs, when another one asked it."""
    if waits.target == loosening.TARGET:
        return loosening.may_confirm(of, waits.caller)
    return of.caller == waits.caller and all(map(of.may_confirm, lines_of(waits)))


def lost_right(db: sqlite3.Connection, waits: Waits) -> str:
    """Why whoever asked may not ask the same now; empty where he may."""
    asker = access.access_of(db, waits.user)
    if asker is None:
        return f'{waits.name} has ended'
    if waits.target == loosening.TARGET:
        is_his = loosening.may_set(db, asker, waits.caller)
        return '' if is_his else f'{waits.name} may not set rules any more'
    if asker.caller != waits.caller or first_fault(asker.fault_of, lines_of(waits)):
        return f'{waits.name} may not ask this any more'
    if waits.hold.startswith('t'):
        scope = scopes.scope_of(db, waits.hold)
        if scope is None or first_fault(scope.fault_of, lines_of(waits)):
            return f'the {waits.way} of {waits.name} may not ask this any more'
    return ''


def open_one(db: sqlite3.Connection, of: Access, number: int) -> Waits:
    """A request of the user's own caller that still waits."""
    waits = waiting.find(db, number)
    if waits is None or waits.caller not in loosening.callers_of(of):
        raise NotFound(f'there is no request {number} that waits')
    if waits.state != 'waiting':
        raise Conflict(f'request {number} {STATES[waits.state]}')
    return waits


def confirm(db: sqlite3.Connection, user: int, doer: Doer, number: int) -> Waits:
    """Confirms a request. It is to be sent then: its state says so, whatever happens next.

    A rule is set at once.
    """
    with changing(db):
        of = access.access_of(db, user)
        waits = open_one(db, of, number) if of else None
        if of is None or waits is None:
            raise NotFound(f'there is no request {number} that waits')
        if waits.user == of.user:
            raise NotAllowed(f'request {number} is yours: another user has to confirm it')
        if not may_confirm(of, waits):
            raise NotAllowed(f'{of.name} may not confirm request {number}')
        if why := over(db, waits):
            waiting.end(db, waits, SERVICE, 'lapsed', None, why)
        else:
            waiting.begin_sending(db, waits, doer, of.user)
            if waits.target == loosening.TARGET:
                loosening.carry_out(db, doer, waits)
    if why:
        raise Conflict(f'request {number} is not sent: {why}')
    return waits


def over(db: sqlite3.Connection, waits: Waits) -> str:
    """Why a request can't be sent any more; empty where it can."""
    return 'its time is over' if waits.ends <= now() else lost_right(db, waits)


def refuse(db: sqlite3.Connection, user: int, doer: Doer, number: int) -> None:
    """A second user has it not sent."""
    with changing(db):
        of = access.access_of(db, user)
        waits = open_one(db, of, number) if of else None
        if of is None or waits is None:
            raise NotFound(f'there is no request {number} that waits')
        if waits.user == of.user:
            raise NotAllowed(f'request {number} is yours: you may withdraw it')
        if not may_confirm(of, waits):
            raise NotAllowed(f'{of.name} may not refuse request {number}')
        waiting.end(db, waits, doer, 'refused', of.user)


def withdraw(db: sqlite3.Connection, user: int, doer: Doer, number: int) -> None:
    """Whoever asked has it not sent."""
    with changing(db):
        of = access.access_of(db, user)
        waits = open_one(db, of, number) if of else None
        if of is None or waits is None:
            raise NotFound(f'there is no request {number} that waits')
        if waits.user != of.user:
            raise NotAllowed(f'request {number} is of {waits.name}: you may refuse it')
        waiting.end(db, waits, doer, 'withdrawn', of.user)
