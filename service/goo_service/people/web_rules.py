"""Rules of four eyes on the web: who may sees them, sets them, takes them away.

An officer of the body sets those of the body and those for all holders, an administrator of a
holder those of the holder. A looser one waits for a second user.
"""
import sqlite3
from typing import Any

from flask import Blueprint
from flask import Response

from goo_service.people import access
from goo_service.people import four_eyes
from goo_service.people import fresh
from goo_service.people import loosening
from goo_service.people import viewer
from goo_service.people import waiting
from goo_service.people.access import Access
from goo_service.people.four_eyes import HOLDERS
from goo_service.people.four_eyes import Rule
from goo_service.people.replies import Given
from goo_service.people.replies import Refused
from goo_service.people.replies import reply
from goo_service.people.sender import time_of
from goo_service.people.store import changing
from goo_service.people.viewer import Viewer
from goo_service.rules.commands import ISSUER


def blueprint() -> Blueprint:
    made = Blueprint('rules', __name__)
    made.add_url_rule('/rules', view_func=list_them)
    made.add_url_rule('/rules', view_func=set_one, methods=['POST'])
    return made


def access_of(db: sqlite3.Connection, of: Viewer) -> Access:
    """What whoever asks may do, as the file has it."""
    found = access.access_of(db, of.id)
    if found is None:
        raise Refused(401, 'nobody is signed in')
    return found


def shown(rule: Rule) -> dict[str, Any]:
    return {'caller': rule.caller, 'command': rule.command, 'above': rule.above,
            'days': rule.days}


def list_them() -> Response:
    """The rules that hold for the user's caller, and which of them the user may set."""
    of, db = viewer.viewer(), viewer.database()
    user = access_of(db, of)
    callers = (ISSUER, HOLDERS) if user.caller == ISSUER else (HOLDERS, user.caller)
    return reply({
        'items': [shown(rule) for rule in four_eyes.list_of(db, *callers)],
        'sets': [caller for caller in callers if loosening.may_set(db, user, caller)],
        'commands': {ISSUER: list(four_eyes.OF_BODY), HOLDERS: list(four_eyes.OF_HOLDERS)}})


def rule_in(given: Given, caller: str) -> tuple[str, Rule | None]:
    """The command of a rule, and the rule; None where it is to be taken away."""
    command = given.text('command', 40)
    commands = four_eyes.OF_BODY if caller == ISSUER else four_eyes.OF_HOLDERS
    if command not in commands:
        raise Refused(400, f'command: one of {", ".join(commands)}')
    if given.members.get('above') is None:
        return command, None
    rule = Rule(caller, command, given.number('above', 0, four_eyes.MOST_ABOVE),
                given.number('days', 1, four_eyes.MOST_DAYS))
    if fault := four_eyes.fault_of(rule):
        raise Refused(400, fault)
    return command, rule


def set_one() -> Response:
    """Sets a rule, or with `above` null takes it away. 202 where that waits for a second user."""
    of, db, given = viewer.viewer(), viewer.database(), Given.of_request()
    caller = given.text('caller', 16)
    command, rule = rule_in(given, caller)
    fresh.require(db, of, given)
    with changing(db):
        user = access_of(db, of)
        if not loosening.may_set(db, user, caller):
            raise Refused(403, f'you may not set rules of {caller}')
        before = four_eyes.find(db, caller, command)
        if not four_eyes.is_looser(before, rule):
            if rule:
                four_eyes.set_rule(db, of.doer, rule)
            return reply({'rule': shown(rule) if rule else None})
        try:
            waits = loosening.ask(db, user, of.doer, caller, command, rule)
        except waiting.Conflict as fault:
            raise Refused(409, str(fault)) from fault
        except waiting.TooMany as fault:
            raise Refused(429, str(fault), 60) from fault
    return reply({'outcome': 'waiting', 'number': waits.id, 'ends': time_of(waits.ends),
                  'why': waits.why}, 202)
