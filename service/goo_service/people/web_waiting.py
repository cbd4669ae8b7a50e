"""What waits for a second user, on the web: seen, confirmed, refused, withdrawn."""
import os
import sqlite3
from collections.abc import Callable
from collections.abc import Iterator
from contextlib import contextmanager
from typing import Any

from flask import Blueprint
from flask import Response

from goo_service.common.client import Client
from goo_service.common.client import NoAnswer
from goo_service.people import access
from goo_service.people import confirming
from goo_service.people import fresh
from goo_service.people import loosening
from goo_service.people import viewer
from goo_service.people import waiting
from goo_service.people.access import Access
from goo_service.people.acts import Doer
from goo_service.people.replies import Given
from goo_service.people.replies import Refused
from goo_service.people.replies import reply
from goo_service.people.sender import time_of
from goo_service.people.waiting import Waits

GATE = '/run/goo-people/gate.sock'
"""Unless GOO_PEOPLE_GATE says another one."""
PATIENCE = 45
"""Seconds that the answer of the log is waited for; what is not answered by then is sent on."""
SHOWN, TEXT = 200, 20_000
"""Requests of a list, and bytes of a body that are shown."""
STATUSES: dict[type[Exception], int] = {
    confirming.NotFound: 404, confirming.NotAllowed: 403, confirming.Conflict: 409}


def blueprint() -> Blueprint:
    made = Blueprint('waiting', __name__)
    made.add_url_rule('/waiting', view_func=list_them)
    made.add_url_rule('/waiting/<int:number>', view_func=one)
    for name, view in (('confirm', confirm), ('refuse', refuse), ('withdraw', withdraw)):
        made.add_url_rule(f'/waiting/<int:number>/{name}', view_func=view, methods=['POST'],
                          endpoint=name)
    return made


@contextmanager
def faults() -> Iterator[None]:
    """Has what keeps a request from being decided become an answer."""
    try:
        yield
    except tuple(STATUSES) as fault:
        raise Refused(STATUSES[type(fault)], str(fault)) from fault


def shown(of: Access, waits: Waits) -> dict[str, Any]:
    """A request as a user of its caller sees it."""
    return {
        'number': waits.id, 'caller': waits.caller, 'user': waits.name, 'way': waits.way,
        'target': waits.target, 'keys': waits.keys, 'why': waits.why,
        'asked': time_of(waits.asked), 'ends': time_of(waits.ends), 'state': waits.state,
        'decided': time_of(waits.decided) if waits.decided else None, 'decider': waits.decider,
        'status': waits.status,
        'answer': waits.answer[:TEXT].decode(errors='replace') if waits.answer else None,
        'body': waits.body[:TEXT].decode(errors='replace'), 'length': len(waits.body),
        'may': may_of(of, waits)}


def may_of(of: Access, waits: Waits) -> list[str]:
    """What a user may do with a request."""
    if waits.state != 'waiting':
        return []
    if waits.user == of.user:
        return ['withdraw']
    return ['confirm', 'refuse'] if confirming.may_confirm(of, waits) else []


def known(db: sqlite3.Connection) -> tuple[Access, viewer.Viewer]:
    of = viewer.viewer()
    found = access.access_of(db, of.id)
    if found is None:
        raise Refused(401, 'nobody is signed in')
    return found, of


def list_them() -> Response:
    """What waits of the user's caller, and what became of the last ones."""
    db = viewer.database()
    of, _ = known(db)
    found = [waits for caller in loosening.callers_of(of)
             for waits in waiting.list_of(db, caller, SHOWN)]
    return reply({'items': [shown(of, waits) for waits in found]})


def one(number: int) -> Response:
    db = viewer.database()
    of, _ = known(db)
    waits = waiting.find(db, number)
    if waits is None or waits.caller not in loosening.callers_of(of):
        raise Refused(404, f'there is no request {number} that waits')
    return reply(shown(of, waits))


def confirm(number: int) -> Response:
    """Confirms a request, and has the gate send it. 202 where the log has not answered yet: it is
    sent on until it has."""
    db, given = viewer.database(), Given.of_request()
    of, who = known(db)
    fresh.require(db, who, given)
    with faults():
        waits = confirming.confirm(db, of.user, who.doer, number)
    if waits.target == loosening.TARGET:
        return reply({'state': 'sent', 'status': 200, 'entry': None, 'answer': ''})
    try:
        client = Client(os.environ.get('GOO_PEOPLE_GATE') or GATE, PATIENCE, fields={})
        came = client.post(f'/waiting/{number}', b'')
    except NoAnswer:
        return reply({'state': 'sending', 'status': None, 'entry': None, 'answer': None}, 202)
    if came.status not in (200, 202):
        return reply({'state': 'sending', 'status': None, 'entry': None, 'answer': None}, 202)
    return reply(came.members(), came.status)


Decide = Callable[[sqlite3.Connection, int, Doer, int], None]


def decided(number: int, decide: Decide) -> Response:
    db = viewer.database()
    of, who = known(db)
    with faults():
        decide(db, of.user, who.doer, number)
    return reply({})


def refuse(number: int) -> Response:
    """A second user has it not sent."""
    return decided(number, confirming.refuse)


def withdraw(number: int) -> Response:
    """Whoever asked has it not sent."""
    return decided(number, confirming.withdraw)
