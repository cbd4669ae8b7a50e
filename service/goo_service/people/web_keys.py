"""Security keys: a new one for a user who has signed in, and the second step of a sign-in."""
from typing import Any

from flask import Blueprint
from flask import Response

from goo_service.people import acts
from goo_service.people import factors
from goo_service.people import fresh
from goo_service.people import keys
from goo_service.people import sessions
from goo_service.people import steps
from goo_service.people import users
from goo_service.people import viewer
from goo_service.people import web_me
from goo_service.people import web_sign_in
from goo_service.people.delays import Try
from goo_service.people.replies import Given
from goo_service.people.replies import Refused
from goo_service.people.replies import reply
from goo_service.people.store import changing

ADDED, SIGNED = 'key added', web_sign_in.KEY_STEP
WRONG = 'this is no answer of a security key to the question that was asked'


def blueprint() -> Blueprint:
    made = Blueprint('keys', __name__)
    made.add_url_rule('/me/factors/key/begin', view_func=begin, methods=['POST'])
    made.add_url_rule('/me/factors/key/finish', view_func=finish, methods=['POST'])
    made.add_url_rule('/sign-in/key', view_func=sign_in, methods=['POST'])
    return made


def members_of(given: Given, name: str) -> dict[str, Any]:
    value = given.members.get(name)
    if not isinstance(value, dict):
        raise Refused(400, f'{name}: an object, as the browser has it')
    return value


def begin() -> Response:
    """What the browser asks the key for."""
    of, db, given = web_me.who_may_enrol(), viewer.database(), Given.of_request()
    if of.way != sessions.ENROL:
        fresh.require(db, of, given)
    own = factors.list_of(db, of.id)
    asked = keys.begin(viewer.site(), of.id, of.user, own)
    step = steps.make(db, ADDED, {'user': of.id, 'state': asked.state})
    return reply({'key': asked.options}, cookies=[steps.cookie_of(step)])


def finish() -> Response:
    """The key's answer: from now on the key is a second factor."""
    of, db, given = web_me.who_may_enrol(), viewer.database(), Given.of_request()
    text = viewer.field('GOO-Step')
    step = steps.read(db, ADDED, text)
    if step is None or step['user'] != of.id:
        raise Refused(400, 'the time for this key is over: begin again')
    name = given.maybe_text('name', factors.NAME) or 'Security key'
    try:
        credential = keys.finish(viewer.site(), step['state'], members_of(given, 'credential'))
        with changing(db):
            web_me.require_none(db, of)
            if not steps.spend(db, text):
                raise Refused(400, 'this answer was taken already')
            number = keys.add(db, of.id, name, credential)
            acts.add(db, of.doer, 'factor_added', name, {'kind': factors.KEY})
            cookies = web_me.whole_session(db, of, factors.KEY)
    except keys.NotRight as fault:
        raise Refused(400, WRONG) from fault
    except factors.TooMany as fault:
        raise Refused(409, str(fault)) from fault
    return reply({'id': number}, cookies=[*cookies, steps.cookie_of('')])


def sign_in() -> Response:
    """The key's answer behind a right password: a session begins."""
    given, db, text = Given.of_request(), viewer.database(), viewer.field('GOO-Step')
    step = steps.read(db, SIGNED, text)
    user = users.by_id(db, step['user']) if step else None
    if step is None or user is None or user.ended is not None:
        raise Refused(401, web_sign_in.FAILED)
    who = web_sign_in.Who.of_request(user.name)
    tried = Try(user.name, who.net, user, is_code=True)
    web_sign_in.wait(db, tried)
    own = factors.list_of(db, user.id)
    try:
        shown = keys.verify(viewer.site(), step['state'], own, members_of(given, 'assertion'))
        with changing(db):
            right = steps.spend(db, text) and keys.spend(db, shown)
    except keys.NotRight:
        right = False
    if not right:
        raise web_sign_in.refused(db, tried, who)
    return web_sign_in.begun(db, who, user, factors.KEY)
