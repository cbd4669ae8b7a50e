"""Tokens of programs on the web: a user makes them, sees them, revokes them."""
from flask import Blueprint
from flask import Response

from goo_service.people import access
from goo_service.people import fresh
from goo_service.people import tokens
from goo_service.people import viewer
from goo_service.people.replies import Given
from goo_service.people.replies import Refused
from goo_service.people.replies import reply
from goo_service.people.store import changing
from goo_service.people.tokens import Wanted
from goo_service.people.tokens import WrongToken

LATEST = 1 << 40
"""A moment after all others."""


def blueprint() -> Blueprint:
    made = Blueprint('tokens', __name__)
    made.add_url_rule('/me/tokens', view_func=list_them)
    made.add_url_rule('/me/tokens', view_func=make, methods=['POST'])
    made.add_url_rule('/me/tokens/<int:number>/revoke', view_func=revoke, methods=['POST'])
    return made


def list_them() -> Response:
    of = viewer.viewer()
    return reply({'items': tokens.list_of(viewer.database(), of.id)})


def wanted_in(given: Given) -> Wanted:
    """A token as it is asked for."""
    return Wanted(given.text('name', 40), given.flag('reads'), given.flag('declares'),
                  given.flag('trades'), given.maybe_number('most', 1, tokens.MOST_QUANTITY),
                  given.maybe_number('account', 1, tokens.LAST_ACCOUNT),
                  given.number('ends', 1, LATEST))


def make() -> Response:
    """A new token. It is told here and never again."""
    of, db, given = viewer.viewer(), viewer.database(), Given.of_request()
    wanted = wanted_in(given)
    fresh.require(db, of, given)
    with changing(db):
        user = access.access_of(db, of.id)
        if user is None:
            raise Refused(401, 'nobody is signed in')
        try:
            number, token = tokens.make(db, user, of.doer, wanted)
        except WrongToken as fault:
            raise Refused(400, str(fault)) from fault
    return reply({'id': number, 'token': token})


def revoke(number: int) -> Response:
    """Ends a token: its next request is refused."""
    of, db = viewer.viewer(), viewer.database()
    with changing(db):
        if not tokens.revoke(db, of.id, of.doer, number):
            raise Refused(404, f'you have no token {number} that is good')
    return reply({})
