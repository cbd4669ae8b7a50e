"""Sign-in by a password and a second factor, and sign-out: routes of goo-people-web.

Each failure has one text, takes the same time, and is counted the same way, whether the name, the
password or the code was wrong.
"""
import sqlite3
from dataclasses import dataclass

from flask import Blueprint
from flask import Response
from flask import request

from goo_service.people import acts
from goo_service.people import delays
from goo_service.people import factors
from goo_service.people import keys
from goo_service.people import passwords
from goo_service.people import places
from goo_service.people import sessions
from goo_service.people import steps
from goo_service.people import totp
from goo_service.people import users
from goo_service.people import viewer
from goo_service.people.acts import Doer
from goo_service.people.delays import Try
from goo_service.people.factors import Factor
from goo_service.people.replies import Given
from goo_service.people.replies import Refused
from goo_service.people.replies import reply
from goo_service.people.store import changing
from goo_service.people.users import User

FAILED = 'the name, the password or the code is wrong'
LATER = 'too many sign-ins failed here: wait some seconds'
NAME = 200
KEY_STEP = 'key signs'


@dataclass(frozen=True)
class Who:
    """Whoever signs in, and from where."""

    name: str
    net: str
    address: str
    agent: str

    @staticmethod
    def of_request(name: str) -> 'Who':
        return Who(name, viewer.net(), viewer.address(), request.headers.get('GOO-Agent', ''))


def blueprint() -> Blueprint:
    made = Blueprint('sign_in', __name__)
    made.add_url_rule('/sign-in', view_func=sign_in, methods=['POST'])
    made.add_url_rule('/sign-out', view_func=sign_out, methods=['POST'])
    made.add_url_rule('/sign-out-everywhere', view_func=sign_out_everywhere, methods=['POST'])
    return made


def sign_in() -> Response:
    """A password, and a code where the user has an app for them."""
    given = Given.of_request()
    who, password = Who.of_request(given.text('user', NAME)), given.text('password', NAME)
    code, db = given.maybe_text('code', 20), viewer.database()
    user = user_of_password(db, who, password)
    own = factors.list_of(db, user.id)
    if not own:
        return enrol(db, who, user)
    if code:
        spend_code(db, who, user, code)
        return begun(db, who, user, factors.TOTP)
    return next_step(db, user, own)


def wait(db: sqlite3.Connection, of: Try) -> None:
    if seconds := delays.wait(db, of):
        raise Refused(429, LATER, seconds)


def user_of_password(db: sqlite3.Connection, who: Who, password: str) -> User:
    """The user whose password this is. Unknown names are compared with a decoy."""
    found = users.find(db, who.name)
    user = found if found and found.ended is None and found.role != users.PEER else None
    of = Try(who.name, who.net, user)
    wait(db, of)
    kept = users.password_of(db, user) if user else None
    right = viewer.passwords().matches(kept, password)
    if not right or user is None or kept is None or not passwords.is_comparable(password):
        raise refused(db, of, who)
    if viewer.passwords().is_outdated(kept) and not users.is_program(db, user):
        anew = viewer.passwords().hash(password)
        with changing(db):
            users.set_password(db, user, anew)
    return user


def refused(db: sqlite3.Connection, of: Try, who: Who) -> Refused:
    """Counts a failure. The act is kept for users that there are, and ever more rarely, so that
    nobody fills the file with it."""
    with changing(db):
        count = delays.failed(db, of)
        if of.user and count & (count - 1) == 0:
            acts.add(db, Doer(of.user.name, '', who.address, of.user.caller), 'sign_in_refused',
                     of.user.name, {'failures': count, 'code': of.is_code})
    return Refused(401, FAILED)


def spend_code(db: sqlite3.Connection, who: Who, user: User, code: str) -> None:
    """Takes a code, once."""
    of = Try(who.name, who.net, user, is_code=True)
    wait(db, of)
    with changing(db):
        right = totp.spend_any(db, user.id, code)
    if not right:
        raise refused(db, of, who)


def next_step(db: sqlite3.Connection, user: User, own: list[Factor]) -> Response:
    """What is asked after a right password: a code, or a key, with a code in its place where the
    user has an app too."""
    if not any(of.kind == factors.KEY for of in own):
        return reply({'next': 'code'})
    asked = keys.challenge(viewer.site(), own)
    step = steps.make(db, KEY_STEP, {'user': user.id, 'state': asked.state})
    has_app = any(of.kind == factors.TOTP for of in own)
    return reply({'next': 'key', 'key': asked.options, 'code': has_app},
                 cookies=[steps.cookie_of(step)])


def enrol(db: sqlite3.Connection, who: Who, user: User) -> Response:
    """A session in which a user without a second factor adds one, and does nothing else."""
    with changing(db):
        delays.passed(db, Try(who.name, who.net, user))
        _, cookie = sessions.begin(db, user.id, who.address, who.agent, sessions.ENROL)
    return reply({'next': 'enrol'}, cookies=[sessions.cookie_of(cookie)])


def begun(db: sqlite3.Connection, who: Who, user: User, way: str) -> Response:
    """A new session of a user who has shown all that is asked."""
    with changing(db):
        for is_code in (False, True):
            delays.passed(db, Try(who.name, who.net, user, is_code))
        number, cookie = sessions.begin(db, user.id, who.address, who.agent, way)
        is_new = places.note(db, user.id, who.net)
        acts.add(db, Doer(user.name, 'session', who.address, user.caller), 'sign_in', user.name,
                 {'by': way, 'new_place': is_new, 'session': number})
    return reply({'next': 'done'}, cookies=[sessions.cookie_of(cookie), steps.cookie_of('')])


def sign_out() -> Response:
    """Ends the session that asks."""
    of, db = viewer.any_viewer(), viewer.database()
    with changing(db):
        if sessions.end(db, of.id, of.session):
            acts.add(db, of.doer, 'sign_out', of.user, {'session': of.session})
    return reply({}, cookies=[sessions.cookie_of('', 0)])


def sign_out_everywhere() -> Response:
    """Ends all sessions of whoever asks."""
    of, db = viewer.viewer(), viewer.database()
    with changing(db):
        count = sessions.end_all(db, of.id)
        acts.add(db, of.doer, 'sign_out', of.user, {'sessions': count})
    return reply({'ended': count}, cookies=[sessions.cookie_of('', 0)])
