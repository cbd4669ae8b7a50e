"""A second factor shown just now: what is asked before an act that a stolen cookie must not do."""
import sqlite3

from goo_service.people import acts
from goo_service.people import delays
from goo_service.people import sessions
from goo_service.people import totp
from goo_service.people import users
from goo_service.people import viewer
from goo_service.people.delays import Try
from goo_service.people.replies import Given
from goo_service.people.replies import Refused
from goo_service.people.store import changing
from goo_service.people.store import now
from goo_service.people.users import User
from goo_service.people.viewer import Viewer

LASTS = 5 * 60
"""Seconds after a sign-in in which it is fresh."""
WANTED = 'this needs a fresh second factor: a code, or a sign-in within five minutes'


def is_fresh(db: sqlite3.Connection, of: Viewer) -> bool:
    """Whether a client certificate or a session of the last minutes asks."""
    if of.way == 'certificate':
        return True
    session = sessions.by_id(db, of.session)
    return session is not None and now() - session.begun < LASTS


def require(db: sqlite3.Connection, of: Viewer, given: Given) -> None:
    """Passes a fresh session, and a right code (the member `code`), which is taken by it. Not to be
    called inside a change."""
    code = given.maybe_text('code', 20)
    if code is None:
        if not is_fresh(db, of):
            raise Refused(403, WANTED)
        return
    tried = Try(of.user, viewer.net(), users.by_id(db, of.id), is_code=True)
    if seconds := delays.wait(db, tried):
        raise Refused(429, 'too many codes failed here: wait some seconds', seconds)
    with changing(db):
        right = totp.spend_any(db, of.id, code)
        if not right and (count := delays.failed(db, tried)) & (count - 1) == 0:
            acts.add(db, of.doer, 'sign_in_refused', of.user, {'failures': count, 'code': True})
    if not right:
        raise Refused(403, 'the code is wrong, or was used before')


def check_password(db: sqlite3.Connection, of: Viewer, user: User, password: str) -> None:
    """Passes the user's own password. Failures delay as those of a sign-in do."""
    tried = Try(of.user, viewer.net(), user)
    if seconds := delays.wait(db, tried):
        raise Refused(429, 'too many passwords failed here: wait some seconds', seconds)
    kept = users.password_of(db, user)
    if not viewer.passwords().matches(kept, password):
        with changing(db):
            delays.failed(db, tried)
        raise Refused(403, 'the present password is wrong')
