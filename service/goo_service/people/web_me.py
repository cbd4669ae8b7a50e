"""What a user sees and changes of the own account: password, second factors, sessions."""
import sqlite3
from typing import Any

from flask import Blueprint
from flask import Response
from flask import request

from goo_service.common import qr
from goo_service.people import acts
from goo_service.people import csrf
from goo_service.people import factors
from goo_service.people import fresh
from goo_service.people import hooks
from goo_service.people import mail_choices
from goo_service.people import passwords
from goo_service.people import places
from goo_service.people import sessions
from goo_service.people import store
from goo_service.people import totp
from goo_service.people import users
from goo_service.people import viewer
from goo_service.people.replies import Given
from goo_service.people.replies import Refused
from goo_service.people.replies import reply
from goo_service.people.sessions import Session
from goo_service.people.store import changing
from goo_service.people.viewer import Viewer


def blueprint() -> Blueprint:
    made = Blueprint('me', __name__)
    made.add_url_rule('/me', view_func=me)
    made.add_url_rule('/me/password', view_func=change_password, methods=['POST'])
    made.add_url_rule('/me/factors/totp', view_func=begin_totp, methods=['POST'])
    made.add_url_rule('/me/factors/totp/confirm', view_func=confirm_totp, methods=['POST'])
    made.add_url_rule('/me/factors/<int:number>/remove', view_func=remove_factor,
                      methods=['POST'])
    made.add_url_rule('/me/sessions/<int:number>/end', view_func=end_session, methods=['POST'])
    return made


def who_may_enrol() -> Viewer:
    """Whoever has signed in whole, or has no second factor yet and adds one."""
    of = viewer.any_viewer()
    if of.way != sessions.ENROL:
        return viewer.viewer()
    require_none(viewer.database(), of)
    return of


def require_none(db: sqlite3.Connection, of: Viewer) -> None:
    """A password alone adds the first second factor, and no other one."""
    if of.way == sessions.ENROL and (sessions.by_id(db, of.session) is None
                                     or factors.list_of(db, of.id)):
        raise Refused(403, 'this is for a user who has signed in with a second factor')


def shown(session: Session, own: int) -> dict[str, Any]:
    return {'id': session.id, 'begun': session.begun, 'seen': session.seen, 'ends': session.ends,
            'address': session.address, 'agent': session.agent, 'way': session.way,
            'here': session.id == own}


def me() -> Response:
    """Who I am, with what I sign in, and the word that each request of this session sends along."""
    of, db = viewer.any_viewer(), viewer.database()
    rows = db.execute('SELECT account, reads, trades, cancels FROM access WHERE user = ? '
                      'ORDER BY account', (of.id,))
    tokens = db.execute('SELECT id, name, reads, declares, trades, most, account, made, ends, used '
                        'FROM token WHERE user = ? AND revoked IS NULL ORDER BY id', (of.id,))
    kept = sessions.hash_by_id(db, of.session)
    word = csrf.word_of(store.secret_of(db), kept) if kept else None
    is_whole = of.way in ('session', 'certificate')
    own = sessions.list_of(db, of.id) if is_whole else []
    told = hooks.of_user(db, of.id) if is_whole else []
    return reply({
        'user': of.user, 'caller': of.caller, 'role': of.role, 'way': of.way, 'csrf': word,
        'administrator': of.administrator, **mail_choices.shown(db, of.id),
        'access': [dict(row) for row in rows],
        'factors': [{'id': one.id, 'kind': one.kind, 'name': one.name, 'made': one.made,
                     'used': one.used} for one in factors.list_of(db, of.id)],
        'sessions': [shown(one, of.session) for one in own],
        'tokens': [dict(row) for row in tokens if is_whole],
        'hooks': told})


def change_password() -> Response:
    """A new password. All other sessions end."""
    of, db, given = viewer.viewer(), viewer.database(), Given.of_request()
    old, new = given.text('old', passwords.LONGEST), given.text('new', passwords.LONGEST)
    if fault := passwords.fault_of(new, of.user):
        raise Refused(400, fault)
    user = users.by_id(db, of.id)
    assert user
    fresh.check_password(db, of, user, old)
    kept = viewer.passwords().hash(new)
    with changing(db):
        users.set_password(db, user, kept)
        ended = sessions.end_all(db, of.id, of.session)
        acts.add(db, of.doer, 'password_set', of.user, {'ended': ended})
    return reply({'ended': ended})


def begin_totp() -> Response:
    """A seed for an app. It counts once a code of it was shown."""
    of, db, given = who_may_enrol(), viewer.database(), Given.of_request()
    name = given.maybe_text('name', factors.NAME) or 'App'
    if of.way != sessions.ENROL:
        fresh.require(db, of, given)
    seed = totp.new_seed()
    with changing(db):
        number = added(db, of, factors.TOTP, name, seed)
    uri = totp.uri_of(seed, of.user, viewer.site())
    return reply({'id': number, 'secret': totp.text_of(seed), 'uri': uri, 'qr': qr.rows_of(uri)})


def added(db: sqlite3.Connection, of: Viewer, kind: str, name: str, seed: bytes) -> int:
    try:
        return factors.add(db, of.id, kind, name, seed)
    except factors.TooMany as fault:
        raise Refused(409, str(fault)) from fault


def confirm_totp() -> Response:
    """The first code of an app: from now on it is asked for."""
    of, db, given = who_may_enrol(), viewer.database(), Given.of_request()
    number, code = given.number('id', 1, 1 << 60), given.text('code', 20)
    factor = factors.by_id(db, of.id, number)
    if factor is None or factor.confirmed or factor.kind != factors.TOTP:
        raise Refused(404, f'there is no app {number} that waits for its first code')
    with changing(db):
        require_none(db, of)
        if not totp.spend(db, factor, code):
            raise Refused(400, 'the code is wrong: is the clock of the app right?')
        db.execute('UPDATE factor SET confirmed = 1 WHERE id = ?', (number,))
        acts.add(db, of.doer, 'factor_added', factor.name, {'kind': factor.kind})
        cookies = whole_session(db, of, factors.TOTP)
    return reply({'id': number}, cookies=cookies)


def whole_session(db: sqlite3.Connection, of: Viewer, way: str) -> list[str]:
    """Where a user has just added the first factor: a whole session in the place of the one that
    could do that alone, inside a change."""
    if of.way != sessions.ENROL:
        return []
    sessions.end(db, of.id, of.session)
    number, cookie = sessions.begin(db, of.id, of.address, request.headers.get('GOO-Agent', ''),
                                    way)
    is_new = places.note(db, of.id, viewer.net())
    acts.add(db, of.doer, 'sign_in', of.user,
             {'by': way, 'new_place': is_new, 'session': number})
    return [sessions.cookie_of(cookie)]


def remove_factor(number: int) -> Response:
    """Takes a factor away. The last one stays: whoever has none left asks for a reset."""
    of, db, given = viewer.viewer(), viewer.database(), Given.of_request()
    fresh.require(db, of, given)
    own = factors.list_of(db, of.id)
    factor = next((one for one in own if one.id == number), None)
    if factor is None:
        raise Refused(404, f'you have no second factor {number}')
    if len(own) == 1:
        raise Refused(409, f'{factor.name} is your only second factor: add another one first')
    with changing(db):
        factors.remove(db, of.id, number)
        ended = sessions.end_all(db, of.id, of.session)
        acts.add(db, of.doer, 'factor_removed', factor.name, {'kind': factor.kind, 'ended': ended})
    return reply({'ended': ended})


def end_session(number: int) -> Response:
    of, db = viewer.viewer(), viewer.database()
    with changing(db):
        if not sessions.end(db, of.id, number):
            raise Refused(404, f'you have no session {number}')
        acts.add(db, of.doer, 'session_ended', of.user, {'session': number})
    return reply({})
