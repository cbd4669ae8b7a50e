"""Sign-in by the provider of OpenID Connect: a way there, and the way back.

A user of the file signs in so whose source is `oidc`, by the claim that the settings name. At the
first sign-in he is bound to the provider's own number for him (`sub`): whoever later has the same
name there, with another number, is not he. Whatever is amiss, the visitor reads one text, and the
journal says more.
"""
import hashlib
import hmac
import html
import os
import secrets
import sqlite3
from pathlib import Path

from flask import Blueprint
from flask import Response
from flask import current_app
from flask import request

from goo_service.people import acts
from goo_service.people import oidc_settings
from goo_service.people import steps
from goo_service.people import store
from goo_service.people import users
from goo_service.people import viewer
from goo_service.people.acts import Doer
from goo_service.people.oidc import Begun
from goo_service.people.oidc import NotProved
from goo_service.people.oidc import Provider
from goo_service.people.oidc import name_in
from goo_service.people.replies import HEADERS
from goo_service.people.replies import Refused
from goo_service.people.store import changing
from goo_service.people.users import User
from goo_service.people.web_sign_in import Who
from goo_service.people.web_sign_in import begun as begin_session

KIND, PROVIDER = 'oidc', 'goo_people_provider'
SOURCE = 'oidc'
LONGEST = 2048
FAILED = ('The sign-in did not succeed. · Die Anmeldung ist nicht gelungen.')
PAGE = ('<!DOCTYPE html><html lang="en"><head><meta charset="utf-8"><title>goo</title>{head}</head>'
        '<body><p>{text}</p><p><a href="/">{site}</a></p></body></html>\n')
AWAY = '<meta http-equiv="refresh" content="0; url=/">'
"""The browser goes on by itself. The cookie of a session is sent along with requests of this site
alone, and a redirect would still be one of the provider."""


def blueprint() -> Blueprint:
    made = Blueprint('oidc', __name__)
    made.add_url_rule('/oidc/begin', view_func=begin)
    made.add_url_rule('/oidc/return', view_func=come_back)
    return made


def provider() -> Provider:
    """The one of the settings, kept with its description. 404 where there is none."""
    if PROVIDER not in current_app.config:
        path = os.environ.get('GOO_PEOPLE_OIDC') or oidc_settings.FILE
        settings = oidc_settings.read_settings(Path(path))
        current_app.config[PROVIDER] = Provider(settings) if settings else None
    found: Provider | None = current_app.config[PROVIDER]
    if found is None:
        raise Refused(404, 'this registry has no provider of OpenID Connect')
    return found


def page(status: int, text: str, head: str = '') -> Response:
    site = html.escape(viewer.site())
    made = PAGE.format(head=head, text=html.escape(text), site=site)
    return Response(made, status, HEADERS, content_type='text/html; charset=utf-8')


def failed(why: str) -> Response:
    """The same for whatever was amiss."""
    print(f'people: oidc: {why}', flush=True)
    answer = page(403, FAILED)
    answer.headers.add('Set-Cookie', steps.cookie_of('', 'Lax'))
    return answer


def begin() -> Response:
    """The way to the provider. What is looked for when the browser comes back stands in a signed
    cookie, which the provider never sees."""
    of, db = provider(), viewer.database()
    begun = Begun(*(secrets.token_urlsafe(32) for _ in range(3)))
    try:
        where = of.way_in(begun)
    except NotProved as fault:
        return failed(str(fault))
    step = steps.make(db, KIND, vars(begun))
    answer = Response('', 302, {**HEADERS, 'Location': where})
    answer.headers.add('Set-Cookie', steps.cookie_of(step, 'Lax'))
    return answer


def come_back() -> Response:
    """The way back. A step is taken once, whatever comes of it."""
    of, db = provider(), viewer.database()
    try:
        begun, code = taken(db, of)
        claims = of.claims(code, begun)
        user = user_of(db, of, name_in(claims, of.settings), str(claims['sub']))
    except NotProved as fault:
        return failed(str(fault))
    signed_in = begin_session(db, Who.of_request(user.name), user, KIND)
    answer = page(200, user.name, AWAY)
    for cookie in signed_in.headers.getlist('Set-Cookie'):
        answer.headers.add('Set-Cookie', cookie)
    return answer


def taken(db: sqlite3.Connection, of: Provider) -> tuple[Begun, str]:
    """The sign-in that this browser began, and the code with which it comes back."""
    given = {name: request.args.getlist(name) for name in ('state', 'code', 'iss', 'error')}
    if any(len(values) > 1 or len(''.join(values)) > LONGEST for values in given.values()):
        raise NotProved('a parameter stands twice, or is too long')
    one = {name: values[0] for name, values in given.items() if values}
    text = viewer.field('GOO-Step')
    step = steps.read(db, KIND, text)
    if step is None:
        raise NotProved('this browser began no sign-in, or too long ago')
    begun = Begun(step['state'], step['nonce'], step['verifier'])
    if not hmac.compare_digest(one.get('state', '').encode(), begun.state.encode()):
        raise NotProved('the state is of another sign-in')
    with changing(db):
        is_first = steps.spend(db, text)
    if not is_first:
        raise NotProved('this sign-in was ended before')
    if 'iss' in one and one['iss'].rstrip('/') != of.settings.issuer:
        raise NotProved(f'it comes from {one["iss"][:200]}')
    if 'code' not in one:
        raise NotProved(f'no code: {one.get("error", "")[:200]}')
    return begun, one['code']


def user_of(db: sqlite3.Connection, of: Provider, name: str, subject: str) -> User:
    """The user whom the provider names. He stands in the file, and is bound to one number of the
    provider."""
    key = hashlib.sha256(f'{of.settings.issuer}\0{subject}'.encode()).digest()
    with changing(db):
        row = db.execute('SELECT user FROM oidc_link WHERE subject = ?', (key,)).fetchone()
        user = users.by_id(db, row['user']) if row else users.find(db, name)
        if user is None or user.ended is not None or not of.settings.may(user.caller):
            raise NotProved(f'{name[:200]!r} is no user who signs in so')
        if row is None:
            bind(db, user, key)
    return user


def bind(db: sqlite3.Connection, user: User, key: bytes) -> None:
    """Binds a user to a number of the provider, at the first sign-in alone."""
    is_bound = db.execute('SELECT 1 FROM oidc_link WHERE user = ?', (user.id,)).fetchone()
    if user.source != SOURCE or is_bound:
        raise NotProved(f'{user.name} does not sign in so, or is bound to another number')
    db.execute('INSERT INTO oidc_link VALUES (?, ?, ?)', (key, user.id, store.now()))
    acts.add(db, Doer(user.name, 'session', viewer.address(), user.caller), 'factor_added', 'oidc',
             {'kind': 'oidc'})
