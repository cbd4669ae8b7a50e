"""A file of people for tests of its modules, and what asks over it as nginx would."""
import contextlib
import sqlite3
from collections.abc import Iterator
from dataclasses import dataclass
from dataclasses import field
from pathlib import Path
from typing import Any

import pyotp
from flask.testing import FlaskClient
from goo_service.people import factors
from goo_service.people import sessions
from goo_service.people import store
from goo_service.people import totp
from goo_service.people import users
from goo_service.people import web
from goo_service.people import who
from goo_service.people.acts import ROOT
from goo_service.people.passwords import Passwords
from goo_service.people.store import changing
from goo_service.people.users import New
from goo_service.people.users import User

QUICK = Passwords(memory=64, turns=1)
"""Compares at no cost."""
PASSWORD = 'correct horse battery'
SEED = b'12345678901234567890'
"""That of the worked codes of RFC 6238."""
HOME, ELSEWHERE = '192.0.2.1', '198.51.100.7'


@dataclass
class Reply:
    """An answer of goo-people-web, with the cookies that it sets."""

    status: int
    json: Any
    cookies: dict[str, str]
    fields: dict[str, str]


@dataclass
class Stage:
    """A file of people in a folder, and what asks over it."""

    path: Path
    client: FlaskClient = field(init=False)
    door: who.Door = field(init=False)

    def __post_init__(self) -> None:
        store.make_file(self.path)
        self.client = web.application(self.path, QUICK).test_client(use_cookies=False)
        self.door = who.Door(self.path)

    @contextlib.contextmanager
    def open(self) -> Iterator[sqlite3.Connection]:
        with contextlib.closing(store.open_file(self.path)) as db:
            yield db

    @contextlib.contextmanager
    def change(self) -> Iterator[sqlite3.Connection]:
        with self.open() as db, changing(db):
            yield db

    def rows(self, statement: str, *values: object) -> list[dict[str, Any]]:
        with self.open() as db:
            return [dict(row) for row in db.execute(statement, values)]

    def make_user(self, name: str = 'anna', caller: str = 'SUN', role: str = 'user', *,
                  password: str | None = PASSWORD, access: str = 'rtc', account: int = 0,
                  administrator: bool = False, has_app: bool = True) -> User:
        """A user with a password, an app and what `access` says: reads, trades, cancels."""
        kept = QUICK.hash(password) if password else None
        with self.change() as db:
            user = users.make(db, ROOT, New(name, caller, role, administrator, password=kept))
            if role == 'user' and access:
                users.give_access(db, user, account, reads='r' in access, trades='t' in access,
                                  cancels='c' in access)
            if has_app:
                factors.add(db, user.id, factors.TOTP, 'App', SEED, confirmed=True)
        return user

    def code(self, later: int = 0) -> str:
        """The code of now, or of a number of steps later."""
        return str(pyotp.TOTP(totp.text_of(SEED)).at(store.now() + 30 * later))

    def forget_codes(self) -> None:
        """Codes that were taken may be taken again: a test signs in more than once in a step."""
        with self.change() as db:
            db.execute('UPDATE factor SET counter = 0')

    def post(self, path: str, members: Any = None, *, net: str = HOME, session: str = '',
             step: str = '', method: str = 'POST') -> Reply:
        """A request as the front door sends it on: who asks is found by the cookie of a session."""
        fields = {'GOO-Address': net, 'GOO-Net': net, 'GOO-Site': 'localhost', 'GOO-Step': step}
        if session:
            of = self.ask(session=session)
            named = {'GOO-User': of.user, 'GOO-Way': of.way, 'GOO-Hold': of.hold}
            fields |= {name: value for name, value in named.items() if value}
        body = {} if members is None else {'json': members}
        came = self.client.open(f'/people/v1/{path}', method=method, headers=fields,
                                base_url='https://localhost', **body)
        set_fields = came.headers.getlist('Set-Cookie')
        cookies = dict(one.split(';')[0].split('=', 1) for one in set_fields)
        return Reply(came.status_code, came.get_json(silent=True), cookies, dict(came.headers))

    def get(self, path: str, session: str) -> Reply:
        return self.post(path, session=session, method='GET')

    def ask(self, *, session: str = '', authorization: str = '', subject: str = '',
            method: str = 'GET', csrf: str = '') -> who.Answer:
        """The question of nginx."""
        cookie = f'a=b; {sessions.COOKIE}={session}' if session else ''
        return self.door.answer(who.Asked(authorization, cookie, subject, csrf, method))

    def sign_in(self, name: str = 'anna', *, password: str = PASSWORD, net: str = HOME) -> str:
        """The cookie of a new session."""
        self.forget_codes()
        came = self.post('sign-in', {'user': name, 'password': password, 'code': self.code()},
                         net=net)
        assert came.status == 200 and came.json == {'next': 'done'}, came
        return came.cookies['__Host-goo']
