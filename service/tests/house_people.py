"""The people of a house: a file of people with users of each kind, and sign-ins over HTTP.

    with House(people=True) as house:
        anna = house.people.sign_in('anna')
        answer = anna.ask('POST', '/v1/requests', '{..}')
        answer = house.ask('office', 'GET', '/v1/audit')        # by a token, as a program asks

Each user has the password `word_of(name)`, an app for codes, and a token that may all the user may.
"""
import contextlib
import hashlib
import json
import sqlite3
from collections.abc import Iterator
from dataclasses import dataclass
from pathlib import Path
from typing import TYPE_CHECKING
from typing import Any

import pyotp
from goo_service.people import factors
from goo_service.people import secret
from goo_service.people import store
from goo_service.people import totp
from goo_service.people import users
from goo_service.people.acts import ROOT
from goo_service.people.passwords import Passwords
from goo_service.people.store import changing
from goo_service.people.users import New
from goo_service.people.users import User

if TYPE_CHECKING:
    from calls import Answer
    from house import House

USERS = {'office': ('ISSUER', 'officer'), 'second': ('ISSUER', 'second'),
         'audit': ('ISSUER', 'auditor'), 'meter': ('ISSUER', 'meters'),
         'anna': ('SUN', 'user'), 'bela': ('VOLT', 'user'),
         'registry07': ('07', 'peer'), 'registry08': ('08', 'peer'), 'registry09': ('09', 'peer')}
"""Users of each house with people, each with a caller and a role."""
QUICK = Passwords(memory=1024, turns=1)
LASTS = 24 * 60 * 60


def word_of(name: str) -> str:
    """The password of a user of a house."""
    return f'the word of {name}'


def seed_of(name: str) -> bytes:
    """The seed of a user's app."""
    return hashlib.sha1(name.encode()).digest()


@dataclass(frozen=True)
class Signed:
    """A browser with a session."""

    house: 'House'
    cookie: str
    csrf: str

    def ask(self, method: str, path: str, body: bytes | str = b'', **fields: str) -> 'Answer':
        """A request of this session, with the word that goes with it."""
        named: dict[str, Any] = {'Cookie': f'__Host-goo={self.cookie}', 'GOO_CSRF': self.csrf,
                                 **fields}
        return self.house.ask(None, method, path, body, **named)

    def post(self, path: str, members: Any = None) -> 'Answer':
        """A request to /people/v1/."""
        return self.ask('POST', f'/people/v1/{path}', json.dumps(members or {}),
                        Content_Type='application/json')

    def get(self, path: str) -> Any:
        """The JSON of a route of /people/v1/."""
        return self.ask('GET', f'/people/v1/{path}').json


class People:
    """The file of people of a house."""

    def __init__(self, house: 'House', path: Path) -> None:
        self.house, self.path = house, path

    def begin(self) -> None:
        """Makes the file, with its users and their tokens."""
        store.make_file(self.path)
        for name, (caller, role) in USERS.items():
            self.make_user(name, caller, role)

    @contextlib.contextmanager
    def open(self) -> Iterator[sqlite3.Connection]:
        with contextlib.closing(store.open_file(self.path)) as db:
            yield db

    def make_user(self, name: str, caller: str, role: str = 'user', *, access: str = 'rtc',
                  account: int = 0, administrator: bool = False) -> User:
        """A user with a password, an app, a token, and what `access` says of an account: reads,
        trades, cancels."""
        with self.open() as db, changing(db):
            user = users.make(db, ROOT, New(name, caller, role, administrator,
                                            password=QUICK.hash(word_of(name)), language='en'))
            factors.add(db, user.id, factors.TOTP, 'App', seed_of(name), confirmed=True)
            if role == 'user' and access:
                users.give_access(db, user, account, reads='r' in access, trades='t' in access,
                                  cancels='c' in access)
        self.house.users[name] = self.make_token(name)
        return user

    def make_token(self, name: str, *, reads: bool = True, declares: bool = True,
                   trades: bool = True, most: int | None = None, account: int | None = None,
                   label: str = 'program', lasts: int = LASTS) -> str:
        """A token of a user, as it is shown once."""
        text, at = f'goo_{secret.make()}', store.now()
        with self.open() as db, changing(db):
            user = users.find(db, name)
            assert user
            db.execute('INSERT INTO token (hash, user, name, reads, declares, trades, most, '
                       'account, made, ends) VALUES (?, ?, ?, ?, ?, ?, ?, ?, ?, ?)',
                       (secret.hash_of(text), user.id, label, reads, declares, trades, most,
                        account, at, at + lasts))
        return text

    def code(self, name: str) -> str:
        """A code of a user's app that was not taken yet, as far as the file knows."""
        with self.open() as db, changing(db):
            db.execute('UPDATE factor SET counter = 0')
        return str(pyotp.TOTP(totp.text_of(seed_of(name))).at(store.now()))

    def post(self, path: str, members: Any) -> 'Answer':
        """A request of nobody to /people/v1/."""
        return self.house.ask(None, 'POST', f'/people/v1/{path}', json.dumps(members),
                              Content_Type='application/json')

    def sign_in(self, name: str, password: str | None = None) -> Signed:
        """A browser in which a user has signed in with password and code."""
        answer = self.post('sign-in', {'user': name, 'password': password or word_of(name),
                                       'code': self.code(name)})
        assert answer.status == 200, answer.text
        assert answer.json == {'next': 'done'}
        cookie = answer.cookies['__Host-goo']
        me = self.house.ask(None, 'GET', '/people/v1/me', Cookie=f'__Host-goo={cookie}').json
        return Signed(self.house, cookie, me['csrf'])
