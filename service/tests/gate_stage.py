"""A file of people with users of a body and of holders, and a gate's judge over it, for tests."""
import json
import sqlite3
from collections.abc import Iterator
from contextlib import closing
from contextlib import contextmanager
from dataclasses import dataclass
from dataclasses import field
from pathlib import Path
from typing import Any

from goo_service.people import store
from goo_service.people.acts import Doer
from goo_service.people.four_eyes import Rule
from goo_service.people.four_eyes import set_rule
from goo_service.people.judge import Call
from goo_service.people.judge import Judge
from goo_service.people.judge import Verdict
from goo_service.people.store import changing

REQUESTS, TABLES, BUNDLES = '/v1/requests', '/v1/declarations', '/v1/bundles'
WHOLE = '/v1/bundles?whole=yes'
OWN = 7 * 10 ** 12
ROOT = Doer('root', 'host', '', 'ISSUER')
YEAR = 365 * 86_400


def number(serial: int) -> str:
    return f'{OWN + serial:014}'


def transfer(key: str, count: int, giver: int = 1, taker: int = 2,
             first: int = 1) -> dict[str, Any]:
    return {'command': 'transfer', 'key': key, 'giver': giver, 'taker': taker,
            'first': number(first), 'last': number(first + count - 1)}


def cancel(key: str, count: int, account: int = 1) -> dict[str, Any]:
    return {'command': 'cancel', 'key': key, 'account': account, 'first': number(1),
            'last': number(count), 'beneficiary': 'Bakery', 'use_first': '2025-01-01',
            'use_last': '2025-03-31'}


def export(key: str, count: int, giver: int = 1) -> dict[str, Any]:
    return {'command': 'export', 'key': key, 'giver': giver, 'peer': 9, 'account': 5,
            'first': number(1), 'last': number(count)}


def close(key: str, account: int = 1) -> dict[str, Any]:
    return {'command': 'close_account', 'key': key, 'account': account}


def withdraw(key: str, count: int = 1) -> dict[str, Any]:
    return {'command': 'withdraw', 'key': key, 'first': number(1), 'last': number(count),
            'reason': 'fraud'}


def correct(key: str) -> dict[str, Any]:
    return {'command': 'correct', 'key': key, 'device': '500000000000000012',
            'first_day': '2025-01-01', 'less_wh': 5, 'first': '', 'last': '', 'reason': 'meter'}


def declare(key: str) -> dict[str, Any]:
    return {'command': 'declare', 'key': key, 'device': '500000000000000012',
            'first_day': '2025-01-01', 'last_day': '2025-01-31', 'gross_wh': 5, 'aux_wh': 0}


def advance(key: str, day: str = '2025-04-01') -> dict[str, Any]:
    return {'command': 'advance', 'key': key, 'day': day}


def open_holder(key: str) -> dict[str, Any]:
    return {'command': 'open_holder', 'key': key, 'holder': 'NEW', 'name': 'New'}


def text(*requests: dict[str, Any]) -> bytes:
    """A request, or a bundle of more."""
    return b'\n'.join(json.dumps(request).encode() for request in requests)


@dataclass
class GateStage:
    """A file of people in a folder, and who is in it by name."""

    path: Path
    users: dict[str, int] = field(default_factory=dict)
    judge: Judge = field(default_factory=Judge)

    def __post_init__(self) -> None:
        store.make_file(self.path)

    @contextmanager
    def open(self) -> Iterator[sqlite3.Connection]:
        with closing(store.open_file(self.path)) as db:
            yield db

    @contextmanager
    def change(self) -> Iterator[sqlite3.Connection]:
        with self.open() as db, changing(db):
            yield db

    def rows(self, statement: str, *values: object) -> list[dict[str, Any]]:
        with self.open() as db:
            return [dict(row) for row in db.execute(statement, values)]

    def user(self, name: str, caller: str = 'SUN', role: str = 'user',
             rows: tuple[tuple[int, str], ...] = ((0, 'rtc'),), administrator: bool = False) -> int:
        """A user; of a holder's what he may do with each account: r, t, c."""
        with self.change() as db:
            made = db.execute(
                'INSERT INTO user (name, caller, role, administrator, made, source) '
                "VALUES (?, ?, ?, ?, ?, 'host')",
                (name, caller, role, int(administrator), store.now())).lastrowid
            for account, may in rows if role == 'user' else ():
                db.execute('INSERT INTO access VALUES (?, ?, ?, ?, ?)',
                           (made, account, 'r' in may, 't' in may, 'c' in may))
        assert made
        self.users[name] = made
        return made

    def end_user(self, name: str) -> None:
        with self.change() as db:
            db.execute('UPDATE user SET ended = ? WHERE name = ?', (store.now(), name))

    def take_access(self, name: str) -> None:
        with self.change() as db:
            db.execute('DELETE FROM access WHERE user = ?', (self.users[name],))

    def token(self, user: str, name: str = 'nightly', scope: str = 'rdt', most: int | None = None,
              account: int | None = None, ends: int = YEAR) -> str:
        """The hold of a token with a scope of r, d, t."""
        with self.change() as db:
            made = db.execute(
                'INSERT INTO token (hash, user, name, reads, declares, trades, most, account, '
                'made, ends) VALUES (?, ?, ?, ?, ?, ?, ?, ?, ?, ?)',
                (f'{user} {name}'.encode(), self.users[user], name, 'r' in scope, 'd' in scope,
                 't' in scope, most, account, store.now(), store.now() + ends)).lastrowid
        return f't{made}'

    def rule(self, caller: str, command: str, above: int = 0, days: int = 7) -> None:
        with self.change() as db:
            set_rule(db, ROOT, Rule(caller, command, above, days))

    def call(self, user: str, body: bytes, hold: str = 's1', target: str = REQUESTS) -> Call:
        with self.open() as db:
            caller = db.execute('SELECT caller FROM user WHERE name = ?', (user,)).fetchone()[0]
        way = 'token nightly' if hold.startswith('t') else 'session'
        return Call(target, caller, user, 'full', way, hold, '192.0.2.7', body)

    def ask(self, user: str, *requests: dict[str, Any], hold: str = 's1', target: str = '',
            body: bytes = b'') -> Verdict:
        """What the judge says of requests of a user."""
        target = target or (BUNDLES if len(requests) > 1 else REQUESTS)
        with self.open() as db:
            call = self.call(user, body or text(*requests), hold, target)
            return self.judge.verdict(db, call)
