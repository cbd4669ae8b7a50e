"""goo-people-who: answers nginx's question who is there, for each request.

The question carries what the visitor showed: Authorization, the cookie of a session, or the name of
a client certificate. The answer is 204 with GOO-User, GOO-Entry, GOO-Way, GOO-Hold and
GOO-Accounts, else 401, 403 or 429. Each question reads the file, so whoever was ended is refused at
once. who_server.py serves it.
"""
import base64
import binascii
import sqlite3
import threading
from collections.abc import Callable
from collections.abc import Mapping
from dataclasses import dataclass
from pathlib import Path

from goo_service.people import basic
from goo_service.people import csrf
from goo_service.people import secret
from goo_service.people import sessions
from goo_service.people import store
from goo_service.people import users
from goo_service.people.basic import Basic
from goo_service.people.store import now

TOKEN = 'goo_'
READS = ('GET', 'HEAD')
LONGEST = 400
"""Characters of what a visitor shows."""
QUICK = 0.05
"""Seconds that a note of the last use waits for another writer."""
USER = ('u.id AS user, u.name, u.caller, u.role, '
        '(SELECT max(trades OR cancels) FROM access WHERE user = u.id) AS acts, '
        '(SELECT group_concat(account) FROM access WHERE user = u.id AND reads) AS accounts ')
OF_SESSION = (f'SELECT s.id, s.seen, s.ends, s.way, {USER} FROM session s '
              'JOIN user u ON u.id = s.user WHERE s.hash = ? AND u.ended IS NULL')
OF_TOKEN = (f'SELECT t.id, t.name AS token, t.reads, t.declares, t.trades, t.ends, t.used, {USER} '
            'FROM token t JOIN user u ON u.id = t.user '
            'WHERE t.hash = ? AND t.revoked IS NULL AND u.ended IS NULL')
OF_SUBJECT = (f'SELECT {USER} FROM user u '
              "WHERE u.name = ? AND u.ended IS NULL AND u.source = 'certificate'")
OF_PROGRAM = (f'SELECT u.password, {USER} FROM user u '
              'WHERE u.name = ? AND u.ended IS NULL AND u.basic_until > ?')
Work = Callable[[], None]


@dataclass(frozen=True)
class Answer:
    """An answer to the question."""

    status: int
    user: str = ''
    entry: str = ''
    way: str = ''
    hold: str = ''
    accounts: str = ''

    def fields(self) -> dict[str, str]:
        named = {'GOO-User': self.user, 'GOO-Entry': self.entry, 'GOO-Way': self.way,
                 'GOO-Hold': self.hold, 'GOO-Accounts': self.accounts}
        return {name: value for name, value in named.items() if value}


SIGNED_IN = 204
NOBODY, FOREIGN, LATER = Answer(401), Answer(403), Answer(429)


@dataclass(frozen=True)
class Asked:
    """What a visitor showed."""

    authorization: str
    cookie: str
    subject: str
    csrf: str
    method: str
    net: str = ''

    @staticmethod
    def of(fields: Mapping[str, str]) -> 'Asked':
        """By the fields of the question."""
        return Asked(*(fields.get(name, '') for name in FIELDS))


FIELDS = ('Authorization', 'Cookie', 'GOO-Subject', 'GOO-CSRF', 'GOO-Method', 'GOO-Net')
"""Those of the question, in the order of what a visitor showed."""


@dataclass(frozen=True)
class Shown:
    """What Authorization shows: a token, for a name where one is given, or a name's password."""

    name: str
    word: str
    is_token: bool


def shown_in(authorization: str) -> Shown | None:
    """None where it shows neither."""
    kind, _, value = authorization.partition(' ')
    if kind.lower() == 'bearer':
        return Shown('', value.strip(), True)
    if kind.lower() != 'basic' or len(value) > 2 * LONGEST:
        return None
    try:
        text = base64.b64decode(value.strip(), validate=True).decode()
    except (binascii.Error, ValueError):
        return None
    name, _, word = text.partition(':')
    if not name or not word or '\0' in text:
        return None
    return Shown(name, word, word.startswith(TOKEN))


def accounts_of(row: sqlite3.Row) -> str:
    """Accounts that a user of a holder may read; empty where all of the holder's, 0 where none."""
    if row['role'] not in users.OF_HOLDER:
        return ''
    numbers = sorted(int(one) for one in (row['accounts'] or '').split(',') if one)
    return '' if 0 in numbers else ','.join(map(str, numbers)) or '0'


def entry_of(row: sqlite3.Row) -> str:
    return users.entry_of(row['caller'], row['role'], bool(row['acts']))


def entry_of_token(row: sqlite3.Row) -> str:
    """The entry of a token's user, narrowed by the token's scope."""
    entry = entry_of(row)
    caller, _, role = entry.rpartition(' ')
    if caller == 'peer':
        return entry if row['reads'] else 'none'
    given = {'full': {'reads', 'declares', 'trades'}, 'reads': {'reads'},
             'declares': {'declares'}}[role]
    left = given & {scope for scope in ('reads', 'declares', 'trades') if row[scope]}
    if len(left) == 1 and left <= {'reads', 'declares'}:
        return f'{caller} {left.pop()}'
    return f'{caller} full' if left else 'none'


def cookie_in(text: str) -> str:
    """The session's cookie among those that were sent."""
    for one in text[:4096].split(';'):
        name, _, value = one.strip().partition('=')
        if name == sessions.COOKIE:
            return value
    return ''


class Door:
    """Answers over one file. Each thread has a connection of its own. `later` does work that
    nobody waits for; unless told it is done at once."""

    def __init__(self, path: Path, later: Callable[[Work], object] = lambda work: work()) -> None:
        self.path, self.own, self.basic, self.later = path, threading.local(), Basic(), later

    def database(self) -> sqlite3.Connection:
        db: sqlite3.Connection | None = getattr(self.own, 'db', None)
        if db is None:
            db = store.open_file(self.path)
            db.execute(f'PRAGMA busy_timeout = {int(QUICK * 1000)}')
            self.own.db, self.own.secret = db, store.secret_of(db)
        return db

    def forget(self) -> None:
        """The next question opens the file anew."""
        self.own.db = None

    def answer(self, asked: Asked) -> Answer:
        """Who is there. What is shown in Authorization counts alone, whether right or wrong."""
        if asked.authorization:
            return self.of_authorization(asked)
        if asked.cookie and (cookie := cookie_in(asked.cookie)):
            of = self.of_session(cookie, asked)
            if of is not NOBODY or not asked.subject:
                return of
        return self.of_certificate(asked.subject) if asked.subject else NOBODY

    def of_authorization(self, asked: Asked) -> Answer:
        shown = shown_in(asked.authorization)
        if shown is None:
            return NOBODY
        if shown.is_token:
            return self.of_token(shown.name, shown.word, asked.method)
        return self.of_program(shown.name, shown.word, asked.net)

    def of_program(self, name: str, word: str, net: str) -> Answer:
        """A password of a program that was taken over, until its day is over."""
        db = self.database()
        if basic.is_over(db):
            return NOBODY
        row = db.execute(OF_PROGRAM, (name, now())).fetchone()
        try:
            if not self.basic.matches(row['password'] if row else None, name, word, net):
                return NOBODY
        except basic.TooOften:
            return LATER
        return Answer(SIGNED_IN, row['name'], entry_of(row), 'password', '',
                      accounts_of(row))

    def of_token(self, name: str, text: str, method: str) -> Answer:
        """A token, sent for a name where one is given."""
        if not text.startswith(TOKEN) or not secret.FORM.fullmatch(text.removeprefix(TOKEN)):
            return NOBODY
        row = self.database().execute(OF_TOKEN, (secret.hash_of(text),)).fetchone()
        if row is None or row['ends'] <= now():
            return NOBODY
        if name and name.lower() != row['name'].lower():
            return NOBODY
        if method in READS and not row['reads']:
            return FOREIGN
        self.note('UPDATE token SET used = ? WHERE id = ?', row['id'], row['used'])
        return Answer(SIGNED_IN, row['name'], entry_of_token(row), f'token {row["token"]}',
                      f't{row["id"]}', accounts_of(row))

    def of_session(self, cookie: str, asked: Asked) -> Answer:
        if not secret.FORM.fullmatch(cookie):
            return NOBODY
        kept = secret.hash_of(cookie)
        row = self.database().execute(OF_SESSION, (kept,)).fetchone()
        if row is None or sessions.is_over(row['ends'], row['seen'], now()):
            return NOBODY
        if asked.method not in READS and not csrf.is_right(self.own.secret, kept, asked.csrf):
            return FOREIGN
        self.note('UPDATE session SET seen = ? WHERE id = ?', row['id'], row['seen'])
        hold = f's{row["id"]}'
        if row['way'] == sessions.ENROL:
            return Answer(SIGNED_IN, row['name'], 'none', sessions.ENROL, hold)
        return Answer(SIGNED_IN, row['name'], entry_of(row), 'session', hold,
                      accounts_of(row))

    def of_certificate(self, subject: str) -> Answer:
        """A client certificate that nginx has verified: the user's name is its subject."""
        row = self.database().execute(OF_SUBJECT, (subject[:LONGEST],)).fetchone()
        if row is None or row['name'] != subject:
            return NOBODY
        return Answer(SIGNED_IN, row['name'], entry_of(row), 'certificate', '',
                      accounts_of(row))

    def note(self, statement: str, number: int, before: int | None) -> None:
        """When something was last used, once a minute. Where it can't be written it is left out."""
        at = now()

        def write() -> None:
            try:
                self.database().execute(statement, (at, number))
            except (store.Fault, sqlite3.Error, OSError):
                self.forget()

        if before is None or at - before >= sessions.SEEN_EACH:
            self.later(write)
