"""Reads the acts of people: mails for what the service of people itself did.

What waits for a second user is told to those who may confirm it, and what became of it to the one
who asked. A change of a password or of a factor, and a sign-in from a new place, is told to the
user. An invitation is no part of this: its link stands in no act (mails.invite).
"""
import json
import sqlite3
from collections.abc import Callable
from collections.abc import Mapping

from goo_service.people.audience import confirmers
from goo_service.people.happenings import tell_user
from goo_service.people.mails import Notice
from goo_service.people.read_to import place_of
from goo_service.people.read_to import set_place
from goo_service.people.store import changing

READER = 'acts'
MOST = 200
"""Acts of a turn."""
Row = sqlite3.Row


def turn(db: sqlite3.Connection) -> bool:
    """Tells of some acts; whether there were any. What was done before the first start is not told.
    """
    place = place_of(db, READER)
    if place is None:
        with changing(db):
            last, = db.execute('SELECT coalesce(max(id), 0) FROM act').fetchone()
            set_place(db, READER, str(last))
        return False
    acts = db.execute('SELECT * FROM act WHERE id > ? ORDER BY id LIMIT ?',
                      (int(place), MOST)).fetchall()
    if not acts:
        return False
    for act in acts:        # each by itself: whoever signs in meanwhile waits for no more
        with changing(db):
            if of := TOLD.get(act['kind']):
                of(db, act)
            set_place(db, READER, str(act['id']))
    return True


def user_of(db: sqlite3.Connection, name: str) -> tuple[int, str] | None:
    found = db.execute('SELECT id, name FROM user WHERE name = ?', (name,)).fetchone()
    return None if found is None else (int(found['id']), str(found['name']))


def cause_of(act: Row) -> str:
    """The time is a part of it: a file that went back to a copy gives numbers of acts anew."""
    return f'act {act["id"]} {act["time"]}'


def security(kind: str, text: str,
             column: str = 'about') -> Callable[[sqlite3.Connection, Row], None]:
    """Tells a user of a change of what he signs in with. He is the one whom the act is about, or
    the one who did it where it is about a factor of his."""
    def of(db: sqlite3.Connection, act: Row) -> None:
        if user := user_of(db, act[column]):
            fields = {'user': user[1], 'time': act['time']}
            tell_user(db, user[0], Notice(kind, cause_of(act), fields, text))

    return of


def sign_in(db: sqlite3.Connection, act: Row) -> None:
    """Tells of a sign-in from a new place alone."""
    detail = json.loads(act['detail'])
    user = user_of(db, act['user'])
    if user and isinstance(detail, Mapping) and detail.get('new_place'):
        fields = {'user': user[1], 'time': act['time'], 'net': act['address']}
        tell_user(db, user[0], Notice('new_place', cause_of(act), fields))


def waiting_of(db: sqlite3.Connection, act: Row) -> Row | None:
    number = str(act['about'])
    found = db.execute('SELECT * FROM waiting WHERE id = ?',
                       (int(number) if number.isdecimal() else 0,)).fetchone()
    return found if isinstance(found, Row) else None


def waits(db: sqlite3.Connection, act: Row) -> None:
    if of := waiting_of(db, act):
        fields = {'user': act['user'], 'why': of['why'], 'number': of['id'], 'time': of['ends']}
        for user in confirmers(db, of['caller'], of['user']):
            tell_user(db, user, Notice('waits', f'waiting {of["id"]} {of["asked"]}', fields))


def decided(text: str) -> Callable[[sqlite3.Connection, Row], None]:
    """Tells the one who asked what became of it."""
    def of(db: sqlite3.Connection, act: Row) -> None:
        if row := waiting_of(db, act):
            fields = {'user': act['user'], 'why': row['why'], 'number': row['id']}
            cause = f'waiting {row["id"]} {row["asked"]} {text}'
            tell_user(db, row['user'], Notice('waits', cause, fields, text))

    return of


TOLD: Mapping[str, Callable[[sqlite3.Connection, Row], None]] = {
    'sign_in': sign_in, 'password_set': security('password', 'password'),
    'factor_added': security('factor', 'factor_added', 'user'),
    'factor_removed': security('factor', 'factor_removed', 'user'),
    'factors_reset': security('factor', 'factor_removed'), 'waiting': waits,
    'confirmed': decided('confirmed'), 'refused': decided('refused'), 'lapsed': decided('lapsed')}
