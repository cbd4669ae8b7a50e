"""Addresses of programs to which happenings are sent, and the queue of what is sent there.

A hook is of one user and gets what he would get as mail. A delivery has its number from its cause,
so a program that has had it knows it again. What is not taken is tried again, with growing pauses,
for five days. A program that does not answer pauses all deliveries to it; one that refuses a single
delivery has the others meanwhile.
"""
import datetime
import hashlib
import hmac
import json
import secrets
import sqlite3
from collections.abc import Collection
from dataclasses import dataclass
from typing import Any

from goo_service.people.hook_address import BadAddress
from goo_service.people.hook_address import parse_address
from goo_service.people.mail_words import clean
from goo_service.people.mails import KEPT
from goo_service.people.mails import KINDS as MAILS
from goo_service.people.mails import Notice
from goo_service.people.mails import PATIENCE
from goo_service.people.mails import pause_after
from goo_service.people.store import now
from goo_service.people.store import secret_of

KINDS = tuple(kind for kind in MAILS if kind != 'new_place')
MOST, MOST_OF_CALLER = 5, 20
"""Hooks of a user, and of all users of his caller."""
MOST_WAITING = 10_000
"""Deliveries that wait for one hook. Later ones are given up at once."""
WAITS = 'sent IS NULL AND given_up IS NULL'


class Refused(Exception):
    """A hook that cannot be made. The text says why."""


@dataclass(frozen=True)
class Delivery:
    """What is to be sent now."""

    number: int
    hook: int
    url: str
    secret: bytes
    body: bytes
    identity: str


# -------------------------------------------------------------------- hooks

def make(db: sqlite3.Connection, user: int, url: str, kinds: Collection[str],
         is_plain_allowed: bool = False) -> tuple[int, str]:
    """A new hook of a user: its number, and its secret, which is shown this once."""
    try:
        parse_address(url, is_plain_allowed)
    except BadAddress as fault:
        raise Refused(str(fault)) from fault
    chosen = [kind for kind in KINDS if kind in kinds]
    if not chosen or len(chosen) != len(kinds):
        raise Refused(f'kinds are one or more of {", ".join(KINDS)}, each once')
    row = db.execute('SELECT caller FROM user WHERE id = ?', (user,)).fetchone()
    own, all_of = db.execute(
        'SELECT count(*) FILTER (WHERE user = ?), count(*) FROM hook WHERE caller = ? '
        'AND revoked IS NULL', (user, row['caller'])).fetchone()
    if own >= MOST or all_of >= MOST_OF_CALLER:
        raise Refused(f'a user has {MOST} hooks at most, and all users of {row["caller"]} have '
                      f'{MOST_OF_CALLER}')
    secret = secrets.token_bytes(32)
    done = db.execute('INSERT INTO hook (caller, user, url, secret, kinds, made) '
                      'VALUES (?, ?, ?, ?, ?, ?)',
                      (row['caller'], user, url, secret, json.dumps(chosen), now()))
    return int(done.lastrowid or 0), secret.hex()


def revoke(db: sqlite3.Connection, user: int, number: int) -> bool:
    """Ends a hook of a user, and what waits for it; whether there was one."""
    done = db.execute('UPDATE hook SET revoked = ?, secret = ? WHERE id = ? AND user = ? '
                      'AND revoked IS NULL', (now(), b'', number, user))
    if done.rowcount:
        db.execute(f"UPDATE delivery SET given_up = ?, fault = 'revoked', body = ? "
                   f'WHERE hook = ? AND {WAITS}', (now(), b'', number))
    return bool(done.rowcount)


def of_user(db: sqlite3.Connection, user: int) -> list[dict[str, Any]]:
    """The hooks of a user with what became of their deliveries."""
    rows = db.execute(
        'SELECT id, url, kinds, made, fault, '
        f'(SELECT count(*) FROM delivery WHERE hook = hook.id AND {WAITS}) AS waiting, '
        '(SELECT max(sent) FROM delivery WHERE hook = hook.id) AS sent, '
        '(SELECT count(*) FROM delivery WHERE hook = hook.id AND given_up IS NOT NULL) '
        'AS given_up FROM hook WHERE user = ? AND revoked IS NULL ORDER BY id', (user,))
    return [{**dict(row), 'kinds': json.loads(row['kinds'])} for row in rows]


# -------------------------------------------------------------------- the queue

def queue(db: sqlite3.Connection, user: int, notice: Notice) -> None:
    """Queues a happening for each hook of a user that wants it."""
    if notice.kind not in KINDS:
        return
    for row in db.execute('SELECT id, kinds FROM hook WHERE user = ? AND revoked IS NULL',
                          (user,)).fetchall():
        if notice.kind in json.loads(row['kinds']):
            put(db, row['id'], notice)


def put(db: sqlite3.Connection, hook: int, notice: Notice) -> None:
    at, cause = now(), f'{notice.kind} {notice.cause}'[:200]
    waiting, = db.execute(f'SELECT count(*) FROM delivery WHERE hook = ? AND {WAITS}',
                          (hook,)).fetchone()
    is_full = waiting >= MOST_WAITING
    db.execute('INSERT INTO delivery (hook, cause, body, made, next, tries, given_up, fault) '
               'VALUES (?, ?, ?, ?, ?, 0, ?, ?) ON CONFLICT DO NOTHING',
               (hook, cause, b'' if is_full else body_of(notice, identity(db, hook, cause), at),
                at, at, at if is_full else None, 'too many wait' if is_full else None))


def body_of(notice: Notice, of: str, at: int) -> bytes:
    """What a program gets: the facts of a mail, each by its name."""
    time = datetime.datetime.fromtimestamp(at, datetime.UTC)
    whole: dict[str, object] = {'id': of, 'kind': notice.kind,
                                'made': f'{time:%Y-%m-%dT%H:%M:%SZ}', **notice.fields}
    return json.dumps(whole, ensure_ascii=False, separators=(',', ':')).encode()


def identity(db: sqlite3.Connection, hook: int, cause: str) -> str:
    """The same for each try of a delivery."""
    digest = hmac.digest(secret_of(db), repr((hook, cause)).encode(), hashlib.sha256)
    return digest[:16].hex()


def due(db: sqlite3.Connection, at: int) -> list[tuple[int, str, int]]:
    """Each hook that may be tried now, with its caller and the delivery that has waited longest."""
    found = db.execute(
        f'SELECT hook.id, hook.caller, (SELECT id FROM delivery WHERE hook = hook.id AND {WAITS} '
        'AND next <= ? ORDER BY id LIMIT 1) AS delivery FROM hook '
        'JOIN user ON user.id = hook.user WHERE hook.revoked IS NULL AND user.ended IS NULL '
        'AND hook.paused <= ? AND delivery IS NOT NULL ORDER BY delivery', (at, at))
    return [(row['id'], row['caller'], row['delivery']) for row in found]


def claim(db: sqlite3.Connection, number: int, at: int) -> Delivery | None:
    """A delivery to be sent now. The try is counted before it is made, as that of a mail."""
    row = db.execute(
        'SELECT delivery.*, hook.url, hook.secret AS secret FROM delivery '
        'JOIN hook ON hook.id = delivery.hook JOIN user ON user.id = hook.user '
        'WHERE delivery.id = ? AND hook.revoked IS NULL AND user.ended IS NULL '
        'AND delivery.sent IS NULL AND delivery.given_up IS NULL', (number,)).fetchone()
    if row is None:
        return None
    if at - row['made'] > PATIENCE:
        db.execute('UPDATE delivery SET given_up = ?, body = ? WHERE id = ?', (at, b'', number))
        return None
    db.execute('UPDATE delivery SET tries = tries + 1, next = ? WHERE id = ?',
               (at + pause_after(row['tries'] + 1), number))
    return Delivery(number, row['hook'], row['url'], row['secret'], row['body'],
                    identity(db, row['hook'], row['cause']))


def mark_sent(db: sqlite3.Connection, of: Delivery, at: int) -> None:
    db.execute('UPDATE delivery SET sent = ?, body = ?, fault = NULL WHERE id = ?',
               (at, b'', of.number))
    db.execute('UPDATE hook SET failures = 0, paused = 0, fault = NULL WHERE id = ?', (of.hook,))


def mark_failed(db: sqlite3.Connection, of: Delivery, fault: str, is_alone: bool,
                at: int) -> None:
    """A try has failed. Unless it is about this delivery alone, the hook has a pause."""
    text = clean(fault)
    db.execute('UPDATE delivery SET fault = ? WHERE id = ?', (text, of.number))
    if is_alone:
        db.execute('UPDATE hook SET fault = ? WHERE id = ?', (text, of.hook))
        return
    failures, = db.execute('SELECT failures FROM hook WHERE id = ?', (of.hook,)).fetchone()
    db.execute('UPDATE hook SET failures = failures + 1, paused = ?, fault = ? WHERE id = ?',
               (at + pause_after(failures + 1), text, of.hook))


def prune(db: sqlite3.Connection, at: int, most: int = 1000) -> None:
    """Takes away old rows of what was sent or given up, some at once."""
    db.execute(f'DELETE FROM delivery WHERE id IN (SELECT id FROM delivery WHERE made < ? '
               f'AND NOT ({WAITS}) ORDER BY id LIMIT ?)', (at - KEPT, most))
