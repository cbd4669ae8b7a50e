"""What waits for a second user: kept, listed, confirmed, refused, withdrawn, lapsed.

A request that waits is `waiting`. A confirmed one is `sending` before it is sent, so that a crash
loses none; it is `sent` once the log has answered for good. Others end as `refused` (by a second
user), `withdrawn` (by the asker) or `lapsed`. The body goes with the end, a row 90 days later.
"""
import hashlib
import sqlite3
from collections.abc import Iterable
from dataclasses import dataclass

from goo_service.people import acts
from goo_service.people.acts import Doer
from goo_service.people.acts import SERVICE
from goo_service.people.four_eyes import Rule
from goo_service.people.store import now

OF_USER, OF_CALLER, BODIES = 100, 1000, 64 << 20
"""Requests that wait of a user, of a caller; bytes of all bodies."""
ANSWER = 64 << 10
"""Bytes of an answer that is kept; of a longer one the status alone."""
DAY = 86_400
KEPT = 90 * DAY
"""Seconds that a row is kept after its end."""
KEYS = 200
"""Characters of keys that are kept for readers."""
OPEN = "state IN ('waiting', 'sending')"
COLUMNS = ('w.id, w.caller, w.user, u.name, w.way, w.hold, w.address, w.role, w.target, w.keys, '
           'w.body, w.why, w.asked, w.ends, w.state, w.decided, w.status, w.answer, '
           'd.name AS decider')
FROM = ('waiting w JOIN user u ON u.id = w.user LEFT JOIN user d ON d.id = w.decided_by')


class TooMany(Exception):
    """A bound is reached. The text names it."""


class Conflict(Exception):
    """Another request under the same key waits already. The text names the key."""


@dataclass(frozen=True, slots=True)
class Asked:
    """A request that came to the gate, and who asks."""

    caller: str
    user: int
    doer: Doer
    hold: str
    role: str
    target: str
    body: bytes
    keys: tuple[str, ...]

    @property
    def digest(self) -> bytes:
        """By what the same request is known when it comes again."""
        return hashlib.sha256(f'{self.target}\n'.encode() + self.body).digest()


@dataclass(frozen=True, slots=True)
class Waits:
    """A request that waits, or did."""

    id: int
    caller: str
    user: int
    name: str
    """Who asked."""
    way: str
    hold: str
    address: str
    role: str
    target: str
    keys: str
    body: bytes
    """Empty once it has ended."""
    why: str
    asked: int
    ends: int
    state: str
    decided: int | None
    status: int | None
    answer: bytes | None
    decider: str | None


def find(db: sqlite3.Connection, number: int) -> Waits | None:
    row = db.execute(f'SELECT {COLUMNS} FROM {FROM} WHERE w.id = ?', (number,)).fetchone()
    return Waits(*row) if row else None


def list_of(db: sqlite3.Connection, caller: str, most: int = 200) -> list[Waits]:
    """What waits of a caller, the oldest first, and then what has ended, the newest first."""
    rows = db.execute(
        f'SELECT {COLUMNS} FROM {FROM} WHERE w.caller = ? '
        f'ORDER BY w.{OPEN} DESC, CASE WHEN w.{OPEN} THEN w.id ELSE -w.id END LIMIT ?',
        (caller, most))
    return [Waits(*row) for row in rows]


def sending(db: sqlite3.Connection) -> list[int]:
    """The numbers of what is confirmed and not answered yet."""
    return [row['id'] for row in
            db.execute("SELECT id FROM waiting WHERE state = 'sending' ORDER BY decided, id")]


# ------------------------------------------------------------------ what comes again

def same(db: sqlite3.Connection, asked: Asked) -> Waits | None:
    """The same request, where it waits already. Another one under a key of it is a Conflict."""
    digest = asked.digest
    for key in asked.keys:
        row = db.execute('SELECT w.id, w.digest FROM waiting_key k JOIN waiting w '
                         'ON w.id = k.waiting WHERE k.caller = ? AND k.key = ?',
                         (asked.caller, key)).fetchone()
        if row is not None and row['digest'] == digest:
            return find(db, row['id'])
        if row is not None:
            raise Conflict(f'the key {key} is that of request {row["id"]}, which waits for a '
                           'second user')
    return None


def is_done(db: sqlite3.Connection, asked: Asked) -> bool:
    """Whether this very request waited and was then accepted whole: the registry answers that it
    is repeated. One that was refused would be carried out now, and nobody has confirmed that."""
    return db.execute("SELECT 1 FROM waiting WHERE caller = ? AND digest = ? AND state = 'sent' "
                      'AND is_done', (asked.caller, asked.digest)).fetchone() is not None


# ------------------------------------------------------------------ kept

def keep(db: sqlite3.Connection, asked: Asked, rule: Rule) -> Waits:
    """Has a request wait, inside a change."""
    check_bounds(db, asked)
    at = now()
    number = db.execute(
        'INSERT INTO waiting (caller, user, way, hold, address, role, target, keys, body, digest, '
        "why, asked, ends, state) VALUES (?, ?, ?, ?, ?, ?, ?, ?, ?, ?, ?, ?, ?, 'waiting')",
        (asked.caller, asked.user, asked.doer.way, asked.hold, asked.doer.address, asked.role,
         asked.target, ' '.join(asked.keys)[:KEYS], asked.body, asked.digest, rule.why, at,
         at + rule.days * DAY)).lastrowid
    assert number
    db.executemany('INSERT INTO waiting_key VALUES (?, ?, ?)',
                   [(asked.caller, key, number) for key in dict.fromkeys(asked.keys)])
    acts.add(db, asked.doer, 'waiting', str(number), {'why': rule.why, 'keys': asked.keys[:3]})
    kept = find(db, number)
    assert kept
    return kept


def check_bounds(db: sqlite3.Connection, asked: Asked) -> None:
    def count(condition: str, value: object) -> int:
        return int(db.execute(f'SELECT count(*) FROM waiting WHERE {condition} AND {OPEN}',
                              (value,)).fetchone()[0])

    if count('user = ?', asked.user) >= OF_USER:
        raise TooMany(f'{OF_USER} requests of {asked.doer.user} wait for a second user already')
    if count('caller = ?', asked.caller) >= OF_CALLER:
        raise TooMany(f'{OF_CALLER} requests of {asked.caller} wait for a second user already')
    size = db.execute(f'SELECT coalesce(sum(length(body)), 0) FROM waiting WHERE {OPEN}')
    if size.fetchone()[0] + len(asked.body) > BODIES:
        raise TooMany(f'requests of {BODIES} bytes wait for a second user already')


# ------------------------------------------------------------------ decided

def begin_sending(db: sqlite3.Connection, waits: Waits, doer: Doer, user: int) -> None:
    """A second user has confirmed: it is sent from now on, inside a change."""
    db.execute("UPDATE waiting SET state = 'sending', decided_by = ?, decided_way = ?, decided = ? "
               "WHERE id = ? AND state = 'waiting'", (user, doer.way, now(), waits.id))
    acts.add(db, doer, 'confirmed', str(waits.id), {'asked_by': waits.name})


def end(db: sqlite3.Connection, waits: Waits, doer: Doer, state: str, user: int | None,
        why: str = '') -> None:
    """It is not sent, inside a change: 'refused', 'withdrawn' or 'lapsed'."""
    db.execute('UPDATE waiting SET state = ?, decided_by = ?, decided_way = ?, decided = ?, '
               "body = x'' WHERE id = ?", (state, user, doer.way, now(), waits.id))
    free_keys(db, waits.id)
    acts.add(db, doer, state, str(waits.id),
             {'asked_by': waits.name, **({'why': why} if why else {})})


def finish(db: sqlite3.Connection, number: int, status: int, answer: bytes, done: bool) -> None:
    """The log has answered for good, inside a change."""
    db.execute("UPDATE waiting SET state = 'sent', status = ?, answer = ?, is_done = ?, "
               "body = x'' WHERE id = ? AND state = 'sending'",
               (status, answer if len(answer) <= ANSWER else b'', int(done), number))
    free_keys(db, number)


def free_keys(db: sqlite3.Connection, number: int) -> None:
    db.execute('DELETE FROM waiting_key WHERE waiting = ?', (number,))


def lapse(db: sqlite3.Connection) -> int:
    """Ends what has waited for too long, and takes old rows away, inside a change. How many
    lapsed."""
    at = now()
    over = [row['id'] for row in
            db.execute("SELECT id FROM waiting WHERE state = 'waiting' AND ends <= ?", (at,))]
    for waits in found(db, over):
        end(db, waits, SERVICE, 'lapsed', None)
    db.execute(f'DELETE FROM waiting WHERE NOT {OPEN} AND decided < ?', (at - KEPT,))
    return len(over)


def found(db: sqlite3.Connection, numbers: Iterable[int]) -> list[Waits]:
    return [waits for number in numbers if (waits := find(db, number))]
