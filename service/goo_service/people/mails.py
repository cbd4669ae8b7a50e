"""The queue of mails: made inside the change that a mail tells of, so both are there or neither.

    with store.changing(db):
        ..
        mails.tell(db, user, Notice('password', cause, {'user': name, 'time': now()}))

One happening is told to an address once, whoever asks for it again (UNIQUE address, kind, cause).
`goo-people-post` sends what waits (post.py). A text stands here until its mail is sent or given
up; the link of an invitation is in no other place of the file.
"""
import hashlib
import hmac
import sqlite3
from collections.abc import Mapping
from dataclasses import dataclass
from dataclasses import field

from goo_service.people.mail_address import is_address
from goo_service.people.mail_words import Words
from goo_service.people.mail_words import clean
from goo_service.people.store import now
from goo_service.people.store import secret_of

KINDS = ('came_in', 'sent', 'document', 'deadline', 'notice_refused', 'new_place', 'waits')
"""Kinds that a user can switch off."""
ALWAYS = ('invitation', 'password', 'factor', 'address')
"""Kinds that go whatever a user has switched off, under a bound of their own: nobody hides a change
of a password behind two hundred other mails."""
BOUND = 'bound'
DAY = 86_400
MOST, MOST_ALWAYS = 200, 50
"""Mails of a user in a day (UTC) that can be switched off, and of the others."""
INVITATIONS, INVITATIONS_TO_ONE = 50, 5
"""Invitations of a holder in 24 hours, and of all holders to one address."""
PATIENCE = 5 * DAY
"""Seconds after which a mail that nobody took is given up."""
FIRST_PAUSE, LONGEST_PAUSE = 60, 4 * 3600
KEPT = 120 * DAY
"""Seconds for which a row is kept, so that its happening is not told twice."""


class TooMany(Exception):
    """More invitations than may be sent. The text says of whom."""


@dataclass(frozen=True)
class Notice:
    """What is told, and by which cause it is the same as another one. `text` is the name of its
    text, where it is not that of the kind."""

    kind: str
    cause: str
    fields: Mapping[str, object] = field(default_factory=dict)
    text: str = ''


@dataclass(frozen=True)
class Letter:
    """A mail that is to be sent now."""

    number: int
    address: str
    kind: str
    subject: str
    body: str
    language: str
    made: int
    message_id: str


def pause_after(tries: int) -> int:
    """Seconds until a next try, after so many."""
    doubled: int = FIRST_PAUSE << min(max(tries - 1, 0), 20)
    return min(doubled, LONGEST_PAUSE)


# -------------------------------------------------------------------- what is made

def tell(db: sqlite3.Connection, user: int, notice: Notice, address: str = '') -> bool:
    """Queues a mail for a user, unless he has no address, has switched it off, was told already, or
    has had as many as may be today. `address` is another one than his, for what tells of a change
    of it."""
    assert notice.kind in KINDS + ALWAYS, notice.kind
    row = db.execute('SELECT mail, language, ended FROM user WHERE id = ?', (user,)).fetchone()
    to = address or (row['mail'] if row else '')
    if not row or row['ended'] is not None or not to or is_off(db, user, notice.kind):
        return False
    if not has_room(db, user, notice.kind, to, row['language']):
        return False
    return put(db, user, to, row['language'], notice)


def is_off(db: sqlite3.Connection, user: int, kind: str) -> bool:
    found = db.execute('SELECT 1 FROM mail_off WHERE user = ? AND kind = ?', (user, kind))
    return kind in KINDS and found.fetchone() is not None


def has_room(db: sqlite3.Connection, user: int, kind: str, address: str,
             language: str | None) -> bool:
    """Whether a user may get one more mail today. The one that is above the bound is told in one
    mail of its own."""
    always = kind in ALWAYS
    day = now() // DAY
    signs = ', '.join('?' * len(ALWAYS))
    count, = db.execute(
        f'SELECT count(*) FROM mail WHERE user = ? AND made >= ? AND kind <> ? '
        f'AND kind {"" if always else "NOT"} IN ({signs})',
        (user, day * DAY, BOUND, *ALWAYS)).fetchone()
    if count < (MOST_ALWAYS if always else MOST):
        return True
    if not always:
        put(db, user, address, language, Notice(BOUND, f'day {day}', {'count': MOST}))
    return False


def put(db: sqlite3.Connection, user: int | None, address: str, language: str | None,
        notice: Notice) -> bool:
    """Queues a mail; whether it was not there already."""
    if not is_address(address):
        return False
    text = Words(language or '').text(notice.text or notice.kind, notice.fields,
                                      notice.kind in KINDS)
    at = now()
    done = db.execute(
        'INSERT INTO mail (user, address, kind, cause, subject, body, made, next, tries) '
        'VALUES (?, ?, ?, ?, ?, ?, ?, ?, 0) ON CONFLICT DO NOTHING',
        (user, address, notice.kind, notice.cause[:200], text.subject, text.body, at, at))
    return done.rowcount == 1


def invite(db: sqlite3.Connection, invitation: int, secret: str) -> None:
    """Queues the mail of an invitation that was just made, inside its change. `secret` is what the
    link ends with. TooMany where the holder, or all holders to this address, have had their number
    today."""
    row = db.execute(
        'SELECT invitation.*, user.name FROM invitation LEFT JOIN user '
        'ON user.id = invitation.for_user WHERE invitation.id = ?', (invitation,)).fetchone()
    since = now() - DAY
    of_caller, = db.execute('SELECT count(*) FROM invitation WHERE caller = ? AND made > ?',
                            (row['caller'], since)).fetchone()
    to_one, = db.execute('SELECT count(*) FROM invitation WHERE mail = ? COLLATE NOCASE '
                         'AND made > ?', (row['mail'], since)).fetchone()
    if of_caller > INVITATIONS:
        raise TooMany(f'{row["caller"]} has sent {INVITATIONS} invitations within a day')
    if to_one > INVITATIONS_TO_ONE:
        raise TooMany(f'{INVITATIONS_TO_ONE} invitations went to {row["mail"]} within a day')
    if not is_address(row['mail']):
        raise ValueError(f'{clean(row["mail"])} is no mail address')
    fields = {'holder': row['caller'], 'user': row['name'] or '', 'time': row['ends'],
              'secret': secret}
    put(db, None, row['mail'], row['language'],
        Notice('invitation', f'invitation {invitation}', fields,
               'reset' if row['for_user'] else 'invitation'))


# -------------------------------------------------------------------- what is sent

WAITS = 'sent IS NULL AND given_up IS NULL'
OVER, GONE, NO_MAILER = 'the invitation is over', 'the user has ended', 'there is no mailer'
"""Why a mail is given up where nothing is wrong."""


def due(db: sqlite3.Connection, at: int, most: int) -> list[int]:
    """Mails whose time has come, the earliest first."""
    found = db.execute(f'SELECT id FROM mail WHERE {WAITS} AND next <= ? ORDER BY next, id LIMIT ?',
                       (at, most))
    return [number for number, in found]


def claim(db: sqlite3.Connection, number: int, at: int) -> Letter | None:
    """A mail to be sent now; None where it was meanwhile. The try is counted before it is made: a
    crash, or a disk that is full behind it, sends the mail once more after its pause, and not at
    each start."""
    row = db.execute(
        f'SELECT mail.*, user.language, user.ended FROM mail LEFT JOIN user ON user.id = mail.user '
        f'WHERE mail.id = ? AND {WAITS}', (number,)).fetchone()
    if row is None:
        return None
    if why := outdated(db, row, at):
        give_up(db, number, why, at)
        return None
    db.execute('UPDATE mail SET tries = tries + 1, next = ? WHERE id = ?',
               (at + pause_after(row['tries'] + 1), number))
    language = row['language'] or language_of(db, row['cause'])
    return Letter(number, row['address'], row['kind'], row['subject'], row['body'], language,
                  row['made'], message_id(db, row['address'], row['kind'], row['cause']))


def outdated(db: sqlite3.Connection, row: sqlite3.Row, at: int) -> str:
    """Why a mail is not worth sending any more; no text where it is."""
    if row['ended'] is not None:
        return GONE
    if row['kind'] != 'invitation':
        return 'nobody took it in five days' if at - row['made'] > PATIENCE else ''
    found = db.execute('SELECT used, revoked, ends FROM invitation WHERE id = ?',
                       (int(row['cause'].split()[-1]),)).fetchone()
    if found and found['used'] is None and found['revoked'] is None and found['ends'] > at:
        return ''
    return OVER


def language_of(db: sqlite3.Connection, cause: str) -> str:
    """The language of an invitation, whose mail is to no user yet."""
    word, _, number = cause.partition(' ')
    found = db.execute('SELECT language FROM invitation WHERE id = ?',
                       (int(number),)).fetchone() if word == 'invitation' else None
    return str(found['language']) if found else ''


def message_id(db: sqlite3.Connection, address: str, kind: str, cause: str) -> str:
    """The same for each try of a mail, by which a reader's mailer knows that it has it. Nobody else
    can make it."""
    digest = hmac.digest(secret_of(db), repr((address, kind, cause)).encode(), hashlib.sha256)
    return digest[:16].hex()


def mark_sent(db: sqlite3.Connection, number: int, at: int) -> None:
    """The mailer has taken it. Its text is not kept."""
    db.execute("UPDATE mail SET sent = ?, body = '', fault = NULL WHERE id = ?", (at, number))


def mark_failed(db: sqlite3.Connection, number: int, fault: str) -> None:
    """A try has failed. The next one comes after the pause that was set with it."""
    db.execute('UPDATE mail SET fault = ? WHERE id = ?', (clean(fault), number))


def give_up(db: sqlite3.Connection, number: int, fault: str, at: int) -> None:
    """It is not tried again. The doctor tells it."""
    db.execute("UPDATE mail SET given_up = ?, body = '', fault = ? WHERE id = ?",
               (at, clean(fault), number))


def prune(db: sqlite3.Connection, at: int, most: int = 1000) -> None:
    """Takes away old rows of what was sent or given up, some at once."""
    db.execute('DELETE FROM mail WHERE id IN (SELECT id FROM mail WHERE made < ? '
               'AND (sent IS NOT NULL OR given_up IS NOT NULL) ORDER BY id LIMIT ?)',
               (at - KEPT, most))
