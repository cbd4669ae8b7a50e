"""What a user chooses about mails: where they go, in which language, and which kinds do not."""
import sqlite3
from collections.abc import Collection
from dataclasses import dataclass
from typing import Any

from goo_service.people import acts
from goo_service.people import mails
from goo_service.people.acts import Doer
from goo_service.people.mails import Notice
from goo_service.people.store import now


@dataclass(frozen=True)
class Choice:
    """An address, or none; a language; and the kinds that are switched off."""

    address: str | None
    language: str
    off: Collection[str]


def shown(db: sqlite3.Connection, user: int) -> dict[str, Any]:
    """What a user has chosen, and what there is to choose from."""
    row = db.execute('SELECT mail, language FROM user WHERE id = ?', (user,)).fetchone()
    off = [kind for kind, in db.execute('SELECT kind FROM mail_off WHERE user = ? ORDER BY kind',
                                        (user,))]
    return {'mail': row['mail'], 'language': row['language'], 'off': off,
            'kinds': list(mails.KINDS)}


def choose(db: sqlite3.Connection, user: int, doer: Doer, of: Choice) -> None:
    """Keeps a choice, inside a change. The address of before is told that it was taken away: it may
    not have been the user who did so."""
    before = db.execute('SELECT name, mail FROM user WHERE id = ?', (user,)).fetchone()
    db.execute('UPDATE user SET mail = ?, language = ? WHERE id = ?',
               (of.address, of.language, user))
    db.execute('DELETE FROM mail_off WHERE user = ?', (user,))
    db.executemany('INSERT INTO mail_off VALUES (?, ?)', [(user, kind) for kind in of.off])
    is_moved = before['mail'] != of.address
    acts.add(db, doer, 'mail_set', before['name'], {
        'address_changed': is_moved, 'language': of.language, 'off': sorted(of.off)})
    if before['mail'] and is_moved:
        at = now()
        mails.tell(db, user, Notice('address', f'mail {user} {at}',
                                    {'user': before['name'], 'time': at}), before['mail'])
