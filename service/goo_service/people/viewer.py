"""Who asks goo-people-web, as the front door says it, and the file for one request.

nginx alone reaches the socket. It names whoever has signed in by fields of its own, as the question
to goo-people-who came out, and sends on nothing that the visitor wrote there.
"""
import sqlite3
from dataclasses import dataclass
from pathlib import Path

from flask import current_app
from flask import g
from flask import request

from goo_service.people import sessions
from goo_service.people import store
from goo_service.people import users
from goo_service.people.acts import Doer
from goo_service.people.passwords import Passwords
from goo_service.people.replies import Refused

PATH, PASSWORDS = 'goo_people_path', 'goo_people_passwords'


@dataclass(frozen=True)
class Viewer:
    """Whoever has signed in."""

    id: int
    user: str
    caller: str
    role: str
    """As the file has it: 'officer', 'second', 'auditor', 'meters', 'user', 'peer'."""
    administrator: bool
    hold: str
    """'s12' for a session, 't7' for a token, empty for a certificate."""
    address: str
    way: str
    """'session', 'token NAME', 'certificate', 'password', or 'enrol'."""

    @property
    def doer(self) -> Doer:
        """As acts name it."""
        return Doer(self.user, self.way, self.address, self.caller)

    @property
    def session(self) -> int:
        """The number of the session; 0 where it is none."""
        return int(self.hold[1:]) if self.hold.startswith('s') else 0


def database() -> sqlite3.Connection:
    """A connection to the file, closed when the request is answered."""
    if 'people_db' not in g:
        path: Path = current_app.config[PATH]
        g.people_db = store.open_file(path)
    db: sqlite3.Connection = g.people_db
    return db


def close_database(_: BaseException | None = None) -> None:
    if (db := g.pop('people_db', None)) is not None:
        db.close()


def passwords() -> Passwords:
    """What compares passwords, one for the process."""
    of: Passwords = current_app.config[PASSWORDS]
    return of


def field(name: str) -> str:
    """A field that the front door sets; empty where it does not, or twice."""
    values = request.headers.getlist(name)
    return values[0] if len(values) == 1 else ''


def address() -> str:
    return field('GOO-Address')


def net() -> str:
    """The visitor's network: an address, or the first 64 bits of an IPv6 address."""
    return field('GOO-Net') or address()


def site() -> str:
    """The name under which visitors reach this host."""
    return field('GOO-Site') or 'localhost'


def any_viewer() -> Viewer:
    """Whoever has signed in, in any way: a program with a token, a user who still has to add a
    second factor."""
    user = users.find(database(), field('GOO-User')) if field('GOO-User') else None
    if user is None or user.ended is not None:
        raise Refused(401, 'nobody is signed in')
    return Viewer(user.id, user.name, user.caller, user.role, user.administrator,
                  field('GOO-Hold'), address(), field('GOO-Way'))


def viewer() -> Viewer:
    """Whoever has signed in whole, as a person: by a session or a client certificate. A token
    manages neither users nor tokens."""
    of = any_viewer()
    if of.way not in ('session', 'certificate'):
        raise Refused(403, 'this is for a user who has signed in with a second factor')
    if of.way == 'session' and sessions.by_id(database(), of.session) is None:
        raise Refused(401, 'this session has ended')
    return of
