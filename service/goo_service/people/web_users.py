"""Users, their access and their invitations: routes of goo-people-web.

A change asks for a fresh second factor: a stolen cookie lets nobody in and gives nobody access.
"""
import re
import sqlite3

from flask import Blueprint
from flask import Response
from flask import request

from goo_service.people import acceptance
from goo_service.people import fresh
from goo_service.people import invitations
from goo_service.people import mails
from goo_service.people import participants
from goo_service.people import passwords
from goo_service.people import viewer
from goo_service.people import whose
from goo_service.people.invitations import Link
from goo_service.people.replies import Given
from goo_service.people.replies import Refused
from goo_service.people.replies import reply
from goo_service.people.viewer import Viewer

STATUSES: dict[type[Exception], int] = {
    participants.Unreadable: 400, participants.NotAllowed: 403, participants.NotFound: 404,
    participants.Conflict: 409, participants.TooMany: 429, mails.TooMany: 429}
WAIT = 3600
"""Seconds after which somebody who met a bound asks again."""
MOST_ACTS = 500
"""Acts of one answer."""


def blueprint() -> Blueprint:
    made = Blueprint('users', __name__)
    made.add_url_rule('/users', view_func=users)
    made.add_url_rule('/users/invite', view_func=invite, methods=['POST'])
    made.add_url_rule('/users/<name>/access', view_func=give, methods=['POST'])
    made.add_url_rule('/users/<name>/end', view_func=end, methods=['POST'])
    made.add_url_rule('/users/<name>/reset', view_func=reset, methods=['POST'])
    made.add_url_rule('/invitations', view_func=open_invitations)
    made.add_url_rule('/invitations/<int:number>/revoke', view_func=revoke, methods=['POST'])
    made.add_url_rule('/accept', view_func=accept, methods=['POST'])
    made.add_url_rule('/acts', view_func=acts)
    for fault in STATUSES:
        made.register_error_handler(fault, refused)
    return made


def refused(fault: Exception) -> Response:
    """A change that a participant may not make, as its sentence says."""
    status = STATUSES[type(fault)]
    return reply({'error': str(fault)}, status, wait=WAIT if status == 429 else 0)


def manager() -> tuple[Viewer, Given]:
    """Whoever changes users, with a second factor of now, and what he sends."""
    of, given = viewer.viewer(), Given.of_request()
    participants.manager_of(viewer.database(), of.doer)
    fresh.require(viewer.database(), of, given)
    return of, given


# -------------------------------------------------------------------- users

def users() -> Response:
    of, caller = viewer.viewer(), request.args.get('caller', '')
    return reply({'users': participants.users_of(viewer.database(), of.doer, caller[:16])})


def give(name: str) -> Response:
    """Access by account, and whether the user manages users; what is left out stays."""
    of, given = manager()
    access = given.members.get('access')
    rows = None if access is None else participants.parse_access(access)
    administrator = given.flag('administrator') if 'administrator' in given.members else None
    user = participants.managed(viewer.database(),
                                participants.manager_of(viewer.database(), of.doer), name)
    if rows is not None:
        whose.check_accounts(user['caller'], rows)
    participants.give(viewer.database(), of.doer, name, rows, administrator)
    return reply({})


def end(name: str) -> Response:
    of, _ = manager()
    participants.end_user(viewer.database(), of.doer, name)
    return reply({})


def reset(name: str) -> Response:
    """A link for a new password and new factors. It goes to the user's own address alone."""
    of, _ = manager()
    invitations.reset(viewer.database(), of.doer, name, queue)
    return reply({})


# -------------------------------------------------------------------- invitations

def queue(db: sqlite3.Connection, link: Link) -> None:
    """Puts the mail with a link into the queue."""
    mails.invite(db, link.number, link.secret)


def invite() -> Response:
    """The link is shown to whoever invites, for somebody who gets no mail: he has chosen the
    address himself, so it gives him nothing more."""
    of, given = manager()
    wanted = invitations.parse_wanted(of.caller, given.members)
    invitations.may_invite(viewer.database(),
                           participants.manager_of(viewer.database(), of.doer), wanted)
    whose.check_holder(wanted.caller)
    whose.check_accounts(wanted.caller, wanted.access)
    link = invitations.invite(viewer.database(), of.doer, wanted, queue)
    return reply({'number': link.number, 'mail': link.mail, 'ends': link.ends,
                  'secret': link.secret})


def open_invitations() -> Response:
    found = invitations.open_invitations(viewer.database(), viewer.viewer().doer)
    return reply({'invitations': found})


def revoke(number: int) -> Response:
    """Taking back gives nobody anything, so no second factor is asked for."""
    invitations.revoke(viewer.database(), viewer.viewer().doer, number)
    return reply({})


def accept() -> Response:
    """What an invitation offers; with a password, the user that it makes. For anybody who has the
    link. The password is hashed outside of the change: that takes a while."""
    given, db = Given.of_request(), viewer.database()
    secret = given.text('invitation', 200)
    offer = acceptance.offer_of(db, secret)
    of = offer.wanted
    if 'password' not in given.members:
        return reply({'caller': of.caller, 'role': of.role, 'administrator': of.administrator,
                      'mail': of.mail, 'language': of.language, 'ends': offer.ends,
                      'user': offer.name or None})
    name = offer.name or given.text('name', 200)
    password = given.text('password', passwords.LONGEST)
    if fault := passwords.fault_of(password, name):
        raise Refused(400, fault)
    if not offer.name:
        acceptance.check_name(db, offer, name)
    hashed = viewer.passwords().hash(password)
    return reply({'user': acceptance.accept(db, secret, name, hashed, viewer.address())})


# -------------------------------------------------------------------- acts

def acts() -> Response:
    """The acts of people, the newest first, those before the number `before`."""
    of = viewer.viewer()
    found = participants.acts_of(viewer.database(), of.doer, number_in('before', 2 ** 60, 0),
                                 number_in('limit', MOST_ACTS, 100))
    return reply({'acts': found})


def number_in(name: str, most: int, usual: int) -> int:
    """A number of the query."""
    text = request.args.get(name)
    if text is None:
        return usual
    if not re.fullmatch('[0-9]{1,19}', text) or not 1 <= int(text) <= most:
        raise Refused(400, f'{name}: a whole number of 1 to {most}')
    return int(text)
