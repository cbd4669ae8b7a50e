"""Mails of whoever asks: address, language, and kinds that are switched off."""
from flask import Blueprint
from flask import Response

from goo_service.people import fresh
from goo_service.people import mail_choices
from goo_service.people import mails
from goo_service.people import viewer
from goo_service.people.mail_choices import Choice
from goo_service.people.mail_words import LANGUAGES
from goo_service.people.replies import Given
from goo_service.people.replies import Refused
from goo_service.people.replies import reply
from goo_service.people.store import changing


def blueprint() -> Blueprint:
    made = Blueprint('mail', __name__)
    made.add_url_rule('/me/mail', view_func=show)
    made.add_url_rule('/me/mail', endpoint='keep', view_func=keep, methods=['POST'])
    return made


def show() -> Response:
    return reply(mail_choices.shown(viewer.database(), viewer.viewer().id))


def keep() -> Response:
    """Another address asks for a second factor of now: what tells of a stolen session goes there,
    and so does a link for a new password."""
    of, db, given = viewer.viewer(), viewer.database(), Given.of_request()
    wanted = choice_of(given)
    if wanted.address != mail_choices.shown(db, of.id)['mail']:
        fresh.require(db, of, given)
    with changing(db):
        mail_choices.choose(db, of.id, of.doer, wanted)
    return reply(mail_choices.shown(db, of.id))


def choice_of(given: Given) -> Choice:
    address = given.mail('address') if given.members.get('address') else None
    language, off = given.text('language', 8), given.list_of('off', len(mails.KINDS))
    if language not in LANGUAGES:
        raise Refused(400, f'language: one of {", ".join(LANGUAGES)}')
    if any(kind not in mails.KINDS for kind in off) or len(set(off)) < len(off):
        raise Refused(400, f'off: kinds of {", ".join(mails.KINDS)}, each once')
    return Choice(address, language, off)
