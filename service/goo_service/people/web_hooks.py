"""Webhooks of whoever asks: made, shown, revoked."""
from flask import Blueprint
from flask import Response

from goo_service.people import acts
from goo_service.people import fresh
from goo_service.people import hooks
from goo_service.people import viewer
from goo_service.people.replies import Given
from goo_service.people.replies import Refused
from goo_service.people.replies import reply
from goo_service.people.store import changing


def blueprint() -> Blueprint:
    made = Blueprint('hooks', __name__)
    made.add_url_rule('/me/hooks', view_func=show)
    made.add_url_rule('/me/hooks', endpoint='make', view_func=make, methods=['POST'])
    made.add_url_rule('/me/hooks/<int:number>/revoke', view_func=revoke, methods=['POST'])
    return made


def show() -> Response:
    return reply({'hooks': hooks.of_user(viewer.database(), viewer.viewer().id),
                  'kinds': list(hooks.KINDS)})


def make() -> Response:
    """A new webhook, with the secret by which its messages are signed, which is shown this once. It
    asks for a second factor of now: it goes on telling when a stolen session is over. Without kinds
    it is told all of them."""
    of, db, given = viewer.viewer(), viewer.database(), Given.of_request()
    url, kinds = given.text('url', 500), given.list_of('kinds', len(hooks.KINDS))
    fresh.require(db, of, given)
    try:
        with changing(db):
            number, secret = hooks.make(db, of.id, url, kinds or hooks.KINDS)
            acts.add(db, of.doer, 'hook_made', f'webhook {number}', {'url': url, 'kinds': kinds})
    except hooks.Refused as fault:
        raise Refused(400, str(fault)) from fault
    return reply({'id': number, 'secret': secret})


def revoke(number: int) -> Response:
    of, db = viewer.viewer(), viewer.database()
    with changing(db):
        if not hooks.revoke(db, of.id, number):
            raise Refused(404, f'you have no webhook {number}')
        acts.add(db, of.doer, 'hook_revoked', f'webhook {number}')
    return reply({})
