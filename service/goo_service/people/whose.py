"""Whose an account is, and which holders there are, as the records of acts have it.

The file of people knows no account. So the records are asked before access is given, and nothing
is given where they do not answer. The registry refuses what gets past them all the same.
"""
import os
from collections.abc import Iterable
from typing import Any

from goo_service.people.participants import Access
from goo_service.people.records_client import NotNow
from goo_service.people.records_client import Records
from goo_service.people.records_client import SOCKET
from goo_service.people.replies import Refused
from goo_service.rules.commands import ISSUER

PAGE, PAGES = 1000, 100
"""Accounts of a page, and pages that are read of one holder at most."""


def asked(caller: str, name: str, **given: object) -> dict[str, Any]:
    """What the records answer for a caller."""
    try:
        records = Records(os.environ.get('GOO_RECORDS_SOCKET') or SOCKET)
        return records.ask(name, given, caller)
    except NotNow as fault:
        raise Refused(503, 'the records do not answer: try again in a minute', 10) from fault


def accounts_of(holder: str) -> set[int]:
    """The accounts of a holder."""
    found: set[int] = set()
    after: dict[str, object] = {}
    for _ in range(PAGES):
        page = asked(holder, 'accounts', limit=PAGE, **after)
        found |= {int(of['number']) for of in page['items'] if of['holder'] == holder}
        if not page['next']:
            break
        after = {'after': page['next']}
    return found


def check_accounts(holder: str, access: Iterable[Access]) -> None:
    """Nobody gives access to an account that his holder has not. Account 0 is each of them."""
    named = {of.account for of in access} - {0}
    if named and (others := named - accounts_of(holder)):
        raise Refused(404, f'{holder} has no account {min(others)}')


def check_holder(caller: str) -> None:
    """Nobody is invited for a holder whom the registry has not."""
    if caller != ISSUER and not asked(ISSUER, 'holders', holder=caller)['items']:
        raise Refused(404, f'there is no holder {caller}')
