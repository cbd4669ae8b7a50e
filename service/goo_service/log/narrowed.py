"""Reads of a user who may read only some accounts of his holder.

The front door names these accounts in GOO-Accounts. A statement is asked for by its account. A
certificate and a document of a cancellation name their account, so the answer is looked at before
it is told. A notice that was sent does not name the account that gave: it is refused.
"""
import json
import re

from goo_service.log.door import plain
from goo_service.log.registry import Answer

ACCOUNTS = re.compile('[0-9]{1,9}(,[0-9]{1,9}){0,255}')
STATEMENT = re.compile('/v1/accounts/([0-9]{1,9})/statement')
CERTIFICATE = '/v1/certificates/'
CANCELLATION = '/v1/cancellations/'
ACCOUNT = re.compile('account ([0-9]{1,9})')
Accounts = frozenset[int] | None
"""The accounts that may be read; None: all of the holder's."""


def accounts_in(field: str) -> Accounts:
    """The accounts that a field names. One in another form names none."""
    if not field:
        return None
    return frozenset(map(int, field.split(','))) if ACCOUNTS.fullmatch(field) else frozenset()


def is_asked(target: str, accounts: frozenset[int]) -> bool:
    """Whether the registry is asked at all."""
    if found := STATEMENT.fullmatch(target):
        return int(found[1]) in accounts
    return target.startswith((CERTIFICATE, CANCELLATION))


def narrow(target: str, answer: Answer, accounts: frozenset[int]) -> Answer:
    """The answer as such a user sees it: what is of another account is as a stranger's."""
    if answer.status != 200 or STATEMENT.fullmatch(target):
        return answer
    if target.startswith(CERTIFICATE):
        return answer if account_of_certificate(answer.body) in accounts else plain(404)
    return answer if account_of_document(answer.body) in accounts else plain(403)


def account_of_certificate(body: bytes) -> int | None:
    account = json.loads(body).get('account')
    return account if type(account) is int else None


def account_of_document(body: bytes) -> int | None:
    """The account of a cancellation: the fourth line of its document."""
    lines = body.decode().split('\n')
    found = ACCOUNT.fullmatch(lines[3]) if len(lines) > 3 else None
    return int(found[1]) if found else None
