"""What happened to certificates of a holder, told to those of his users who may see the account: by
mail, and to the programs that they named."""
import hashlib
import sqlite3
from collections.abc import Iterable
from collections.abc import Mapping
from dataclasses import dataclass
from dataclasses import field

from goo_service.people import hooks
from goo_service.people import mails
from goo_service.people.audience import readers
from goo_service.people.mails import Notice

FEW = 10


@dataclass(frozen=True)
class Happening:
    """Certificates of accounts of one holder, and what became of them."""

    kind: str
    cause: str
    holder: str
    counts: Mapping[int, int]
    """How many certificates of each account."""
    fields: Mapping[str, object] = field(default_factory=dict)
    text: str = ''


def tell_readers(db: sqlite3.Connection, of: Happening) -> None:
    """Queues a mail and deliveries for each user who sees one of the accounts, with the sum of
    those that he sees."""
    for user, seen in readers(db, of.holder, of.counts).items():
        accounts = sorted(seen)
        fields = {**of.fields, 'certificates': sum(of.counts[account] for account in accounts),
                  'accounts': accounts}
        cause = f'{of.cause} {of_accounts(accounts)}'
        tell_user(db, user, Notice(of.kind, cause, fields, of.text))


def tell_user(db: sqlite3.Connection, user: int, notice: Notice) -> None:
    """Queues a mail for one user, and what his programs get."""
    mails.tell(db, user, notice)
    hooks.queue(db, user, notice)


def of_accounts(accounts: Iterable[int]) -> str:
    """Accounts as a part of a cause: two users of one address may see different ones."""
    text = ','.join(map(str, accounts))
    return text if text.count(',') < FEW else hashlib.sha256(text.encode()).hexdigest()[:16]
