"""Notices that a peer refused: told to those who see the account, and to the issuing body.

What became of a notice is no act of the log, so it is asked for now and then; an answer that is
still the same has no bytes.
"""
import datetime
import json
import sqlite3
from dataclasses import dataclass
from dataclasses import field

from goo_service.people import audience
from goo_service.people.happenings import Happening
from goo_service.people.happenings import tell_readers
from goo_service.people.happenings import tell_user
from goo_service.people.mails import Notice
from goo_service.people.records_client import NotNow
from goo_service.people.records_client import Records
from goo_service.people.records_client import Row
from goo_service.people.store import changing
from goo_service.rules.commands import ISSUER

LIMIT = 1000
"""Notices that are looked at, the newest first."""
DAYS = 60
"""Days of the registry for which a refusal is told. It is less than rows of mails are kept."""
REFUSED = 'refused'


def is_refused(row: Row, today: str) -> bool:
    """Whether a peer refused it, and lately."""
    first = datetime.date.fromisoformat(today) - datetime.timedelta(DAYS)
    return bool(row['sent'] and str(row['fate'] or '').startswith(REFUSED)
                and row['day'] >= first.isoformat())


def cause_of(row: Row) -> str:
    return f'notice {row["peer"]} {row["number"]} {row["day"]} {row["fate"]}'


@dataclass
class Refusals:
    """Looks at what became of notices."""

    records: Records
    db: sqlite3.Connection
    tag: str = ''
    holders: dict[int, str] = field(default_factory=dict)
    told: set[str] = field(default_factory=set)
    """Causes of what this process has told: all of it is told once, whoever tells it again."""

    def turn(self) -> None:
        """Tells of what was refused since."""
        given = {'If-None-Match': self.tag} if self.tag else {}
        answer = self.records.answer('notices', {'limit': LIMIT}, ISSUER, given)
        if answer.status == 304:
            return
        if answer.status != 200:
            raise NotNow(f'notices: {answer.status} {answer.text[:200].strip()}')
        read = json.loads(answer.body)
        for row in read['items']:
            cause = cause_of(row)
            if cause not in self.told and is_refused(row, read['stands']['today']):
                holder = self.holder(row['account'])
                with changing(self.db):
                    self.tell(row, cause, holder)
                self.told.add(cause)
        self.tag = answer.fields.get('etag', '')

    def holder(self, account: int) -> str:
        """Whose an account is. It stays so."""
        if account not in self.holders:
            found = self.records.ask('accounts', {'account': account, 'limit': 1})['items']
            self.holders[account] = str(found[0]['holder']) if found else ''
        return self.holders[account]

    def tell(self, row: Row, cause: str, holder: str) -> None:
        fields: dict[str, object] = {'peer': f'{row["peer"]:02}', 'number': row['number'],
                                     'why': row['fate']}
        counts = {int(row['account']): int(row['count'])}
        tell_readers(self.db, Happening('notice_refused', cause, holder, counts, fields))
        for user in audience.officers(self.db):
            tell_user(self.db, user, Notice('notice_refused', cause, {
                **fields, 'certificates': int(row['count']), 'accounts': sorted(counts)}))
