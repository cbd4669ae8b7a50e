"""Follows the feed of the records: mails and deliveries for what happened to certificates.

An entry of the log may have thousands of acts, and an answer of the feed a part of them. What is
told of an entry is told once, with the sum of its acts, when all of them are read; the place behind
it is kept with the mails, in one transaction. So a crash at any step leaves the entry to be read
again, or told.
"""
import datetime
import sqlite3
from dataclasses import dataclass
from dataclasses import field

from goo_service.people.happenings import Happening
from goo_service.people.happenings import tell_readers
from goo_service.people.mails import PATIENCE
from goo_service.people.read_to import place_of
from goo_service.people.read_to import set_place
from goo_service.people.records_client import Records
from goo_service.people.records_client import Row
from goo_service.people.store import changing
from goo_service.people.store import now

READER = 'feed'
LIMIT = 500
"""Acts of an answer."""
WAIT = 30
TO, FROM, DOCUMENT = ('issue', 'import', 'transfer'), ('transfer', 'export'), ('cancellation',)
"""Kinds of acts by which certificates come in, are sent, and by which a document is made."""


@dataclass
class Entry:
    """What the acts of one entry come to."""

    number: int
    day: str
    time: str | None
    counts: dict[tuple[str, str], dict[int, int]] = field(default_factory=dict)
    """By what is told and the holder: how many certificates of each account."""
    documents: dict[str, tuple[int, int]] = field(default_factory=dict)
    """The first and the last cancellation of each holder."""

    def take(self, act: Row) -> None:
        for kind, side, kinds in (('came_in', 'taker', TO), ('sent', 'giver', FROM),
                                  ('document', 'giver', DOCUMENT)):
            party = act[side]
            if act['kind'] in kinds and party and party['holder'] and act['count']:
                of = self.counts.setdefault((kind, party['holder']), {})
                of[party['account']] = of.get(party['account'], 0) + int(act['count'])
                if kind == 'document':
                    first, _ = self.documents.setdefault(party['holder'],
                                                         (act['number'], act['number']))
                    self.documents[party['holder']] = first, act['number']

    def is_old(self) -> bool:
        """Whether it is too late to tell of it. Entries of before the log have no time."""
        if not self.time:
            return True
        at = datetime.datetime.fromisoformat(self.time.replace('Z', '+00:00'))
        return at.timestamp() < now() - PATIENCE

    def happenings(self) -> list[Happening]:
        """The time is a part of the cause: a registry that went back to a copy gives numbers of
        entries anew."""
        cause = f'entry {self.number} {self.time}'
        found = []
        for (kind, holder), counts in self.counts.items():
            fields: dict[str, object] = {'day': self.day, 'entry': self.number}
            if kind == 'document':
                fields['numbers'] = self.documents[holder]
            found.append(Happening(kind, cause, holder, counts, fields))
        return found


@dataclass
class Feed:
    """The reader, with the acts of an entry of which it has not read all."""

    records: Records
    db: sqlite3.Connection
    cursor: str = ''
    begun: dict[int, Entry] = field(default_factory=dict)
    today: str = ''
    """The registry's date by the last answer."""

    def turn(self, wait: int = WAIT) -> str | None:
        """Reads an answer and tells what it can; what there is to say of it."""
        place = place_of(self.db, READER)
        if place is None:
            return self.begin()
        given: dict[str, object] = {'after': self.cursor or place, 'limit': LIMIT,
                                    'outcome': 'accepted'}
        try:
            answer = self.records.ask('acts', {**given, 'wait': wait} if wait else given)
        except BaseException:
            self.forget()
            raise
        self.today = str(answer['stands']['today'])
        if int(answer['stands']['entry']) < int(place):
            return self.go_back(int(answer['stands']['entry']), place)
        for act in answer['items']:
            self.entry(act).take(act)
        self.tell_up_to(str(answer['next']))
        return None

    def begin(self) -> str:
        """What happened before the first start is not told."""
        stands = self.records.ask('acts', {'after': 0, 'limit': 1})['stands']
        self.today = str(stands['today'])
        with changing(self.db):
            set_place(self.db, READER, str(stands['entry']))
        return f'acts after entry {stands["entry"]} are told'

    def go_back(self, stands: int, place: str) -> str:
        """The registry went back to a copy."""
        self.forget()
        with changing(self.db):
            set_place(self.db, READER, str(stands))
        return f'the records stand at entry {stands}, before entry {place}: read from there'

    def entry(self, act: Row) -> Entry:
        number = int(act['entry'])
        return self.begun.setdefault(number, Entry(number, act['day'], act['time']))

    def tell_up_to(self, following: str) -> None:
        """Tells the entries that are read to their end. The other one waits for its rest."""
        last, _, rest = following.partition('.')
        for number in sorted(number for number in self.begun if number <= int(last)):
            self.tell(self.begun[number])
            del self.begun[number]
        if place_of(self.db, READER) != last:
            with changing(self.db):
                set_place(self.db, READER, last)
        self.cursor = following if rest else ''

    def tell(self, of: Entry) -> None:
        """One entry is one change: whoever signs in meanwhile waits for no more."""
        with changing(self.db):
            for happening in [] if of.is_old() else of.happenings():
                tell_readers(self.db, happening)
            set_place(self.db, READER, str(of.number))

    def forget(self) -> None:
        """Goes back to the place that is kept."""
        self.cursor, self.begun = '', {}
