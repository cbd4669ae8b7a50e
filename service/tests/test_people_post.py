"""What is told of what happened: the feed of the records, deadlines, refused notices, acts of
people."""
import contextlib
import datetime
import json
import sqlite3
from collections.abc import Iterator
from collections.abc import Mapping
from pathlib import Path
from typing import Any

import pytest
from hypothesis import HealthCheck
from hypothesis import given
from hypothesis import settings
from hypothesis import strategies as st

from goo_service.common.client import Answer
from goo_service.common.client import NONE
from goo_service.people import acts
from goo_service.people import deadlines
from goo_service.people import feed_reader
from goo_service.people import hooks
from goo_service.people import people_reader
from goo_service.people import store
from goo_service.people.acts import Doer
from goo_service.people.feed_reader import Feed
from goo_service.people.read_to import place_of
from goo_service.people.records_client import NotNow
from goo_service.people.records_client import Records
from goo_service.people.refused_notices import Refusals
from goo_service.rules.commands import ISSUER
from made_book import Made
from made_book import OWN
from people_file import add_user
from people_file import told

TOWN = 'Bäckerei Brömmelkamp'


class MadeRecords(Records):
    """The records of a made book, and how often they were asked."""

    def __init__(self, made: Made) -> None:
        super().__init__()
        self.__dict__.update(made=made, asked=0, fails_after=10 ** 9)

    def answer(self, name: str, parameters: Mapping[str, object], caller: str = ISSUER,
               fields: Mapping[str, str] = NONE) -> Answer:
        of: Any = self
        self.__dict__['asked'] += 1
        if of.asked > of.fails_after:
            raise NotNow('the records are being made')
        query = {key: value for key, value in parameters.items() if key != 'wait'}
        came = of.made.client().get(f'/records/v1/{name}', query_string=query,
                                    headers={'GOO-Caller': caller, **fields})
        return Answer(came.status_code, {key.lower(): value for key, value in came.headers},
                      came.data)


@pytest.fixture
def db(tmp_path: Path) -> Iterator[sqlite3.Connection]:
    store.make_file(tmp_path / 'people.db')
    opened = store.open_file(tmp_path / 'people.db')
    yield opened
    opened.close()


@pytest.fixture(autouse=True)
def time_of_the_book(monkeypatch: pytest.MonkeyPatch) -> None:
    """The made log is of one day, which is today."""
    at = int(datetime.datetime(2026, 2, 1, 12, tzinfo=datetime.UTC).timestamp())
    for module in ('feed_reader', 'mails', 'hooks'):
        monkeypatch.setattr(f'goo_service.people.{module}.now', lambda: at)


@pytest.fixture
def made(tmp_path: Path) -> Made:
    of = Made(tmp_path)
    of.country()
    return of


def users(db: sqlite3.Connection) -> dict[str, int]:
    """Of SUN one who sees all and one who sees account 1, of VOLT one."""
    return {'anna': add_user(db, 'anna', 'SUN', access=[(0, 1, 1, 1)]),
            'ben': add_user(db, 'ben', 'SUN', language='de', access=[(1, 1, 0, 0)]),
            'carl': add_user(db, 'carl', 'VOLT', access=[(2, 1, 0, 0)]),
            'office': add_user(db, 'office', ISSUER, role='officer')}


def send(made: Made, count: int, first: int = 1) -> None:
    made.must('SUN', 'transfer', giver=1, taker=2, first=f'{OWN + first:014}',
              last=f'{OWN + first + count - 1:014}')


# ------------------------------------------------------------------ the feed

def test_what_was_before_the_first_start_is_not_told(db: sqlite3.Connection, made: Made) -> None:
    users(db)
    feed = Feed(MadeRecords(made), db)
    assert feed.turn() == f'acts after entry {made.last} are told'
    feed.turn()
    assert told(db) == []
    assert place_of(db, 'feed') == str(made.last)


def test_each_side_is_told_of_its_own(db: sqlite3.Connection, made: Made) -> None:
    users(db)
    feed = Feed(MadeRecords(made), db)
    feed.turn()
    send(made, 10)
    made.must('SUN', 'cancel', account=1, first=f'{OWN + 11:014}', last=f'{OWN + 30:014}',
              beneficiary=TOWN, use_first='2025-01-01', use_last='2025-12-31')
    feed.turn()
    assert told(db) == [
        ('anna', 'document', 'A document was made for 20 certificates'),
        ('anna', 'sent', 'Sent: 10 certificates'),
        ('ben', 'document', 'Ein Entwertungsnachweis liegt vor: 20 Nachweise'),
        ('ben', 'sent', 'Übertragung: 10 Nachweise'),
        ('carl', 'came_in', 'Came in: 10 certificates')]
    for row in db.execute('SELECT subject, body FROM mail'):
        text = row['subject'] + row['body']
        assert TOWN not in text and '0700000' not in text, text
        assert 'VOLT' not in text and 'user-sun' not in text, text


def test_a_refused_request_is_not_told(db: sqlite3.Connection, made: Made) -> None:
    users(db)
    feed = Feed(MadeRecords(made), db)
    feed.turn()
    made.send('VOLT', 'transfer', giver=1, taker=2, first=f'{OWN + 1:014}', last=f'{OWN + 1:014}')
    feed.turn()
    assert told(db) == []


@settings(max_examples=25, suppress_health_check=[HealthCheck.function_scoped_fixture])
@given(st.lists(st.lists(st.integers(1, 4), min_size=1, max_size=5), min_size=1, max_size=4),
       st.integers(1, 4), st.integers(0, 30))
def test_an_entry_is_told_once_with_its_sum(tmp_path_factory: pytest.TempPathFactory,
                                            bundles: list[list[int]], limit: int,
                                            failing: int) -> None:
    """Bundles read page by page, by a reader that is ended at any answer and begun anew."""
    folder = tmp_path_factory.mktemp('feed')
    made = Made(folder)
    made.country()
    store.make_file(folder / 'people.db')
    db = store.open_file(folder / 'people.db')
    users(db)
    Feed(MadeRecords(made), db).turn()
    first = OWN
    for counts in bundles:
        lines = []
        for count in counts:
            made.keys += 1
            lines.append({'command': 'transfer', 'key': f'b{made.keys}', 'giver': 1, 'taker': 2,
                          'first': f'{first + 1:014}', 'last': f'{first + count:014}'})
            first += count
        made.send_bundle('SUN', lines)
    feed_reader.LIMIT, before = limit, feed_reader.LIMIT
    try:
        read_to_the_end(db, made, failing)
    finally:
        feed_reader.LIMIT = before
    sums = [sum(counts) for counts in bundles]
    assert [subject for _, _, subject in told(db, 'carl')] == [
        f'Came in: {count} certificate{"s" if count > 1 else ""}' for count in sums]
    db.close()


def read_to_the_end(db: sqlite3.Connection, made: Made, failing: int) -> None:
    """A reader that fails after so many answers, and one that begins where it was."""
    records = MadeRecords(made)
    records.__dict__['fails_after'] = failing
    feed = Feed(records, db)
    with contextlib.suppress(NotNow):
        while True:
            feed.turn()
            if place_of(db, 'feed') == str(made.last):
                return
    feed = Feed(MadeRecords(made), db)
    for _ in range(60):
        feed.turn()
        if place_of(db, 'feed') == str(made.last) and not feed.cursor:
            return
    raise AssertionError('the reader does not come to the end')


class Killed(BaseException):
    """The process has ended here."""


class Ends(sqlite3.Connection):
    """A connection whose process ends at a statement."""

    left = 10 ** 9

    def execute(self, *words: Any) -> sqlite3.Cursor:
        if self.left <= 0:
            raise Killed
        self.left -= 1
        return super().execute(*words)


def test_a_reader_killed_at_each_statement_loses_nothing(db: sqlite3.Connection, made: Made,
                                                         tmp_path: Path) -> None:
    """Each mail is there once when the reader that came after it has read on."""
    users(db)
    Feed(MadeRecords(made), db).turn()
    send(made, 3)
    send(made, 4, first=20)
    db.execute('PRAGMA wal_checkpoint(TRUNCATE)')
    steps, was_killed = 0, True
    while was_killed:
        path = tmp_path / f'{steps}.db'
        path.write_bytes((tmp_path / 'people.db').read_bytes())
        was_killed = ended_at(path, made, steps)
        again = store.open_file(path)
        Feed(MadeRecords(made), again).turn()
        assert [subject for _, _, subject in told(again, 'carl')] == [
            'Came in: 3 certificates', 'Came in: 4 certificates'], steps
        assert len(told(again)) == 6 and place_of(again, 'feed') == str(made.last)
        again.close()
        steps += 1
    assert steps > 30


def ended_at(path: Path, made: Made, steps: int) -> bool:
    """A turn of a reader that ends at a statement; whether it came to it."""
    db = sqlite3.connect(path, factory=Ends, isolation_level=None)
    assert isinstance(db, Ends)
    db.row_factory = sqlite3.Row
    db.left = steps
    try:
        Feed(MadeRecords(made), db).turn()
        return False
    except Killed:
        return True
    finally:
        db.left = 10 ** 9
        if db.in_transaction:
            db.rollback()
        db.close()


def test_a_registry_that_went_back_is_read_from_there(db: sqlite3.Connection, made: Made,
                                                      tmp_path: Path) -> None:
    users(db)
    Feed(MadeRecords(made), db).turn()
    db.execute("UPDATE read_to SET place = '5000'")
    feed = Feed(MadeRecords(made), db)
    assert 'before entry 5000' in (feed.turn() or '')
    send(made, 3)
    feed.turn()
    assert ('carl', 'came_in', 'Came in: 3 certificates') in told(db)


def test_an_old_entry_is_not_told(db: sqlite3.Connection, made: Made,
                                  monkeypatch: pytest.MonkeyPatch) -> None:
    users(db)
    feed = Feed(MadeRecords(made), db)
    feed.turn()
    send(made, 3)
    at = int(datetime.datetime(2026, 2, 7, tzinfo=datetime.UTC).timestamp())
    monkeypatch.setattr('goo_service.people.feed_reader.now', lambda: at)
    feed.turn()
    assert told(db) == [] and place_of(db, 'feed') == str(made.last)


# ------------------------------------------------------------------ deadlines

@pytest.mark.parametrize('left, step', [(61, None), (60, 60), (31, 60), (30, 30), (8, 30), (7, 7),
                                        (0, 7), (-1, None)])
def test_steps_of_a_deadline(left: int, step: int | None) -> None:
    day = datetime.date(2026, 1, 15) + datetime.timedelta(left)
    assert deadlines.step_of(day.isoformat(), '2026-01-15') == step


def days_of(made: Made, db: sqlite3.Connection, day: str) -> None:
    """The registry's date moves, and all holders are looked at."""
    if day != '2026-01-15':
        made.must(ISSUER, 'advance', day=day)
    while deadlines.turn(db, MadeRecords(made), day):
        pass


def test_deadlines_are_told_at_60_30_and_7_days_once(db: sqlite3.Connection, made: Made) -> None:
    """What is of January 2025 closes on 28 January 2026 and expires on 28 July, by the rules."""
    users(db)
    days_of(made, db, '2026-01-15')
    assert told(db, 'anna') == [('anna', 'deadline', 'Trade ends on 28 January 2026: '
                                                     '100 certificates')]
    days_of(made, db, '2026-01-15')
    days_of(made, db, '2026-01-21')
    days_of(made, db, '2026-01-22')
    assert len(told(db, 'anna')) == 2
    days_of(made, db, '2026-05-29')
    after = [subject for _, _, subject in told(db, 'anna')][2:]
    assert after == ['Expiry on 28 July 2026: 100 certificates',
                     'Trade ends on 28 June 2026: 100 certificates']
    days_of(made, db, '2026-07-01')
    assert [subject for _, _, subject in told(db, 'anna')].count(after[0]) == 2
    assert told(db, 'carl') == [] and told(db, 'office') == []


def test_a_holder_is_looked_at_once_a_day(db: sqlite3.Connection, made: Made) -> None:
    users(db)
    records = MadeRecords(made)
    assert deadlines.turn(db, records, '2026-01-15') and deadlines.turn(db, records, '2026-01-15')
    assert not deadlines.turn(db, records, '2026-01-15')
    assert records.__dict__['asked'] == 2
    assert deadlines.turn(db, records, '2026-01-16')


# ------------------------------------------------------------------ notices

def test_a_refused_notice_is_told_to_its_holder_and_the_body(db: sqlite3.Connection, made: Made,
                                                             tmp_path: Path) -> None:
    users(db)
    made.must(ISSUER, 'add_peer', peer=9)
    made.must('SUN', 'export', giver=1, peer=9, account=77, first=f'{OWN + 1:014}',
              last=f'{OWN + 5:014}')
    refusals = Refusals(MadeRecords(made), db)
    refusals.turn()
    refusals.turn()
    assert told(db) == []
    sent = {'number': 1, 'became': 'refused: UnknownAccount', 'settled': False}
    (tmp_path / 'state.json').write_text(json.dumps(
        {'peers': [{'registry': 9, 'sent': [sent], 'received': []}]}))
    refusals.turn()
    refusals.turn()
    Refusals(MadeRecords(made), db).turn()
    assert [(user, kind) for user, kind, _ in told(db)] == [
        ('anna', 'notice_refused'), ('ben', 'notice_refused'), ('office', 'notice_refused')]
    body, = db.execute('SELECT body FROM mail').fetchone()
    assert 'refused: UnknownAccount' in body and '5 certificates from account 1' in body


# ------------------------------------------------------------------ acts of people

def act(db: sqlite3.Connection, kind: str, about: str, user: str = 'anna',
        **detail: object) -> None:
    acts.add(db, Doer(user, 'session', '192.0.2.7', 'SUN'), kind, about, detail)


def wait_for(db: sqlite3.Connection, user: int, caller: str) -> int:
    done = db.execute(
        'INSERT INTO waiting (caller, user, way, hold, address, role, target, keys, body, digest, '
        "why, asked, ends, state) VALUES (?, ?, 'session', 's1', '', 'full', '/v1/requests', '[]', "
        "x'00', x'01', 'transfer above 1000', 5, 1800000000, 'waiting')", (caller, user))
    return int(done.lastrowid or 0)


def test_what_waits_and_what_became_of_it(db: sqlite3.Connection) -> None:
    of = users(db)
    add_user(db, 'dora', 'SUN', access=[(0, 1, 1, 0)])
    people_reader.turn(db)
    number = wait_for(db, of['anna'], 'SUN')
    for kind in ('waiting', 'confirmed', 'refused', 'lapsed', 'withdrawn'):
        act(db, kind, str(number), 'dora' if kind != 'waiting' else 'anna')
    assert people_reader.turn(db) and not people_reader.turn(db)
    assert told(db) == [
        ('anna', 'waits', f'Request {number} has lapsed'),
        ('anna', 'waits', f'Request {number} was confirmed'),
        ('anna', 'waits', f'Request {number} was refused'),
        ('dora', 'waits', 'A request waits for a second user')]


def test_changes_of_what_one_signs_in_with(db: sqlite3.Connection) -> None:
    users(db)
    people_reader.turn(db)
    act(db, 'password_set', 'ben')
    act(db, 'factor_added', 'anna', 'carl')
    act(db, 'factors_reset', 'carl', 'root')
    act(db, 'sign_in', 'anna', new_place=False)
    act(db, 'sign_in', 'anna', new_place=True)
    act(db, 'sign_in_refused', 'nobody', 'nobody')
    people_reader.turn(db)
    assert told(db) == [
        ('anna', 'new_place', 'Sign-in from a new place'),
        ('ben', 'password', 'Ihr Passwort wurde geändert'),
        ('carl', 'factor', 'A second factor was added'),
        ('carl', 'factor', 'A second factor was removed')]


def test_acts_of_before_the_first_start_are_not_told(db: sqlite3.Connection) -> None:
    users(db)
    act(db, 'password_set', 'ben')
    people_reader.turn(db)
    assert not people_reader.turn(db) and told(db) == []


# ------------------------------------------------------------------ deliveries beside mails

def test_a_program_gets_what_its_user_gets(db: sqlite3.Connection, made: Made) -> None:
    of = users(db)
    hooks.make(db, of['ben'], 'https://books.example.org/in', ['sent'])
    hooks.make(db, of['carl'], 'https://volt.example.org/in', ['document'])
    feed = Feed(MadeRecords(made), db)
    feed.turn()
    send(made, 10)
    feed.turn()
    rows = db.execute('SELECT * FROM delivery').fetchall()
    assert [row['hook'] for row in rows] == [1]
    body = json.loads(rows[0]['body'])
    assert {name: value for name, value in body.items() if name not in ('id', 'made')} == {
        'kind': 'sent', 'day': '2026-01-15', 'entry': made.last, 'certificates': 10,
        'accounts': [1]}
