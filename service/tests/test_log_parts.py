"""Parts of the log's first process by themselves: who waits, what a day has, what is known."""
import datetime
import itertools
import json
from dataclasses import dataclass
from dataclasses import field
from pathlib import Path
from typing import Any
from typing import cast

import pytest
from goo_service.log import day
from goo_service.log import entries
from goo_service.log import waiting
from goo_service.log.door import Call
from goo_service.log.door import Fields
from goo_service.log.entries import Entry
from goo_service.log.known import Known
from goo_service.log.registry import Answer
from goo_service.log.store import Store
from goo_service.log.waiting import Requests
from goo_service.log.waiting import Waiting
from hypothesis import given
from hypothesis import strategies as some

KEY = b'a key of sixteen bytes or more'
NOW = datetime.datetime(2026, 3, 1, 12, tzinfo=datetime.timezone.utc)


@dataclass
class Log:
    """What of a store a batch depends on."""

    most: int

    def cost(self, size: int) -> int:
        return size + 1


@dataclass
class Client:
    """A request, and what its client is told."""

    size: int
    caller: str = 'SUN'
    told: list[tuple[int, Fields]] = field(default_factory=list)

    def reply(self, answer: Answer, fields: Fields, stays: bool = False) -> None:
        self.told.append((answer.status, fields))

    def request(self) -> Waiting:
        call = Call('POST', '/v1/requests', self.caller, 'u', 'a', 'full', body=b'{}')
        return Waiting(call, self.reply, size=self.size)


def requests_of(sizes: list[int]) -> tuple[Requests, list[Waiting]]:
    requests = Requests(day.Sent(Path('/nowhere'), 0))
    made = [Client(size).request() for size in sizes]
    for request in made:
        requests.add(request)
    return requests, made


def batches(requests: Requests, most: int) -> list[list[Waiting]]:
    """All appends, one after another."""
    log = cast(Store, Log(most))
    return list(itertools.takewhile(bool, (requests.batch(log) for _ in itertools.count())))


# ------------------------------------------------------------------ who waits

@given(some.lists(some.integers(1, 2000), max_size=250), some.integers(1, 5000))
def test_each_request_gets_into_one_append_in_its_order(sizes: list[int], most: int) -> None:
    requests, made = requests_of(sizes)
    found = batches(requests, most)
    assert [one for batch in found for one in batch] == made
    for batch in found:
        assert len(batch) <= 100
        assert len(batch) == 1 or sum(one.size + 1 for one in batch) <= most
    for batch, following in zip(found, found[1:]):       # none is cut off too early
        grown = [*batch, following[0]]
        assert len(batch) == 100 or sum(one.size + 1 for one in grown) > most


@given(some.lists(some.sampled_from(['waits', 'gone', 'answered', 'late']), max_size=30))
def test_who_was_given_up_gets_into_no_append(states: list[str]) -> None:
    """A copy of it may have been sent elsewhere, and answered (I4)."""
    requests, made = requests_of([9] * len(states))
    for request, state in zip(made, states):
        request.call.gone = state == 'gone'
        if state == 'answered':
            requests.finish(request, Answer(503, 'text/plain', b''))
        if state == 'late':
            request.began -= waiting.APPEND + 0.001
    found = [one for batch in batches(requests, 10_000) for one in batch]
    assert found == [one for one, state in zip(made, states) if state == 'waits']


def test_what_was_denied_together_is_sent_one_by_one() -> None:
    requests, _ = requests_of([5] * 8)
    requests.single = 3
    assert [len(batch) for batch in batches(requests, 1000)] == [1, 1, 1, 5]


def test_an_answer_names_its_entry_and_lets_go_of_what_was_held() -> None:
    client = Client(500)
    requests, _ = requests_of([])
    one, other = client.request(), Client(7).request()
    requests.add(one)
    requests.add(other)
    assert requests.sent.of('SUN', 'u') == (507, 507) and requests.held == 507
    one.entry = 12
    requests.finish(one, Answer(200, 'application/json', b'{}'))
    assert client.told == [(200, {'GOO-Entry': 12})]
    assert requests.sent.of('SUN', 'u') == (7, 7) and requests.held == 7
    assert list(requests.pending.values()) == [other] and not requests.is_full()


# ------------------------------------------------------------------ what a day has

USER = '"caller":"X"'


def line_of(n: int, caller: str, moment: datetime.datetime = NOW, user: str = USER) -> bytes:
    entry = Entry(n, 'p', moment.isoformat(timespec='microseconds')[:26] + 'Z', 'h', user,
                  'a', 'full', caller, 'POST', '/v1/requests', 'v', 'id', b'"caller":"Y"')
    return entries.entry_line(entry, KEY)


Sends = list[tuple[str, str, bool]]
"""Of each entry its caller, its user, and whether it is of today."""
SENDS = some.lists(some.tuples(some.sampled_from(['SUN', 'VOLT', 'Ä"']),
                               some.sampled_from(['anna', USER]), some.booleans()), max_size=20)


@given(SENDS, some.integers(0, 20))
def test_each_entry_of_the_day_counts_once_over_a_start(sends: Sends, cut: int) -> None:
    """A start reads the file, and counts the entries after the last one in it."""
    with pytest.MonkeyPatch.context() as patch:
        patch.setattr(day, 'now', lambda: NOW)
        path = Path('/dev/shm') / f'goo-test-day-{id(sends)}'
        try:
            wanted = count_with_a_start(sends, cut, path)
        finally:
            path.unlink(missing_ok=True)
    for who, (of_day, counted) in wanted.items():
        assert of_day == counted, who


def count_with_a_start(sends: Sends, cut: int, path: Path) -> dict[object, tuple[object, object]]:
    """By caller and user the bytes of their lines of today, and those that were counted."""
    sent = day.Sent(path, 0)
    lines = [line_of(n, caller, NOW if is_today else NOW - datetime.timedelta(1), user)
             for n, (caller, user, is_today) in enumerate(sends, 1)]
    for n, line in enumerate(lines, 1):
        sent.count(n, line)
        if n == cut:
            sent.save()
            sent = day.read(path, 0)
    for n, line in enumerate(lines, 1):
        sent.count(n, line)                             # those that it has are none again
    todays = [(caller, user, len(line)) for line, (caller, user, is_today) in zip(lines, sends)
              if is_today]
    return {(caller, user): (
        (sum(size for name, _, size in todays if name == caller),
         sum(size for *who, size in todays if who == [caller, user])), sent.of(caller, user))
        for caller, user, _ in sends}


def test_another_day_begins_with_nothing(monkeypatch: pytest.MonkeyPatch, tmp_path: Path) -> None:
    monkeypatch.setattr(day, 'now', lambda: NOW)
    sent = day.Sent(tmp_path / 'sent', 0)
    sent.count(1, line_of(1, 'SUN'))
    sent.hold('SUN', 'anna', 10)
    size = len(line_of(1, 'SUN'))
    assert sent.of('SUN', USER) == (size + 10, size) and sent.of('SUN', 'anna') == (size + 10, 10)
    monkeypatch.setattr(day, 'now', lambda: NOW + datetime.timedelta(1))
    assert sent.of('SUN', 'anna') == (10, 10)           # what waits will be of that day
    sent.release('SUN', 'anna', 10)
    assert sent.of('SUN', 'anna') == (0, 0) and not sent.waiting


@pytest.mark.parametrize('text', ['', '{', '[]', '{"day":1}', json.dumps({'day': 'x', 'entry': 1}),
                                  json.dumps({'day': 'x', 'entry': 1, 'bytes': 5}), '\udcff'])
def test_a_file_that_cannot_be_read_begins_the_day_anew(tmp_path: Path, text: str) -> None:
    path = tmp_path / 'sent'
    path.write_bytes(text.encode('utf-8', 'surrogateescape'))
    sent = day.read(path, 41)
    assert (sent.entry, sent.logged) == (41, {})


# ------------------------------------------------------------------ what is known

@given(some.lists(some.tuples(some.integers(1, 700), some.binary(min_size=1, max_size=9))),
       some.integers(0, 50))
def test_entries_that_were_told_of_are_there_once_and_without_a_gap(
        told: list[tuple[int, bytes]], place: int) -> None:
    known = Known()
    first: dict[int, bytes] = {}
    for n, line in told:
        known.learn(n, (line,), place)
        if place < n <= place + 512:
            first.setdefault(n, line)
    assert known.heard == max([n for n, _ in told], default=0)
    assert {n: text[0] for n, text in known.texts.items()} == first
    run = known.run_from(place + 1, 100)
    wanted = list(itertools.takewhile(first.__contains__, range(place + 1, place + 101)))
    assert [text[0] for text in run] == [first[n] for n in wanted]
    for n in (*first, 9999):
        known.forget(n)
    assert not known.texts and known.size == 0


def test_known_entries_have_a_bound_in_bytes() -> None:
    known = Known()
    big: Any = (bytes(20 << 20),)
    for n in (1, 2, 3):
        known.learn(n, big, 0)
    known.learn(4, (b'x',), 0)
    assert list(known.texts) == [1, 4] and known.heard == 4
