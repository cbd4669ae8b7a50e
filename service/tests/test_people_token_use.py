"""The quantity of a token in a day: refusals, repeats, requests without an answer, two at once.

The registry is a model of its own here: it keeps each key that it has accepted, and moves what a
request names once. Whatever comes, what it has moved in a day is within the token's quantity.
"""
import json
from dataclasses import dataclass
from dataclasses import field
from pathlib import Path
from typing import Any

import pytest
from gate_stage import BUNDLES
from gate_stage import GateStage
from gate_stage import REQUESTS
from gate_stage import cancel
from gate_stage import export
from gate_stage import text
from gate_stage import transfer
from goo_service.people import outcomes
from goo_service.people import store
from goo_service.people import token_use
from goo_service.people.judge import Passed
from goo_service.people.judge import Refused
from goo_service.people.judge import Verdict
from goo_service.people.store import changing
from goo_service.people.token_use import Fate
from hypothesis import HealthCheck
from hypothesis import given
from hypothesis import settings
from hypothesis import strategies as some

MOST = 100
ACCEPTED = b'{"outcome":"accepted","reply":{"count":1}}'
REPEATED = b'{"outcome":"repeated","reply":{"count":1}}'
NOT_HELD = b'{"code":17,"name":"NotHeld","number":"07000000000001","outcome":"refused"}'
KEY_REUSED = b'{"code":2,"name":"KeyReused","outcome":"refused"}'
FORBIDDEN = b'{"code":1,"name":"NotAllowed","outcome":"refused"}'


@pytest.fixture
def stage(tmp_path: Path) -> GateStage:
    made = GateStage(tmp_path / 'people' / 'people.db')
    made.user('anna')
    return made


def reserved(verdict: Verdict) -> token_use.Reserved:
    assert isinstance(verdict, Passed) and verdict.reserved, verdict
    return verdict.reserved


def settle(stage: GateStage, verdict: Verdict, body: bytes, status: int, answer: bytes = b'',
           target: str = REQUESTS) -> None:
    with stage.open() as db, changing(db):
        stage.judge.uses.settle(db, reserved(verdict),
                                outcomes.fates_in(target, body, status, answer))


def used(stage: GateStage) -> int:
    return int(stage.rows('SELECT coalesce(sum(quantity), 0) AS used FROM token_use')[0]['used'])


def answered(stage: GateStage, hold: str, request: dict[str, Any], status: int,
             answer: bytes = b'') -> None:
    settle(stage, stage.ask('anna', request, hold=hold), text(request), status, answer)


# ------------------------------------------------------------------ by example

def test_a_day_s_quantity_is_used_up_to_the_last_certificate(stage: GateStage) -> None:
    hold = stage.token('anna', scope='t', most=MOST)
    answered(stage, hold, transfer('a', 60), 200, ACCEPTED)
    verdict = stage.ask('anna', cancel('b', 41), hold=hold)
    assert isinstance(verdict, Refused) and verdict.status == 403
    assert verdict.members == {'error': 'the token nightly moves 100 certificates a day (UTC) at '
                                        'most: 60 are counted today, and this moves 41 more'}
    answered(stage, hold, export('b', 40), 200, ACCEPTED)
    assert isinstance(stage.ask('anna', transfer('c', 1), hold=hold), Refused)
    assert used(stage) == MOST
    assert isinstance(stage.ask('anna', transfer('c', 1)), Passed)      # his session has no bound
    other = stage.token('anna', 'other', 't', most=1)
    assert isinstance(stage.ask('anna', transfer('c', 1), hold=other), Passed)


@pytest.mark.parametrize(('status', 'answer', 'left'), [
    (200, ACCEPTED, 60), (200, REPEATED, 0), (409, NOT_HELD, 0), (409, KEY_REUSED, 0),
    (403, FORBIDDEN, 0), (400, b'{"fault":"Field","outcome":"unreadable"}', 0),
    (413, b'{"error":"large"}', 0), (500, b'Set aside\n', 0), (200, b'what?', 60),
    (429, b'{"error":"later"}', 60), (502, b'', 60), (503, b'', 60), (504, b'', 60), (0, b'', 60)])
def test_what_moved_nothing_is_given_back(stage: GateStage, status: int, answer: bytes,
                                          left: int) -> None:
    hold = stage.token('anna', scope='t', most=MOST)
    answered(stage, hold, transfer('a', 60), status, answer)
    assert used(stage) == left


@pytest.mark.parametrize(('again', 'left'), [
    ((200, REPEATED), 60), ((200, ACCEPTED), 60), ((409, NOT_HELD), 0), ((409, KEY_REUSED), 60),
    ((403, FORBIDDEN), 60), ((503, b''), 60)])
def test_after_no_answer_the_same_key_says_what_became_of_it(
        stage: GateStage, again: tuple[int, bytes], left: int) -> None:
    """It counts once. A refusal that comes after the look at the key says that it moved nothing."""
    hold = stage.token('anna', scope='t', most=MOST)
    answered(stage, hold, transfer('a', 60), 503)
    assert used(stage) == 60
    answered(stage, hold, transfer('a', 60), *again)
    assert used(stage) == left


def test_a_key_that_was_accepted_stays_counted_whatever_comes_under_it(stage: GateStage) -> None:
    hold = stage.token('anna', scope='t', most=MOST)
    answered(stage, hold, transfer('a', 60), 200, ACCEPTED)
    for other in ((409, KEY_REUSED), (403, FORBIDDEN), (413, b'{}'), (400, b'{}')):
        answered(stage, hold, transfer('a', 90), *other)
        assert used(stage) == 60


def test_two_at_once_count_both(stage: GateStage) -> None:
    hold = stage.token('anna', scope='t', most=MOST)
    one, other = (stage.ask('anna', transfer(key, 50), hold=hold) for key in 'ab')
    assert isinstance(stage.ask('anna', transfer('c', 1), hold=hold), Refused)
    settle(stage, one, text(transfer('a', 50)), 409, NOT_HELD)
    assert isinstance(stage.ask('anna', transfer('c', 50), hold=hold), Passed)
    settle(stage, other, text(transfer('b', 50)), 200, ACCEPTED)
    assert used(stage) == MOST


def test_one_key_twice_at_once_is_given_back_once_both_moved_nothing(stage: GateStage) -> None:
    hold = stage.token('anna', scope='t', most=MOST)
    one, other = (stage.ask('anna', transfer('a', 60), hold=hold) for _ in 'ab')
    assert used(stage) == 60
    settle(stage, one, text(transfer('a', 60)), 409, NOT_HELD)
    assert used(stage) == 60                    # the other one is under way, and may be accepted
    settle(stage, other, text(transfer('a', 60)), 200, ACCEPTED)
    assert used(stage) == 60 and not stage.judge.uses.flights


def test_each_line_of_a_bundle_counts_by_its_own_answer(stage: GateStage) -> None:
    hold = stage.token('anna', scope='t', most=MOST)
    lines = [transfer('a', 50), cancel('b', 30), transfer('c', 21)]
    assert isinstance(stage.ask('anna', *lines, hold=hold), Refused)
    lines[2] = transfer('c', 20)
    verdict = stage.ask('anna', *lines, hold=hold)
    settle(stage, verdict, text(*lines), 200, b'\n'.join([ACCEPTED, NOT_HELD, REPEATED]) + b'\n',
           BUNDLES)
    assert used(stage) == 50
    again = stage.ask('anna', *lines, hold=hold)
    settle(stage, again, text(*lines), 409, b'{"code":17,"line":1,"outcome":"refused"}', BUNDLES)
    assert used(stage) == 50


def test_another_day_has_the_whole_quantity_again(stage: GateStage,
                                                  monkeypatch: pytest.MonkeyPatch) -> None:
    hold = stage.token('anna', scope='t', most=MOST)
    verdict = stage.ask('anna', transfer('a', MOST), hold=hold)
    late = store.now() + 86_400
    monkeypatch.setattr(token_use, 'now', lambda: late)
    answered(stage, hold, transfer('b', MOST), 200, ACCEPTED)
    settle(stage, verdict, text(transfer('a', MOST)), 409, NOT_HELD)    # of the day before
    assert used(stage) == MOST
    monkeypatch.setattr(token_use, 'now', lambda: late + 4 * 86_400)
    with stage.change() as db:
        token_use.forget(db)
    assert used(stage) == 0


# ------------------------------------------------------------------ by chance

@dataclass
class Registry:
    """What moves certificates: each key once, with its first body."""

    kept: dict[str, int] = field(default_factory=dict)

    def answer(self, key: str, quantity: int, holds: bool) -> tuple[int, bytes]:
        if key in self.kept:
            return (200, REPEATED) if self.kept[key] == quantity else (409, KEY_REUSED)
        if not holds:
            return 409, NOT_HELD
        self.kept[key] = quantity
        return 200, ACCEPTED


STEP = some.tuples(some.sampled_from('abcd'), some.integers(1, 70), some.booleans(),
                   some.sampled_from(['answered', 'no answer', 'lost', 'later', 'revoked']))


@settings(max_examples=60, deadline=None,
          suppress_health_check=[HealthCheck.function_scoped_fixture])
@given(steps=some.lists(STEP, max_size=12))
def test_what_a_token_moves_in_a_day_is_within_its_quantity(
        tmp_path_factory: pytest.TempPathFactory, steps: list[Any]) -> None:
    """Requests under few keys, some lost before the registry, some without their answer, some that
    are answered only after others."""
    stage = GateStage(tmp_path_factory.mktemp('people') / 'made' / 'people.db')
    stage.user('anna')
    hold, registry = stage.token('anna', scope='t', most=MOST), Registry()
    late: list[tuple[Verdict, bytes, int, bytes]] = []
    for key, quantity, holds, how in steps:
        request = transfer(key, quantity)
        verdict = stage.ask('anna', request, hold=hold)
        if isinstance(verdict, Refused):
            continue
        status, answer = (0, b'') if how == 'lost' else registry.answer(key, quantity, holds)
        if how == 'later':
            late.append((verdict, text(request), status, answer))
        elif how == 'no answer':
            settle(stage, verdict, text(request), 0)
        else:
            settle(stage, verdict, text(request), status, answer)
        counted = used(stage)
        assert sum(registry.kept.values()) <= counted <= MOST
    for each in late:
        settle(stage, *each)
    assert sum(registry.kept.values()) <= used(stage) <= MOST
    assert not stage.judge.uses.flights


def test_nothing_says_more_than_an_answer_does() -> None:
    assert outcomes.fate_of(json.loads(ACCEPTED)) is Fate.MOVED
    assert outcomes.fate_of(json.loads(NOT_HELD)) is Fate.FREE
    for other in (REPEATED, KEY_REUSED, FORBIDDEN, b'{}', b'{"outcome":"set aside"}'):
        assert outcomes.fate_of(json.loads(other)) is Fate.NOTHING
