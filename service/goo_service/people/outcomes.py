"""What an answer of the log says of each request of a body: whether it may have moved anything."""
import json
from collections.abc import Iterator
from typing import Any

from goo_service.log import bundles
from goo_service.people.asked import lines_of
from goo_service.people.token_use import Fate

SURE = (200, 400, 403, 409, 413, 500)
"""Statuses by which the log has answered for good. After any other one nobody knows."""
BEFORE_THE_KEY = 2
"""Refusals up to this code say nothing of an earlier request under the key."""
DONE = ('accepted', 'repeated')


def fate_of(outcome: dict[str, Any]) -> Fate:
    """What one outcome says. Only a refusal that comes after the look at the key says that no
    request under the key was accepted before."""
    word, code = outcome.get('outcome'), outcome.get('code')
    if word == 'accepted':
        return Fate.MOVED
    is_free = word == 'refused' and isinstance(code, int) and code > BEFORE_THE_KEY
    return Fate.FREE if is_free else Fate.NOTHING


def outcomes_in(body: bytes) -> Iterator[dict[str, Any]]:
    """The outcomes of the lines of an answer. ValueError where one is none."""
    for line in bundles.lines_of(body):
        outcome = json.loads(line)
        if not isinstance(outcome, dict):
            raise ValueError(f'no outcome: {line[:80]!r}')
        yield outcome


def fates_in(target: str, body: bytes, status: int, answer: bytes) -> dict[str, Fate]:
    """What an answer says of each key of a body. A key that it leaves out may have moved."""
    keys = keys_of(target, body)
    if status not in SURE:
        return {}
    if status != 200:                   # nothing was carried out: of a bundle not one line
        return dict.fromkeys(keys, fate_of_refusal(answer) if len(keys) == 1 else Fate.NOTHING)
    try:
        return dict(zip(keys, map(fate_of, outcomes_in(answer)), strict=True))
    except (ValueError, RecursionError):
        return {}


def fate_of_refusal(answer: bytes) -> Fate:
    """What an answer says that is none of 200."""
    try:
        outcome, = outcomes_in(answer)
    except (ValueError, RecursionError):
        return Fate.NOTHING
    return Fate.FREE if fate_of(outcome) is Fate.FREE else Fate.NOTHING


def keys_of(target: str, body: bytes) -> list[str]:
    """The key of each line of a body."""
    return [line.key for line in lines_of(target, body)]


def is_done(status: int, answer: bytes) -> bool:
    """Whether each line was accepted, now or before."""
    if status != 200:
        return False
    try:
        return all(outcome.get('outcome') in DONE for outcome in outcomes_in(answer))
    except (ValueError, RecursionError):
        return False
