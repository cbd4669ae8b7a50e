"""What registries show each other, and what a run keeps of a peer: the members of these JSON texts,
and the state of a peer as it is parsed."""
import json
import re
from dataclasses import dataclass
from dataclasses import field
from typing import Any
from typing import TypedDict
from typing import cast

from goo_service.exchange.common import Again

WORDS = re.compile(r'[A-Za-z0-9 :,.]{1,160}')
CHAIN = re.compile('[0-9a-f]{64}|')
POSITION = re.compile('[1-9][0-9]{0,8}')
MOST_COUNT = 10 ** 9


class Fate(TypedDict):
    """What became of a notice that was not imported."""

    became: str
    settled: bool


class Outgoing(TypedDict):
    """How many notices a registry shows to another, and the chain over them."""

    highest: int
    chain: str


class Incoming(Outgoing):
    """How many of the other's notices a registry has, of which generation, and what became of those
    that were not imported, by position."""

    generation: int
    refused: dict[str, Fate]


class State(TypedDict):
    """What a registry shows to another one, signed."""

    sender: int
    addressee: int
    generation: int
    restoring: bool
    outbox: Outgoing
    inbox: Incoming


class Known(TypedDict, total=False):
    """What a peer has of ours, by its last state; nothing before the first one."""

    generation: int
    highest: int
    chain: str
    refused: dict[str, Fate]
    restoring: bool
    shows: int


class Waiting(TypedDict):
    """A notice that was fetched and not imported, with the reason."""

    number: int | None
    became: str
    why: str
    released: bool


@dataclass
class Record:
    """What we know of a peer, as FOLDER/inbox/CC.json has it."""

    generation: int = 0
    """Its generation that we go by."""
    seen: int = 0
    """The one that it showed last."""
    highest: int = 0
    """How many positions were fetched ever."""
    chain: str = ''
    """The chain over them."""
    cursor: int = 0
    """How far they were delivered."""
    changed: str = ''
    """A position whose text was changed since."""
    proved: str = ''
    """Where the last one that was imported was seen in our registry."""
    waiting: dict[str, Waiting] = field(default_factory=dict)
    settled: dict[str, Waiting] = field(default_factory=dict)
    """Notices that were not imported, by position."""
    told: Known = field(default_factory=lambda: Known())
    """What it has of ours."""
    contact: str = ''
    """When its last state came."""


def is_count(value: object) -> bool:
    return type(value) is int and 0 <= value < MOST_COUNT


def is_fate(position: str, of: Any) -> bool:
    return bool(POSITION.fullmatch(position) and WORDS.fullmatch(of['became'])
                and type(of['settled']) is bool)


def is_state(state: Any, sender: int, addressee: int) -> bool:
    """Whether a JSON value is a state of this sender for this addressee."""
    ours = state['inbox']
    return ((state['sender'], state['addressee']) == (sender, addressee)
            and is_count(state['generation']) and type(state['restoring']) is bool
            and all(is_count(of['highest']) and bool(CHAIN.fullmatch(of['chain']))
                    for of in (state['outbox'], ours))
            and is_count(ours['generation'])
            and all(is_fate(*item) for item in ours['refused'].items()))


def parse_state(text: str, sender: int, addressee: int) -> State:
    """The state in a text. Again where it is no state of this sender for this addressee."""
    try:
        state = json.loads(text)
        is_good = is_state(state, sender, addressee)
    except (ValueError, TypeError, KeyError, AttributeError, RecursionError):
        is_good = False
    if not is_good:
        raise Again('what it shows as its state is none of its states for us')
    return cast(State, state)
