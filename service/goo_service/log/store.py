"""What the two stores of a log have in common: the log's end, their faults, and their interface."""
from collections.abc import Awaitable
from collections.abc import Callable
from dataclasses import dataclass
from typing import Protocol

from goo_service.log import entries
from goo_service.log.entries import Entry


@dataclass(frozen=True, slots=True)
class Point:
    """An end of the log: its last entry, that entry's hash, and the version after it."""

    n: int
    hash: str
    version: str


class NoAnswer(Exception):
    """The store said nothing definite: it may have done what it was sent, or may still do it."""


class Denied(NoAnswer):
    """The store will not do it, now or later.

    `is_large`: it is too large. `is_sure`: no earlier try of it was left without an answer.
    """

    def __init__(self, why: str, is_large: bool = False, is_sure: bool = True) -> None:
        super().__init__(why)
        self.is_large, self.is_sure = is_large, is_sure


class NoRoom(Exception):
    """The disk is full, and nothing was added."""


def after(entry: Entry, line: bytes) -> Point:
    """The end of a log whose last entry this is."""
    is_move = entry.method == 'VERSION'
    return Point(entry.n, entries.hash_of(line), entry.body.decode() if is_move else entry.version)


class Placed(Protocol):
    """Where a replica is: the last entry that is applied."""

    n: int
    hash: str
    chain: str


class Owner(Protocol):
    """What a store needs of the replica whose log it is."""

    halted: str

    @property
    def heard(self) -> int:
        """The last entry that it was told of."""

    def halt(self, why: str) -> None:
        """For good."""

    def warn(self, words: str) -> None:
        """Once in the journal."""

    def is_failing(self, patience: float) -> bool:
        """Whether the registry has failed at the entry in hand for so many seconds."""

    def learn(self, n: int, line: bytes) -> None:
        """An entry is in the log."""

    def wake(self) -> None:
        """The log may have grown."""


class Store(Protocol):
    """A log, as a replica sees it."""

    last: Point
    """Its end, as far as it is known."""
    most: int
    """Bytes of one append."""
    ahead: int
    """Entries that wait to be applied when the next append begins."""
    quorum: bool
    """Whether it answered last."""
    tells: bool
    """Whether the replica hears of each entry as it is appended."""
    at_once: bool
    """Whether an append is one call, as `add`."""

    async def end(self) -> Point:
        """The log's end, at or after the time of the call."""

    async def turn(self, end: Point) -> Point:
        """The log's end once it is this replica's turn to append."""

    def cost(self, size: int) -> int:
        """What a line of so many bytes is of `most`."""

    async def append(self, lines: list[bytes], end: Point, last: Point,
                     wanted: Callable[[], bool]) -> tuple[bool, Point | None]:
        """Whether the lines are in the log behind `end`, and the log's end, if it is known."""

    def add(self, lines: list[bytes], end: Point, last: Point) -> tuple[bool, Point]:
        """The same within one call, of a store that has it."""

    async def lines_from(self, n: int) -> list[bytes]:
        """Entries from n on, the first of perhaps many."""

    def lacks(self, n: int) -> bool:
        """Whether an entry was in the log and is no longer there."""

    async def is_aside(self, entry: Entry) -> bool:
        """Whether an entry that the registry cannot decide is set aside."""

    async def report(self, place: Placed, digests: dict[int, str]) -> str:
        """Tells others how far we are; why we are outvoted, if we are."""

    def prune(self, n: int) -> None:
        """All entries up to n are in the archive."""

    def trouble(self) -> str:
        """Why it takes nothing, if so."""

    def figures(self) -> dict[str, int]:
        """What /metrics shows of it."""

    def tasks(self, owner: Owner) -> list[Callable[[], Awaitable[None]]]:
        """What runs as long as the replica does."""
