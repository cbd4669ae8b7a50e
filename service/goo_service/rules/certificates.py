"""Where each certificate is, and where the numbers of a range are."""
import bisect
import collections
from collections.abc import Iterable
from collections.abc import Iterator
from typing import Any
from typing import NamedTuple
from typing import cast

from goo_service.rules.lots import Lot

PLACES = {1: 'held', 2: 'cancelled', 3: 'expired', 4: 'withdrawn', 5: 'exported'}
HELD, CANCELLED, EXPIRED, WITHDRAWN, EXPORTED = PLACES


class Place(NamedTuple):
    """Where a certificate is: a key of PLACES, the account, and the number of the act."""

    kind: int
    account: int
    act: int


Run = tuple[int, int, Lot, Place]
"""First and last number of certificates of one lot in one place."""


class Certificates:
    """The lot and the place of each certificate; and how many are in which place.

    They are kept as runs of numbers, which may be cut anywhere.
    """

    def __init__(self) -> None:
        self.firsts: list[int] = []
        self.runs: dict[int, tuple[int, Lot, Place]] = {}
        self.counts: collections.Counter[Place] = collections.Counter()

    def cut(self, number: int) -> None:
        """Has a run begin at this number, if one goes over it."""
        at = bisect.bisect_left(self.firsts, number) - 1
        if at < 0 or self.runs[self.firsts[at]][0] < number:
            return
        last, lot, place = self.runs[self.firsts[at]]
        self.runs[self.firsts[at]] = (number - 1, lot, place)
        self.runs[number] = (last, lot, place)
        self.firsts.insert(at + 1, number)

    def span(self, first: int, last: int) -> slice:
        """Where the first numbers of a range are among all."""
        return slice(bisect.bisect_left(self.firsts, first),
                     bisect.bisect_left(self.firsts, last + 1))

    def within(self, first: int, last: int) -> list[Run]:
        """The runs of the known numbers of a range."""
        self.cut(first)
        self.cut(last + 1)
        return [(number, *self.runs[number]) for number in self.firsts[self.span(first, last)]]

    def add(self, first: int, last: int, lot: Lot, place: Place) -> None:
        """Gives every number of a range this lot and this place."""
        for number, end, _, old in self.within(first, last):
            self.counts[old] -= end - number + 1
            del self.runs[number]
        self.firsts[self.span(first, last)] = [first]
        self.runs[first] = (last, lot, place)
        self.counts[place] += last - first + 1

    def move(self, runs: list[Run], kind: int, act: int = 0, account: int | None = None) -> int:
        """Gives the certificates of these runs another place; how many they are.

        It is of this account, or else of the one that each names.
        """
        for first, last, lot, place in runs:
            self.runs[first] = (last, lot, Place(kind, account or place.account, act))
            self.counts[place] -= last - first + 1
            self.counts[self.runs[first][2]] += last - first + 1
        return sum(last - first + 1 for first, last, *_ in runs)

    def longest_runs(self) -> list[Run]:
        """The longest runs of one lot and one place."""
        return cast(list[Run], join_runs((first, *self.runs[first]) for first in self.firsts))


def join_runs(runs: Iterable[tuple[Any, ...]]) -> list[tuple[Any, ...]]:
    """Runs in rising order, with those made one that follow each other and say the same."""
    longest: list[tuple[Any, ...]] = []
    for first, last, *rest in runs:
        if longest and longest[-1][1] == first - 1 and list(longest[-1][2:]) == rest:
            longest[-1] = (longest[-1][0], last, *rest)
        else:
            longest.append((first, last, *rest))
    return longest


def absent(runs: Iterable[Run], first: int, last: int) -> Iterator[int]:
    """The numbers of a range at which a gap between its known runs begins, rising."""
    for number, end, *_ in runs:
        if number > first:
            yield first
        first = end + 1
    if first <= last:
        yield first
