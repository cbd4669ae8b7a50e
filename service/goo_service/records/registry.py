"""A registry in memory that tells what each command changed, for the book of acts."""
import bisect
import zlib
from collections.abc import Iterator
from collections.abc import MutableMapping
from dataclasses import dataclass
from typing import Any

from goo_service.rules.certificates import Certificates
from goo_service.rules.certificates import HELD
from goo_service.rules.certificates import Place
from goo_service.rules.lots import Lot
from goo_service.rules.registry import Registry

Run = tuple[int, Lot, Place]
"""Its last number, its lot and its place."""


@dataclass(frozen=True, slots=True)
class Change:
    """Certificates of one lot that changed their place together. None was theirs where they are
    new."""

    first: int
    last: int
    lot: Lot
    before: Place | None
    after: Place


class Noted(dict[int, Run]):
    """Runs by their first numbers, which keep the numbers of those that were changed or removed."""

    def __init__(self) -> None:
        super().__init__()
        self.noted: set[int] = set()

    def __setitem__(self, first: int, run: Run) -> None:
        self.noted.add(first)
        super().__setitem__(first, run)

    def __delitem__(self, first: int) -> None:
        self.noted.add(first)
        super().__delitem__(first)


class Watched(Certificates):
    """Certificates that keep each change of place until it is fetched."""

    def __init__(self) -> None:
        super().__init__()
        self.runs: Noted = Noted()
        self.changes: list[Change] = []
        self.unwritten: set[int] = set()
        """First numbers of the runs that the book has not, or has as they were."""

    def add(self, first: int, last: int, lot: Lot, place: Place) -> None:
        known = [Change(number, end, lot, old, place)
                 for number, end, _, old in self.within(first, last)]
        super().add(first, last, lot, place)
        self.changes += known or [Change(first, last, lot, None, place)]

    def move(self, runs: list[Any], kind: int, act: int = 0, account: int | None = None) -> int:
        count: int = super().move(runs, kind, act, account)
        self.changes += [Change(first, last, lot, old, self.runs[first][2])
                         for first, last, lot, old in runs]
        return count

    def fetch_changes(self) -> list[Change]:
        """The changes since the last call. Runs that were cut and say the same are made one."""
        for first in sorted(self.runs.noted):
            if first in self.runs:
                self.join(self.runs[first][0] + 1)
                self.join(first)
        self.unwritten |= self.runs.noted
        self.runs.noted.clear()
        changes, self.changes = self.changes, []
        return changes

    def join(self, number: int) -> None:
        """Makes one of the run that begins here and the one before it, if they say the same."""
        at = bisect.bisect_left(self.firsts, number)
        if at and number in self.runs:
            before, (last, *says) = self.firsts[at - 1], self.runs[number]
            end, *others = self.runs[before]
            if end == number - 1 and others == says:
                self.runs[before] = (last, *self.runs[before][1:])
                del self.runs[number], self.firsts[at]

    def restore(self, first: int, last: int, lot: Lot, place: Place) -> None:
        """A run that the book has already, behind all others."""
        self.firsts.append(first)
        dict.__setitem__(self.runs, first, (last, lot, place))
        self.counts[place] += last - first + 1


class Packed(MutableMapping[tuple[int, int], str]):
    """Texts that are compressed: notices, of which few are asked for again."""

    def __init__(self) -> None:
        self.packed: dict[tuple[int, int], bytes] = {}

    def __setitem__(self, key: tuple[int, int], text: str) -> None:
        self.packed[key] = zlib.compress(text.encode(), 1)

    def __getitem__(self, key: tuple[int, int]) -> str:
        return zlib.decompress(self.packed[key]).decode()

    def __delitem__(self, key: tuple[int, int]) -> None:
        del self.packed[key]

    def __iter__(self) -> Iterator[tuple[int, int]]:
        return iter(self.packed)

    def __len__(self) -> int:
        return len(self.packed)


class WatchedRegistry(Registry):
    """The rules over certificates that keep their changes."""

    def __init__(self, code: int, begun: str, next_serial: int) -> None:
        super().__init__(code, begun, next_serial)
        self.certificates: Watched = Watched()
        self.taken = Packed()

    def restore(self, first: int, last: int, lot: Lot, place: Place) -> None:
        """Where a run is that is known already. What is held waits for its deadline."""
        self.certificates.restore(first, last, lot, place)
        if place.kind == HELD:
            self.expiring[lot.expires_on].append((first, last, lot))

    def forget(self) -> None:
        """Lets go of what only a list of all acts has, and no rule reads."""
        self.declarations.clear()
        self.corrections.clear()
        self.sent.clear()
