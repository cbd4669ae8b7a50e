"""How the book of acts keeps what an act moved: few rows, however many lots a range goes through.

A transfer names one range of numbers, and the range may go through thousands of lots. A row for
each lot would make the book larger by a thousand times what was sent, as often as a holder moves
the range back and forth. Numbers of this registry's own lots follow each other as the lots do. So
a part of a range that has whole lots only is one row, which names the first and the last of these
lots; what the range has of the lots at its two ends is a row each. Which certificates each lot has
is in the lots.
"""
from collections.abc import Iterable
from collections.abc import Iterator
from dataclasses import dataclass
from dataclasses import replace

FEW = 3
"""Lots up to which each is a row of its own."""


@dataclass(frozen=True, slots=True)
class Way:
    """Place and account after an act, and before it."""

    kind: int
    account: int
    from_kind: int | None
    from_account: int | None


@dataclass(frozen=True, slots=True)
class Part:
    """Certificates of one lot, or of all lots from one to another, that went the same way."""

    first: int
    last: int
    lot: int
    to_lot: int
    is_own: bool
    """Whether this registry issued them, so that their lots are in the order of their numbers."""
    way: Way


def follows(before: Part, after: Part) -> bool:
    """Whether a part goes on where another one ends, and went the same way."""
    return before.last + 1 == after.first and before.way == after.way


def groups(parts: Iterable[Part]) -> Iterator[list[Part]]:
    """Parts that follow each other through own lots in their order."""
    group: list[Part] = []
    for part in parts:
        last = group[-1] if group else None
        if last and follows(last, part) and last.lot == part.lot:
            group[-1] = replace(last, last=part.last)
        elif last and follows(last, part) and last.is_own and part.is_own and last.lot < part.lot:
            group.append(part)
        else:
            yield group
            group = [part]
    yield group


def rows(parts: Iterable[Part]) -> Iterator[Part]:
    """The rows that are kept of the parts that an act moved."""
    for group in groups(parts):
        if len(group) <= FEW:
            yield from group
        else:
            begin, end = group[1], group[-2]
            yield from (group[0], replace(begin, last=end.last, to_lot=end.lot), group[-1])
