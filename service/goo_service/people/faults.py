"""Which line of a body is not allowed, and why."""
from collections.abc import Callable
from collections.abc import Sequence
from dataclasses import dataclass

from goo_service.people.asked import Line


@dataclass(frozen=True, slots=True)
class LineFault:
    """A line that is not allowed."""

    number: int
    """Counted from 1."""
    key: str
    why: str


def first_fault(fault_of: Callable[[Line], str], lines: Sequence[Line]) -> LineFault | None:
    """The first line that is not allowed; None where all are."""
    for number, line in enumerate(lines, 1):
        if why := fault_of(line):
            return LineFault(number, line.key, why)
    return None
