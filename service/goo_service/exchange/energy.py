"""Whether a device can have made what a peer brings of it: what exceeds that is held for the
operator.

A lot is what one device made in one period. The most that the registry itself lets a device declare
is its capacity in 24 hours a day, and one hour more for the change of the clocks; a certificate is
1 MWh, and what was carried from the period before is less than one.
"""
import datetime
import re
from collections.abc import Iterable
from collections.abc import Mapping
from dataclasses import dataclass
from dataclasses import field

from goo_service.exchange.common import Notice
from goo_service.exchange.common import Part
from goo_service.exchange.common import Span

MWH = 1_000_000
"""Wh of a certificate."""
DAY = re.compile('[0-9]{4}-[0-9]{2}-[0-9]{2}')
DEVICE = re.compile('[0-9]{18}')
LARGEST = 10 ** 11
"""W of the largest device that the registry takes."""
Period = tuple[str, str, str]
"""A device, the first day and the last day."""


@dataclass(frozen=True)
class Lot:
    """What a notice tells of a lot, as far as its energy goes."""
    device: str
    first_day: str
    last_day: str
    capacity: int

    @property
    def hours(self) -> int:
        first, last = map(datetime.date.fromisoformat, (self.first_day, self.last_day))
        return 24 * ((last - first).days + 1) + 1

    @property
    def period(self) -> Period:
        return self.device, self.first_day, self.last_day

    @property
    def most(self) -> int:
        """How many certificates the device can have made."""
        return (self.capacity * self.hours + MWH - 1) // MWH


def lot_of(part: Part) -> Lot | None:
    """The lot of a part. None where its values have another form: the registry refuses that
    notice."""
    of = part.lot if isinstance(part.lot, Mapping) else {}
    capacity = of.get('capacity_w')
    texts = [of.get(name) for name in ('device', 'first_day', 'last_day')]
    device, first_day, last_day = (text if isinstance(text, str) else '' for text in texts)
    if not (DEVICE.fullmatch(device) and DAY.fullmatch(first_day) and DAY.fullmatch(last_day)):
        return None
    if type(capacity) is not int or not 0 < capacity <= LARGEST:
        return None
    lot = Lot(device, first_day, last_day, capacity)
    try:
        return lot if lot.hours > 0 else None
    except ValueError:          # no day of the calendar
        return None


def merge_spans(ranges: Iterable[Span]) -> list[Span]:
    """The same numbers in as few ranges as there can be."""
    found: list[Span] = []
    for first, last in sorted(ranges):
        if found and first <= found[-1][1] + 1:
            found[-1] = (found[-1][0], max(last, found[-1][1]))
        else:
            found.append((first, last))
    return found


@dataclass
class Energy:
    """The certificates of a peer's own devices that have come from it, by device and period."""
    peer: int
    known: dict[Period, list[Span]] = field(default_factory=dict)

    def lots_of(self, notice: Notice) -> list[tuple[Lot, Span]]:
        """What a notice brings of the peer's own devices. What others made is no matter here."""
        parts = ((lot_of(part), part) for part in notice.parts if part.origin == self.peer)
        return [(lot, part.span) for lot, part in parts if lot]

    def gather(self, notice: Notice) -> dict[Period, list[Span]]:
        """The ranges of each device and period, those of this notice among them."""
        found: dict[Period, list[Span]] = {}
        for lot, numbers in self.lots_of(notice):
            before = found.get(lot.period, self.known.get(lot.period, []))
            found[lot.period] = merge_spans([*before, numbers])
        return found

    def doubt_about(self, notice: Notice) -> str:
        """Why a notice is held; nothing where each device can have made what came of it."""
        ranges = self.gather(notice)
        for lot, _ in self.lots_of(notice):
            count = sum(last - first + 1 for first, last in ranges[lot.period])
            if count > lot.most:
                return (f'with it {count} certificates of device {lot.device} for {lot.first_day} '
                        f'to {lot.last_day} have come, and at {lot.capacity} W it can have made '
                        f'{lot.most} at most')
        return ''

    def add(self, notice: Notice) -> None:
        """Notes a notice that was imported."""
        self.known.update(self.gather(notice))
