"""What the certificates of one declaration have in common."""
import sys
from typing import Any
from typing import NamedTuple

from goo_service.rules.days import is_past
from goo_service.rules.days import months_after

MWH = 1_000_000
SERIALS = 10 ** 12
ELECTRICITY = 'electricity'


class Lot(NamedTuple):
    """What the certificates of one declaration state."""

    origin: int
    device: str
    country: str
    site: str
    tech: str
    source: str
    capacity_w: int
    commissioned: str
    support: str
    first_day: str
    last_day: str
    issued_on: str
    carrier: str

    @property
    def key(self) -> tuple[int, str, str]:
        return self.origin, self.device, self.first_day

    @property
    def expires_on(self) -> str | None:
        return months_after(self.last_day, 18)

    def is_closed(self, today: str) -> bool:
        """Whether its trade is over on a day."""
        return is_past(months_after(self.last_day, 12), today)

    def is_over(self, today: str) -> bool:
        """Whether its certificates can't be held any more on a day."""
        return is_past(self.expires_on, today)

    @staticmethod
    def parse(members: dict[str, Any]) -> 'Lot':
        """The lot that the part of a notice states. Of equal texts there is one in memory."""
        whole: dict[str, Any] = {'carrier': ELECTRICITY, **members}
        shared: dict[str, Any] = {name: sys.intern(value) if type(value) is str else value
                                  for name, value in whole.items()}
        return Lot(**shared)


LOT = Lot._fields
PLANT = ('country', 'site', 'tech', 'source', 'capacity_w', 'commissioned', 'support')
