"""Holds the registry still between two entries, while its file is copied.

A replica that gets `/replica/hold` applies no entry as long as the connection stays open. Whoever
ends first, and however, ends the hold: the operating system closes the connection. The replica
closes it too after a while, before it goes on.
"""
from collections.abc import Iterator
from contextlib import ExitStack
from contextlib import contextmanager
from dataclasses import dataclass
from typing import Any

from goo_service.common.client import Client
from goo_service.common.client import Kept
from goo_service.common.client import NoAnswer
from goo_service.log.entries import Broken

HOLD = 120
"""Seconds at most that nothing is applied."""
PATIENCE = 600
"""Seconds until the replica has to stand between two entries: it may be at a long one."""


@dataclass(frozen=True)
class Hold:
    """The entry at which the registry stands, and the connection that holds it there."""

    n: int
    hash: str
    chain: str
    version: str
    kept: Kept

    def lasts(self) -> bool:
        """Whether it has lasted up to now."""
        return self.kept.lasts()


@contextmanager
def hold_replica(address: str) -> Iterator[Hold]:
    """The replica that listens there applies nothing meanwhile."""
    with ExitStack() as stack:
        try:
            kept = stack.enter_context(Client(address, PATIENCE).keep_open('/replica/hold'))
        except NoAnswer as fault:
            raise Broken(f'no replica answers there: {fault}') from fault
        if kept.answer.status != 200:
            raise Broken(f'{address}: the replica answered {kept.answer.status} to /replica/hold')
        of: dict[str, Any] = kept.answer.members()
        yield Hold(of['n'], of['hash'], of['chain'], of['version'], kept)
