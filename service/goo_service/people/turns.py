"""Work that is done turn by turn, for as long as a process runs."""
import sqlite3
import threading
from collections.abc import Callable
from dataclasses import dataclass

from goo_service.people.mailer import Away
from goo_service.people.records_client import NotNow

SECOND = 1.0
WEARY = 5.0, 300.0
"""Seconds of the first pause after a fault, and of the longest."""


def say(text: str) -> None:
    print(f'people-post: {text}', flush=True)


@dataclass
class Part:
    """One of those that run side by side: a turn again and again, with a pause after a fault that
    grows while it lasts."""

    name: str
    turn: Callable[[], bool]
    """What it does; whether there is more to do at once."""
    ended: threading.Event
    faults: int = 0

    def run(self) -> None:
        while not self.ended.is_set():
            try:
                more = self.turn()
                self.faults = 0
            except (NotNow, Away, sqlite3.Error, OSError) as fault:
                self.tell(fault)
                self.ended.wait(self.pause())
            else:
                self.ended.wait(0 if more else SECOND)

    def tell(self, fault: Exception) -> None:
        """A fault that lasts is said now and then."""
        self.faults += 1
        if self.faults & (self.faults - 1) == 0:
            say(f'{self.name}: {fault}')

    def pause(self) -> float:
        return min(WEARY[0] * 2.0 ** min(self.faults - 1, 20), WEARY[1])
