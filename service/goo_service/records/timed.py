"""A connection to the book that ends when the time of an answer is over."""
import sqlite3
import time
from dataclasses import dataclass
from typing import Any

STEPS = 10_000
"""Steps of SQLite after which it is looked whether the time is over."""


@dataclass(frozen=True)
class Limits:
    """The most seconds of an answer and of a file, and how many files one process writes at once:
    half of its threads, so that the other half is there for questions."""

    question: float = 10
    file: float = 60
    files: int = 2
    waiting: int = 8
    """Readers in one process that wait for the next act. Its other threads answer."""


LIMITS = Limits()


class TooLong(Exception):
    """The time of an answer is over."""


class Timed(sqlite3.Connection):
    """A connection for one answer. No statement is begun once its time is over, and one that runs
    is ended."""

    end = float('inf')

    def set_end(self, end: float) -> None:
        self.end = end
        self.set_progress_handler(self.is_late, STEPS)

    def is_late(self) -> bool:
        return time.monotonic() > self.end

    def execute(self, *words: Any) -> sqlite3.Cursor:
        if self.is_late():
            raise TooLong
        return super().execute(*words)
