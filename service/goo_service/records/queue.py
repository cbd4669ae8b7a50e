"""What one thread reads ahead for another, bounded by its bytes and not by its number."""
import collections
import threading
from dataclasses import dataclass
from dataclasses import field
from typing import Generic
from typing import TypeVar

Thing = TypeVar('Thing')


@dataclass
class Ahead(Generic[Thing]):
    """Things in their order. Whoever puts one waits while `most` bytes of others are there."""

    most: int
    things: collections.deque[tuple[Thing, int]] = field(default_factory=collections.deque)
    size: int = 0
    changed: threading.Condition = field(default_factory=threading.Condition)

    def put(self, thing: Thing, size: int) -> None:
        """Adds a thing of so many bytes. One by itself may be of more than `most`."""
        with self.changed:
            self.changed.wait_for(lambda: not self.things or self.size + size <= self.most)
            self.things.append((thing, size))
            self.size += size
            self.changed.notify_all()

    def get(self, patience: float) -> Thing | None:
        """The next thing, or None where none came within so many seconds."""
        with self.changed:
            if not self.changed.wait_for(lambda: self.things, patience):
                return None
            thing, size = self.things.popleft()
            self.size -= size
            self.changed.notify_all()
            return thing
