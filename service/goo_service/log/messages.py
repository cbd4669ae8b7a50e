"""What the two processes of a replica tell each other, by a pair of sockets.

A message is a tuple. The first process sends

  ('begin',)         the registry answers: begin
  ('apply', [..])    entries that are in the log: the line, and where it made them entry and hash
  ('soon',)          an entry comes next, after its append
  ('late',)          it does not: the disk is full
  ('version', text)  of the registry's program
  ('again',)         send the entry to the registry once more
  ('aside',)         the entry is set aside
  ('hold',)          stop between two entries
  ('go',)            go on with the next entry
  ('sync',)          archive and place to the disk

The second one sends

  ('place', n, hash, chain)      up to here all is applied
  ('ready',)                     the archive is applied whole
  ('applied', [..])              of each entry: n, hash, chain, id, status, kind, body
  ('alive',)                     the bundle in hand goes on
  ('failed', entry, why)         the registry gave no outcome: what now?
  ('waits', why)                 why it waits; '' once it goes on
  ('halted', why)                for good
  ('held', why, n, hash, chain)  between two entries; nothing is applied until `go`
  ('synced', n)                  archive and place are on the disk up to here
"""
import marshal
from collections.abc import Iterator
from typing import Any

Message = tuple[Any, ...]
Text = tuple[bytes] | tuple[bytes, tuple[Any, ...], str]
"""An entry as it is told: its line, and its members and its hash where they are known."""


def frame_of(*message: Any) -> bytes:
    text = marshal.dumps(message)
    return len(text).to_bytes(4, 'little') + text


class Frames:
    """Messages from the bytes that come."""

    def __init__(self) -> None:
        self.received = bytearray()

    def add(self, part: bytes) -> Iterator[Message]:
        """Adds what came; the messages that are whole."""
        self.received += part
        while len(self.received) >= 4:
            end = 4 + int.from_bytes(self.received[:4], 'little')
            if len(self.received) < end:
                return
            text = bytes(self.received[4:end])
            del self.received[:end]
            yield marshal.loads(text)
