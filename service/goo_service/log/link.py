"""The second process of a replica as it speaks with the first: what waits, and what is wanted."""
import os
import select
import socket
import time
from collections import deque
from typing import Any

from goo_service.log.messages import Frames
from goo_service.log.messages import Text
from goo_service.log.messages import frame_of
from goo_service.log.options import Options
from goo_service.log.registry import APPLY
from goo_service.log.registry import PART
from goo_service.log.registry import SOON
from goo_service.log.registry import EntryCalls


class Link:
    """Hears the first process and the registry, and tells the first one outcomes."""

    def __init__(self, options: Options, pair: socket.socket) -> None:
        self.options, self.pair = options, pair
        self.registry, self.frames = EntryCalls(options.registry, self.wait_for), Frames()
        self.poll = select.poll()
        self.poll.register(pair, select.POLLIN)
        self.queue: deque[Text] = deque()                   # entries that wait to be applied
        self.outcomes: list[tuple[Any, ...]] = []           # outcomes that wait to be sent
        self.wishes: set[str] = set()           # what else the first process wants
        self.verdict = ''                       # what it says of an entry that failed
        self.version, self.why = '', ''
        self.held = False                       # nothing is applied: the registry's file is copied

    def send(self, *message: Any) -> None:
        try:
            self.pair.sendall(frame_of(*message))
        except OSError:
            os._exit(1)

    def listen(self, seconds: float | None = None) -> None:
        """Waits for the first process, so long at most."""
        if self.poll.poll(None if seconds is None else seconds * 1000):
            self.receive()

    def receive(self) -> None:
        """Receives what the first process has sent."""
        try:
            part = self.pair.recv(PART)
        except OSError:
            part = b''
        if not part:
            os._exit(1)                         # it has ended: whatever is under way begins again
        kind = ''
        for kind, *members in self.frames.add(part):
            if kind == 'apply':
                self.queue.extend(members[0])
            elif kind == 'version':
                self.version = members[0]
            elif kind in ('again', 'aside'):
                self.verdict = kind
            elif kind != 'soon':
                self.wishes.add(kind)
        if kind == 'soon':
            if not self.why and not self.held:
                self.registry.connect_ahead()
            self.receive()          # the next message comes before it does anything else

    def wait_for(self, s: socket.socket) -> None:
        """Waits until something came from the registry, and listens to the first process too."""
        self.poll.register(s, select.POLLIN)
        try:
            end = time.monotonic() + APPLY
            while True:
                ready = self.poll.poll(SOON) if self.outcomes else []
                if not ready:
                    self.send_outcomes()        # nobody waits for an outcome behind a slow entry
                    ready = self.poll.poll(1000 * max(0, end - time.monotonic()))
                if not ready:
                    raise TimeoutError
                if any(one == self.pair.fileno() for one, _ in ready):
                    self.receive()
                if any(one == s.fileno() for one, _ in ready):
                    return
        finally:
            self.poll.unregister(s)

    def send_outcomes(self) -> None:
        if self.outcomes:
            self.send('applied', self.outcomes)
            self.outcomes = []

    def wait_because(self, why: str) -> None:
        """Tells why nothing goes on, or with no text that it does again."""
        if why != self.why:
            self.send_outcomes()
            self.registry.close()
            self.why = why
            self.send('waits', why)
