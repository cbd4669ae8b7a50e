"""Requests whose clients wait for an answer: until they are in the log, and until their outcome."""
import secrets
import time
from dataclasses import dataclass
from dataclasses import field

from goo_service.log import entries
from goo_service.log.day import Sent
from goo_service.log.door import Call
from goo_service.log.door import Reply
from goo_service.log.entries import Entry
from goo_service.log.registry import Answer
from goo_service.log.store import Point
from goo_service.log.store import Store

BATCH = 100
"""Requests of one append."""
QUEUE, HELD = 512, 64 << 20
"""Requests that wait for their answer, and the bytes of their lines."""
APPEND = 8
"""Seconds within which a request has to get into the log."""


@dataclass(eq=False, slots=True)
class Waiting:
    """A request whose client waits for the outcome of its entry."""

    call: Call
    reply: Reply
    id: str = field(default_factory=lambda: secrets.token_hex(8))
    began: float = field(default_factory=time.monotonic)
    entry: int = 0
    """Its number, once it is known to be in the log."""
    is_answered: bool = False
    """Be it by 503."""
    member: bytes = b''
    """Its body, as its line has it."""
    size: int = 0
    """Bytes of its line."""
    counted: int = 0
    """Those of them that are held as sent today."""

    def __post_init__(self) -> None:
        self.member = entries.body_member(self.call.body).encode()

    def is_given_up(self) -> bool:
        """Too late for any further append.

        Its client was told 503, or has gone, and may have sent it again elsewhere.
        """
        return self.is_answered or self.call.gone or time.monotonic() - self.began > APPEND

    def as_entry(self, end: Point, now: str, host: str) -> Entry:
        call = self.call
        return Entry(end.n + 1, end.hash, now, host, call.user, call.address, call.role,
                     call.caller, 'POST', call.target, end.version, self.id, call.body, call.way,
                     call.confirmed)


@dataclass
class Requests:
    """All requests that wait, and what they hold."""

    sent: Sent
    """What holders have sent today."""
    appending: list[Waiting] = field(default_factory=list)
    """Those that wait for an append, in their order."""
    pending: dict[str, Waiting] = field(default_factory=dict)
    """All that have no answer yet, by their ids."""
    held: int = 0
    """The bytes of their lines."""
    single: int = 0
    """So many appends have one request each, since the store denied them together."""
    longest: float = 0.0
    """Seconds of the longest wait since somebody last looked."""

    def is_full(self) -> bool:
        return len(self.pending) >= QUEUE or self.held > HELD

    def add(self, request: Waiting) -> None:
        self.sent.hold(request.call.caller, request.call.user, request.size)
        request.counted = request.size
        self.pending[request.id] = request
        self.held += request.size
        self.appending.append(request)

    def batch(self, store: Store) -> list[Waiting]:
        """The requests of the next append.

        They are looked at when the log's end is known: had one of them been sent again and
        answered before, through whatever replica, the end has moved on from this one and the
        append fails.
        """
        self.drop_given_up()
        count = size = 0
        most, self.single = 1 if self.single else BATCH, max(0, self.single - 1)
        for request in self.appending[:most]:
            size += store.cost(request.size)
            if count and size > store.most:
                break
            count += 1
        batch, self.appending = self.appending[:count], self.appending[count:]
        return batch

    def drop_given_up(self) -> None:
        self.appending = [request for request in self.appending if not request.is_given_up()]

    def release(self, request: Waiting | None) -> None:
        """Its bytes no longer wait: they are counted in the log, or never will be."""
        if request and request.counted:
            self.sent.release(request.call.caller, request.call.user, request.counted)
            request.counted = 0

    def finish(self, request: Waiting, answer: Answer) -> None:
        """Its client is answered."""
        request.is_answered = True
        del self.pending[request.id]
        self.held -= request.size
        self.release(request)
        self.note_wait(request.began)
        request.reply(answer, {'GOO-Entry': request.entry} if request.entry else {})

    def note_wait(self, began: float) -> None:
        self.longest = max(self.longest, time.monotonic() - began)
