"""What an entry comes to: the registry's outcome, of a bundle of lines too."""
import socket
import time
from collections.abc import Callable
from pathlib import Path
from typing import TypeVar

from goo_service.log import bundles
from goo_service.log import entries
from goo_service.log import roles
from goo_service.log import underway
from goo_service.log.entries import Entry
from goo_service.log.link import Link
from goo_service.log.options import Options
from goo_service.log.registry import BROKEN
from goo_service.log.registry import Answer

ALIVE = 1.0
"""Seconds after which the first process hears that a bundle goes on."""
TOGETHER = 8
"""Outcomes at most that are sent together while the registry is at the next entry."""
OUTCOMES = (200, 400, 403, 409)
"""What the registry decides. Anything else is the same entry again."""
ASIDE = Answer(entries.SET_ASIDE, 'text/plain; charset=utf-8', b'Set aside\n')
NOT_ALLOWED = Answer(403, 'text/plain; charset=utf-8', b'Forbidden\n')
NO_BUNDLE = Answer(400, 'text/plain; charset=utf-8', b'Bad Request\n')
REHEARSED = Answer(200, '', b'')
"""Each line of a bundle would be accepted."""
Written = TypeVar('Written')


class Decider(Link):
    """Asks the registry, until there is an outcome or the first process sets the entry aside."""

    def __init__(self, options: Options, pair: socket.socket) -> None:
        super().__init__(options, pair)
        self.refusals = underway.Refusals(Path(options.state) / 'bundle')
        self.told = 0.0                         # when the first process heard that a bundle goes on

    def decide(self, entry: Entry) -> Answer:
        """The registry's outcome. What the entry's role does not allow does not reach it."""
        if not roles.allows(entry.role, entry.method, entry.route, entry.body):
            return NOT_ALLOWED
        if entry.route in bundles.ROUTES:
            return self.bundle(entry)
        return self.outcome_of(entry, lambda: self.registry.call(
            'POST', entry.route, entry.caller, entry.body, self.meanwhile)) or ASIDE

    def outcome_of(self, entry: Entry, call: Callable[[], Answer]) -> Answer | None:
        """What a call comes to that is made until it has an outcome; None where it is set aside."""
        while True:
            try:
                answer = call()
                if answer.status in OUTCOMES:
                    return answer
                why = f'answered {answer.status}'
            except BROKEN as fault:
                why = f'{type(fault).__name__} {fault}'.strip()
            if self.is_given_up(entry, why):
                return None

    # ---------------------------------------------------------------- a bundle

    def bundle(self, entry: Entry) -> Answer:
        """The outcome of a bundle: refused whole, or of each of its lines."""
        try:
            bundles.read(entry.body)
        except bundles.Unreadable:              # a door of another version has let it in
            return NO_BUNDLE
        if entry.route == bundles.WHOLE:
            refused = self.outcome_of(entry, lambda: self.rehearse(entry))
            if refused is not REHEARSED:
                return refused or ASIDE
        kept = self.write_at_last(lambda: self.refusals.begin(underway.mark_of(entry)))
        return underway.apply_lines(entry, kept, self.keep_refusal,
                                    lambda body, goes_on: self.send_line(entry, body, goes_on))

    def rehearse(self, entry: Entry) -> Answer:
        """What a bundle would come to, by the records as they are between two entries."""
        self.registry.close()
        self.settle()
        address = self.options.rehearsal
        return underway.rehearse(address, entry, self.wait_for) or REHEARSED

    def send_line(self, entry: Entry, body: bytes, goes_on: bool) -> Answer | None:
        """The outcome of one line. The first process takes requests meanwhile."""
        if time.monotonic() - self.told > ALIVE:
            self.told = time.monotonic()
            self.send('alive')
        meanwhile = self.registry.connect_ahead if goes_on else self.meanwhile
        return self.outcome_of(entry, lambda: self.registry.call(
            'POST', '/v1/requests', entry.caller, body, meanwhile))

    def keep_refusal(self, number: int, body: bytes) -> None:
        self.write_at_last(lambda: self.refusals.keep(number, body))

    def write_at_last(self, write: Callable[[], Written]) -> Written:
        """What is written once the disk has room."""
        while True:
            try:
                made = write()
                self.wait_because('')
                return made
            except OSError as fault:
                self.wait_because(f'the state of a bundle cannot be written: {fault}')
                self.listen(0.5)

    def is_given_up(self, entry: Entry, why: str) -> bool:
        """Whether an entry without an outcome is set aside: the first process decides it."""
        self.send_outcomes()
        self.registry.close()
        self.verdict = ''
        self.send('failed', tuple(entry), why)
        while not self.verdict:
            self.listen()
        return self.verdict == 'aside'

    def meanwhile(self) -> None:
        """While the registry is at an entry: a connection for the next one, and outcomes go."""
        if self.queue and not self.wishes:
            self.registry.connect_ahead()
        if len(self.outcomes) >= TOGETHER:
            self.send_outcomes()

    def settle(self) -> None:
        while True:
            try:
                self.registry.call('GET', '/', 'ISSUER')
                return self.registry.close()
            except BROKEN:
                self.listen(0.5)
