"""Sends what a second user has confirmed, until the log has answered for good.

What is confirmed stands in the file as `sending` before it is sent. Whatever ends this process, it
is sent again at the next start: its keys make that harmless.
"""
import asyncio
import datetime
import json
import sqlite3
import sys
import time
from collections.abc import Callable
from collections.abc import Coroutine
from dataclasses import dataclass
from dataclasses import field
from typing import Any
from typing import Protocol
from typing import TypeVar

from goo_service.people import log_line
from goo_service.people import loosening
from goo_service.people import outcomes
from goo_service.people import store
from goo_service.people import token_use
from goo_service.people import waiting
from goo_service.people.store import changing
from goo_service.people.waiting import Waits

EACH, SWEEP = 5, 60
"""Seconds between two rounds of what is not answered yet; between two looks at what has lapsed."""
LATER = 600
"""Seconds that are waited at most where the log says when to come again."""
T = TypeVar('T')


class OfFile(Protocol):
    """Does a piece of work over the file."""

    def __call__(self, work: Callable[[sqlite3.Connection], T]) -> Coroutine[Any, Any, T]:
        """What the work comes to."""


@dataclass(frozen=True, slots=True)
class Sent:
    """How far a confirmed request has come."""

    state: str
    status: int | None = None
    entry: int | None = None
    answer: str | None = None

    @property
    def body(self) -> bytes:
        members = {'state': self.state, 'status': self.status, 'entry': self.entry,
                   'answer': self.answer}
        return json.dumps(members, separators=(',', ':'), ensure_ascii=False).encode()


def time_of(moment: int) -> str:
    """A moment as answers have it: 2026-12-08T09:00:00Z."""
    return datetime.datetime.fromtimestamp(moment, datetime.timezone.utc).isoformat()[:19] + 'Z'


def text_of(waits: Waits) -> bytes:
    """A request that waited, as whoever asked, with the second user beside."""
    fields = {'GOO-Caller': waits.caller, 'GOO-User': waits.name, 'GOO-Role': waits.role,
              'GOO-Way': waits.way, 'GOO-Address': waits.address,
              'GOO-Confirmed': waits.decider or ''}
    return log_line.text_of('POST', waits.target, fields, waits.body)


@dataclass
class Sender:
    """Sends over one log."""

    log: str
    of_file: OfFile
    tasks: dict[int, 'asyncio.Task[Sent]'] = field(default_factory=dict)
    """What is being sent, by its number: nothing is sent twice at once."""
    later: dict[int, float] = field(default_factory=dict)
    """When the log wants to see a request again."""

    async def send(self, number: int) -> Sent:
        """Sends a confirmed request, unless that is under way or done."""
        task = self.tasks.get(number)
        if task is None:
            task = asyncio.get_running_loop().create_task(self.sent(number))
            self.tasks[number] = task
            task.add_done_callback(lambda _: self.tasks.pop(number, None))
        return await asyncio.shield(task)

    async def sent(self, number: int) -> Sent:
        waits = await self.of_file(lambda db: waiting.find(db, number))
        if waits is None:
            return Sent('unknown')
        if waits.state != 'sending' or waits.target == loosening.TARGET:
            return Sent(waits.state, waits.status,
                        answer=(waits.answer or b'').decode(errors='replace'))
        try:
            answer = await log_line.ask(self.log, text_of(waits))
        except (log_line.Away, log_line.NoAnswer, ValueError) as fault:
            print(f'gate: request {number} is sent again: {fault}', file=sys.stderr, flush=True)
            return Sent('sending')
        if answer.status not in outcomes.SURE:
            self.put_off(number, answer)
            return Sent('sending', answer.status)
        await self.finish(number, answer)
        entry = answer.fields.get('goo-entry', '')
        return Sent('sent', answer.status, int(entry) if entry.isdecimal() else None,
                    answer.body.decode(errors='replace'))

    async def finish(self, number: int, answer: log_line.Answer) -> None:
        """Keeps the answer. Where that can't be written it is sent again later, and repeated."""
        def work(db: sqlite3.Connection) -> None:
            done = outcomes.is_done(answer.status, answer.body)
            with changing(db):
                waiting.finish(db, number, answer.status, answer.body, done)
        try:
            await self.of_file(work)
        except (store.Fault, sqlite3.Error, OSError) as fault:
            print(f'gate: request {number} was answered {answer.status}: {fault}',
                  file=sys.stderr, flush=True)

    def put_off(self, number: int, answer: log_line.Answer) -> None:
        """Has a request wait for as long as the log asks for."""
        seconds = answer.fields.get('retry-after', '')
        if seconds.isdecimal():
            self.later[number] = time.monotonic() + min(int(seconds), LATER)

    # -------------------------------------------------------------- rounds

    async def rounds(self) -> None:
        """Sends again what is not answered, from the start on, and ends what has lapsed."""
        swept = 0.0
        while True:
            try:
                if time.monotonic() >= swept:
                    await self.of_file(sweep)
                    swept = time.monotonic() + SWEEP
                await self.round()
            except Exception as fault:          # whatever it is, the next round is tried
                print(f'gate: {type(fault).__name__}: {fault}', file=sys.stderr, flush=True)
            await asyncio.sleep(EACH)

    async def round(self) -> None:
        """What is confirmed, one after another, up to the first that the log does not answer."""
        for number in await self.of_file(waiting.sending):
            if self.later.get(number, 0.0) > time.monotonic():
                continue
            self.later.pop(number, None)
            came = await self.send(number)
            if came.state == 'sending' and came.status is None:
                return


def sweep(db: sqlite3.Connection) -> None:
    """Ends what has lapsed, and forgets the use of days that are over."""
    with changing(db):
        waiting.lapse(db)
        token_use.forget(db)
