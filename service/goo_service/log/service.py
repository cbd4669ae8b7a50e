"""What a replica does with a request that came whole: a write, a read, a question about itself."""
import asyncio
import dataclasses
import datetime
import json
import time
from collections.abc import Coroutine
from pathlib import Path
from typing import TYPE_CHECKING
from typing import Any

from goo_service.log import bounds
from goo_service.log import bundles
from goo_service.log import day
from goo_service.log import entries
from goo_service.log import health
from goo_service.log import narrowed
from goo_service.log import roles
from goo_service.log import underway
from goo_service.log.closed import read_closed
from goo_service.log.door import Call
from goo_service.log.door import Fields
from goo_service.log.door import Reply
from goo_service.log.door import plain
from goo_service.log.door import refusal_answer
from goo_service.log.hold import HOLD
from goo_service.log.journal import write
from goo_service.log.registry import APPLY
from goo_service.log.registry import BROKEN
from goo_service.log.registry import Answer
from goo_service.log.store import NoAnswer
from goo_service.log.waiting import Waiting

if TYPE_CHECKING:
    from goo_service.log.replica import Replica

WRITES = (bounds.REQUESTS, bounds.TABLES, *bundles.ROUTES)
ROOM = 10
"""Seconds after which a bundle may be sent again that could not be rehearsed."""
READ = 2
"""Seconds that a read waits for the entries before it."""
WIDEST = 10 ** 9
"""A number of an entry as long as any."""


class Service:
    """Answers requests, as the door brings them."""

    def __init__(self, replica: 'Replica') -> None:
        self.replica = replica
        self.tasks: set[asyncio.Task[None]] = set()
        self.reading, self.holding = asyncio.Lock(), asyncio.Lock()

    def serve(self, call: Call, reply: Reply) -> None:
        """Has `reply` called with the answer to one request."""
        if call.method == 'POST' and call.target in WRITES:
            return self.write(call, reply)
        call.body = b''                         # nothing else has one, so none waits here
        self.keep(self.look(call, reply))

    def keep(self, work: Coroutine[Any, Any, None]) -> None:
        """asyncio itself may forget a task that nobody holds."""
        task = asyncio.create_task(work)
        self.tasks.add(task)
        task.add_done_callback(self.tasks.discard)

    async def look(self, call: Call, reply: Reply) -> None:
        """What is no write."""
        if call.target in ('/healthz', '/metrics'):
            return reply(self.own(call), {})
        if (call.method, call.target) == ('GET', '/replica/hold'):
            return await self.hold(call, reply)
        if call.method == 'GET' and call.target not in WRITES:
            if not self.may(call):
                return self.refuse_role(call, reply)
            return reply(*await self.read_own(call))
        try:                                    # 404 or 405, and nothing is changed
            answer = await self.replica.registry.fetch('HEAD', call.target, call.caller)
            reply(dataclasses.replace(plain(answer.status), allow=answer.allow), {})
        except (*BROKEN, KeyError):
            reply(plain(503), {})

    def own(self, call: Call) -> Answer:
        """The answer to a question about the replica itself."""
        if call.method != 'GET':
            return dataclasses.replace(plain(405), allow='GET')
        is_health = call.target == '/healthz'
        return health.health(self.replica) if is_health else health.metrics(self.replica)

    # -------------------------------------------------------------- what is refused

    def may(self, call: Call) -> bool:
        return roles.allows(call.role, call.method, call.target, call.body)

    def refuse_role(self, call: Call, reply: Reply) -> None:
        """What a role does not allow: the journal has it, and the log does not.

        The front door refuses it before, so this is one that came by another way.
        """
        self.replica.counts['role_refused'] += 1
        write(f'refused by role: {call.user} ({call.role}) {call.method} {call.target} '
              f'from {call.address}')
        reply(*refusal_answer(bounds.Refusal(
            403, f'the role {call.role} does not allow {call.method} {call.target}')))

    def refuse(self, refusal: bounds.Refusal, reply: Reply) -> None:
        """What is out of bounds never comes into the log."""
        self.replica.counts['beyond'] += 1
        reply(*refusal_answer(refusal))

    def beyond(self, call: Call) -> bounds.Refusal | None:
        """The bound that a write is beyond, if so.

        Nothing of the body is read before its length is looked at.
        """
        if call.target == bounds.TABLES:
            return bounds.of_table(call.body)
        closed = read_closed(Path(self.replica.options.closed))
        host = bounds.Host(datetime.date.today(), call.day, closed)
        if call.target in bundles.ROUTES:
            is_whole = call.target == bundles.WHOLE
            return bounds.of_bundle(call.caller, call.body, is_whole, host)
        return bounds.of_request(call.caller, call.body, host)

    # -------------------------------------------------------------- writes

    def write(self, call: Call, reply: Reply) -> None:
        """A write waits for the outcome of its entry, unless it is refused or none is taken."""
        replica = self.replica
        replica.counts['writes'] += 1
        if not call.caller:
            return reply(plain(403), {})
        if refusal := self.beyond(call):
            return self.refuse(refusal, reply)
        if not self.may(call):
            return self.refuse_role(call, reply)
        if replica.options.reads_only or replica.trouble():
            return reply(plain(503), {})
        if replica.journal.is_aside(call.caller, call.target, call.body):
            return reply(plain(entries.SET_ASIDE, 'Set aside'), {})
        if call.target == bundles.WHOLE:
            return self.keep(self.append_whole(call, reply))
        self.append(call, reply)

    async def append_whole(self, call: Call, reply: Reply) -> None:
        """A bundle that has to be rehearsed is no entry while there is no room for a rehearsal.

        In the log it would hold up all that comes after it.
        """
        if why := await underway.no_room(self.replica.options.rehearsal, call.caller):
            return self.refuse(bounds.Refusal(503, why, ROOM), reply)
        self.append(call, reply)

    def append(self, call: Call, reply: Reply) -> None:
        """A write that may become an entry, where its user and its holder have bytes left."""
        replica, request = self.replica, Waiting(call, reply)
        request.size = self.size_of(request)
        sent = replica.requests.sent.of(call.caller, call.user)
        if refusal := bounds.of_day(call.caller, *sent, request.size, day.now()):
            return self.refuse(refusal, reply)
        replica.appender.add(request)

    def size_of(self, request: Waiting) -> int:
        """The bytes of a request's line, at the most."""
        end = dataclasses.replace(self.replica.store.last, n=WIDEST)
        entry = request.as_entry(end, entries.now(), self.replica.options.name)
        return entries.length(entry, request.member)

    # -------------------------------------------------------------- reads

    async def read_own(self, call: Call) -> tuple[Answer, Fields]:
        """A read, of the accounts that the user may read."""
        accounts = narrowed.accounts_in(call.accounts)
        if accounts is None:
            return await self.read(call)
        if not narrowed.is_asked(call.target, accounts):
            return plain(403), {}
        answer, fields = await self.read(call)
        return narrowed.narrow(call.target, answer, accounts), fields

    async def read(self, call: Call) -> tuple[Answer, Fields]:
        """Of records that have all that was in the log when the read came.

        Where that cannot be, of the records as they stand, and the answer says so.
        """
        replica = self.replica
        replica.counts['reads'] += 1
        began = time.monotonic()
        fields: Fields = {}
        if not await self.is_current():
            if replica.halted or replica.outvoted or replica.options.strict:
                return plain(503), {}
            fields['GOO-Stale'] = '1'
        try:
            async with self.reading:        # one at a time, so the next entry waits for one read
                fields['GOO-Entry'] = replica.place.n
                answer = await replica.registry.fetch('GET', call.target, call.caller, APPLY)
                return answer, fields
        except BROKEN:
            return plain(503), {}
        finally:
            replica.requests.note_wait(began)

    async def is_current(self) -> bool:
        """Whether the records have, after a while, all that is in the log now."""
        replica = self.replica
        if replica.halted or replica.outvoted or not replica.store.quorum:
            return False
        try:
            async with asyncio.timeout(READ):
                end = await replica.store.end()
                if replica.place.n < end.n:
                    await replica.progress.wait_for(end.n)
            return True
        except (NoAnswer, TimeoutError):
            return False

    # -------------------------------------------------------------- the registry's file

    async def hold(self, call: Call, reply: Reply) -> None:
        """Nothing is applied, so that the registry's file can be copied.

        It lasts as long as the client keeps its connection. Both know the end: the connection is
        closed before the next entry is applied.
        """
        async with self.holding:
            if call.gone:
                return
            place, end = await self.replica.progress.hold(), time.monotonic() + HOLD
            told = {'n': place.n, 'hash': place.hash, 'chain': place.chain,
                    'version': self.replica.version}
            reply(Answer(200, 'application/json', json.dumps(told).encode() + b'\n'), {}, True)
            while not call.gone and time.monotonic() < end:
                await asyncio.sleep(0.02)
            if call.close:
                call.close()
            await asyncio.sleep(0.05)
            self.replica.progress.go()
