"""Calls of etcd, by no more than its JSON gateway.

That is /v3/kv/range, txn and compaction, /v3/watch and /v3/maintenance/status.
"""
import asyncio
import base64
import json
import re
import ssl
from collections.abc import AsyncIterator
from collections.abc import Callable
from dataclasses import dataclass
from typing import Any

import aiohttp

from goo_service.log.options import EtcdOptions
from goo_service.log.store import Denied
from goo_service.log.store import NoAnswer
from goo_service.log.store import Point

PATIENCE, CONNECT = 2, 0.5
"""Seconds for an answer, and to reach a member: a host that is down is silent."""
BROKEN = (aiohttp.ClientError, OSError, TimeoutError, EOFError, ValueError, LookupError)
DENIED, EXHAUSTED = (3, 7, 12, 16), 8
"""gRPC's codes: the request, its sender or the call is not taken; a limit is reached."""
TOO_LARGE = re.compile('request is too large|larger than max')
Words = dict[str, Any]
"""A JSON object."""


@dataclass(frozen=True)
class Pair:
    """A key and its value."""

    key: str
    value: bytes


def fault_of(status: int, body: bytes) -> NoAnswer:
    """What an answer that is not 200 states.

    Of what else a limit may be for, some is told behind a transaction that took effect (NOSPACE),
    so that is no denial.
    """
    try:
        members = json.loads(body)
        code, text = members['code'], str(members.get('error') or members.get('message'))[:200]
    except (ValueError, TypeError, LookupError, AttributeError):
        return NoAnswer(f'{status} {body.decode(errors="replace")[:200]}')
    is_large = bool(TOO_LARGE.search(text))
    if code in DENIED or code == EXHAUSTED and is_large:
        return Denied(text, is_large)
    return NoAnswer(text)


class Etcd:
    """One call at a time: to the members in turn, the first one first."""

    def __init__(self, options: EtcdOptions) -> None:
        self.urls = options.etcd.split(',')
        self.tls: ssl.SSLContext | None = None
        if options.ca:
            self.tls = ssl.create_default_context(cafile=options.ca)
        if self.tls and options.cert:
            self.tls.load_cert_chain(options.cert, options.cert_key)
        self.at = 0
        self.session: aiohttp.ClientSession | None = None

    def post(self, path: str, words: Words, total: float | None) -> Any:
        """A call, as a context whose value is the response."""
        if self.session is None:
            self.session = aiohttp.ClientSession()
        timeout = aiohttp.ClientTimeout(total=total, sock_connect=CONNECT)
        url = f'{self.urls[self.at % len(self.urls)]}/v3/{path}'
        return self.session.post(url, data=json.dumps(words).encode(), timeout=timeout,
                                 ssl=self.tls)

    async def call(self, path: str, words: Words) -> Words:
        """The answer. NoAnswer is raised where none came, Denied where etcd will not do it."""
        try:
            async with self.post(path, words, PATIENCE) as response:
                body = await response.read()
            if response.status != 200:
                raise fault_of(response.status, body)
            return dict(json.loads(body))
        except (*BROKEN, NoAnswer) as fault:
            await self.turn()
            if isinstance(fault, NoAnswer):
                raise
            raise NoAnswer(f'{type(fault).__name__} {fault}') from fault

    async def watch(self, key: str, to: str, learn: Callable[[Pair], None],
                    opened: Callable[[], None]) -> None:
        """Gives each key and value that is put between two keys, until the connection ends."""
        words = {'create_request': {'key': b64(key), 'range_end': b64(to)}}
        try:
            async with self.post('watch', words, None) as response:
                async for line in lines_of(response.content):
                    opened()
                    for pair in put_in(json.loads(line)):
                        learn(pair)
        except BROKEN:
            pass
        await self.turn()

    async def turn(self) -> None:
        """The next call goes to the next member."""
        self.at += 1
        await self.close()

    async def close(self) -> None:
        if self.session:
            await self.session.close()
        self.session = None


async def lines_of(content: aiohttp.StreamReader) -> AsyncIterator[bytes]:
    """The lines that come, of any length."""
    text = b''
    async for part in content.iter_any():
        *lines, text = (text + part).split(b'\n')
        for line in lines:
            if line:
                yield line


def put_in(told: Words) -> list[Pair]:
    """What a line of a watch tells of keys that were put."""
    events = told.get('result', {}).get('events', ())
    return pairs({'kvs': [event['kv'] for event in events if event.get('type', 'PUT') == 'PUT']})


def one(options: EtcdOptions, path: str, words: Words) -> Words:
    """One call, of the first member that answers. What is called so may be called twice."""
    async def call() -> Words:
        etcd = Etcd(options)
        try:
            for _ in etcd.urls[1:]:
                try:
                    return await etcd.call(path, words)
                except NoAnswer:
                    pass
            return await etcd.call(path, words)
        finally:
            await etcd.close()
    return asyncio.run(call())


# ------------------------------------------------------------------ words and answers

def b64(text: str | bytes) -> str:
    return base64.b64encode(text if isinstance(text, bytes) else text.encode()).decode()


def put(key: str, value: str | bytes) -> Words:
    return {'request_put': {'key': b64(key), 'value': b64(value)}}


def range_of(key: str, to: str | None = None, limit: int = 0, nearest: bool = False) -> Words:
    """`nearest`: as the member has it that is called.

    All have agreed on that, but it is perhaps not the newest.
    """
    end = {'range_end': b64(to)} if to else {}
    return {'key': b64(key), 'limit': limit, 'serializable': nearest, **end}


def get(key: str, to: str | None = None, limit: int = 0, nearest: bool = False) -> Words:
    return {'request_range': range_of(key, to, limit, nearest)}


def delete(key: str, to: str | None = None) -> Words:
    end = {'range_end': b64(to)} if to else {}
    return {'request_delete_range': {'key': b64(key), **end}}


def is_value(key: str, value: str, result: str = 'EQUAL') -> Words:
    return {'key': b64(key), 'target': 'VALUE', 'result': result, 'value': b64(value)}


def is_there(key: str, there: bool = True) -> Words:
    return {'key': b64(key), 'target': 'VERSION', 'result': 'GREATER' if there else 'EQUAL',
            'version': 0}


def pairs(answer: Words) -> list[Pair]:
    """Keys and values of a range's answer."""
    return [Pair(base64.b64decode(kv['key']).decode(), base64.b64decode(kv.get('value', '')))
            for kv in answer.get('kvs', ())]


def ranges(answer: Words) -> list[Words]:
    return [of.get('response_range', {}) for of in answer.get('responses', ())]


# ------------------------------------------------------------------ the log's keys

class Keys:
    """The keys of a registry's log, by its code."""

    def __init__(self, code: int) -> None:
        self.root = f'/goo/{code:02}/'
        self.end = self.root + 'end'

    def log(self, n: int) -> str:
        return f'{self.root}log/{n:020}'

    def under(self, kind: str) -> tuple[str, str]:
        """The first and the last key of a kind."""
        return f'{self.root}{kind}/', f'{self.root}{kind}0'

    def aside(self, n: int, name: str = '') -> str:
        return f'{self.root}aside/{n:020}' + (f'/{name}' if name else '')


def end_in(answer: Words) -> Point:
    """The log's end, as a range's answer has it."""
    found = pairs(answer)
    if not found:
        raise NoAnswer('there is no log in this etcd')
    n, hashed, version = found[0].value.decode().split(' ', 2)
    return Point(int(n), hashed, version)


def as_text(point: Point) -> str:
    return f'{point.n} {point.hash} {point.version}'
