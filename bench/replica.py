#!/usr/bin/python3
"""Processor time of a write in the replica (service/goo_service/log/replica.py), part by part: the smallest of many runs, which depends little on what else the machine does.

usage: python3 bench/replica.py [RUNS]

Both of the replica's processes are played here, in one, with log and archive in /dev/shm. The registry is the program, in memory, which is asked for looks: what a question itself costs the replica
is the same for each. 32 writes come at once, as from 32 clients.
"""
import asyncio
import collections
import contextlib
import secrets
import socket
import subprocess
import sys
import tempfile
import time
from pathlib import Path

HERE = Path(__file__).resolve().parent
sys.dont_write_bytecode = True
sys.path[:0] = [str(HERE.parent / 'service'), str(HERE.parent / 'tools/lib')]
from goo_service.log import entries
from goo_service.log import apply
from goo_service.log import door
from goo_service.log import file_store
from goo_service.log import position
from client import listening
from measured import NEW, PROGRAM, row
from goo_service.log.registry import Answer

MANY, KEY = 32, b'the key of a trial'
BODY = b'{"command":"open_account","key":"w-5a1d7c80","holder":"SUN"}'
SAID = Answer(200, 'application/json', b'{"outcome":"accepted","reply":{"account":123}}')
HEAD = b'POST /v1/requests HTTP/1.1\r\nHost: goo\r\nConnection: close\r\nGOO-Caller: ISSUER\r\nGOO-User: anna\r\nGOO-Role: full\r\nGOO-Address: 192.0.2.7\r\nContent-Length: %d'


class Sent:
    """What the first process has sent."""

    def __init__(self):
        self.text = b''

    def write(self, text):
        self.text += text

    def get_write_buffer_size(self):
        return 1                        # so that all is written here

    def taken(self):
        text, self.text = self.text, b''
        return text


def replica_of(folder, port):
    """The two processes as objects, after the first entry of the log."""
    from goo_service.log import replica as module
    (folder / 'key').write_bytes(KEY)
    position.begin(folder / 'place', 0, secrets.token_hex(32))
    place = position.Place(folder / 'place')
    first = entries.Entry(1, place.hash, entries.now(), 'h1', '', '', 'full', 'ISSUER', 'VERSION', '', 'v', 'x', b'v')
    file_store.begin(folder / 'log', entries.entry_line(first, KEY), 1)
    place.close()
    words = module.parse_words(['--state', str(folder), '--store', str(folder / 'log'), '--key', str(folder / 'key'), '--registry', f'127.0.0.1:{port}', '--version', 'v'])
    near, far = socket.socketpair()
    second = apply.Applier(words, KEY, far)
    second.version = 'v'
    second.send_place()
    replica = module.Replica(words, KEY, near)
    replica.down, replica.version, replica.begun, replica.applier.transport = False, 'v', True, Sent()
    replica.store.at_once = False       # requests gather, though the first one is alone when it comes
    return replica, second, near


class Parts:
    """The smallest processor time of each part so far, in seconds a write."""

    def __init__(self):
        self.least = collections.defaultdict(lambda: float('inf'))

    @contextlib.contextmanager
    def part(self, name):
        began = time.thread_time_ns()
        yield
        self.least[name] = min(self.least[name], (time.thread_time_ns() - began) / MANY / 1e9)


async def taken_in(replica, parts, told):
    """In the first process: from the heads to the second process."""
    end = await replica.store.end()
    with parts.part('first process: heads, of which the first has not come before'):
        calls = [door.Call(*door.head_of(HEAD % (len(BODY) + secrets.randbelow(1000000) * (n == 0)))[0], BODY) for n in range(MANY)]
    with parts.part('first process: taken in'):
        for call in calls:
            replica.service.serve(call, lambda answer, fields: told.append(answer))
    with parts.part('first process: entries with their hashes, into the log'):
        await replica.appender.append_batch(replica.requests.batch(replica.store), end)
    with parts.part('first process: given to the second'):
        await replica.feeder.send_all(replica.known.run_from(end.n + 1, MANY))


def applied(replica, second, parts):
    """In the second process: from the first one to the outcomes."""
    with parts.part('second process: taken from the first'):
        for _, texts in second.frames.add(replica.applier.transport.taken()):
            second.queue.extend(texts)
    with parts.part('second process: questions to the registry'):
        for _ in range(MANY):
            second.registry.call('GET', '/v1/certificates/07000000000001', 'ISSUER', meanwhile=second.registry.connect_ahead)
    second.registry.close()
    with parts.part('second process: outcomes with their hashes, archive and place'):
        for line, entry, h in second.queue:
            second.finish(line, entries.Entry(*entry), h, SAID)
    second.queue.clear()
    with parts.part('second process: told to the first'):
        second.send_outcomes()


async def one_run(replica, second, near, parts):
    told = []
    await taken_in(replica, parts, told)
    applied(replica, second, parts)
    with parts.part('first process: answers, but for sending them'):
        replica.applier.data_received(near.recv(1 << 20))
    assert told == [SAID] * MANY


async def measured(port, runs):
    parts = Parts()
    with tempfile.TemporaryDirectory(dir='/dev/shm') as folder:
        replica, second, near = replica_of(Path(folder), port)
        second.step((await replica.store.lines_from(1))[0])
        second.send_outcomes()
        replica.feeder.handed, _ = 1, replica.feeder.sizes.append(0)
        replica.applier.data_received(near.recv(1 << 20))
        for _ in range(runs):
            await one_run(replica, second, near, parts)
    return parts.least


def main():
    port, registry, _ = listening(lambda port: subprocess.Popen([PROGRAM, 'serve', '--memory', *NEW, '--port', str(port), '--count', '1000000000'], stdout=subprocess.PIPE))
    try:
        least = asyncio.run(measured(port, int((sys.argv[1:] or ['200'])[0])))
    finally:
        registry.terminate()
        registry.wait()
    row(['Part of a write', 'Processor microseconds'])
    row(['---', '---'])
    for process in ('first', 'second'):
        own = {name: seconds for name, seconds in least.items() if name.startswith(process)}
        for name, seconds in [*own.items(), (f'{process} process: all of these', sum(own.values()))]:
            row([name, f'{seconds * 1e6:.1f}'])


if __name__ == '__main__':
    main()
