"""Carries out a plan in a registry of its own, and tells times and sizes.

The registry is a database in the folder `rehearsal`, made anew each time by the program itself, or
a copy of one that has accounts already. The program is started once: it judges all tables as it
opens them, which takes long where they are large. It listens on a port of a network of its own, so
that nobody else on the host reaches it. Nothing of the running registry is touched.
"""
import contextlib
import json
import re
import select
import shutil
import socket
import subprocess
import threading
import time
from collections.abc import Iterator
from concurrent.futures import ThreadPoolExecutor
from dataclasses import dataclass
from pathlib import Path

from goo_service.common.client import FULL
from goo_service.common.client import Client
from goo_service.common.client import NoAnswer
from goo_service.migrate import own_network
from goo_service.migrate import sending
from goo_service.migrate.sending import Show
from goo_service.migrate.settings import Settings
from goo_service.migrate.sums import Comparison
from goo_service.migrate.sums import compare

FOLDER, DATABASE = 'rehearsal', 'registry.db'
ROUTE, QUESTION, HOST = '/v1/requests', '/v1/accounts/1/statement', '127.0.0.1'
OPENS, PATIENCE = 4 * 3600, 300
"""Seconds for a program that judges a large database as it opens it; for an answer or an end."""


@dataclass(frozen=True)
class Rehearsed:
    """What a rehearsal took, and what came out."""

    requests: int
    seconds: float
    memory: int
    """The largest memory of the program, in bytes."""
    size: int
    """Bytes of the database."""
    opening: 'Opening'
    comparison: Comparison

    @property
    def text(self) -> str:
        rate = self.requests / self.seconds if self.seconds else 0
        return (f'{self.requests:,} requests in {self.seconds:,.0f} s ({rate:,.0f} a second), '
                f'{self.memory / 2 ** 20:,.0f} MiB of memory, '
                f'a database of {self.size / 2 ** 20:,.0f} MiB\n{self.opening.text}')


@dataclass(frozen=True)
class Opening:
    """What the program takes to open the result, as at each start of the registry."""

    seconds: float
    memory: int

    @property
    def text(self) -> str:
        return (f'opened again in {self.seconds:,.0f} s with {self.memory / 2 ** 20:,.0f} MiB of '
                'memory: MemoryMax= of goo.service has to be above')


def rehearse(folder: Path, settings: Settings, program: str, show: Show,
             copy: Path | None = None) -> Rehearsed:
    """Carries out the plan in a new registry, or in one like a copy. Stopped where a request is not
    answered as planned."""
    _, count = sending.planned(folder)
    place = folder / FOLDER
    shutil.rmtree(place, ignore_errors=True)
    place.mkdir()
    registry = place / DATABASE
    if copy:
        shutil.copyfile(copy, registry)
    else:
        called([program, 'init', '--db', str(registry), '--code', str(settings.new_code), '--today',
                settings.date])
    begun = time.monotonic()
    stop = threading.Event()
    with ThreadPoolExecutor(1) as alone:        # of which the network is, and the program in it
        try:
            served = Served(program, registry, count)
            memory = alone.submit(carry_out, folder, served, show, stop).result()
        finally:
            stop.set()
    seconds = time.monotonic() - begun
    opening = opened(program, registry)
    return Rehearsed(count, seconds, memory, registry.stat().st_size, opening,
                     compare(folder, settings, registry))


def opened(program: str, registry: Path) -> Opening:
    """Has the program open a database, and answer one question."""
    begun = time.monotonic()
    with Served(program, registry, 1).standing() as (client, number):
        done = Opening(time.monotonic() - begun, memory_of(number))
        client.get(QUESTION)
    return done


@dataclass(frozen=True)
class Served:
    """The program over a database, which answers so many connections and then ends by itself."""

    program: str
    registry: Path
    count: int

    @contextlib.contextmanager
    def standing(self) -> Iterator[tuple[Client, int]]:
        """The program and its number, from its start to its end. Stopped where it can't begin, or
        ends badly."""
        with socket.create_server((HOST, 0)) as free:
            port = free.getsockname()[1]
        words = [self.program, 'serve', '--db', str(self.registry), '--port', str(port),
                 '--count', str(self.count)]
        with subprocess.Popen(words, stdout=subprocess.PIPE, stderr=subprocess.PIPE) as process:
            try:
                output = process.stdout
                ready = output and select.select([output], [], [], OPENS)[0]
                if not ready or not ready[0].readline():
                    raise self.ended_badly(process)
                yield Client(f'{HOST}:{port}', PATIENCE, fields=FULL), process.pid
                if process.wait(PATIENCE):
                    raise self.ended_badly(process)
            finally:
                process.kill()

    def ended_badly(self, process: subprocess.Popen[bytes]) -> sending.Stopped:
        process.kill()
        said = process.stderr.read().decode(errors='replace') if process.stderr else ''
        return sending.Stopped(f'{self.program} serve: {said.strip() or "it does not begin"}')


def carry_out(folder: Path, served: Served, show: Show, stop: threading.Event) -> int:
    """Sends all requests to the program one after another, and judges each answer. What memory the
    program had before the last one: behind it the program ends."""
    own_network.enter()
    progress, memory = sending.Meter(served.count, 0, show), 0
    with served.standing() as (client, number):
        for step in sending.steps_in(folder):
            if stop.is_set():
                raise sending.Stopped('stopped')
            if progress.done == served.count - 1:
                memory = memory_of(number)
            try:
                answer = client.post(ROUTE, json.dumps(step.body, ensure_ascii=False).encode())
            except NoAnswer as fault:
                raise sending.Stopped(f'{served.program} serve: {fault}') from fault
            sending.judge(step, answer.members(), f'{answer.status} {answer.text[:300].strip()}')
            progress.add(1)
    return memory


def memory_of(number: int) -> int:
    """The largest memory of a process that runs, in bytes."""
    found = re.search(r'VmHWM:\s+(\d+) kB', Path(f'/proc/{number}/status').read_text())
    return int(found[1]) * 1024 if found else 0


def called(words: list[str]) -> None:
    """Calls a program that has to end well."""
    try:
        done = subprocess.run(words, capture_output=True, check=False, timeout=PATIENCE)
    except OSError as fault:
        raise sending.Stopped(f'{words[0]}: {fault.strerror}') from fault
    if done.returncode:
        raise sending.Stopped(f'{words[0]} {words[1]}: '
                              f'{done.stderr.decode(errors="replace").strip()}')
