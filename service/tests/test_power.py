"""A power failure takes what was written and not synced; what was acknowledged is there.

strace sees what the log and the registry write and sync under a load. At chosen moments of it all
that was not synced goes, or a part by chance, and both are started over what is left.
"""
import datetime
import json
import random
import re
import shutil
import signal
import subprocess
import time
from collections.abc import Callable
from concurrent.futures import ThreadPoolExecutor
from dataclasses import dataclass
from dataclasses import field
from pathlib import Path
from typing import Any

import client
from goo_service.log import reader
from goo_service.log import entries
import pytest
from disk import Call
from disk import Disk
from disk import read_trace
from disk import watch
from calls import Answer
from calls import Country
from house import House
from calls import ISSUER
from calls import read_answer
from parts import NotStarted
from parts import Part
from plants import append
from plants import copied
from plants import plant

SLOW = 0.012
"""Seconds that each sync of the log takes longer: a disk on which much lies between two steps."""
CLIENTS = 3
REQUESTS = 8
"""Of each client, one after another; before them twice as many of one that is alone."""
FIRST_DAY = datetime.date(2024, 6, 1)
Request = tuple[str, str, bytes]


class Lost(AssertionError):
    """What is not there after a power failure, or is otherwise than it was."""


@dataclass(frozen=True)
class Asked:
    """A request, and what its client was told."""

    caller: str
    route: str
    body: bytes
    answer: Answer


@dataclass
class Load:
    """What was asked of a house, and what strace saw meanwhile."""

    house: House
    begun: Disk
    asked: list[Asked] = field(default_factory=list)
    calls: list[Call] = field(default_factory=list)

    def syncs_of_log(self) -> list[int]:
        """Where a sync of the log ended."""
        log = self.house.state / 'log'
        return [at for at, call in enumerate(self.calls)
                if call.name in ('fsync', 'fdatasync') and call.path and call.path.parent == log]

    def answers(self) -> list[int]:
        """Where an answer had been sent to a client."""
        return [at + 1 for at, call in enumerate(self.calls) if entry_told(call)]

    def disk(self, moment: int) -> Disk:
        """The disk after so many calls."""
        disk = self.begun.copied()
        for call in self.calls[:moment]:
            disk.take(call)
        return disk

    def told(self, moment: int) -> dict[int, Asked]:
        """What was acknowledged by then, by its entry."""
        sent = {entry_told(call) for call in self.calls[:moment]}
        return {one.answer.entry: one for one in self.asked if one.answer.entry in sent}


def entry_told(call: Call) -> int:
    """The entry whose answer a call sends to a client; 0 if it sends none."""
    text = b''.join(call.texts)
    if text.startswith(b'HTTP/1.1 ') and b'GOO-Entry: ' in text:
        return int(text.split(b'GOO-Entry: ')[1].split(b'\r\n')[0])
    return 0


# -------------------------------------------------------------------- a load

def command(caller: str, word: str, key: str, **members: Any) -> Request:
    return caller, '/v1/requests', json.dumps({'command': word, 'key': key, **members}).encode()


def table(country: Country, at: int) -> Request:
    """Declarations: one that stands, and one of a device that is not there."""
    day = FIRST_DAY + datetime.timedelta(at)
    rows = [f't{at},{country.device},{day},{day},{3_000_000 + at},0',
            f'u{at},500000000000000012,{day},{day},1,0']
    text = '\n'.join(['key,device,first_day,last_day,gross_wh,aux_wh', *rows, ''])
    return ISSUER, '/v1/declarations', text.encode()


def request_of(country: Country, at: int, chance: random.Random, is_alone: bool) -> Request:
    """One that is accepted; of several clients also one that is refused, for now or for good."""
    number = f'{country.first + at % 100:014}'
    accepted: list[Callable[[], Request]] = [
        lambda: command(ISSUER, 'open_holder', f'h{at}', holder=f'H{at}', name='A holder'),
        lambda: command(ISSUER, 'open_account', f'a{at}', holder='SUN'),
        lambda: command('SUN', 'transfer', f'g{at}', giver=country.sun, taker=country.volt,
                        first=number, last=number)]
    others: list[Callable[[], Request]] = [
        lambda: command(ISSUER, 'open_account', f'a{at}', holder=f'H{at - 2}'),
        lambda: command(ISSUER, 'open_account', f'a{at}', holder=f'H{at + 2}'),
        lambda: table(country, at),
        lambda: (ISSUER, '/v1/requests', b'{"no request')]
    return chance.choice(accepted if is_alone else accepted + others)()


def ask(house: House, request: Request) -> Asked:
    caller, route, body = request
    return Asked(caller, route, body, house.ask_log(caller, 'POST', route, body))


def hold(parts: list[Part]) -> None:
    """Stops processes; a call that is under way ends meanwhile, and none begins."""
    for part in parts:
        part.send(signal.SIGSTOP)
    time.sleep(0.2)


def load(house: House, seed: int, slow: float) -> Load:
    """Has requests asked of a house, and ends its log and its registry in the middle."""
    chance, country = random.Random(seed), house.make_country()
    alone = [request_of(country, at, chance, True) for at in range(2 * REQUESTS)]
    rest = [request_of(country, 2 * REQUESTS + at, chance, False)
            for at in range(CLIENTS * REQUESTS)]
    parts = [house.parts['log'], house.parts['registry']]
    hold(parts)
    seen = Load(house, Disk([house.state, house.db.parent]))
    log, registry = house.folder / 'log.trace', house.folder / 'registry.trace'
    with (watch(parts[0].processes(), log, slow=slow), watch(parts[1].processes(), registry),
          ThreadPoolExecutor(CLIENTS) as pool):
        for part in parts:
            part.send(signal.SIGCONT)
        seen.asked += [ask(house, request) for request in alone]
        seen.asked += pool.map(lambda request: ask(house, request), rest)
        hold(parts)
        for part in parts:
            part.end(signal.SIGKILL)
    seen.calls = sorted([*read_trace(log), *read_trace(registry)], key=lambda call: call.ended)
    return seen


# -------------------------------------------------------------------- what has to stand

def rows(house: House, folder: Path, place: Path) -> str:
    """All rows of a registry whose files lie in a folder, by sqlite3."""
    shutil.rmtree(place, ignore_errors=True)
    shutil.copytree(folder, place)
    house.run(house.goo, 'audit', '--db', place / 'registry.db')
    return house.run('sqlite3', place / 'registry.db', '.dump').stdout


class Fresh:
    """A registry that has taken the requests of a log one after another, each once."""

    def __init__(self, house: House) -> None:
        self.house, self.folder, self.n = house, house.folder / 'fresh', 0
        self.folder.mkdir()
        first = sorted(house.copies.iterdir())[0] / 'registry.db'
        shutil.copy(first, self.folder / 'registry.db')
        words = [house.goo, 'serve', '--db', str(self.folder / 'registry.db'), '--count', '100000']
        self.port, self.process, _ = client.listening(
            lambda port: subprocess.Popen([*words, '--port', str(port)], stdout=subprocess.PIPE))

    def rows_after(self, log: list[entries.Entry]) -> str:
        for entry in log[self.n:]:
            if entry.method == 'POST':
                at_registry(self.port, entry.caller, entry.route, entry.body)
        self.n = len(log)
        return rows(self.house, self.folder, self.house.folder / 'fresh-copy')

    def end(self) -> None:
        self.process.terminate()
        self.process.communicate()


def at_registry(port: int, caller: str, route: str, body: bytes) -> Answer:
    return read_answer(client.answered(port, client.request('POST', route, caller, body=body)))


def as_at_first(body: bytes) -> bytes:
    """An outcome without what differs where a request is carried out once more."""
    body = body.replace(b'"outcome":"repeated"', b'"outcome":"accepted"')
    return re.sub(rb'(?m)^(\d+) (?:repeated|accepted)$', rb'\1 done', body)


def lay(files: dict[Path, bytes], folders: list[Path]) -> None:
    """These files and no others in some folders."""
    for folder in folders:
        for path in [path for path in folder.rglob('*') if path.is_file()]:
            path.unlink()
    for path, content in files.items():
        path.write_bytes(content)


def start_over(house: House, files: dict[Path, bytes]) -> None:
    """Log and registry over what a power failure left; they have to take requests."""
    for part in ('log', 'registry'):
        house.kill(part)
    lay(files, [house.state, house.db.parent])
    try:
        for part in ('registry', 'log'):
            house.parts[part].launch()
            house.parts[part].wait(15)
    except NotStarted as fault:
        raise Lost(f'it does not start: {fault}') from fault


def compare(house: House, told: dict[int, Asked], fresh: Fresh) -> None:
    """All that was acknowledged is in the archive and in the registry, and no other row is."""
    archive = {record.entry.n: record for record in reader.read_archive(house.state / 'archive')}
    for n, asked in told.items():
        record = archive.get(n)
        if not record or record.entry.body != asked.body:
            raise Lost(f'entry {n} was acknowledged and is not in the archive: {asked}')
        outcome = record.outcome.status, as_at_first(record.outcome.body)
        if outcome != (asked.answer.status, as_at_first(asked.answer.body)):
            raise Lost(f'entry {n} was acknowledged as {asked.answer}, and is {record.outcome}')
        if asked.answer.status == 200:
            again = at_registry(house.registry_port, asked.caller, asked.route, asked.body)
            if as_at_first(again.body) != outcome[1]:
                raise Lost(f'entry {n} was accepted and is not in the registry: {again}')
    log = [archive[n].entry for n in sorted(archive)]
    now = rows(house, house.db.parent, house.folder / 'copy')
    then = fresh.rows_after(log)
    if now != then:
        differ = sorted(set(now.splitlines()) ^ set(then.splitlines()))
        raise Lost(f'the registry has other rows than the log makes: {differ[:5]}')


def moments(seen: Load, chance: random.Random) -> list[tuple[int, random.Random | None]]:
    """How many calls have ended when the power fails; and whether chance says what is left.

    A sync that has not ended yet leaves the most that is not on the disk. An answer that has just
    been sent promises the most.
    """
    some = list(range(len(seen.calls)))
    syncs, answers = seen.syncs_of_log() or some, seen.answers()
    assert answers, 'strace saw no answer'
    spread = [syncs[len(syncs) * part // 5] for part in range(1, 5)]
    without = [*spread, chance.choice(answers), len(seen.calls)]
    by_chance = [chance.choice(kind) for kind in (syncs, answers, some)]
    return sorted([*((at, None) for at in without), *((at, chance) for at in by_chance)],
                  key=lambda pair: pair[0])


def try_moments(seen: Load, chance: random.Random) -> None:
    """Lets the power fail at some moments of a load."""
    fresh = Fresh(seen.house)
    try:
        for moment, part in moments(seen, chance):
            start_over(seen.house, seen.disk(moment).after_failure(part))
            compare(seen.house, seen.told(moment), fresh)
    finally:
        fresh.end()


def try_power(service: Path | None, seed: int, slow: float = SLOW) -> None:
    more: dict[str, Any] = {'service': service} if service else {}
    with House(parts=('registry', 'log'), **more) as house:
        seen = load(house, seed, slow)
        files = {path: path.read_bytes() for folder in seen.begun.folders
                 for path in folder.rglob('*') if path.is_file()}
        assert seen.disk(len(seen.calls)).now() == files, 'strace saw other writes than there were'
        try_moments(seen, random.Random(seed))


# -------------------------------------------------------------------- the trials

NEVER = """

import os as _os
_sync = _os.fdatasync
_os.fdatasync = lambda file: ('/%s/' in _os.readlink(f'/proc/self/fd/{file}')) or _sync(file)
"""
ADDS = """            if replica.store.add([texts[0][0]], end, last)[0]:
                request.entry = last.n
                replica.feeder.send_some(texts)
"""
GIVES_FIRST = """            replica.feeder.send_some(texts)
            if replica.store.add([texts[0][0]], end, last)[0]:
                request.entry = last.n
"""


@pytest.fixture
def service(tmp_path: Path) -> Path:
    return copied(tmp_path)


def make_small(service: Path) -> None:
    """Files of the log end after some entries, and go soon after all of them are archived."""
    plant(service, 'goo_service/log/file_store.py', 'SIZE = 16 << 20', 'SIZE = 3 << 10')
    plant(service, 'goo_service/log/upkeep.py',
          "await asyncio.sleep(60)\n            self.replica.applier.send('sync')",
          "await asyncio.sleep(0.1)\n            self.replica.applier.send('sync')")


def test_what_was_acknowledged_is_there() -> None:
    try_power(None, seed=1)


def test_what_was_acknowledged_is_there_beyond_a_file_of_the_log(service: Path) -> None:
    make_small(service)
    try_power(service, seed=4)


@pytest.mark.parametrize('folder', ['log', 'archive'])
def test_a_folder_that_is_never_synced_is_seen(folder: str, service: Path) -> None:
    append(service, 'goo_service/log/entries.py', NEVER % folder)
    with pytest.raises(Lost):
        try_power(service, seed=2)


def test_an_entry_applied_before_the_log_is_synced_is_seen(service: Path) -> None:
    """The registry has to be done before the sync is, which it may not be on a busy machine."""
    plant(service, 'goo_service/log/appender.py', ADDS, GIVES_FIRST)
    with pytest.raises(Lost):
        for seed, slow in ((3, 0.04), (6, 0.08), (7, 0.2)):
            try_power(service, seed, slow)


def test_a_file_whose_name_is_never_synced_is_seen(service: Path) -> None:
    make_small(service)
    append(service, 'goo_service/common/files.py', '\n\ndef sync_folder(folder):\n    pass\n')
    with pytest.raises(Lost):
        try_power(service, seed=5)
