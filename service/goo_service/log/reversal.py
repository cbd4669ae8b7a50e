"""Removes an entry and all after it from log and archive, and sends those after it again.

`restore COPY --before N` does so. What is removed stays whole beside them, in a folder
`undone-N-TIME` of the replica's state:

  archive/    the archive as it was
  log/        the log as it was
  sent        there once all that came after entry N was sent again

All of it is the work of the user that owns the state folder. A cut-off is no harm: a replica does
not start between the steps, since its place, its log and its archive do not fit, and the same
command goes on with the folder that has no `sent`.
"""
import contextlib
import json
import os
import re
import time
from collections.abc import Callable
from collections.abc import Iterator
from dataclasses import dataclass
from pathlib import Path

from goo_service.common.client import Client
from goo_service.common.client import NoAnswer
from goo_service.common.files import sync_folder
from goo_service.common.files import write_whole
from goo_service.common.owner import remove
from goo_service.log import bundles
from goo_service.log import reader
from goo_service.log import entries
from goo_service.log import file_store
from goo_service.log import position
from goo_service.log import roles
from goo_service.log.position import Position

UNDONE = re.compile(r'undone-(\d+)-.+')
AGAIN = (200, 403, 409)
"""Outcomes of entries that are sent again. The others changed nothing and would change nothing."""
TRIES, PATIENCE = 300, 600
"""How often a request is sent while the replica takes none, and seconds for an answer."""


@dataclass(frozen=True)
class Sent:
    """An entry that was sent again, and what it came to."""
    record: entries.Record
    entry: int
    """0 where it was not taken into the log."""
    status: int
    body: bytes

    def is_same(self) -> bool:
        route, outcome = self.record.entry.route, self.record.outcome
        return (entries.comparable(route, self.status, self.body)
                == entries.comparable(route, outcome.status, outcome.body))

    def in_words(self) -> str:
        entry, outcome = self.record.entry, self.record.outcome
        number = f'now entry {self.entry}' if self.entry else 'not taken into the log'
        return (f'entry {entry.n}, {number}: {entry.user or "an agent"} as {entry.caller}, '
                f'{in_few_words(entry)}: was {outcome.status} {render(outcome.body)}, '
                f'is {self.status} {render(self.body)}')


def render(body: bytes) -> str:
    return ' '.join(body.decode(errors='replace').split())[:300]


def in_few_words(entry: entries.Entry) -> str:
    """A request in few words: its command and key, or that it is a table or a bundle."""
    if entry.route in bundles.ROUTES:
        return f'a bundle of {len(bundles.lines_of(entry.body))} requests'
    try:
        request = json.loads(entry.body) if entry.route == '/v1/requests' else None
        return f'{request["command"]} {request["key"]}' if request else 'a table of declarations'
    except (ValueError, TypeError, KeyError):
        return 'a request that cannot be read'


# ------------------------------------------------------------------ out of log and archive

def under_way(state: Path) -> tuple[int, Path] | None:
    """The entry that is being undone, and the folder of what was removed, of a run cut off."""
    folders = [path for path in sorted(state.glob('undone-*')) if UNDONE.fullmatch(path.name)]
    left = [path for path in folders if not (path / 'sent').exists()]
    return (number_of(left[-1]), left[-1]) if left else None


def number_of(folder: Path) -> int:
    found = UNDONE.fullmatch(folder.name)
    assert found
    return int(found[1])


def point_before(archive: Path, n: int) -> Position:
    """The entry before n, which has to be in the archive, as n has to be."""
    before = None
    for record in reader.read_archive(archive, n - 2):
        if record.entry.n == n - 1:
            before = Position(n - 1, record.hash, record.outcome.chain)
        if record.entry.n == n and (before or n == 1):
            return before or Position(0, record.entry.prev, entries.NO_CHAIN)
    raise entries.Broken(f'{archive}: there is no entry {n} behind an entry {n - 1}')


def remove_from(state: Path, n: int, first_line: Callable[[Position], bytes]) -> str:
    """Entry n and all after it leave log and archive.

    A new log begins after n - 1 with the line that `first_line` makes.
    """
    there = under_way(state)
    if there and there[0] != n:
        raise entries.Broken(f'{there[1]}: entry {there[0]} is being undone: end that first')
    folder = there[1] if there else keep(state, n)
    point = point_before(folder / 'archive', n)
    cut(state / 'archive', n)
    set_log_aside(state, folder)
    file_store.begin(state / 'log', first_line(point), n)
    (state / 'place').unlink(missing_ok=True)
    position.begin(state / 'place', point.n, point.hash, point.chain)
    set_request_aside(state, folder, n)
    return str(folder)


def keep(state: Path, n: int) -> Path:
    """The archive and the log as they are, in a folder of their own.

    It takes no room: the files have two names each.
    """
    point_before(state / 'archive', n)
    part = state / 'undone.part'
    remove(part)
    for name in ('archive', 'log'):
        (part / name).mkdir(parents=True)
        for path in (state / name).iterdir():
            os.link(path, part / name / path.name, follow_symlinks=False)
        sync_folder(part / name)
    sync_folder(part)
    folder = state / f'undone-{n}-{time.strftime("%Y-%m-%dT%H%M%SZ", time.gmtime())}'
    part.rename(folder)
    sync_folder(state)
    return folder


def cut(archive: Path, n: int) -> None:
    """Leaves the entries before n in an archive.

    The file that is the last one then is written anew: the other folder keeps what it was.
    """
    for path in reversed(reader.months(archive)):
        part = archive / f'.{path.name[:7]}.part'
        with open(part, 'wb') as file:
            for line, _ in reader.lines(path):
                if reader.number_in(line) >= n:
                    break
                file.write(line + b'\n')
            is_empty = not file.tell()
            file.flush()
            os.fsync(file.fileno())
        if is_empty:
            part.unlink()
        else:
            part.replace(archive / f'{path.name[:7]}.jsonl')
        if path.suffix == '.gz' or is_empty:
            path.unlink()
        sync_folder(archive)
        if not is_empty:
            return


def set_log_aside(state: Path, folder: Path) -> None:
    """The log as it was has a second name in the folder.

    One of a run that was cut off is empty but for its first entry.
    """
    log = state / 'log'
    if log.exists():
        log.rename(folder / f'log-{time.time_ns()}')
    sync_folder(state)


def set_request_aside(state: Path, folder: Path, n: int) -> None:
    """The very request of entry n is answered 500 from here on, and is no entry again."""
    record = next(reader.read_archive(folder / 'archive', n - 1))
    entry = record.entry
    line = f'{entries.fingerprint(entry.caller, entry.route, entry.body)} {n}\n'
    path = state / 'aside'
    earlier = path.read_text() if path.exists() else ''
    if line not in earlier:
        write_whole(path, earlier + line)


# ------------------------------------------------------------------ again

def send(door: str, records: Iterator[entries.Record]) -> Iterator[Sent]:
    """Sends entries again, in their order, each once the one before has its outcome."""
    for record in records:
        entry, status = record.entry, record.outcome.status
        role = entry.role or 'full'
        if (entry.method == 'POST' and status in AGAIN
                and roles.allows(role, entry.method, entry.route, entry.body)):
            yield send_one(door, record, role)


def send_one(door: str, record: entries.Record, role: str) -> Sent:
    """One request as its user, until it has an outcome."""
    entry = record.entry
    client = Client(door, PATIENCE, fields={
        'GOO-Caller': entry.caller, 'GOO-User': entry.user, 'GOO-Address': entry.address,
        'GOO-Role': role, 'GOO-Way': entry.way, 'GOO-Confirmed': entry.confirmed})
    for _ in range(TRIES):
        with contextlib.suppress(NoAnswer):
            answer = client.post(entry.route, entry.body)
            if answer.status != 503:
                return Sent(record, answer.entry, answer.status, answer.body)
        time.sleep(1)
    raise entries.Broken(f'entry {entry.n}: no outcome when it was sent again')
