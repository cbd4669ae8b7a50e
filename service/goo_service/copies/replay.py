"""Entries of the archive applied to a copy of a database, by the program itself."""
import csv
import io
import json
import re
import subprocess
import sys
import zlib
from collections.abc import Iterator
from collections.abc import Sequence
from dataclasses import dataclass
from dataclasses import field
from pathlib import Path

from goo_service.common.owner import NotDone
from goo_service.common.owner import as_owner
from goo_service.copies.places import Place
from goo_service.log import bundles
from goo_service.log import reader
from goo_service.log import entries
from goo_service.log import roles
from goo_service.log.entries import Broken
from goo_service.log.entries import Record

LINES, BYTES = 20000, 16 << 20
"""Of one `goo run`, which takes no more bytes. The longest line has a body of 1 MiB."""
TABLES = '/v1/declarations'
Program = str | Sequence[str]
"""The program, or the words that run it."""
csv.field_size_limit(sys.maxsize)       # the program has no limit of a field


@dataclass(frozen=True)
class Wanted:
    """What a line has to come to, and the record that it is of."""

    record: Record
    outcome: bytes


@dataclass
class Replay:
    """Applies archived entries to a database by `goo run`, and compares what they come to.

    A row of a table is a `declare` of the caller under the row's key (docs/FORMATS.md), so tables
    go in as such lines: the program opens the database once for many entries. Entries and rows that
    were unreadable changed nothing and are left out.
    """

    goo: Program
    db: Path
    lines: list[bytes] = field(default_factory=list)
    wanted: list[Wanted] = field(default_factory=list)
    size: int = 0

    def add(self, record: Record) -> None:
        """Adds an entry. It is applied at `flush`, or earlier."""
        entry, outcome = record.entry, record.outcome
        is_allowed = roles.allows(entry.role, entry.method, entry.route, entry.body)
        if entry.method == 'POST' and not is_allowed:
            if outcome.status != 403:
                raise Broken(f'entry {entry.n}: its role {entry.role} does not allow it, and it is '
                             f'archived with status {outcome.status}')
        elif entry.route == TABLES and outcome.status == 200:
            self.add_table(record)
        elif entry.route in bundles.ROUTES and outcome.status == 200:
            self.add_bundle(record)
        elif (entry.route == '/v1/requests' and outcome.status in (200, 403, 409)
              and outcome.body.startswith(b'{')):
            self.add_line(one_line(entry.body), Wanted(record, comparable(outcome.body)))

    def add_bundle(self, record: Record) -> None:
        """Each line of an applied bundle that the registry has decided."""
        answers = bundles.lines_of(record.outcome.body)
        lines = bundles.read(record.entry.body)
        if len(lines) != len(answers):
            raise Broken(f'entry {record.entry.n}: a bundle of {len(lines)} lines with an answer '
                         f'of {len(answers)}')
        for line, answer in zip(lines, answers):
            if bundles.outcome_in(answer)['outcome'] in ('accepted', 'repeated', 'refused'):
                self.add_line(one_line(line.body), Wanted(record, comparable(answer)))

    def add_table(self, record: Record) -> None:
        rows, lines = rows_of(record.entry.body), record.outcome.body.split(b'\n')[:-1]
        if len(rows) != len(lines):
            raise Broken(f'entry {record.entry.n}: a table of {len(rows)} rows with an answer of '
                         f'{len(lines)} lines')
        for row, line in zip(rows, lines):
            outcome = line.split()[1]
            if outcome != b'unreadable':
                wanted = b'refused' if outcome == b'refused' else b'accepted'
                self.add_line(declare(row), Wanted(record, wanted))

    def add_line(self, request: bytes, wanted: Wanted) -> None:
        line = wanted.record.entry.caller.encode() + b' ' + request + b'\n'
        if len(self.lines) >= LINES or self.size + len(line) > BYTES:
            self.flush()
        self.lines.append(line)
        self.wanted.append(wanted)
        self.size += len(line)

    def flush(self) -> None:
        """Has the program carry out what was gathered."""
        if not self.lines:
            return
        program = [self.goo] if isinstance(self.goo, str) else [*self.goo]
        done = subprocess.run([*program, 'run', '--db', str(self.db)], input=b''.join(self.lines),
                              capture_output=True, check=False)
        if done.returncode not in (0, 1) or done.stderr:
            why = done.stderr.decode(errors='replace').strip()
            raise Broken(f'goo run: {why} (status {done.returncode})')
        self.compare(done.stdout.splitlines())
        self.lines, self.wanted, self.size = [], [], 0

    def compare(self, answers: list[bytes]) -> None:
        """Raises Broken where the program came to something else than what was archived."""
        if len(answers) != len(self.wanted):
            first, last = self.wanted[0].record.entry.n, self.wanted[-1].record.entry.n
            raise Broken(f'entries {first} to {last}: goo run answered {len(answers)} '
                         f'of {len(self.wanted)}')
        for wanted, answer in zip(self.wanted, answers):
            entry = wanted.record.entry
            came = of_row(answer) if entry.route == TABLES else comparable(answer)
            if wanted.outcome != came:
                raise Broken(f'entry {entry.n}: archived as {render(wanted.outcome)}, '
                             f'and the program comes to {render(answer)}')


def one_line(body: bytes) -> bytes:
    """A request without the line ends that may stand between two words of JSON."""
    return re.sub(rb'[\r\n]', b' ', body)


def render(text: bytes) -> str:
    return text[:200].decode(errors='replace')


def comparable(answer: bytes) -> bytes:
    """An outcome as it is the same in every replica."""
    return answer.strip().replace(b'"outcome":"repeated"', b'"outcome":"accepted"')


def of_row(answer: bytes) -> bytes:
    """The outcome of a row, in the word that a table's answer has for it."""
    outcome = str(json.loads(answer)['outcome'])
    return b'accepted' if outcome in ('accepted', 'repeated') else outcome.encode()


def rows_of(body: bytes) -> list[list[str]]:
    """The rows of a table, after its header, as the program has them.

    It goes by bytes, and a field may have any of them.
    """
    text = body.decode('latin-1').removeprefix('\xef\xbb\xbf')
    return [row for row in csv.reader(io.StringIO(text, newline='')) if row][1:]


def declare(row: list[str]) -> bytes:
    """A row of a table as a request."""
    key, device, first, last, gross, aux = row
    return entries.compact({
        'command': 'declare', 'key': key, 'device': device, 'first_day': first, 'last_day': last,
        'gross_wh': int(gross), 'aux_wh': int(aux)})


# ------------------------------------------------------------------ the archive

def lines_of(archive: Path, after: int) -> Iterator[bytes]:
    """The lines of an archive, from the file with entry `after` on.

    Where it ends with more than a line that is being written, it is damaged.
    """
    path: Path | None = None
    at = 0
    for path, line, at in reader.whole_lines(archive, after, None, 0):
        yield line
    reader.verify_end(path, at)


def records_of(archive: Path, after: int, key: bytes | None,
               state: Path | None = None) -> Iterator[Record]:
    """The records after entry `after`, in order, each checked.

    The archive is opened by whoever owns the replica's folder.
    """
    last: Record | None = None
    try:
        for line in as_owner(state or archive.parent, lambda: lines_of(archive, after)):
            n = reader.number_in(line)
            if n < after:
                continue
            record = entries.read_record(line, key)
            reader.follows(last, record)
            last = record
            if n > after:
                yield record
    except (Broken, NotDone, OSError, EOFError, zlib.error) as fault:
        where = (f'the line of entry {last.entry.n + 1}' if last
                 else f'the line of entry {after or 1}, or one before it,')
        raise Broken(f'{archive}: {where} does not hold: {fault}') from fault


def bring_up(goo: Program, db: Path, archive: Path, place: Place, key: bytes | None,
             last: int | None = None) -> Place:
    """Applies the entries after a place to a database, up to entry `last`; the place after them."""
    replay, now = Replay(goo, db), place
    for record in () if place.n == last else records_of(archive, place.n, key):
        entry = record.entry
        if (entry.n, entry.prev) != (now.n + 1, now.hash):
            raise Broken(f'entry {entry.n} of the archive does not follow entry {now.n} '
                         'of the copy')
        replay.add(record)
        now = Place(entry.n, record.hash, record.outcome.chain, entry.version)
        if now.n == last:                       # what comes behind it may be damaged
            break
    replay.flush()
    if last is not None and now.n != last:
        raise Broken(f'the archive ends at entry {now.n}, before entry {last}')
    return now
