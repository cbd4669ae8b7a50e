"""The log of requests and its archive: what a start cuts, what it refuses, and what it reads."""
import base64
import dataclasses
import hmac
import json
import os
import random
import subprocess
import sys
import tempfile
from collections.abc import Iterator
from pathlib import Path

import pytest

from door import SERVICE
from service_commands import command
from goo_service.log import ends
from goo_service.log import reader
from goo_service.log import entries
from goo_service.log.archive import Archive
from goo_service.log.archive import compress
from goo_service.log import file_store
from goo_service.log import position
from goo_service.log.store import NoRoom

KEY = b'a key of this trial'
BODY = b'{"command":"open_account","key":"a%d","holder":"SUN \xc3\xa4 \\"quoted\\""}'
ACCEPTED = b'{"outcome":"accepted","reply":{"account":%d}}'
TABLE = '/v1/declarations'


@dataclasses.dataclass
class Made:
    """A file of nine entries, and what opens the folder that it is in."""
    file: Path
    kind: str

    def open(self) -> int:
        """The last entry, once a replica has opened it."""
        if self.kind == 'archive':
            return last_in(self.file.parent).entry.n
        store = file_store.FileStore(self.file.parent, KEY)
        os.close(store.lock)
        os.close(store.file)
        return store.last.n


def entry_of(n: int, prev: str, body: bytes, route: str = '/v1/requests') -> entries.Entry:
    return entries.Entry(n, prev, f'2026-03-01T09:00:00.{n:06}Z', 'h1', 'anna', '192.0.2.7', 'full',
                         'SUN', 'POST', route, '1.0', f'{n:016x}', body)


def lines_of(count: int) -> Iterator[tuple[entries.Entry, bytes]]:
    prev = 64 * '0'
    for n in range(1, count + 1):
        entry = entry_of(n, prev, BODY % n)
        line = entries.entry_line(entry, KEY)
        prev = entries.hash_of(line)
        yield entry, line


def last_in(folder: Path) -> entries.Record:
    """The last record of an archive, as its replica opens it."""
    last = Archive(folder, KEY).last
    assert last
    return last


def close(archive: Archive) -> None:
    assert archive.file is not None
    os.close(archive.file)


def archive_of(folder: Path, count: int) -> Path:
    archive, chain = Archive(folder), entries.NO_CHAIN
    for entry, line in lines_of(count):
        outcome = entries.outcome_after(entry.route, 200, ACCEPTED % entry.n, chain)
        archive.add(line, entry, outcome)
        chain = outcome.chain
    archive.sync()
    close(archive)
    return folder / '2026-03.jsonl'


def log_of(folder: Path, count: int) -> Path:
    folder.mkdir(parents=True)
    file = folder / f'{1:020}.jsonl'
    file.write_bytes(b''.join(line + b'\n' for _, line in lines_of(count)))
    return file


@pytest.fixture
def tmp_path() -> Iterator[Path]:
    """A folder in memory: each start syncs its files, and there are thousands of starts."""
    with tempfile.TemporaryDirectory(dir='/dev/shm') as folder:
        yield Path(folder)


@pytest.fixture(params=['archive', 'log'])
def made(request: pytest.FixtureRequest, tmp_path: Path) -> Made:
    make = archive_of if request.param == 'archive' else log_of
    return Made(make(tmp_path / request.param, 9), request.param)


# ------------------------------------------------------------------ what is damaged

def test_one_bit_changed_is_refused_by_its_number_and_nothing_is_changed(made: Made) -> None:
    whole, chance = made.file.read_bytes(), random.Random(86)
    ends = [at for at, byte in enumerate(whole) if byte == 10]
    for at in sorted({*range(0, len(whole), 2), *ends}):
        spoilt = bytearray(whole)
        spoilt[at] ^= 1 << chance.randrange(8)
        made.file.write_bytes(spoilt)
        number = whole[:at].count(b'\n') + 1
        with pytest.raises(entries.Broken) as told:
            made.open()
        assert f'entry {number}' in str(told.value) and str(made.file) in str(told.value), at
        assert made.file.read_bytes() == spoilt, at
        assert os.listdir(made.file.parent) == [made.file.name]


def test_an_unfinished_last_line_is_cut_and_nothing_else(made: Made) -> None:
    whole = made.file.read_bytes()
    ends = [at + 1 for at, byte in enumerate(whole) if byte == 10]
    for at in range(ends[6], len(whole) + 1):
        made.file.write_bytes(whole[:at])
        kept = max(end for end in ends if end <= at)
        assert made.open() == ends.index(kept) + 1, at
        assert made.file.read_bytes() == whole[:kept], at


@pytest.mark.parametrize('junk', [4096 * b'\0', b'12 and', b'"a" b', b'{} {', b'\xff\xfe'])
def test_bytes_that_nobody_wrote_are_cut_too(made: Made, junk: bytes) -> None:
    """A power failure leaves them behind the last line that was synced, or behind a part of one."""
    whole = made.file.read_bytes()
    for cut in (0, 40):
        made.file.write_bytes(whole[:len(whole) - cut] + junk)
        assert made.open() == (8 if cut else 9)
        assert made.file.read_bytes() == whole[:whole[:len(whole) - cut].rindex(b'\n') + 1]


def test_whole_lines_behind_a_bad_one_and_a_torn_end_stay(made: Made) -> None:
    whole = made.file.read_bytes()
    spoilt = whole.replace(b'"a3', b'"b3', 1).replace(b'\\"a3', b'\\"b3', 1)[:-20]
    assert spoilt != whole[:-20]
    made.file.write_bytes(spoilt)
    with pytest.raises(entries.Broken, match='entry 3'):
        made.open()
    assert made.file.read_bytes() == spoilt


@pytest.mark.parametrize('number', [1, 5, 9])
def test_a_line_that_is_gone_or_doubled_is_refused(made: Made, number: int) -> None:
    lines = made.file.read_bytes().splitlines(keepends=True)
    doubled = b''.join([*lines[:number], *lines[number - 1:]])
    gone = b''.join([*lines[:number - 1], *lines[number:]])
    for spoilt in (doubled, *([gone] if number == 5 else [])):
        made.file.write_bytes(spoilt)
        with pytest.raises(entries.Broken):
            made.open()
        assert made.file.read_bytes() == spoilt


def test_a_file_with_the_beginning_of_its_first_line_alone_is_emptied(tmp_path: Path) -> None:
    """A crash in the first line of a month leaves that; the month before has the end."""
    file = archive_of(tmp_path, 9)
    (tmp_path / '2026-04.jsonl').write_bytes(file.read_bytes()[:100])
    compress(tmp_path)
    archive = Archive(tmp_path, KEY)
    assert archive.last and archive.last.entry.n == 9
    assert (tmp_path / '2026-04.jsonl').read_bytes() == b''
    entry = entry_of(10, archive.last.hash, BODY % 10)      # of March, by a clock that was set back
    archive.add(entries.entry_line(entry, KEY), entry,
                entries.outcome_after(entry.route, 200, ACCEPTED % 10, archive.last.outcome.chain))
    close(archive)
    assert [one.entry.n for one in reader.read_archive(tmp_path, 0, KEY)] == list(range(1, 11))


def test_the_archive_is_read_up_to_the_damaged_entry(tmp_path: Path) -> None:
    file = archive_of(tmp_path, 9)
    whole = file.read_bytes()
    for number, line in enumerate(whole.splitlines(keepends=True), 1):
        at = whole.index(line)
        for spot in (at + 3, at + len(line) // 2, at + len(line) - 1):
            file.write_bytes(whole[:spot] + bytes([whole[spot] ^ 4]) + whole[spot + 1:])
            read = reader.read_archive(tmp_path, 0, KEY)
            with pytest.raises(entries.Broken) as told:
                for n in range(1, 10):
                    assert next(read).entry.n == n < number
                next(read)
            assert f'entry {number}' in str(told.value) or number == 1, (spot, told.value)


# ------------------------------------------------------------------ long lines

def long_archive(folder: Path, rows: int) -> Path:
    """An archive with an accepted request, and a table whose rows are all unreadable."""
    archive, entry, chain, line = Archive(folder), None, entries.NO_CHAIN, b''
    body = b'key,device,first_day,last_day,gross_wh,aux_wh\n' + b'a\n' * rows
    report = b''.join([b'%d unreadable\n' % (n + 2) for n in range(rows)])
    for n in (1, 2):
        prev = entries.hash_of(line) if line else 64 * '0'
        entry = entry_of(n, prev, body, TABLE) if n > 1 else entry_of(1, prev, BODY % 1)
        line = entries.entry_line(entry, KEY)
        outcome = entries.outcome_after(entry.route, 200, report if n > 1 else ACCEPTED % 1, chain)
        archive.add(line, entry, outcome)
        chain = outcome.chain
    archive.sync()
    close(archive)
    return folder / '2026-03.jsonl'


def test_lines_of_eleven_megabytes_are_read_from_the_end(tmp_path: Path) -> None:
    file = long_archive(tmp_path, 524_000)
    whole = file.read_bytes()
    assert len(whole.splitlines()[-1]) > 10 << 20 > ends.TAIL
    assert last_in(tmp_path).entry.n == 2
    plain = ends.last_plain(tmp_path)
    assert plain and plain.entry.n == 1
    assert [one.entry.n for one in reader.read_archive(tmp_path, 1, KEY)] == [2]
    file.write_bytes(whole[:-1000])
    assert last_in(tmp_path).entry.n == 1


@pytest.mark.parametrize('size', [1, 7, 100, 500, 5_000, 1 << 20])
def test_the_end_of_a_file_whatever_is_read_of_it(made: Made, size: int) -> None:
    """From wherever it is read, the end is the same."""
    whole = made.file.read_bytes()
    for cut in range(0, 450, 7):
        kept = whole[:len(whole) - cut]
        lines = kept.count(b'\n')
        made.file.write_bytes(kept)
        assert ends.last_of(made.file, reader.number_in, size=size)[0] == lines


# ------------------------------------------------------------------ a full disk, and two at once

FULL = '''
import sys
sys.path.insert(0, sys.argv[1])
from goo_service.log import entries
from goo_service.log.archive import Archive
from goo_service.log import file_store
from pathlib import Path
state = Path(sys.argv[2])
print(Archive(state / 'archive', b'a key of this trial').last.entry.n,
      file_store.FileStore(state / 'log', b'a key of this trial').last.n)
'''


def test_a_torn_end_is_mended_on_a_disk_without_a_byte_free(tmp_path: Path) -> None:
    if os.geteuid():
        pytest.skip('a disk of its own asks for root')
    script = (f'set -e; mount -t tmpfs -o size=256k none {tmp_path}; cp -r $0/* {tmp_path}; '
              f'! cat /dev/zero > {tmp_path}/zeros 2> /dev/null; exec "$@"')
    with tempfile.TemporaryDirectory() as made:
        for file in (archive_of(Path(made) / 'archive', 9), log_of(Path(made) / 'log', 9)):
            file.write_bytes(file.read_bytes()[:-30])
        done = subprocess.run(['unshare', '--mount', 'bash', '-c', script, made, sys.executable,
                               '-B', '-c', FULL, SERVICE, tmp_path], capture_output=True,
                              text=True, timeout=30)
    assert done.stdout == '8 8\n', done


def test_a_month_or_a_file_that_finds_no_room_leaves_the_one_before(
        tmp_path: Path, monkeypatch: pytest.MonkeyPatch) -> None:
    archive_of(tmp_path / 'a', 1)
    log_of(tmp_path / 'l', 1)
    archive, store = Archive(tmp_path / 'a'), file_store.FileStore(tmp_path / 'l', KEY)
    (first, line), (second, line2) = lines_of(2)
    assert archive.last
    outcome = archive.last.outcome
    archive.add(line2, second, outcome)
    with monkeypatch.context() as patch:
        patch.setattr(file_store, 'SIZE', 0)
        patch.setattr(os, 'open', refuse)
        for _ in range(2):
            with pytest.raises(OSError):
                archive.add(line, first._replace(n=3, time='2026-04-01'), outcome)
            with pytest.raises(NoRoom):
                store.put([line2])
    archive.add(line, first._replace(n=3, time='2026-04-01'), outcome)
    assert [path.name[:7] for path in reader.months(tmp_path / 'a')] == ['2026-03', '2026-04']
    store.put([line2])
    assert store.files()[-1].read_bytes() == line + b'\n' + line2 + b'\n'


def refuse(*_: object, **__: object) -> int:
    raise OSError(28, 'No space left on device')


def test_a_second_one_is_locked_out_before_it_cuts(tmp_path: Path) -> None:
    """What another replica is just writing looks like a torn end."""
    file = log_of(tmp_path / 'log', 9)
    first = file_store.FileStore(tmp_path / 'log', KEY)
    torn = file.read_bytes() + b'{"entry":{"n":10,'
    file.write_bytes(torn)
    with pytest.raises(entries.Broken, match='another program'):
        file_store.FileStore(tmp_path / 'log', KEY)
    assert file.read_bytes() == torn
    os.close(first.lock)


def test_a_second_process_that_applies_is_locked_out_before_it_cuts(tmp_path: Path) -> None:
    """By the real program: two replicas over one folder, the first one in the midst of a line."""
    file = archive_of(tmp_path / 'archive', 9)
    last = last_in(tmp_path / 'archive')
    position.begin(tmp_path / 'place', 9, last.hash, last.outcome.chain)
    log_of(tmp_path / 'log', 9)
    (tmp_path / 'key').write_bytes(KEY)
    held = position.Place(tmp_path / 'place')
    torn = file.read_bytes() + b'{"entry":{"n":10,'
    file.write_bytes(torn)
    words = {'state': tmp_path, 'store': tmp_path / 'log', 'key': tmp_path / 'key',
             'listen': tmp_path / 'door', 'registry': tmp_path / 'none', 'version': 'trial'}
    options = [word for name, value in words.items() for word in (f'--{name}', str(value))]
    done = subprocess.run([*command('goo-replica', SERVICE), *options], capture_output=True,
                          text=True, timeout=30, check=False)
    assert done.returncode == 1 and 'another program' in done.stderr, done
    assert file.read_bytes() == torn
    held.close()


BODIES = [b'', b'{"a":"b"}', 'ä€😀'.encode() * 3000, b'\xff' * 5000, b'"' * 9999]


@pytest.mark.parametrize('body', BODIES, ids=['empty', 'JSON', 'wide', 'no text', 'quotes'])
def test_the_length_of_a_line_is_known_before_it_is_written(body: bytes) -> None:
    """And the line is JSON of the members that docs/REPLICAS.md names, with the body as it came."""
    entry = entry_of(10 ** 9, 64 * 'a', body)
    member = entries.body_member(body).encode()
    line = entries.entry_line(entry, KEY, member)
    assert line == entries.entry_line(entry, KEY)
    assert entries.length(entry, member) == len(line)
    said = json.loads(line)
    assert list(said) == ['entry', 'mac'] and list(said['entry'])[:-1] == [
        'n', 'prev', 'time', 'host', 'user', 'address', 'role', 'caller', 'method', 'route',
        'version', 'id']
    text = said['entry'].get('body')
    read = text.encode() if text is not None else base64.b64decode(said['entry']['body64'])
    assert read == body
    assert said['mac'] == hmac.new(KEY, line[9:line.index(b'},"mac"') + 1], 'sha256').hexdigest()
