"""Copies of a registry with a log: what they hold, what is held against them, and who reads."""
import json
import os
import random
import re
import shutil
import sqlite3
import subprocess
import sys
import threading
import time
from collections.abc import Generator
from collections.abc import Iterator
from contextlib import closing
from pathlib import Path
from typing import Any
from typing import cast

from goo_service.copies import contents
from goo_service.log import reader
from goo_service.log import entries
from goo_service.log.archive import Archive
from goo_service.log.archive import compress
from goo_service.common import owner
import pytest
from goo_service.copies import nightly
from goo_service.copies import replay
from goo_service.copies import verification
from goo_service.copies.places import Place
from goo_service.copies.places import read_place
from goo_service.log import position
from goo_service.copies import rows
from goo_service.log import reversal
from calls import Country
from door import SERVICE
from house import House
from mutations import gsrn
from plants import copied
from plants import plant
from programs import find_registry
from service_commands import command

GOO = str(Path(find_registry()).resolve())
KEY = b'the key of a trial'
HEADER = b'key,device,first_day,last_day,gross_wh,aux_wh\n'
NOBODY = 65534
ACCEPTED = b'{"outcome":"accepted","reply":{}}'
MOST = 16_777_216
"""Bytes that `goo run` takes (docs/FORMATS.md)."""


def opened_holder(number: int, size: int = 0) -> bytes:
    """A request that opens a holder, with blanks up to so many bytes."""
    body = {'command': 'open_holder', 'holder': f'H{number}', 'name': 'N', 'key': f'k{number}'}
    return json.dumps(body).encode().ljust(size)


class Log:
    """An archive that is made entry by entry, and the folder of its copies."""

    def __init__(self, folder: Path) -> None:
        self.state, self.copies = folder / 'state', folder / 'copies'
        self.state.mkdir()
        self.copies.mkdir()
        self.origin = 'f' * 64
        self.archive = Archive(self.state / 'archive')
        self.place = Place(0, self.origin, entries.NO_CHAIN, 'trial')

    def add(self, body: bytes, answer: bytes = ACCEPTED, *, status: int = 200,
            route: str = '/v1/requests', caller: str = 'ISSUER') -> None:
        """One entry with its outcome."""
        last = self.archive.last
        prev, chain = (last.hash, last.outcome.chain) if last else (self.origin, entries.NO_CHAIN)
        entry = entries.Entry(
            n=last.entry.n + 1 if last else 1, prev=prev, time='2025-03-01T09:00:00.000000Z',
            host='h1', user='anna', address='192.0.2.7', role='full', caller=caller, method='POST',
            route=route, version='trial', id='0' * 16, body=body)
        outcome = entries.outcome_after(route, status, answer, chain)
        self.archive.add(entries.entry_line(entry, KEY), entry, outcome)

    def copy(self, db: Path) -> Path:
        """A copy of a database at the end of the archive."""
        if last := self.archive.last:
            self.place = Place(last.entry.n, last.hash, last.outcome.chain, 'trial')
        return nightly.first_copy(GOO, db, self.copies, self.place)

    def verify(self, begin: int = 1) -> list[str]:
        return list(verification.verify(GOO, self.state / 'archive', KEY, None, self.copies,
                                        begin))

    def file(self) -> Path:
        return reader.months(self.state / 'archive')[-1]


@pytest.fixture
def log(tmp_path: Path) -> Log:
    return Log(tmp_path)


@pytest.fixture
def db(tmp_path: Path) -> Path:
    """An empty registry."""
    path = tmp_path / 'registry.db'
    subprocess.run([GOO, 'init', '--db', path, '--code', '7', '--today', '2025-03-01'], check=True,
                   capture_output=True)
    return path


def run_on(db: Path, *requests: bytes) -> list[str]:
    """What requests to a file come to."""
    lines = b''.join(b'ISSUER ' + request + b'\n' for request in requests)
    done = subprocess.run([GOO, 'run', '--db', db], input=lines, capture_output=True, check=False)
    return [json.loads(line)['outcome'] for line in done.stdout.splitlines()]


def dumped(db: Path) -> str:
    """All rows of a file, by sqlite3."""
    return subprocess.run(['sqlite3', db, '.dump'], capture_output=True, text=True,
                          check=True).stdout


# ------------------------------------------------------------------ entries that are long

def test_a_replay_gives_the_program_no_more_than_it_takes(log: Log, tmp_path: Path) -> None:
    """A program that ends as goo does where it is given more, and says how much it was given."""
    told, program = tmp_path / 'told', tmp_path / 'goo'
    program.write_text(
        f'#!{sys.executable}\n'
        'import sys\n'
        'came = sys.stdin.buffer.read()\n'
        f'print(len(came), file=open({str(told)!r}, "a"))\n'
        f'if len(came) > {MOST}:\n'
        '    sys.exit("goo: read fault")\n'
        f'sys.stdout.buffer.write({ACCEPTED!r} * 0)\n'
        f'print(*[{ACCEPTED.decode()!r}] * came.count(10), sep="\\n")\n')
    program.chmod(0o755)
    chance = random.Random(86)
    sizes = [1 << 20] * 20 + [chance.choice((90, 900, 65536, 1 << 20)) for _ in range(60)]
    for number, size in enumerate(sizes):
        log.add(opened_holder(number, size))
    now = replay.bring_up(str(program), tmp_path / 'none', log.state / 'archive', log.place, KEY)
    given = list(map(int, told.read_text().split()))
    assert now.n == len(sizes)
    assert max(given) <= MOST and sum(given) == sum(len('ISSUER ') + 1 + len(
        opened_holder(number, size)) for number, size in enumerate(sizes))


def test_long_requests_and_a_long_field_are_applied_to_a_copy(log: Log, db: Path) -> None:
    """Twenty requests of a mebibyte each, a table with one field of as much, one of short rows."""
    begun = log.copy(db)
    size = 1 << 20
    for number in range(20):
        log.add(opened_holder(number, size))
    log.add(HEADER + b'a' * (size - len(HEADER)), b'1 unreadable\n', route='/v1/declarations')
    rows_of_one = (size - len(HEADER)) // 2
    log.add(HEADER + b'a\n' * rows_of_one, b''.join(
        b'%d unreadable\n' % row for row in range(1, rows_of_one + 1)), route='/v1/declarations')
    [*_, last] = verification.verify(GOO, log.state / 'archive', KEY, begun, log.copies)
    assert last == f'entries 1 to 22, applied to {begun}, come to the outcomes of the archive'


def made_tables() -> Iterator[bytes]:
    """Tables of all bytes, of odd quotes and line ends, and with fields of any length."""
    chance = random.Random(13)
    yield HEADER + bytes(range(256)) + b'\n'
    yield b'\xef\xbb\xbf' + HEADER.replace(b'\n', b'\r\n') + b'"a""b",c"d,"e"f\r\r\n\n,,\n'
    yield HEADER + b'"' + b'a\n' * 70_000 + b'"\nb\n'
    yield HEADER + b'a' * 131_073 + b'\n' + b'b,"c'
    soup = [b'"', b'"', b',', b'\n', b'\r', b'\r\n', b'a', b' ', b'\0', b'\xff', b'\xc3\xa4']
    for _ in range(40):
        yield HEADER + b''.join(chance.choices(soup, k=chance.randrange(1, 60)))
    for _ in range(10):
        yield HEADER + chance.randbytes(3000)


def test_a_table_has_the_rows_that_the_program_finds(db: Path) -> None:
    for table in made_tables():
        done = subprocess.run([GOO, 'declare', '--db', db], input=table, capture_output=True,
                              check=False)
        assert not done.stderr
        assert len(replay.rows_of(table)) == len(done.stdout.splitlines()), table[:200]


# ------------------------------------------------------------------ rows

def changed(db: Path, *statements: str) -> None:
    with closing(sqlite3.connect(db)) as connection:
        for statement in statements:
            connection.execute(statement)
        connection.commit()


def test_each_difference_of_two_files_is_named(db: Path, tmp_path: Path) -> None:
    run_on(db, *(opened_holder(number) for number in range(3)))
    other = tmp_path / 'other.db'
    shutil.copyfile(db, other)
    assert not list(rows.differences(db, other, ('one', 'other')))
    changed(other, "UPDATE holder SET name = 'M' WHERE code = 'H1'",
            "DELETE FROM receipt WHERE key = 'k2'", 'INSERT INTO peer VALUES (9)',
            'UPDATE meta SET next_notice = 5')
    told = {(one.table, one.key, one.here, one.there)
            for one in rows.differences(db, other, ('one', 'other'))}
    assert told == {
        ('holder', "code 'H1'", "one has name 'N'", "other has name 'M'"),
        ('receipt', "caller 'ISSUER', key 'k2'", 'only in one', 'not in other'),
        ('peer', 'code 9', 'only in other', 'not in one'),
        ('meta', 'id 1', 'one has next_notice 1', 'other has next_notice 5')}
    changed(other, 'DROP TABLE lot_carrier')
    [one] = rows.differences(db, other, ('one', 'other'))
    assert one.table == 'the tables'


def test_a_digest_is_over_all_rows_and_not_over_where_they_lie(db: Path, tmp_path: Path) -> None:
    run_on(db, *(opened_holder(number) for number in range(3)))
    before = rows.digest(db)
    other = tmp_path / 'other.db'
    shutil.copyfile(db, other)
    with closing(sqlite3.connect(other)) as connection:
        connection.execute('PRAGMA page_size = 1024')
        connection.execute('VACUUM')
        tables = [name for name, in connection.execute(
            "SELECT name FROM sqlite_schema WHERE type = 'table'")]
    assert rows.digest(other) == before and other.read_bytes() != db.read_bytes()
    assert len(tables) == 16
    seen = {before}
    for table in ('meta', 'holder', 'receipt'):
        changed(other, f'UPDATE {table} SET rowid = rowid + 7' if table == 'meta' else
                f'DELETE FROM {table} WHERE rowid = 2')
        seen.add(rows.digest(other))
    assert len(seen) == 4


# ------------------------------------------------------------------ verify

def test_an_archive_without_its_beginning_does_not_hold(log: Log, db: Path) -> None:
    """The first copy is of entry 0, the second of 3; then the beginning of the archive goes."""
    log.copy(db)
    for number in range(6):
        log.add(opened_holder(number))
        if number == 2:
            log.copy(db)
    told = log.verify()
    assert len(told) == 3 and re.match('entries 1 to 6: ', told[-1])
    lines = log.file().read_bytes().splitlines(keepends=True)
    log.file().write_bytes(b''.join(lines[3:]))
    with pytest.raises(entries.Broken, match='begins at entry 4, and not at 1'):
        log.verify()
    told = log.verify(4)
    assert sum('the hash of' in line for line in told) == 1     # the copy of 3, by entry 4
    assert sum('before entry 4: not held' in line for line in told) == 1
    with pytest.raises(entries.Broken, match='begins at entry 4, and not at 3'):
        log.verify(3)
    log.file().write_bytes(b'')
    with pytest.raises(entries.Broken, match='no entry 1'):
        log.verify()


def test_a_copy_of_an_entry_that_is_not_there_does_not_hold(log: Log, db: Path) -> None:
    for number in range(6):
        log.add(opened_holder(number))
    copy = log.copy(db)
    lines = log.file().read_bytes().splitlines(keepends=True)
    log.file().write_bytes(b''.join(lines[:5]))
    with pytest.raises(entries.Broken, match=f'{copy.name} is of entry 6, .* ends at entry 5'):
        log.verify()
    log.file().write_bytes(b''.join(lines))
    place = json.loads((copy / 'place.json').read_text())
    (copy / 'place.json').write_text(json.dumps({**place, 'hash': '0' * 64}))
    with pytest.raises(entries.Broken, match=f'entry 6: {copy.name} has another hash'):
        log.verify()


def test_a_damaged_line_is_refused_by_its_number(log: Log) -> None:
    """One bit of each line in turn, at some places of it."""
    for number in range(5):
        log.add(opened_holder(number))
    whole = log.file().read_bytes()
    lines = whole.splitlines(keepends=True)
    chance = random.Random(14)
    for at, line in enumerate(lines):
        for place in (0, 9, *(chance.randrange(len(line) - 1) for _ in range(12))):
            bad = bytearray(line)
            bad[place] ^= 1 << chance.randrange(8)
            if bad.strip(b'\n') != line.strip(b'\n') and b'\n' not in bad[:-1]:
                log.file().write_bytes(b''.join([*lines[:at], bytes(bad), *lines[at + 1:]]))
                said = f'the line of entry {at + 1}'
                with pytest.raises(entries.Broken, match=said):
                    log.verify()


# ------------------------------------------------------------------ what root reads

def state_of(log: Log) -> Path:
    """The state of a log that belongs to nobody, in folders that everybody may enter."""
    for folder in (log.state, *log.state.rglob('*')):
        os.chown(folder, NOBODY, NOBODY)
    for folder in log.state.parents[:3]:
        folder.chmod(0o755)
    return log.state


def replica_log(*words: object, check: bool = False) -> subprocess.CompletedProcess[str]:
    program, = command('goo-replica-log', SERVICE)
    done = subprocess.run([program, *map(str, words)], capture_output=True, text=True, check=False)
    assert not check or not done.returncode, done
    return done


def untouched(path: Path) -> tuple[int, ...]:
    """Marks of a file that change once it is read, written or given away."""
    os.utime(path, ns=(1_000_000_000, 2_000_000_000))
    return marks(path)


def marks(path: Path) -> tuple[int, ...]:
    of = path.lstat()
    return of.st_uid, of.st_gid, of.st_mode, of.st_mtime_ns, of.st_atime_ns, of.st_ctime_ns


@pytest.mark.skipif(os.geteuid() != 0, reason='root alone becomes another user')
@pytest.mark.parametrize('path', ['archive', 'archive/2025-03.jsonl', 'place', 'log',
                                  'log/00000000000000000001.jsonl', 'aside'])
def test_root_reaches_no_further_than_the_owner_of_the_folder(
        log: Log, db: Path, tmp_path: Path, path: str) -> None:
    """The owner puts a link at a path; behind it stands a file or a folder of root's."""
    log.add(opened_holder(1))
    key = tmp_path / 'key'
    key.write_bytes(KEY)
    state, words = state_of(log), ('--key', key, '--copies', log.copies, '--goo', GOO, '--db', db)
    key.chmod(0o644)
    replica_log('found', '--state', state, *words, check=True)
    secret = tmp_path / 'secret'
    secret.mkdir(mode=0o700)
    for name in ('2025-03.jsonl', '2025-02.jsonl', '00000000000000000001.jsonl'):
        (secret / name).write_bytes((state / 'archive/2025-03.jsonl').read_bytes() + b'torn')
        (secret / name).chmod(0o600)
    link = state / path
    is_folder = path in ('archive', 'log')
    if link.is_dir():
        shutil.rmtree(link)
    link.unlink(missing_ok=True)
    link.symlink_to(secret if is_folder else secret / '2025-03.jsonl')
    os.lchown(link, NOBODY, NOBODY)
    before = {one: (one.read_bytes(), untouched(one)) for one in secret.iterdir()}
    for given in (['found'], ['version', 'next'], ['compress'], ['verify'], ['first-copy'],
                  ['place', str(log.copies)]):
        done = replica_log(*given, '--state', state, *words)
        assert 'Traceback' not in done.stderr, (given, done)
        assert not (path.startswith('archive') and given == ['verify'] and not done.returncode)
    assert set(secret.iterdir()) == before.keys()
    for one, (text, there) in before.items():
        assert marks(one) == there and one.read_bytes() == text


@pytest.mark.skipif(os.geteuid() != 0, reason='root alone becomes another user')
def test_a_database_is_copied_as_its_owner(db: Path, tmp_path: Path) -> None:
    """A link in place of the database is refused; a database behind a linked log too."""
    home, part, secret = tmp_path / 'home', tmp_path / 'part', tmp_path / 'secret'
    for folder in (home, part, secret):
        folder.mkdir(mode=0o700)
    shutil.copyfile(db, home / 'registry.db')
    (secret / 'shadow').write_text('a secret')
    (home / 'registry.db-wal').symlink_to(secret / 'shadow')
    for path in (home, *home.iterdir()):
        os.lchown(path, NOBODY, NOBODY)
    for folder in tmp_path.parents[:2]:
        folder.chmod(0o755)
    tmp_path.chmod(0o755)
    with pytest.raises(contents.Unfit, match='symbolic link'):
        contents.copy_database(home / 'registry.db', part)
    assert b'a secret' not in b''.join(path.read_bytes() for path in part.iterdir())
    (home / 'registry.db-wal').unlink()
    shutil.rmtree(part)
    part.mkdir()
    contents.copy_database(home / 'registry.db', part)
    copied = part / 'registry.db'
    assert copied.read_bytes() == db.read_bytes() and copied.stat().st_uid == 0


@pytest.mark.skipif(os.geteuid() != 0, reason='root alone becomes another user')
def test_the_owner_ends_where_nobody_reads_and_tells_its_faults(tmp_path: Path) -> None:
    for folder in (tmp_path, *tmp_path.parents[:2]):
        folder.chmod(0o755)
    home = tmp_path / 'home'
    home.mkdir()
    os.chown(home, NOBODY, NOBODY)

    def users() -> Iterator[bytes]:
        while True:
            yield f'{os.getresuid()} {os.getresgid()} {os.getgroups()}'.encode()
    with closing(cast(Generator[bytes, None, None], owner.as_owner(home, users))) as it:
        assert next(it) == f'{(NOBODY,) * 3} {(NOBODY,) * 3} []'.encode()

    def fault() -> Iterator[bytes]:
        yield b'one'
        raise OSError('no such thing')
    with pytest.raises(owner.NotDone, match='no such thing'):
        list(owner.as_owner(home, fault))
    long = b'a' * 3_000_000
    assert list(owner.as_owner(home, lambda: iter([b'', long]))) == [b'', long]


# ------------------------------------------------------------------ the nightly copy

@pytest.fixture
def log_house() -> Iterator[House]:
    """The registry and its log, standing."""
    with House(parts=('registry', 'log')) as standing:
        yield standing


def behind_the_log(house: House, *requests: dict[str, object]) -> None:
    """Requests that the live file alone carries out."""
    house.stop('log')
    house.stop('registry')
    lines = [b'SUN ' + json.dumps(request).encode() + b'\n' for request in requests]
    done = subprocess.run([GOO, 'run', '--db', house.db], input=b''.join(lines),
                          capture_output=True, check=False)
    assert done.stdout.count(b'"outcome":"accepted"') == len(requests), done
    house.start('registry')
    house.start('log')


def newest(house: House) -> Path:
    return contents.copies_in(house.copies)[-1]


def test_what_was_done_behind_the_log_fails_the_copy(log_house: House) -> None:
    """A transfer and a cancellation in the live file alone: the audit is the same as before."""
    house = log_house
    country = house.make_country()
    made = house.log_words('copy')
    assert made.returncode == 0, made
    first = newest(house)
    behind_the_log(
        house,
        {'command': 'transfer', 'key': 't', 'giver': country.sun, 'taker': country.volt,
         'first': f'{country.first:014}', 'last': f'{country.first + 9:014}'},
        {'command': 'cancel', 'key': 'c', 'account': country.sun, 'beneficiary': 'Nobody',
         'first': f'{country.first + 20:014}', 'last': f'{country.first + 29:014}',
         'use_first': '2025-01-01', 'use_last': '2025-01-31'})
    done = house.log_words('copy')
    assert done.returncode == 1 and newest(house) == first, done
    [kept] = house.copies.glob('differs-*')
    told = (kept / 'differences.txt').read_text()
    assert f'piece first {country.first + 20}: only in the live file' in told
    assert 'cancellation number 1: only in the live file' in told
    assert "receipt caller 'SUN', key 't': only in the live file" in told
    assert f'piece first {country.first}: the live file has' in told
    assert 'piece first' in done.stderr and str(kept) in done.stderr
    assert {path.name for path in kept.iterdir()} == {'live', 'replayed', 'differences.txt'}
    audits = {subprocess.run([GOO, 'audit', '--db', kept / name / 'registry.db'], check=True,
                             capture_output=True).stdout for name in ('live', 'replayed')}
    assert len(audits) == 1                     # what was compared before tells nothing
    for _ in range(2):
        assert house.log_words('copy').returncode == 1
    assert len(list(house.copies.glob('differs-*'))) == 2 and kept.exists()


def test_a_copy_is_the_live_file(log_house: House) -> None:
    """Its rows are those of the registry that is stopped then, also where its log is new."""
    house = log_house
    house.make_country()
    house.kill('registry')                      # its newest requests are in registry.db-wal
    house.start('registry')
    house.enter('ISSUER', 'open_holder', 'last', holder='LAST', name='Last')
    assert (house.db.parent / 'registry.db-wal').stat().st_size > 1000
    done = house.log_words('copy')
    assert done.returncode == 0 and '52 hold, 0 broken' in done.stdout, done
    verified = house.log_words('verify', '--from', newest(house), '--from', '1')
    assert verified.returncode == 0, verified
    house.stop('log')
    house.stop('registry')
    subprocess.run([GOO, 'audit', '--db', house.db], check=True, capture_output=True)
    assert dumped(newest(house) / 'registry.db') == dumped(house.db)
    place = json.loads((newest(house) / 'place.json').read_text())
    assert place['n'] == reader.number_in(
        reader.months(house.state / 'archive')[-1].read_bytes().splitlines()[-1])


NOTICE = {
    'sender': 9, 'addressee': 7, 'number': 1, 'account': 1, 'version': 1, 'parts': [{
        'first': '09000000000001', 'last': '09000000000010', 'lot': {
            'origin': 9, 'capacity_w': 1_000_000, 'commissioned': '2020-06-15', 'country': 'DE',
            'device': gsrn(901), 'first_day': '2025-01-01', 'issued_on': '2025-02-01',
            'last_day': '2025-01-31', 'site': 'South', 'source': 'F01010100', 'support': 'none',
            'tech': 'T010000'}}]}


def longest() -> list[tuple[str, bytes, int]]:
    """What the limits allow, each as long as may be: route, body, and the status it comes to."""
    size, every = 1 << 20, bytes(range(256))
    imports = [json.dumps({'command': 'import', 'key': f'most-{number}', 'notice': NOTICE}).encode()
               for number in range(20)]
    return [
        *(('/v1/requests', body.ljust(size), 409) for body in imports),
        ('/v1/requests', opened_holder(4711, 65_536), 200),
        ('/v1/requests', every, 400),
        ('/v1/declarations', HEADER + b'a' * (size - len(HEADER)), 200),
        ('/v1/declarations', HEADER + b'a,' * ((size - len(HEADER)) // 2), 200),
        ('/v1/declarations', HEADER + b'"' + b'\n' * 20_000 + b'"\n' + b'a\n' * 900, 200),
        ('/v1/declarations', HEADER + b'aaa\n' * 21_000, 200),
        ('/v1/declarations', HEADER + every + b'\n' + every[::-1], 200)]


def test_what_the_limits_allow_is_copied(log_house: House) -> None:
    """The longest requests, tables, rows and fields, and every byte; then copy, recount, verify."""
    house = log_house
    begun = newest(house)
    for route, body, status in longest():
        answer = house.ask_log('ISSUER', 'POST', route, body)
        assert answer.status == status, (answer, body[:80])
    done = house.log_words('copy')
    assert done.returncode == 0 and '0 broken' in done.stdout, done
    verified = house.log_words('verify', '--from', begun)
    assert verified.returncode == 0, verified
    assert 'come to the outcomes of the archive' in verified.stdout
    house.restart('registry')
    house.restart('log')
    assert house.log_words('copy').returncode == 0


def test_writes_wait_while_the_file_is_copied_and_go_on_however_it_ends(log_house: House) -> None:
    """Whoever holds ends by itself, is killed, or holds too long. Reads are answered meanwhile."""
    house = log_house
    house.make_country()
    program = ('import sys, time; sys.path.insert(0, sys.argv[1])\n'
               'from goo_service.log import hold as holding\n'
               'with holding.hold_replica(sys.argv[2]) as hold:\n'
               '    print(hold.n, flush=True)\n'
               '    time.sleep(float(sys.argv[3]))\n'
               '    print(hold.lasts(), flush=True)\n')
    words = [sys.executable, '-c', program, house.service, house.folder / 'door.sock']
    for number, (seconds, kill) in enumerate(((1, False), (60, True))):
        before = house.entry()
        with subprocess.Popen([*map(str, words), str(seconds)], stdout=subprocess.PIPE,
                              text=True) as holder:
            assert holder.stdout is not None
            assert int(holder.stdout.readline()) == before
            took: list[float] = []

            def send(at: float = time.monotonic(), key: str = f'held-{number}') -> None:
                house.enter('ISSUER', 'open_holder', key, holder=key.upper(), name='H')
                took.append(time.monotonic() - at)
            sender = threading.Thread(target=send)
            sender.start()
            time.sleep(0.5)
            assert house.entry() == before and not took
            read = house.ask_log('ISSUER', 'GET', '/v1/audit')
            assert read.status == 200
            if kill:
                holder.kill()
            sender.join(20)
            assert took and took[0] < 20 and house.entry() == before + 1
            if not kill:
                assert holder.stdout.readline() == 'True\n'


def test_a_hold_ends_by_itself(tmp_path: Path) -> None:
    """The replica closes the connection before it goes on, and a copy of that time is none."""
    service = copied(tmp_path)
    plant(service, 'goo_service/log/hold.py', '\nHOLD = 120\n', '\nHOLD = 0.4\n')
    slow = (service / 'goo_service/copies/contents.py').read_text()
    assert slow.count('        [after] = as_owner') == 1
    (service / 'goo_service/copies/contents.py').write_text(slow.replace(
        '        [after] = as_owner', '        time.sleep(1)\n        [after] = as_owner'))
    with House(parts=('registry', 'log'), service=service) as house:
        house.make_country()
        done = house.log_words('copy')
        assert done.returncode == 1 and 'not copied in 3 tries' in done.stderr, done
        house.enter('ISSUER', 'open_holder', 'after', holder='AFTER', name='A')


# ------------------------------------------------------------------ an entry is undone

def put_before(house: House, copy: Path, n: int) -> None:
    """The registry's file is the copy with the entries before n, as restore --before makes it."""
    part = house.folder / 'part'
    part.mkdir()
    contents.copy_database(copy / 'registry.db', part)
    replay.bring_up(GOO, part / 'registry.db', house.state / 'archive', read_place(copy),
                    house.key.read_bytes(), n - 1)
    for file in house.db.parent.glob('registry.db*'):
        file.unlink()
    (part / 'registry.db').rename(house.db)
    part.rmdir()


def wrong_date(house: House, country: Country) -> tuple[int, str]:
    """The number and the body of a wrong date, which expires what is held. Of what came after it
    one was refused for it, and one was not."""
    held = {'first': f'{country.first:014}', 'last': f'{country.first + 9:014}'}
    transfer: dict[str, Any] = {'command': 'transfer', 'giver': country.sun,
                                'taker': country.volt, **held}
    house.enter('SUN', **transfer | {'key': 'before'})
    n = house.entry() + 1
    wrong = json.dumps({'command': 'advance', 'key': 'wrong', 'day': '2026-10-01'})
    assert house.ask_log('ISSUER', 'POST', '/v1/requests', wrong).json['reply']['expired'] == 100
    later = [
        ('ISSUER', {'command': 'open_holder', 'key': 'later', 'holder': 'LATER', 'name': 'L'}),
        ('VOLT', {'command': 'transfer', 'key': 'back', 'giver': country.volt,
                  'taker': country.sun, **held}),
        ('ISSUER', {'command': 'advance', 'key': 'day', 'day': '2025-03-02'})]
    outcomes = [house.ask_log(caller, 'POST', '/v1/requests', json.dumps(request),
                              user='anna', address='192.0.2.9').status
                for caller, request in later]
    assert outcomes == [200, 409, 409]
    return n, wrong


def files_of(folder: Path) -> dict[str, bytes]:
    return {path.name: path.read_bytes() for path in folder.iterdir()}


def test_a_wrong_date_is_undone_and_what_came_after_is_sent_again(log_house: House) -> None:
    house = log_house
    country = house.make_country()
    assert house.log_words('copy').returncode == 0
    copy = newest(house)
    n, wrong = wrong_date(house, country)
    whole = files_of(house.state / 'archive')
    house.stop('log')
    house.stop('registry')
    put_before(house, copy, n)
    for _ in range(2):                          # cut off after it, the same is done once more
        done = house.log_words('undo', n)
        assert done.returncode == 0, done
    [folder] = house.state.glob('undone-*')
    assert files_of(folder / 'archive') == whole
    house.start('registry')
    house.start('log')
    done = house.log_words('again', n)
    assert done.returncode == 0, done
    told = done.stdout.splitlines()
    assert len(told) == 3 and told[2].startswith('3 entries after entry')
    assert re.match(rf'entry {n + 2}, now entry {n + 2}: anna as VOLT, transfer back: was 409 '
                    r'.*"NotHeld".*, is 200 \{"outcome":"accepted"', told[0]), told[0]
    assert 'advance day: was 409' in told[1] and 'is 200' in told[1]
    undone_holds(house, country, n, wrong)


def undone_holds(house: House, country: Country, n: int, wrong: str) -> None:
    """The registry is what it would be without the wrong date, and all of its records hold."""
    statement = house.ask_log('ISSUER', 'GET', f'/v1/accounts/{country.sun}/statement').text
    assert 'date 2025-03-02' in statement and 'expired 0' in statement and 'held 100' in statement
    again = house.ask_log('ISSUER', 'POST', '/v1/requests', wrong)
    assert again.status == 500 and house.entry() == n + 3
    verified = house.log_words('verify', '--from', newest(house))
    assert verified.returncode == 0 and f'entries 1 to {n + 3}: ' in verified.stdout, verified
    assert house.log_words('copy').returncode == 0
    assert house.log_words('undo', n).returncode == 1       # a replica runs
    entry = next(reader.read_archive(house.state / 'archive', n)).entry
    assert (entry.user, entry.address) == ('anna', '192.0.2.9')


@pytest.mark.parametrize('last', [1, 2, 5])
def test_an_archive_of_months_is_cut_at_any_entry(tmp_path: Path, last: int) -> None:
    """Of three months, the first compressed; what was taken out stays as it was."""
    state = tmp_path / 'state'
    (state / 'log').mkdir(parents=True)
    archive, prev, chain = Archive(state / 'archive'), 'f' * 64, entries.NO_CHAIN
    for number, month in enumerate(('01', '01', '02', '02', '03'), 1):
        entry = entries.Entry(
            n=number, prev=prev, time=f'2025-{month}-01T09:00:00.000000Z', host='h1', user='',
            address='', role='full', caller='ISSUER', method='POST', route='/v1/requests',
            version='trial', id='0' * 16, body=opened_holder(number))
        archive.add(entries.entry_line(entry, KEY), entry,
                    entries.outcome_after('/v1/requests', 200, ACCEPTED, chain))
        assert archive.last
        prev, chain = archive.last.hash, archive.last.outcome.chain
    compress(state / 'archive')
    records = list(reader.read_archive(state / 'archive'))
    whole = {path.name: path.read_bytes() for path in (state / 'archive').iterdir()}
    for _ in range(2):
        folder = Path(reversal.remove_from(state, last, lambda point: line_after(point)))
    assert list(reader.read_archive(state / 'archive')) == records[:last - 1]
    assert {path.name: path.read_bytes() for path in (folder / 'archive').iterdir()} == whole
    place = position.Place(state / 'place')
    assert (place.n, place.hash) == (last - 1, records[last - 1].entry.prev)
    place.close()
    with pytest.raises(entries.Broken, match=f'entry {last} is being undone'):
        reversal.remove_from(state, last + 1, lambda point: line_after(point))
    (folder / 'sent').touch()
    with pytest.raises(entries.Broken, match=f'no entry {last} '):
        reversal.remove_from(state, last, lambda point: line_after(point))


def line_after(point: position.Position) -> bytes:
    """The entry with which a new log begins."""
    entry = entries.Entry(
        n=point.n + 1, prev=point.hash, time='2025-03-02T09:00:00.000000Z', host='h1', user='',
        address='', role='full', caller='ISSUER', method='VERSION', route='', version='trial',
        id='0' * 16, body=b'trial')
    return entries.entry_line(entry, KEY)


# ------------------------------------------------------------------ where the book begins

def first_copy(folder: Path, db: Path) -> None:
    """The first copy of a log, with the folders of a host below one folder."""
    program, = command('goo-replica-log', SERVICE)
    done = subprocess.run(
        [program, 'first-copy', *map(str, words_below(folder, db))], capture_output=True, text=True,
        check=False, env={**os.environ, 'GOO_BOOK': str(folder / 'book'),
                          'GOO_CONFIGURATION': str(folder / 'conf'), 'GOO_EXCHANGE': '/nowhere'})
    assert done.returncode == 0 and Path(done.stdout.strip()).is_dir(), done


def words_below(folder: Path, db: Path) -> list[object]:
    return ['--state', folder / 'state', '--key', folder / 'key', '--copies', folder / 'copies',
            '--goo', GOO, '--db', db]


def test_a_log_begun_over_a_registry_places_the_beginning_of_the_book(
        db: Path, tmp_path: Path) -> None:
    """Over an empty registry, over one with requests, and once the log has gone on."""
    state, book, conf = (tmp_path / name for name in ('state', 'book', 'conf'))
    for folder in (state, book, conf, tmp_path / 'copies'):
        folder.mkdir()
    for folder in (tmp_path, *tmp_path.parents[:2]):
        folder.chmod(0o755)
    if os.geteuid() == 0:
        os.chown(book, NOBODY, NOBODY)
    told = conf / 'records.conf'
    told.write_text('GOO_RECORDS_BEGIN=--begun 7 2025-03-01 1\n')
    (tmp_path / 'key').write_bytes(KEY)
    replica_log('found', *words_below(tmp_path, db), check=True)
    first_copy(tmp_path, db)
    assert '--begun 7 2025-03-01 1' in told.read_text()
    run_on(db, opened_holder(1))
    first_copy(tmp_path, db)
    assert told.read_text().endswith(f'\nGOO_RECORDS_BEGIN=--copy {book}/first --after 0\n')
    assert dumped(book / 'first/registry.db') == dumped(db)
    assert {path.name for path in (book / 'first').iterdir()} == {'registry.db', 'place.json'}
    assert os.geteuid() != 0 or (book / 'first/registry.db').stat().st_uid == NOBODY
    told.write_text('as it was\n')
    line = line_after(position.Position(0, 'f' * 64, '-'))
    outcome = entries.outcome_after('', 200, b'', entries.NO_CHAIN)
    Archive(state / 'archive').add(line, entries.read_entry(line), outcome)
    first_copy(tmp_path, db)
    assert told.read_text() == 'as it was\n'
