"""An old registry is brought over: nothing is lost or changed, however often it is cut off."""
import hashlib
import json
import os
import random
import signal
import sqlite3
import subprocess
import time
from collections import Counter
from collections.abc import Iterator
from contextlib import closing
from pathlib import Path
from typing import cast

import old_registry
import pytest
from cryptography.hazmat.primitives.asymmetric.ed25519 import Ed25519PrivateKey
from cryptography.hazmat.primitives.serialization import Encoding
from cryptography.hazmat.primitives.serialization import NoEncryption
from cryptography.hazmat.primitives.serialization import PrivateFormat
from goo_service.common.client import Answer
from goo_service.common.client import Client
from goo_service.exchange.signature import Key
from goo_service.log.closed import read_closed
from goo_service.migrate import documents
from goo_service.migrate import enquiry
from goo_service.migrate import plan
from goo_service.migrate import protocol
from goo_service.migrate import sending
from goo_service.migrate import settings
from goo_service.migrate import work
from goo_service.migrate.sums import compare
from goo_service.records.attachments import Attachments
from goo_service.records.questions import NotFound
from goo_service.records.questions import Viewer
from client import comes
from house import House
from door import SERVICE
from migrating import ASSIGNED
from migrating import checked
from migrating import copied
from migrating import names_in
from migrating import planned
from migrating import rehearsed as differences_of
from mutations import gsrn
from service_commands import command


@pytest.fixture
def folder(tmp_path: Path) -> Path:
    """The tables of a small old registry."""
    old_registry.write(tmp_path, 1)
    return tmp_path


@pytest.fixture(scope='module')
def rehearsed(tmp_path_factory: pytest.TempPathFactory) -> Path:
    """A small old registry that was checked, planned, and rehearsed without a difference."""
    place = tmp_path_factory.mktemp('rehearsed')
    assert differences_of(place, planned(place, 2)) == []
    return place


# what comes over

def test_what_was_brought_over_is_what_the_tables_state(rehearsed: Path) -> None:
    """By queries of the test's own over the tables and over the registry."""
    tables = old_registry.read_tables(rehearsed)
    held = sum(int(row[1]) - int(row[0]) + 1 for row in tables['stock'])
    with closing(sqlite3.connect(rehearsed / 'rehearsal/registry.db')) as database:
        total, least, most = database.execute(
            'SELECT sum(last - first + 1), min(first), max(last) FROM piece WHERE kind = 1'
        ).fetchone()
        names = {name for name, in database.execute('SELECT name FROM holder')}
        sites = {site for site, in database.execute('SELECT site FROM device')}
    assert total == held
    assert (least, most) == (min(int(row[0]) for row in tables['stock']),
                             max(int(row[1]) for row in tables['stock']))
    assert names == {row[1] for row in tables['holders']}
    assert sites == {row[2] for row in tables['devices']}


def test_the_result_passes_a_recount(rehearsed: Path, tmp_path: Path) -> None:
    words = command('goo-copies', SERVICE)
    done = subprocess.run([*words, 'recount', rehearsed / 'rehearsal/registry.db', '--begun',
                           old_registry.DATE], capture_output=True, text=True, check=False,
                          cwd=tmp_path)
    assert done.returncode == 0, done.stdout + done.stderr


@pytest.mark.parametrize(('change', 'told'), [
    ('UPDATE piece SET account = 2 WHERE first = (SELECT min(first) FROM piece WHERE account = 1)',
     'account 2'),
    ('UPDATE piece SET last = last - 1 WHERE first = (SELECT first FROM piece WHERE last > first '
     'ORDER BY first LIMIT 1)', 'in the registry, and not so in the tables'),
    ('INSERT INTO piece SELECT last + 100, last + 105, lot, kind, account, act FROM piece '
     'ORDER BY last DESC LIMIT 1', 'in the registry, and not so in the tables'),
    ('INSERT INTO piece SELECT 7000000000001, 7000000000005, lot, kind, account, act FROM piece '
     'LIMIT 1', 'in the registry, and not so in the tables: 07000000000001'),
    ("UPDATE lot SET site = 'Elsewhere' WHERE id = 1", 'Elsewhere'),
    ("UPDATE holder SET name = 'Nobody' WHERE code = 'H00001'", 'Nobody'),
    ('UPDATE device SET capacity_w = 7 WHERE gsrn = (SELECT min(gsrn) FROM device)', 'devices'),
    ('DELETE FROM piece WHERE first = (SELECT max(first) FROM piece)', 'in the tables, and not'),
    ("UPDATE account SET holder = 'H00001' WHERE number = 1", 'accounts 1'),
    ('UPDATE account SET closed = 1 WHERE number = 8', 'accounts 8'),
    ("UPDATE device SET last_day = '2025-03-31', carry = 5 WHERE gsrn = "
     '(SELECT min(gsrn) FROM device)', 'declared to 2025-03-31 5')])
def test_a_difference_in_the_result_is_told(rehearsed: Path, tmp_path: Path, change: str,
                                            told: str) -> None:
    place = copied(rehearsed, tmp_path)
    registry = place / 'rehearsal/registry.db'
    with closing(sqlite3.connect(registry)) as database, database:
        assert database.execute(change).rowcount == 1
    found = compare(place, settings.read(place), registry)
    assert found.count and told in '\n'.join(found.differences)
    listed = (place / 'differences').read_text(encoding='utf-8').splitlines()
    assert listed == found.differences and len(listed) == found.count


def test_the_sums_are_those_of_the_tables(rehearsed: Path) -> None:
    """Added up by the test, over days that stand here."""
    deadlines = {'2024-02-29': '2025-08-29', '2024-03-31': '2025-09-30', '2024-04-30': '2025-10-30'}
    tables = old_registry.read_tables(rehearsed)
    devices = {row[0]: row for row in tables['devices']}
    wanted = Counter[str]()
    for first, last, device, first_day, last_day, _, account in tables['stock']:
        count, (_, _, _, country, tech, *_) = int(last) - int(first) + 1, devices[device]
        wanted[deadlines[last_day]] += count
        wanted[f'{tech} {first_day[:7]} {country}'] += count
        wanted[f'{account_numbers(tables)[account]} 8 {device} {first_day}'] += count
        wanted['8'] += count
    for name in ('sums-tables', 'sums-registry'):
        lines = (rehearsed / name).read_text(encoding='utf-8').splitlines()
        found = {key: int(count) for key, _, count in (line.rpartition(' ') for line in lines
                                                       if not line.startswith(('by ', 'cert')))}
        assert found == wanted
        assert lines[0].startswith(f'certificates {wanted.total() // 4} in ')


def account_numbers(tables: old_registry.Tables) -> dict[str, int]:
    """The number that each account gets: from 1, in the order of its holder and of its row."""
    holders = [row[0] for row in tables['holders']]
    rows = sorted(tables['accounts'], key=lambda row: holders.index(row[1]))
    return {row[0]: at for at, row in enumerate(rows, 1)}


def test_each_certificate_is_sent_once(tmp_path: Path) -> None:
    """An account of 240 ranges has three notices, of 100 parts at most."""
    planned(tmp_path, 5, old_registry.Size(holders=1, devices=20))
    tables = old_registry.read_tables(tmp_path)
    imports = [step for step in sending.steps_in(tmp_path) if step.body['command'] == 'import']
    parts = [part for step in imports for part in step.body['notice']['parts']]
    assert len(imports) > 1 and max(len(step.body['notice']['parts']) for step in imports) == 100
    sent = [number for part in parts for number in range(int(part['first']), int(part['last']) + 1)]
    assert sorted(sent) == sorted(number for row in tables['stock']
                                  for number in range(int(row[0]), int(row[1]) + 1))


def test_a_key_stays_where_rows_have_moved(folder: Path) -> None:
    """A holder, its account and its device are put in front of all others."""
    before = keys_of(folder)
    tables = old_registry.read_tables(folder)
    tables['holders'].insert(0, ['NEW', 'In front'])
    tables['accounts'].insert(0, ['A-NEW', 'NEW'])
    tables['devices'].insert(0, [gsrn(77), 'A-NEW', *tables['devices'][0][2:]])
    for table, rows in tables.items():
        old_registry.write_table(folder, table, rows)
    after = keys_of(folder)
    assert len(before) == 1 + 6 + 8 + 8 and len(after) == len(before) + 3
    assert before.items() <= after.items()


def keys_of(folder: Path) -> dict[tuple[str, ...], str]:
    """The keys of a plan that is made anew, by what each request is about; no imports."""
    read, _ = checked(folder)
    plan.write(folder, read)
    found: dict[tuple[str, ...], str] = {}
    for step in sending.steps_in(folder):
        device = str(step.body.get('device', ''))
        about: tuple[str, ...] = step.body['command'], step.holder, device
        while about in found:           # a further account of the holder
            about += ('again',)
        if step.body['command'] != 'import':
            found[about] = step.body['key']
    return found


def test_a_copy_that_was_compared_is_the_same(rehearsed: Path, tmp_path: Path) -> None:
    """No file beside it: the nightly copy holds each copy against the list of its files."""
    place = copied(rehearsed, tmp_path)
    registry = place / 'rehearsal/registry.db'
    before = registry.read_bytes()
    assert compare(place, settings.read(place), registry).differences == []
    assert [path.name for path in registry.parent.iterdir()] == ['registry.db']
    assert registry.read_bytes() == before
    registry.with_name('registry.db-wal').touch()
    with pytest.raises(ValueError, match='is in use'):
        compare(place, settings.read(place), registry)


def test_an_account_has_its_number_in_the_plan(rehearsed: Path) -> None:
    steps = list(sending.steps_in(rehearsed))
    replies = [step.reply['account'] for step in steps if step.body['command'] == 'open_account']
    assert replies == list(range(1, 9))
    numbers = account_numbers(old_registry.read_tables(rehearsed))
    _, *rows = (rehearsed / plan.ACCOUNTS).read_text(encoding='utf-8').splitlines()
    assert {row.split(',')[4]: int(row.split(',')[2]) for row in rows} == numbers
    keys = [step.body['key'] for step in steps]
    assert len(set(keys)) == len(keys) and all(len(key) <= 40 for key in keys)
    parts = [len(step.body['notice']['parts']) for step in steps
             if step.body['command'] == 'import']
    assert parts and max(parts) <= 100


def test_numbers_that_are_assigned_are_found_both_ways(folder: Path) -> None:
    read, found = checked(folder, ASSIGNED)
    assert found.open == 0
    plan.write(folder, read)
    assert differences_of(folder, read) == []
    first, last, device, first_day, *_, account = old_registry.read_tables(folder)['stock'][50]
    old = f'{int(last):014}'
    by_old, = enquiry.by_old_number(folder, read, old)
    assert (by_old.device, by_old.first_day) == (device, first_day)
    assert (by_old.old_first, by_old.old_account) == (first, account)
    assert enquiry.by_new_number(folder, f'{by_old.number:014}') == [by_old]
    with closing(sqlite3.connect(folder / 'rehearsal/registry.db')) as database:
        row = database.execute('SELECT l.device, l.first_day, p.account FROM piece AS p '
                               'JOIN lot AS l ON l.id = p.lot WHERE ? BETWEEN p.first AND p.last',
                               (by_old.number,)).fetchone()
    assert row == (device, first_day, by_old.account)
    assert enquiry.by_old_number(folder, read, old_registry.number(10 ** 9)) == []


def test_the_carried_energy_is_in_a_list(rehearsed: Path) -> None:
    lines = (rehearsed / plan.CARRIED).read_text(encoding='utf-8').splitlines()
    device, energy = old_registry.read_tables(rehearsed)['carried'][0]
    assert f'{device},{energy},added,{energy}' in lines and len(lines) == 9


# the protocol

@pytest.fixture
def key(tmp_path: Path) -> Key:
    path = tmp_path / 'own.key'
    path.write_bytes(Ed25519PrivateKey.generate().private_bytes(
        Encoding.PEM, PrivateFormat.PKCS8, NoEncryption()))
    return Key(path)


def test_a_protocol_is_verified_with_its_files(rehearsed: Path, tmp_path: Path, key: Key) -> None:
    place = copied(rehearsed, tmp_path)
    read = settings.read(place)
    registry = place / 'rehearsal/registry.db'
    found = compare(place, read, registry)
    protocol.write(place, read, found, registry, key)
    assert protocol.faults(place, None) == [] == protocol.faults(place, key.public)
    said = json.loads((place / protocol.NAME).read_text(encoding='utf-8'))
    assert said['differences'] == 0
    assert said['sums of the tables'] == said['sums of the registry']
    assert said['copy of the registry'] == {
        'path': str(registry), 'SHA-256': hashlib.sha256(registry.read_bytes()).hexdigest()}
    with (place / 'tables/stock.csv').open('a', encoding='utf-8') as file:
        file.write('\n')
    assert protocol.faults(place, key.public) == [
        'tables/stock.csv is not the file of which the protocol tells']
    text = (place / protocol.NAME).read_text(encoding='utf-8')
    (place / protocol.NAME).write_text(text.replace('"differences": 0', '"differences": 1'),
                                       encoding='utf-8')
    assert 'is not signed' in protocol.faults(place, None)[0]


def test_a_protocol_that_tells_of_a_difference_does_not_hold(rehearsed: Path, tmp_path: Path,
                                                             key: Key) -> None:
    place = copied(rehearsed, tmp_path)
    registry, read = place / 'rehearsal/registry.db', settings.read(place)
    with closing(sqlite3.connect(registry)) as database, database:
        database.execute('DELETE FROM piece WHERE first = (SELECT max(first) FROM piece)')
    found = compare(place, read, registry)
    protocol.write(place, read, found, registry, key)
    assert found.count > 1 and protocol.faults(place, key.public) == [
        f'{found.count} differences between the tables and the registry']


def test_a_protocol_of_another_key_is_refused(rehearsed: Path, tmp_path: Path, key: Key) -> None:
    place = copied(rehearsed, tmp_path)
    read = settings.read(place)
    registry = place / 'rehearsal/registry.db'
    protocol.write(place, read, compare(place, read, registry), registry, key)
    other = Ed25519PrivateKey.generate()
    (tmp_path / 'other.key').write_bytes(other.private_bytes(
        Encoding.PEM, PrivateFormat.PKCS8, NoEncryption()))
    assert 'is not signed' in protocol.faults(place, Key(tmp_path / 'other.key').public)[0]


# the day

@pytest.fixture(scope='module')
def empty_house() -> Iterator[House]:
    """A registry with its log, in which nothing stands yet."""
    with House(parts=('registry', 'log')) as standing:
        yield standing


class Answering:
    """A log that answers as planned; `left` bundles, and then the run ends."""

    def __init__(self, folder: Path, left: int) -> None:
        self.replies = {step.body['key']: step.reply for step in sending.steps_in(folder)}
        self.keys: list[str] = []
        self.left = left

    def post(self, _: str, body: bytes) -> Answer:
        if not self.left:
            raise KeyboardInterrupt
        self.left -= 1
        keys = [json.loads(line)['key'] for line in body.splitlines()]
        self.keys += keys
        lines = [json.dumps({'outcome': 'accepted', 'reply': self.replies[key]}) for key in keys]
        return Answer(200, {}, '\n'.join(lines).encode())


def test_progress_tells_what_is_done_and_left_how_fast_and_when_it_ends() -> None:
    """200 requests in 100 seconds: 750 more take six minutes and a quarter."""
    now = time.mktime((2026, 11, 27, 22, 0, 0, 0, 0, -1))
    progress = sending.Progress(done=1250, of=2000, seconds=100, here=200, now=now)
    assert progress.text == '1,250 done, 750 left, 2.0 a second, ends at Fri 22:06:15'
    assert sending.Progress(0, 2000, 0, 0, now).text.endswith('no end is known yet')


def test_a_run_goes_on_with_the_first_request_that_has_no_answer(tmp_path: Path) -> None:
    planned(tmp_path, 3, old_registry.Size(holders=5, devices=10))
    log = Answering(tmp_path, 3)
    with pytest.raises(KeyboardInterrupt):
        sending.run(tmp_path, cast(Client, log), print)
    assert 0 < answered_of(tmp_path) == len(log.keys) < len(log.replies)
    log.left = len(log.replies)
    sending.run(tmp_path, cast(Client, log), print)
    assert log.keys == [step.body['key'] for step in sending.steps_in(tmp_path)]


def answered_of(folder: Path) -> int:
    """How many requests of a plan were answered, by what a run has noted."""
    noted = folder / sending.NAME
    return int(json.loads(noted.read_text())['requests']) if noted.exists() else 0


def test_a_run_that_is_killed_goes_on_and_ends_the_same(empty_house: House,
                                                        tmp_path: Path) -> None:
    """As one that nobody killed: the rehearsal of the same plan has the same rows in all tables."""
    read = planned(tmp_path, 3, old_registry.Size(holders=120, devices=40))
    assert differences_of(tmp_path, read) == []
    count, chance = len(list(sending.steps_in(tmp_path))), random.Random(3)
    words = [*command('goo-migrate', SERVICE), 'run', str(tmp_path), '--log',
             str(empty_house.folder / 'door.sock')]
    for _ in range(10):
        before = answered_of(tmp_path)
        started = subprocess.Popen(words, stdout=subprocess.DEVNULL, stderr=subprocess.PIPE)
        comes(lambda: started.poll() is not None or answered_of(tmp_path) > before, 60)
        time.sleep(chance.random() / 20)
        started.send_signal(signal.SIGKILL)
        _, said = started.communicate()
        assert started.returncode == -signal.SIGKILL, said
    done = subprocess.run(words, capture_output=True, text=True, check=False, timeout=300)
    assert done.returncode == 0, done.stderr
    assert f'all {count:,} requests are answered as planned' in done.stdout
    entries = empty_house.entry()
    again = subprocess.run(words, capture_output=True, text=True, check=False, timeout=300)
    assert again.returncode == 0 and empty_house.entry() == entries
    for part in ('log', 'registry'):
        empty_house.stop(part)          # the database of a registry that runs is locked
    copy = tmp_path / 'copy.db'
    with closing(sqlite3.connect(empty_house.db)) as running, closing(sqlite3.connect(copy)) as to:
        running.backup(to)
    assert compare(tmp_path, read, copy).differences == []
    assert rows_of(copy) == rows_of(tmp_path / 'rehearsal/registry.db')


def rows_of(registry: Path) -> dict[str, list[tuple[object, ...]]]:
    """All rows of all tables."""
    with closing(sqlite3.connect(f'file:{registry}?mode=ro', uri=True)) as database:
        names = [name for name, in database.execute(
            "SELECT name FROM sqlite_master WHERE type = 'table'")]
        return {name: sorted(database.execute(f'SELECT * FROM {name}'), key=repr)
                for name in names}


def test_the_old_registry_is_closed_once_and_open_again(rehearsed: Path, tmp_path: Path) -> None:
    path = tmp_path / 'closed'
    path.write_text('9 Another one\n')
    words = [*command('goo-migrate', SERVICE), 'close', str(rehearsed), '--closed', str(path)]
    for _ in range(2):
        subprocess.run(words, check=True, capture_output=True)
    assert read_closed(path) == {'8', '9'}
    assert len(path.read_text().splitlines()) == 2
    for _ in range(2):
        subprocess.run([*words, '--open'], check=True, capture_output=True)
    assert path.read_text() == '9 Another one\n'


def test_a_request_that_is_answered_otherwise_stops_the_run(tmp_path: Path) -> None:
    step = plan.Step('SUN', {'command': 'open_account', 'key': 'k'}, {'account': 1})
    with pytest.raises(sending.Stopped, match='planned was'):
        sending.judge(step, {'outcome': 'accepted', 'reply': {'account': 2}}, '200 ..')
    with pytest.raises(sending.Stopped):
        sending.judge(step, {'outcome': 'refused', 'code': 4}, '409 ..')


def test_a_plan_that_was_changed_is_not_sent(rehearsed: Path, tmp_path: Path) -> None:
    place = copied(rehearsed, tmp_path)
    with (place / plan.NAME).open('a', encoding='utf-8') as file:
        file.write('\n')
    with pytest.raises(sending.Stopped, match='not the plan'):
        sending.planned(place)


@pytest.mark.parametrize('name', ['tables/stock.csv', 'tables/carried.csv', 'migration.toml'])
def test_what_was_changed_since_the_check_is_not_planned(folder: Path, name: str) -> None:
    read, _ = checked(folder)
    with (folder / name).open('a', encoding='utf-8') as file:
        file.write('\n')
    with pytest.raises(plan.NotPlanned, match=f'{Path(name).name} is another one'):
        plan.write(folder, read)


def test_a_document_is_kept_with_its_hash(folder: Path) -> None:
    (folder / 'documents').mkdir()
    (folder / 'documents/statement.pdf').write_bytes(b'%PDF-1.7 old')
    os.symlink('/etc/passwd', folder / 'documents/link')
    (folder / 'tables/documents.csv').write_text(
        'file,holder,about\nstatement.pdf,H00001,Last statement\n../x,H00001,-\n'
        'link,H00001,-\nnone,H00001,-\nstatement.pdf,H00002,-\n', encoding='utf-8')
    checked(folder)
    assert names_in(folder) == {f'document documents {row}' for row in (2, 3, 4, 5)}
    with work.opened(folder) as database:
        kept = database.execute('SELECT file, bytes FROM kept_document').fetchall()
    assert kept == [('statement.pdf', 12)]


def test_a_document_is_shown_to_its_holder(folder: Path, tmp_path: Path) -> None:
    (folder / 'documents').mkdir()
    (folder / 'documents/statement.pdf').write_bytes(b'%PDF-1.7 old')
    (folder / 'tables/documents.csv').write_text(
        'file,holder,about\nstatement.pdf,H00001,Last statement\n', encoding='utf-8')
    _, found = checked(folder)
    assert found.open == 0
    into = tmp_path / 'attachments'
    assert documents.attach(folder, into) == 1 and documents.attach(folder, into) == 0
    shown = Attachments(into)
    digest = hashlib.sha256(b'%PDF-1.7 old').hexdigest()
    for viewer, sees in (('ISSUER', True), ('H00001', True), ('H00002', False)):
        rows = list(shown.fetch_page(Viewer(viewer), {}).rows)
        assert [row['sha256'] for row in rows] == ([digest] if sees else [])
    assert shown.content(Viewer('H00001'), 1)[1] == b'%PDF-1.7 old'
    with pytest.raises(NotFound):
        shown.content(Viewer('H00002'), 1)
    (into / digest).write_bytes(b'%PDF-1.7 new')
    with pytest.raises(OSError, match='not the file'):
        shown.content(Viewer('ISSUER'), 1)
    (folder / 'documents/statement.pdf').write_bytes(b'%PDF-1.7 now')
    with pytest.raises(documents.NoDocument, match='not the file'):
        documents.attach(folder, into)
