"""Certificates of third registries, which the old registry had imported, come over as they are."""
import json
import sqlite3
import subprocess
from contextlib import closing
from pathlib import Path
from typing import Any

import old_registry
import pytest
from cryptography.hazmat.primitives.asymmetric.ed25519 import Ed25519PrivateKey
from cryptography.hazmat.primitives.serialization import Encoding
from cryptography.hazmat.primitives.serialization import NoEncryption
from cryptography.hazmat.primitives.serialization import PrivateFormat
from goo_service.exchange.signature import Key
from goo_service.migrate import check
from goo_service.migrate import enquiry
from goo_service.migrate import left_out
from goo_service.migrate import plan
from goo_service.migrate import protocol
from goo_service.migrate import sending
from goo_service.migrate import settings
from goo_service.migrate.sums import compare
from migrating import ASSIGNED
from migrating import GOO
from migrating import checked
from migrating import copied
from migrating import names_in
from migrating import planned
from migrating import rehearsed as differences_of
from mutations import gsrn

NAMES = [planted.name for planted in old_registry.PLANTED_OTHERS]
LOT = {'capacity': 'capacity_w', 'technology': 'tech'}
"""The columns of lots.csv that a notice calls otherwise."""


@pytest.fixture
def folder(tmp_path: Path) -> Path:
    """The tables of a small old registry that has certificates of third ones."""
    old_registry.write(tmp_path, 1, old_registry.WITH_OTHERS)
    return tmp_path


@pytest.fixture(scope='module')
def rehearsed(tmp_path_factory: pytest.TempPathFactory) -> Path:
    """The same, checked, planned, and rehearsed without a difference."""
    place = tmp_path_factory.mktemp('rehearsed')
    assert differences_of(place, planned(place, 2, old_registry.WITH_OTHERS)) == []
    return place


def plant(folder: Path, planted: old_registry.Planted) -> None:
    tables = old_registry.read_tables(folder)
    planted.plant(tables)
    for table, rows in tables.items():
        old_registry.write_table(folder, table, rows)


def report_of(folder: Path) -> str:
    return (folder / check.REPORT).read_text(encoding='utf-8')


def rows_with(folder: Path, by_name: dict[str, str]) -> list[dict[str, str]]:
    """The rows of left-out.csv that have these values."""
    header, *lines = (folder / left_out.NAME).read_text(encoding='utf-8').splitlines()
    rows = [dict(zip(header.split(','), line.split(','))) for line in lines]
    return [row for row in rows if by_name.items() <= row.items()]


# what the check says

def test_tables_without_a_fault_have_none(folder: Path) -> None:
    _, found = checked(folder)
    assert names_in(folder) == set() and found.open == 0
    assert found.rows['lots'] == 3 and found.rows['stock'] == 102
    assert 'of registry 09: 42 certificates in 4 rows' in report_of(folder)
    assert 'of registry 34: 21 certificates in 2 rows' in report_of(folder)


@pytest.mark.parametrize('planted', old_registry.PLANTED_OTHERS, ids=NAMES)
def test_a_fault_is_told_by_its_name(folder: Path, planted: old_registry.Planted) -> None:
    plant(folder, planted)
    read, found = checked(folder)
    assert planted.name in names_in(folder) and found.open
    assert f'[{planted.name}]' in report_of(folder)
    with pytest.raises(plan.NotPlanned):
        plan.write(folder, read)


@pytest.mark.parametrize('planted', old_registry.PLANTED_OTHERS, ids=NAMES)
def test_a_waived_fault_leaves_the_rest_to_come_over(folder: Path,
                                                     planted: old_registry.Planted) -> None:
    plant(folder, planted)
    checked(folder)
    waive = f'waive = {json.dumps(sorted(names_in(folder)))}\n'
    read, found = checked(folder, waive + old_registry.SETTINGS)
    assert found.open == 0 and plan.write(folder, read)


def test_without_a_table_of_lots_nothing_of_a_third_registry_comes_over(folder: Path) -> None:
    (folder / 'tables/lots.csv').unlink()
    checked(folder)
    assert names_in(folder) == {f'other-registry stock {row}' for row in range(97, 103)}


def test_a_table_of_lots_that_can_not_be_read_is_the_only_fault(folder: Path) -> None:
    (folder / 'tables/lots.csv').write_bytes(b'registry;device\n')
    checked(folder)
    assert names_in(folder) == {'header lots 0'}


# what stays behind

def test_what_is_waived_stays_behind_in_a_list_with_its_counts(folder: Path) -> None:
    """Of six ranges of third registries two are of a lot that nobody states: 10 and 11."""
    plant(folder, old_registry.PLANTED_OTHERS[0])
    read, _ = checked(folder, 'waive = ["other-registry stock"]\n' + old_registry.SETTINGS)
    rows = rows_with(folder, {'why': 'other-registry'})
    assert [(row['table'], row['row'], row['registry'], row['certificates']) for row in rows] == [
        ('stock', '97', '9', '10'), ('stock', '98', '9', '11')]
    assert (rows[0]['first'], rows[0]['account']) == ('09000000000001', 'A-0')
    assert [left.text for left in enquiry.left_out(folder, read, '09000000000010')] == [
        'a certificate of 09000000000001 to 09000000000010, account A-0, stock.csv, row 97, was '
        'left out: other-registry']
    assert enquiry.left_out(folder, read, '09000000000011') == []
    assert enquiry.by_old_number(folder, read, '09000000000010') == []
    told = 'left out: 21 certificates in 2 rows of the stock (see left-out.csv)'
    assert told in report_of(folder) and '  other-registry: 21 certificates in 2 rows' in told_of(
        folder, read)
    said = json.loads((folder / protocol.NAME).read_text(encoding='utf-8'))
    assert said['certificates left out'] == {'other-registry': {
        'certificates': 21, 'rows': 2, 'rows that can not be read': 0}}
    assert said['sums of the tables']['by registry'] == said['sums of the registry']['by registry']
    assert said['sums of the registry']['by registry'].items() >= {'09': 21, '34': 21}.items()
    with (folder / left_out.NAME).open('a', encoding='utf-8') as file:
        file.write('\n')
    assert protocol.faults(folder, None) == [
        'left-out.csv is not the file of which the protocol tells']


def told_of(folder: Path, read: settings.Settings) -> str:
    """What the comparison tells of the rows that stay behind; the protocol is written too."""
    plan.write(folder, read)
    assert differences_of(folder, read) == []
    registry = folder / 'rehearsal/registry.db'
    found = compare(folder, read, registry)
    path = folder / 'own.key'
    path.write_bytes(Ed25519PrivateKey.generate().private_bytes(
        Encoding.PEM, PrivateFormat.PKCS8, NoEncryption()))
    protocol.write(folder, read, found, registry, Key(path))
    return '\n'.join(found.left_out)


def test_what_belongs_to_a_row_that_stays_behind_is_listed_with_it(folder: Path) -> None:
    """A holder, its account, and all of both; a lot, and its ranges; a row without a number."""
    tables = old_registry.read_tables(folder)
    tables['holders'][1][1] = ''
    tables['lots'][2][4] = 'Spain'
    tables['stock'][0][0] = 'none'
    for table, rows in tables.items():
        old_registry.write_table(folder, table, rows)
    checked(folder)
    waive = f'waive = {json.dumps(sorted(names_in(folder)))}\n'
    checked(folder, waive + old_registry.SETTINGS)
    accounts = {row[0] for row in tables['accounts'] if row[1] == 'H00001'}
    of_holder = [row for row in tables['stock'][1:] if row[6] in accounts]
    assert [row['row'] for row in rows_with(folder, {'table': 'holders'})] == ['2']
    assert len(rows_with(folder, {'table': 'accounts', 'why': 'its holder'})) == len(accounts)
    assert len(rows_with(folder, {'table': 'stock', 'why': 'its account'})) == len(of_holder) > 9
    assert [row['row'] for row in rows_with(folder, {'table': 'stock', 'why': 'its lot'})] == [
        '101', '102']
    unread, = rows_with(folder, {'why': 'number'})
    assert (unread['row'], unread['certificates']) == ('1', '')
    count = sum(int(row[1]) - int(row[0]) + 1 for row in of_holder)
    assert f'  its account: {count} certificates in {len(of_holder)} rows' in report_of(folder)
    assert ('  number: 0 certificates in 1 rows, without those of 1 rows that can not be read'
            in report_of(folder))


# what comes over

def test_certificates_of_third_registries_keep_number_and_lot(rehearsed: Path) -> None:
    """By queries of the test's own over the tables and over the registry."""
    tables = old_registry.read_tables(rehearsed)
    wanted = {(int(row[0]), int(row[1]), row[2], row[3]) for row in tables['stock'][96:]}
    with closing(sqlite3.connect(rehearsed / 'rehearsal/registry.db')) as database:
        rows = database.execute(
            'SELECT p.first, p.last, l.device, l.first_day, l.origin, l.site, l.country '
            'FROM piece AS p JOIN lot AS l ON l.id = p.lot WHERE l.origin != 8').fetchall()
        peers = [code for code, in database.execute('SELECT code FROM peer')]
    assert {row[:4] for row in rows} == wanted
    assert {row[4:] for row in rows} == {(int(row[0]), row[3], row[4]) for row in tables['lots']}
    assert peers == [8], 'all came by notices of the old registry'


@pytest.mark.parametrize(('change', 'told'), [
    ('UPDATE piece SET account = account + 1 WHERE first = 9000000000001', '09000000000001'),
    ("UPDATE lot SET site = 'Elsewhere' WHERE origin = 34", 'Elsewhere'),
    ('DELETE FROM piece WHERE first = 34000000001001', '34 21'),
    ('UPDATE lot SET origin = 35 WHERE origin = 34', '35')])
def test_a_difference_of_a_third_registry_is_told(rehearsed: Path, tmp_path: Path, change: str,
                                                  told: str) -> None:
    place = copied(rehearsed, tmp_path)
    registry = place / 'rehearsal/registry.db'
    with closing(sqlite3.connect(registry)) as database, database:
        assert database.execute(change).rowcount == 1
    found = compare(place, settings.read(place), registry)
    assert found.count and told in '\n'.join(
        [*found.differences, *(place / 'sums-tables').read_text().splitlines()])


def test_one_device_has_lots_of_two_registries(folder: Path) -> None:
    """A GSRN of the old registry that a third one knows too: each has its own lot."""
    tables = old_registry.read_tables(folder)
    tables['lots'][0][1] = tables['stock'][96][2] = tables['stock'][97][2] = gsrn(1)
    for table, rows in tables.items():
        old_registry.write_table(folder, table, rows)
    read, found = checked(folder)
    assert names_in(folder) == set() and found.open == 0
    plan.write(folder, read)
    assert differences_of(folder, read) == []
    with closing(sqlite3.connect(folder / 'rehearsal/registry.db')) as database:
        sites = database.execute('SELECT origin, site FROM lot WHERE device = ? AND first_day = ?',
                                 (gsrn(1), '2024-02-01')).fetchall()
    assert sorted(sites) == [(8, 'Stadtwerke Nürnberg site 0'), (9, 'Parque eólico 0')]


# numbers of another form

def with_registries(folder: Path, words: dict[str, str]) -> None:
    """The stock with a column more: the registry of each range, in words of the old registry."""
    rows = old_registry.read_tables(folder)['stock']
    old_registry.write_table(folder, 'stock', [[*row, words[row[0][:2]]] for row in rows],
                             (*old_registry.HEADERS['stock'], 'ISSUED_BY'))


WORDS = '[columns.stock]\nregistry = "ISSUED_BY"\n[registries]\nES = "34"\nFR = "9"\n'


@pytest.mark.parametrize('own', ['', '8'])
def test_a_column_says_of_which_registry_certificates_are(folder: Path, own: str) -> None:
    """The old registry's own are numbered anew; those of third ones keep their number."""
    with_registries(folder, {'08': own, '09': 'FR', '34': 'ES'})
    read, found = checked(folder, ASSIGNED + WORDS)
    assert names_in(folder) == set() and found.open == 0
    plan.write(folder, read)
    assert differences_of(folder, read) == []
    third, = enquiry.by_old_number(folder, read, '34000000001003')
    assert (third.number, third.device) == (34000000001003, gsrn(900_001))
    assert enquiry.by_new_number(folder, '34000000001003') == [third]
    own_one, = enquiry.by_old_number(folder, read, old_registry.number(1))
    assert own_one.number == 8_000_000_000_001


@pytest.mark.parametrize(('word', 'name'), [
    ('ES', 'registry stock 97'), ('NO', 'registry stock 97'), ('8', 'number stock 97'),
    ('7', 'registry stock 97')])
def test_a_registry_that_is_not_that_of_the_number_is_told(folder: Path, word: str,
                                                           name: str) -> None:
    with_registries(folder, {'08': '8', '09': word, '34': 'ES'})
    checked(folder, old_registry.SETTINGS + WORDS)
    assert name in names_in(folder)


def test_a_column_that_the_settings_name_has_to_be_there(folder: Path) -> None:
    checked(folder, old_registry.SETTINGS + WORDS)
    assert names_in(folder) >= {'header stock 0'}


# the way back to the third registry

def answered(database: Path, lines: list[tuple[str, dict[str, Any]]]) -> list[dict[str, Any]]:
    """The outcomes of requests, all of which are accepted."""
    text = ''.join(f'{caller} {json.dumps({"key": f"k{at}", **body})}\n'
                   for at, (caller, body) in enumerate(lines))
    done = subprocess.run([GOO, 'run', '--db', database], input=text, text=True, check=True,
                          capture_output=True)
    outcomes = [json.loads(line) for line in done.stdout.splitlines()]
    assert all(outcome['outcome'] == 'accepted' for outcome in outcomes), outcomes
    return outcomes


def notice_in(database: Path) -> dict[str, Any]:
    """The notice that a registry has sent last."""
    with closing(sqlite3.connect(database)) as registry:
        body, = registry.execute(
            'SELECT body FROM notice_out ORDER BY number DESC LIMIT 1').fetchone()
    return dict(json.loads(body))


def third_registry(path: Path) -> dict[str, Any]:
    """Registry 9, which has issued 12 certificates and sent 10 to the old registry: the notice."""
    subprocess.run([GOO, 'init', '--db', path, '--code', '9', '--today', '2024-04-02'], check=True,
                   capture_output=True)
    device = gsrn(900_000)
    answered(path, [('ISSUER', body) for body in (
        {'command': 'open_holder', 'holder': 'EDF', 'name': 'Énergie'},
        {'command': 'open_account', 'holder': 'EDF'},
        {'command': 'register_device', 'device': device, 'account': 1, 'country': 'FR',
         'site': 'Ferme éolienne', 'tech': 'T020001', 'source': 'F01050100',
         'capacity_w': 3_000_000, 'commissioned': '2012-05-15', 'support': 'none'},
        {'command': 'declare', 'device': device, 'first_day': '2024-03-01',
         'last_day': '2024-03-31', 'gross_wh': 12_000_000, 'aux_wh': 0},
        {'command': 'add_peer', 'peer': 8}, {'command': 'add_peer', 'peer': 7})]
        + [('EDF', {'command': 'export', 'giver': 1, 'first': '09000000000003',
                    'last': '09000000000012', 'peer': 8, 'account': 1})])
    return notice_in(path)


def test_a_third_registry_takes_its_certificates_back(folder: Path, tmp_path: Path) -> None:
    """It had sent them to the old registry, and gets them from the new one: the lot is its own."""
    third = tmp_path / 'third.db'
    part, = third_registry(third)['parts']
    lot = {'registry': part['lot']['origin'], 'carrier': 'electricity', **part['lot']}
    tables = old_registry.read_tables(folder)
    tables['lots'] = [[str(lot[LOT.get(name, name)]) for name in old_registry.HEADERS['lots']]]
    tables['stock'][96:] = [[part['first'], part['last'], lot['device'], lot['first_day'],
                             lot['last_day'], lot['issued_on'], 'A-0']]
    for table, rows in tables.items():
        old_registry.write_table(folder, table, rows)
    read, found = checked(folder)
    assert names_in(folder) == set() and found.open == 0
    plan.write(folder, read)
    assert differences_of(folder, read) == []
    registry = folder / 'rehearsal/registry.db'
    moved = {'command': 'export', 'giver': 1, 'first': part['first'], 'last': part['last'],
             'peer': 9, 'account': 1}
    answered(registry, [('ISSUER', {'command': 'add_peer', 'peer': 9}), ('H00000', moved)])
    notice = notice_in(registry)
    assert notice['sender'] == 7 and notice['parts'] == [part]
    outcome, = answered(third, [('ISSUER', {'command': 'import', 'key': 'back',
                                            'notice': notice})])
    assert outcome['reply'] == {'count': 10}


def test_all_of_an_account_goes_in_one_row_of_notices(rehearsed: Path) -> None:
    """Parts of several registries stand in one notice, in the order of their numbers."""
    notices = [step.body['notice'] for step in sending.steps_in(rehearsed)
               if step.body['command'] == 'import']
    origins = [[part['lot']['origin'] for part in notice['parts']] for notice in notices]
    assert any(8 in codes and 9 in codes for codes in origins)
    assert all(codes == sorted(codes) for codes in origins)
    assert {notice['sender'] for notice in notices} == {8}
