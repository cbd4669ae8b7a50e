"""The tables of an old registry are judged: every fault is told by its table, row and field."""
import json
import subprocess
import tomllib
from collections.abc import Callable
from pathlib import Path

import old_registry
import pytest
from hypothesis import given
from hypothesis import strategies
from goo_service.migrate import check
from goo_service.migrate import plan
from goo_service.migrate import sending
from goo_service.migrate import settings
from goo_service.migrate import tables
from goo_service.migrate.numbers import NoRange
from goo_service.migrate.numbers import Reader
from door import SERVICE
from migrating import ASSIGNED
from migrating import checked
from migrating import names_in
from mutations import gsrn
from service_commands import command

Change = Callable[[bytes], bytes]
NAMES = [planted.name for planted in old_registry.PLANTED]


@pytest.fixture
def folder(tmp_path: Path) -> Path:
    """The tables of a small old registry."""
    old_registry.write(tmp_path, 1)
    return tmp_path


def test_tables_without_a_fault_have_none(folder: Path) -> None:
    _, found = checked(folder)
    assert names_in(folder) == set() and found.open == 0
    assert found.rows == {'holders': 6, 'accounts': 8, 'devices': 8, 'stock': 96, 'carried': 8}


@pytest.mark.parametrize('planted', old_registry.PLANTED, ids=NAMES)
def test_a_fault_is_told_by_its_name(folder: Path, planted: old_registry.Planted) -> None:
    tables = old_registry.read_tables(folder)
    planted.plant(tables)
    for table, rows in tables.items():
        old_registry.write_table(folder, table, rows)
    read, found = checked(folder)
    assert planted.name in names_in(folder) and found.open
    assert planted.name in (folder / check.REPORT).read_text(encoding='utf-8')
    with pytest.raises(plan.NotPlanned):
        plan.write(folder, read)


@pytest.mark.parametrize('planted', old_registry.PLANTED, ids=NAMES)
def test_a_waived_fault_leaves_the_rest_to_come_over(folder: Path,
                                                     planted: old_registry.Planted) -> None:
    tables = old_registry.read_tables(folder)
    planted.plant(tables)
    for table, rows in tables.items():
        old_registry.write_table(folder, table, rows)
    checked(folder)
    waive = f'waive = {json.dumps(sorted(names_in(folder)))}\n'
    read, found = checked(folder, waive + old_registry.SETTINGS)
    assert found.open == 0
    plan.write(folder, read)
    assert json.loads((folder / plan.NAME).read_text(encoding='utf-8').splitlines()[0])


@pytest.mark.parametrize(('name', 'text'), [
    ('header holders 0', b'holder,title\nH1,One\n'), ('header holders 0', b''),
    ('header holders 0', b'holder,name,name\nH1,One,Two\n'),
    ('encoding holders 1', b'holder,name\nH1,N\xfcrnberg\n'),
    ('csv holders 1', b'holder,name\nH1,"' + b'x' * 200_000 + b'"\n')])
def test_a_table_that_can_not_be_read_is_no_waiver(folder: Path, name: str, text: bytes) -> None:
    (folder / 'tables/holders.csv').write_bytes(text)
    _, found = checked(folder)
    assert name in names_in(folder) and found.open
    with pytest.raises(settings.WrongSettings, match='can not be waived'):
        checked(folder, f'waive = ["{name}"]\n{old_registry.SETTINGS}')


@pytest.mark.parametrize(('last_day', 'is_over'), [('2023-09-01', False), ('2023-08-31', True)])
def test_the_last_day_on_which_certificates_are_held(folder: Path, last_day: str,
                                                     is_over: bool) -> None:
    """Eighteen months after the period, that day included: on 2025-03-01 of one, not of both."""
    with (folder / 'tables/stock.csv').open('a', encoding='utf-8') as file:
        file.write(f'{old_registry.number(5000)},{old_registry.number(5001)},'
                   f'{gsrn(1)},{last_day},{last_day},2023-09-10,A-1\n')
    checked(folder)
    assert ('deadline stock 97' in names_in(folder)) == is_over


def test_a_missing_table_is_named(folder: Path) -> None:
    (folder / 'tables/devices.csv').unlink()
    checked(folder)
    assert 'header devices 0' in names_in(folder)


def test_other_columns_days_and_units(folder: Path) -> None:
    """The tables as another registry would give them come to the same plan."""
    read, _ = checked(folder)
    plan.write(folder, read)
    wanted = (folder / plan.NAME).read_bytes()
    tables = old_registry.read_tables(folder)
    for row in tables['stock']:
        row[3:6] = ['.'.join(reversed(day.split('-'))) for day in row[3:6]]
    for row in tables['devices']:
        row[7] = f'{int(row[7]) / 1000:.3f}'
        row[8] = '.'.join(reversed(row[8].split('-')))
        row[3] = {'DE': 'Germany', 'AT': 'Austria', 'PL': 'Poland', 'GR': 'Greece'}[row[3]]
    old_registry.write_table(folder, 'devices', tables['devices'])
    old_registry.write_table(folder, 'stock', tables['stock'],
                             ('GO_FROM', *old_registry.HEADERS['stock'][1:]))
    for path in (folder / 'tables').iterdir():
        path.write_text(path.read_text(encoding='utf-8').replace(',', ';'), encoding='cp1252',
                        errors='replace')
    read, found = checked(folder, old_registry.SETTINGS + (
        '[tables]\ndelimiter = ";"\nencoding = "cp1252"\ndays = "DD.MM.YYYY"\ncapacity = "kW"\n'
        '[columns.stock]\nfirst = "GO_FROM"\n[countries]\nGermany = "DE"\nAustria = "AT"\n'
        'Poland = "PL"\nGreece = "GR"\n'))
    assert names_in(folder) == set() and found.open == 0
    plan.write(folder, read)
    steps = [plan.step_of(line) for line in wanted.decode().splitlines()]
    again = list(sending.steps_in(folder))
    assert [step.body['command'] for step in again] == [step.body['command'] for step in steps]
    assert [step.reply for step in again] == [step.reply for step in steps]


@pytest.mark.parametrize(('text', 'reason'), [
    ('[old]\ncode = 8\n', 'lacks name'), ('[old\n', 'migration.toml'),
    (old_registry.SETTINGS.replace('code = 7', 'code = 8'), 'one code'),
    (old_registry.SETTINGS.replace(old_registry.DATE, '2025-02-30'), 'not a day'),
    (old_registry.SETTINGS + '[numbers]\nform = "serial"\n', 'pattern'),
    (old_registry.SETTINGS + '[numbers]\nform = "serial"\npattern = "AT-[0-9]+"\n', 'one group'),
    (old_registry.SETTINGS + '[colour]\n', 'no section'),
    ('waive = ["deadline"]\n' + old_registry.SETTINGS, 'KIND TABLE'),
    ('waive = ["rain stock"]\n' + old_registry.SETTINGS, 'no fault'),
    (old_registry.SETTINGS + '[countries]\nGermany = "D"\n', r'\[countries\] "Germany": .*country'),
    (old_registry.SETTINGS + '[holders]\n4711 = "sun"\n', r'\[holders\] "4711": .*code'),
    (old_registry.SETTINGS + f'[names]\nA = "{"x" * 65}"\n', r'\[names\] "A": .*65 bytes')])
def test_wrong_settings_are_told(folder: Path, text: str, reason: str) -> None:
    (folder / 'migration.toml').write_text(text, encoding='utf-8')
    with pytest.raises(settings.WrongSettings, match=reason):
        settings.read(folder)


def test_the_settings_that_are_printed_are_such() -> None:
    done = subprocess.run([*command('goo-migrate', SERVICE), 'settings'], capture_output=True,
                          text=True, check=True)
    read = settings.settings_of(tomllib.loads(done.stdout))
    assert (read.old_code, read.new_code, read.words['registries']) == (8, 7, {'ES': '34'})
    assert 'deadline stock' in read.waivers


def test_the_body_says_what_becomes_of_carried_energy(folder: Path) -> None:
    """Nothing is chosen for it; without carried.csv there is nothing to choose."""
    silent = old_registry.SETTINGS.replace('[carry]\nchoice = "added"\n', '')
    with pytest.raises(settings.WrongSettings, match='lacks choice'):
        checked(folder, silent)
    (folder / 'tables/carried.csv').unlink()
    _, found = checked(folder, silent)
    assert found.open == 0


# numbers

def reader(text: str, tmp_path: Path) -> Reader:
    (tmp_path / 'migration.toml').write_text(text, encoding='utf-8')
    return Reader(settings.read(tmp_path))


def test_the_forms_of_old_numbers(tmp_path: Path) -> None:
    own = reader(old_registry.SETTINGS, tmp_path)
    assert own.range('08000000000007', '08000000000009').first == 8_000_000_000_007
    serial = reader(old_registry.SETTINGS + '[numbers]\nform = "serial"\npattern = "AT-([0-9]+)"\n',
                    tmp_path)
    assert serial.range('AT-7', 'AT-9').first == 8_000_000_000_007
    assigned = reader(ASSIGNED.replace('08([0-9]{12})', '[A-Z]{2}[0-9]{20}([0-9]{6})'), tmp_path)
    one, other = 'AT' + '3' * 20 + '000007', 'AT' + '4' * 20 + '000008'
    assert assigned.range(one, one).first is None
    with pytest.raises(NoRange):
        assigned.range(one, other)
    assert own.range('07000000000007', '07000000000007').other == 7
    for text in ('00000000000007', '8000000000007', '08000000000000', '0800000000000७', ''):
        with pytest.raises(NoRange):
            own.range(text, text)


@given(strategies.integers(1, 10 ** 12 - 1), strategies.integers(0, 10 ** 6))
def test_a_range_has_as_many_numbers_as_it_states(first: int, more: int) -> None:
    texts = f'08{first:012}', f'08{min(first + more, 10 ** 12 - 1):012}'
    read = Reader(settings.settings_of({
        'old': {'code': 8, 'name': 'Old', 'closed_on': '2025-02-27'},
        'new': {'code': 7, 'date': '2025-03-01'}})).range(*texts)
    assert read.count == int(texts[1]) - int(texts[0]) + 1 and read.first == int(texts[0])


# what operators come with

def report_of(folder: Path, text: str = old_registry.SETTINGS) -> str:
    checked(folder, text)
    return (folder / check.REPORT).read_text(encoding='utf-8')


def rewrite(folder: Path, table: str, old: bytes, new: bytes, count: int = -1) -> None:
    """A table with some bytes replaced."""
    path = folder / 'tables' / f'{table}.csv'
    path.write_bytes(path.read_bytes().replace(old, new, count))


@pytest.mark.parametrize('change', [
    lambda text: b'\xef\xbb\xbf' + text, lambda text: text.replace(b'\n', b'\r\n'),
    lambda text: text.replace(b'\r\n', b'\n'), lambda text: text.rstrip(b'\r\n'),
    lambda text: text + b'\r\n\r\n',
    lambda text: b''.join(line.rstrip() + b',"more, of it"\r\n' for line in text.splitlines())],
    ids=['byte order mark', 'two ends', 'one end', 'no end', 'blank lines', 'a column more'])
def test_tables_that_are_written_otherwise_are_read(folder: Path, change: Change) -> None:
    for path in (folder / 'tables').iterdir():
        path.write_bytes(change(path.read_bytes()))
    _, found = checked(folder)
    assert names_in(folder) == set()
    assert found.rows == {'holders': 6, 'accounts': 8, 'devices': 8, 'stock': 96, 'carried': 8}


def test_semicolons_are_told_with_what_to_say(folder: Path) -> None:
    rewrite(folder, 'accounts', b',', b';')
    assert ("accounts.csv, account: column 'account' is not there; the header has account;holder; "
            'say delimiter = ";" under [tables] [header accounts 0]') in report_of(folder)


def test_a_byte_of_another_encoding_is_told_where_it_is(folder: Path) -> None:
    """In a row far behind the first, and in a field that is not the first."""
    rows = [[f'H{at:05}', 'Stadtwerke Nürnberg'] for at in range(6, 2000)]
    with (folder / 'tables/holders.csv').open('a', encoding='utf-8') as file:
        file.writelines(f'{",".join(row)}\n' for row in rows)
    rewrite(folder, 'holders', 'H01500,Stadtwerke Nürnberg'.encode(), b'H01500,N\xfcrnberg')
    told = report_of(folder)
    assert 'holders.csv, row 1501, name: it is not text in utf-8: byte 0xfc' in told
    assert told.count('[encoding ') == 1


def test_utf_8_that_is_read_as_another_encoding_is_told(folder: Path) -> None:
    told = report_of(folder, old_registry.SETTINGS + '[tables]\nencoding = "cp1252"\n')
    assert "holders.csv, row 1, name: it is 'Stadtwerke Nürnberg 0' in utf-8" in told
    assert names_in(folder) >= {'encoding holders 1', 'encoding devices 1'}


@pytest.mark.parametrize(('bound', 'most', 'name'), [
    ('MOST_ROWS', 95, 'size stock 96'), ('MOST_BYTES', 1000, 'size stock 0'),
    ('MOST_FIELD', 17, 'fields stock 1')])
def test_what_is_larger_than_it_may_be_is_told(folder: Path, monkeypatch: pytest.MonkeyPatch,
                                               bound: str, most: int, name: str) -> None:
    monkeypatch.setattr(tables, bound, most)
    assert name in report_of(folder)


def test_utf_16_is_told(folder: Path) -> None:
    path = folder / 'tables/holders.csv'
    path.write_bytes(path.read_text(encoding='utf-8').encode('utf-16'))
    assert 'holders.csv, file: it is UTF-16: save it as UTF-8' in report_of(folder)


@pytest.mark.parametrize('text', [b'H00001,"Solar"park', b'H00001,"Solar'])
def test_a_table_that_is_no_csv_is_told_from_the_row_on(folder: Path, text: bytes) -> None:
    (folder / 'tables/holders.csv').write_bytes(b'holder,name\nH00000,Sun\n' + text + b'\nH2,W\n')
    assert 'holders.csv, row 2, row: it is no CSV: ' in report_of(folder)
    assert names_in(folder) == {'csv holders 2'}


def test_a_row_has_the_number_that_a_sheet_shows(folder: Path) -> None:
    """Below the header, blank rows counted."""
    rewrite(folder, 'holders', b'H00003', b'\r\nh3')
    assert 'holders.csv, row 5, holder: ' in report_of(folder)


@pytest.mark.parametrize('table', ['holders', 'accounts', 'devices'])
def test_a_table_that_is_missing_is_the_only_fault(folder: Path, table: str) -> None:
    (folder / 'tables' / f'{table}.csv').unlink()
    assert f'{table}.csv, file: No such file' in report_of(folder)
    assert names_in(folder) == {f'header {table} 0'}


def test_a_waiver_is_for_its_row_alone(folder: Path) -> None:
    """Rows 1, 2 and 10 have the same fault, and one of them is waived."""
    tables = old_registry.read_tables(folder)
    for row in (1, 2, 10):
        tables['stock'][row - 1][0] = 'none'
    old_registry.write_table(folder, 'stock', tables['stock'])
    read, found = checked(folder, 'waive = ["number stock 1"]\n' + old_registry.SETTINGS)
    assert found.open == 2
    with pytest.raises(plan.NotPlanned, match='2 faults'):
        plan.write(folder, read)
    waive = 'waive = ["number stock"]\n'
    read, found = checked(folder, waive + old_registry.SETTINGS)
    assert found.open == 0 and plan.write(folder, read)
    with (folder / plan.NUMBERS).open(encoding='utf-8') as file:
        assert sum(1 for _ in file) == 1 + 96 - 3


def test_a_waiver_without_a_fault_is_told(folder: Path) -> None:
    """Rows of a later delivery have other numbers."""
    told = report_of(folder, 'waive = ["number stock 1", "day stock"]\n' + old_registry.SETTINGS)
    assert 'no such fault, and so nothing to waive: number stock 1' in told
    assert 'no such fault, and so nothing to waive: day stock' in told


def test_a_long_name_is_shortened_as_the_settings_say(folder: Path) -> None:
    long = 'Gemeinnützige Genossenschaft für erneuerbare Energie im Wörlitzer Land'
    tables = old_registry.read_tables(folder)
    tables['holders'][1][1] = long
    old_registry.write_table(folder, 'holders', tables['holders'])
    assert 'name-long holders 2' in report_of(folder)
    read, found = checked(folder, f'{old_registry.SETTINGS}[names]\n"{long}" = "Genossenschaft"\n')
    assert found.open == 0 and plan.write(folder, read)
    names = {step.body['holder']: step.body['name'] for step in sending.steps_in(folder)
             if step.body['command'] == 'open_holder'}
    assert names['H00001'] == 'Genossenschaft'
