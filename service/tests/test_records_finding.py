"""Finding in the records: names without case and accents, lists that are sorted and paged while
acts come in, filters of devices, and what a spreadsheet gets.

What has to be found is what the test itself sent.
"""
import csv
import io
import re
from pathlib import Path
from typing import Any

import openpyxl  # type: ignore[import]
import pytest
from goo_service.log import entries
from goo_service.records import lists
from goo_service.records.pages import read_page
from goo_service.records.questions import Conditions
from goo_service.records.questions import FILES
from goo_service.rules.commands import ISSUER
from made_book import Made
from made_book import PLANT
from made_book import page_parameter
from made_book import routes_of
from mutations import gsrn

USE = {'use_first': '2025-01-01', 'use_last': '2025-12-31'}


@pytest.fixture
def made(tmp_path: Path) -> Made:
    begun = Made(tmp_path)
    begun.country()
    return begun


def register(made: Made, at: int, **more: object) -> None:
    made.must(ISSUER, 'register_device', **{**PLANT, 'device': gsrn(at), **more})


def cancel(made: Made, at: int, beneficiary: str) -> None:
    span = {end: f'{7 * 10 ** 12 + at:014}' for end in ('first', 'last')}
    made.must('SUN', 'cancel', account=1, beneficiary=beneficiary, **span, **USE)


# ------------------------------------------------------------ names

NAMES = {'Żółw': ('żółw', 'ZOLW', 'zolw', 'ŻÓŁW', 'olw', 'zo'),
         'Νηρέας Αιολική': ('ΝΗΡΕΑΣ', 'νηρέας', 'νηρεας αιο', 'έας'),
         'Gütersloh Straße': ('GUTERSLOH', 'strasse', 'STRASSE', 'ß'),
         'Ørsted & Æther': ('orsted', 'AETHER')}
FOUND = ('holders', 'accounts', 'devices', 'declarations', 'corrections', 'cancellations', 'acts',
         'holdings')


@pytest.fixture(scope='module')
def named(tmp_path_factory: pytest.TempPathFactory) -> Made:
    """A holder, a device and a beneficiary of each name, after a country that has none of them."""
    begun = Made(tmp_path_factory.mktemp('named'))
    begun.country()
    begun.book().close()                    # what comes now is added to the indexes of a book
    for at, name in enumerate(NAMES, 1):
        begun.must(ISSUER, 'open_holder', holder=f'H{at}', name=name)
        begun.must(ISSUER, 'open_account', holder=f'H{at}')
        register(begun, at + 100, account=2 + at, site=name)
        begun.must(ISSUER, 'declare', device=gsrn(at + 100), first_day='2025-01-01',
                   last_day='2025-01-31', gross_wh=5_000_000, aux_wh=0)
        begun.must(ISSUER, 'correct', device=gsrn(at + 100), first_day='2025-01-01',
                   less_wh=10, reason=name, **correction_of(begun))
        cancel(begun, at, name)
    return begun


def correction_of(made: Made) -> dict[str, str]:
    """The last certificate that was issued, which a correction of a few Wh takes off."""
    last = made.acts(kind='issue')[0]['ranges'][-1]['last']
    return {'first': last, 'last': last}


def names_in(row: dict[str, Any], name: str) -> str:
    """Where a row of a list has the name that it was found by."""
    return str(row.get('note') if name == 'acts' else row.get('beneficiary') or row.get('site')
               or row.get('name'))


@pytest.mark.parametrize('name', FOUND)
@pytest.mark.parametrize('asked', [(of, text) for of, texts in NAMES.items() for text in texts])
def test_a_name_is_found_whatever_its_case_and_accents(named: Made, name: str,
                                                       asked: tuple[str, str]) -> None:
    of, text = asked
    wanted = {'acts': {'kind': 'device'}, 'holdings': {'by': 'lot'}}.get(name, {})
    rows = named.items(ISSUER, name, q=text, **wanted)
    assert [names_in(row, name) for row in rows] == [of]


def test_a_name_is_found_in_a_book_that_is_made_anew(named: Made, tmp_path: Path) -> None:
    again = Made(tmp_path)
    again.country()
    register(again, 101, site='Żółw')
    assert [row['site'] for row in again.items(ISSUER, 'devices', q='ZOLW')] == ['Żółw']


def test_a_holder_finds_his_own_alone(named: Made) -> None:
    assert [row['site'] for row in named.items('H1', 'devices', q='zolw')] == ['Żółw']
    for name in ('holders', 'accounts', 'devices', 'declarations', 'cancellations', 'holdings'):
        assert named.items('VOLT', name, q='zolw') == [], name


def test_a_text_is_bounded(named: Made) -> None:
    for name in FOUND:
        status, answer = named.asked(ISSUER, f'/records/v1/{name}', q='a' * 201)
        assert status == 400 and answer['error'].startswith('q is of 201 letters'), name


# ------------------------------------------------------------ devices

def test_devices_are_filtered_by_age_and_capacity(made: Made) -> None:
    def sites(**given: object) -> list[str]:
        return [row['commissioned'] for row in made.items(ISSUER, 'devices', **given)]

    for at, (since, watts) in enumerate((('1996-04-01', 900), ('2020-06-15', 5000),
                                         ('2023-09-01', 7000)), 1):
        register(made, at + 100, commissioned=since, capacity_w=watts)
    young = {'commissioned_from': '2020-06-15', 'capacity_to': 10_000}
    assert sites(**young, sort='commissioned') == ['2020-06-15', '2023-09-01']
    assert sites(commissioned_to='1999-12-31') == ['1996-04-01']
    assert sites(capacity_from=5000, capacity_to=6999) == ['2020-06-15']
    assert sites(sort='-capacity_w')[:2] == [PLANT['commissioned'], '2023-09-01']


def test_holdings_and_choices_are_filtered_by_age_and_capacity(made: Made) -> None:
    register(made, 101, commissioned='2024-05-01', capacity_w=5 * 10 ** 6)
    made.must(ISSUER, 'declare', device=gsrn(101), first_day='2025-01-01', last_day='2025-01-31',
              gross_wh=7_000_000, aux_wh=0)
    for given in ({'commissioned_from': '2024-01-01'}, {'capacity_to': '10,000,000'}):
        assert [row['count'] for row in made.items(ISSUER, 'holdings', **given)] == [7]
        _, answer = made.asked('SUN', '/records/v1/choice', account=1, count=5, **given)
        assert [(row['device'], row['commissioned']) for row in answer['items']] == [
            (gsrn(101), '2024-05-01')]
        status, _ = made.asked('SUN', '/records/v1/choice', account=1, count=8, **given)
        assert status == 409


# ------------------------------------------------------------ pages while acts come in

SORTS = [(name, sort) for name, of in {**lists.LISTS, 'holders': lists.HOLDERS}.items()
         for column in of.sorts for sort in (column, f'-{column}')
         if name in ('holders', 'accounts', 'devices', 'declarations', 'cancellations')]


def add(made: Made, at: int) -> None:
    """One row more in each list, some before and some behind those that are there."""
    letter = 'MCZAHXBTFQ'[at % 10]
    made.must(ISSUER, 'open_holder', holder=f'{letter}{at}', name=f'{letter} {at}')
    made.must(ISSUER, 'open_account', holder=f'{letter}{at}')
    register(made, at * 37 % 101 + 200, site=f'{letter}', capacity_w=10 ** 9 + at % 3,
             commissioned=f'20{at % 7 + 10}-01-01')
    made.must(ISSUER, 'declare', device=gsrn(at * 37 % 101 + 200), first_day='2025-01-01',
              last_day='2025-01-31', gross_wh=10 ** 6, aux_wh=0)
    cancel(made, at, letter)


def key_of(row: dict[str, Any]) -> object:
    """What no two rows of a list share."""
    return row.get('act') or row.get('number') or row['code']


@pytest.mark.parametrize(('name', 'sort'), SORTS)
def test_no_row_is_lost_or_twice_while_acts_come_in(made: Made, name: str, sort: str) -> None:
    for at in range(1, 9):
        add(made, at)
    before = [key_of(row) for row in made.items(ISSUER, name, sort=sort)]
    found: list[object] = []
    more: dict[str, object] = {}
    at = 9
    while True:
        _, page = made.asked(ISSUER, f'/records/v1/{name}', sort=sort, limit=3, **more)
        found += [key_of(row) for row in page['items']]
        if page['next'] is None:
            break
        more = {page_parameter(name): page['next']}
        if at < 14:
            add(made, at)
            at += 1
    assert len(found) == len(set(found))
    assert [row for row in found if row in before] == before


def test_lists_are_sorted(made: Made) -> None:
    for at in range(1, 9):
        add(made, at)
    names = [row['name'] for row in made.items(ISSUER, 'holders', sort='name')]
    assert names == sorted(names)
    ages = [row['commissioned'] for row in made.items(ISSUER, 'devices', sort='-commissioned')]
    assert ages == sorted(ages, reverse=True)
    whom = [row['beneficiary'] for row in made.items(ISSUER, 'cancellations', sort='beneficiary')]
    assert whom == sorted(whom)


@pytest.mark.parametrize('after', ['x', 'W10', 'WyJnc3JuIiwxXQ', 'WyJzaXRlIiwiYSIsImIiXQ', '%',
                                   'A' * 5000, 'WyJnc3JuIixbXSwiYiJd', 'bnVsbA', '{'])
def test_a_place_that_no_page_has_is_named(made: Made, after: str) -> None:
    status, answer = made.asked(ISSUER, '/records/v1/devices', after=after)
    assert (status, answer['error'][:9]) == (400, 'after is ')


# ------------------------------------------------------------ ten thousand devices

MANY = 10_000


@pytest.fixture(scope='module')
def country(tmp_path_factory: pytest.TempPathFactory) -> Made:
    begun = Made(tmp_path_factory.mktemp('many'))
    begun.country()
    taken: list[entries.Record] = []
    setattr(begun, 'take', taken.append)
    for at in range(MANY):
        register(begun, 1000 + at, site=f'Windpark Żółwin {at}' if at % 100 == 7 else f'Dach {at}',
                 commissioned=f'{1990 + at % 30}-01-01', capacity_w=10 ** 6 + at)
    for record in taken:
        begun.writer.apply(record)
    begun.writer.commit(begun.last, '0' * 64, None)
    return begun


def plan_of(made: Made, name: str, **given: str) -> str:
    """How SQLite finds the rows of a list, in its own words."""
    database = made.book()
    database.create_function('PLACE', 1, str)
    asked: list[str] = []
    database.set_trace_callback(asked.append)
    of = lists.LISTS[name]
    conditions = Conditions()
    if (text := given.pop('q', '')) and of.found:
        conditions.add(*of.found(text))
    list(read_page(of, database, conditions, given).rows)
    database.set_trace_callback(None)
    statement, = (text for text in asked if 'place_key' in text)
    steps = database.execute(f'EXPLAIN QUERY PLAN {statement}')
    return '\n'.join(str(step['detail']) for step in steps)


@pytest.mark.parametrize('sort', ['gsrn', '-gsrn', 'site', '-site', 'commissioned', '-capacity_w'])
def test_a_page_of_many_devices_is_read_by_an_index(country: Made, sort: str) -> None:
    plan = plan_of(country, 'devices', sort=sort)
    assert 'device USING INDEX' in plan and 'TEMP B-TREE' not in plan, plan
    page = country.asked(ISSUER, '/records/v1/devices', sort=sort, limit=100)[1]
    plan = plan_of(country, 'devices', sort=sort, after=page['next'])
    assert 'SEARCH device USING INDEX' in plan and 'TEMP B-TREE' not in plan, plan


def test_many_devices_are_searched_by_an_index(country: Made) -> None:
    plan = plan_of(country, 'devices', q='zolwin')
    assert 'SCAN name VIRTUAL TABLE INDEX' in plan, plan
    assert re.search(r'SEARCH device USING INDEX|SCAN device USING INDEX', plan), plan
    rows = country.items(ISSUER, 'devices', q='ŻOŁWIN')
    assert len(rows) == MANY // 100 and all('Żółwin' in row['site'] for row in rows)


def test_many_devices_are_told_page_by_page(country: Made) -> None:
    found = [row['gsrn'] for row in country.items(ISSUER, 'devices', sort='site')]
    assert len(found) == len(set(found)) == MANY + 1


# ------------------------------------------------------------ what a spreadsheet gets

def answer_of(made: Made, name: str, **given: object) -> Any:
    answer = made.client().get(f'/records/v1/{name}', headers={'GOO-Caller': ISSUER},
                               query_string=given)
    assert answer.status_code == 200, answer.get_data()
    return answer


def rows_of_sheet(text: bytes) -> list[list[Any]]:
    book = openpyxl.load_workbook(io.BytesIO(text))
    return [[cell.value for cell in row] for row in book['list'].iter_rows()]


def rows_of_csv(text: str) -> list[list[str]]:
    return list(csv.reader(io.StringIO(text, newline='')))


NEEDED: dict[str, dict[str, object]] = {'choice': {'account': 1, 'count': 1}}


def test_a_workbook_says_what_the_csv_says(named: Made) -> None:
    for name in routes_of(named.folder).lists:
        given = NEEDED.get(name, {})
        plain = rows_of_csv(answer_of(named, name, format='csv', **given).get_data(as_text=True))
        sheet = rows_of_sheet(answer_of(named, name, format='xlsx', **given).get_data())
        assert [['' if cell is None else str(cell) for cell in row] for row in sheet] == plain, name
        assert all(type(cell) in (int, str, type(None)) for row in sheet for cell in row), name


def test_numbers_of_certificates_and_devices_stay_texts(named: Made) -> None:
    head, *rows = rows_of_sheet(answer_of(named, 'declarations', format='xlsx').get_data())
    for column, digits in (('first', 14), ('last', 14), ('device', 18)):
        cells = [row[head.index(column)] for row in rows]
        assert cells and all(isinstance(cell, str) and re.fullmatch(f'[0-9]{{{digits}}}', cell)
                             for cell in cells), column
    assert all(isinstance(row[head.index('gross_wh')], int) for row in rows)


ODD = ['=1+1', '+49 30', '-1', '@x', '007', '1e5', 'http://a.example', 'a  b',
       '2025-01-01', 'TRUE', '#N/A', '12345678901234567890', 'Żółw & <b>', "'quoted"]


def test_a_text_is_the_same_in_a_workbook(made: Made) -> None:
    for at, text in enumerate(ODD, 1):
        cancel(made, at, text)
    head, *rows = rows_of_sheet(answer_of(made, 'cancellations', format='xlsx',
                                          sort='number').get_data())
    shown = [row[head.index('beneficiary')] for row in rows]
    assert shown == [row['beneficiary'] for row in made.items(ISSUER, 'cancellations',
                                                              sort='number')]
    book = openpyxl.load_workbook(io.BytesIO(answer_of(made, 'cancellations',
                                                       format='xlsx').get_data()))
    kinds = {cell.data_type for row in book['list'].iter_rows() for cell in row}
    assert kinds <= {'s', 'n', 'inlineStr'}


def test_a_workbook_says_what_it_is_of(named: Made) -> None:
    text = answer_of(named, 'devices', format='xlsx', q='zolw').get_data()
    about = {row[0].value: row[1].value
             for row in openpyxl.load_workbook(io.BytesIO(text))['about'].iter_rows()}
    assert (about['list'], about['q'], about['rows']) == ('devices', 'zolw', 1)
    assert about['entry'] == named.last and about['rows left out'] == 'none'


def test_a_csv_for_a_spreadsheet_begins_with_a_byte_order_mark(named: Made) -> None:
    plain = answer_of(named, 'devices', format='csv').get_data()
    assert answer_of(named, 'devices', format='csv-bom').get_data() == b'\xef\xbb\xbf' + plain


def test_a_workbook_is_bounded(named: Made, monkeypatch: pytest.MonkeyPatch) -> None:
    monkeypatch.setitem(FILES, 'xlsx', 3)
    text = answer_of(named, 'acts', format='xlsx').get_data()
    assert len(rows_of_sheet(text)) == 1 + 3
    about = openpyxl.load_workbook(io.BytesIO(text))['about']
    assert [row[1].value for row in about.iter_rows()][-1] == 'there may be more: ask for less'
