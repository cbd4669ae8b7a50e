"""Production: a period by hand, and files of declarations, read before anything is sent."""
import csv
import io
import re

import pytest
from browser import stage
from browser.chromium import Browser
from browser.conftest import Visit
from browser.relay import Relay
from house import House
from mutations import gsrn

DROP = """const t = new DataTransfer();
t.items.add(new File([arguments[0]], 'production.csv', {type: 'text/csv'}));
document.querySelector('.drop').dispatchEvent(
  new DragEvent('drop', {dataTransfer: t, bubbles: true, cancelable: true}))"""
ANY = '500000000000000012'
"""A device's number whose check digit fits; for files that are not sent."""
SLIPS = [
    (f'c3,{ANY},2024-11-01,2024-11-30,12x,0', 'gross_wh Expected a whole number of Wh'),
    (f'c5,{ANY},2024-12-01,2024-12-31,1,0', 'first_day Row 1 of this device ends on 2024-12-31'),
    ('c9,5.00E+17,2024-12-01,2024-12-31,1,0', 'device A spreadsheet has shortened it'),
    (f'c10,{ANY},01.01.2025,45688,1,0',
     'first_day A spreadsheet has changed the form of the day'),
    (f'c11;{ANY};2025-01-01;2025-01-31;1;0', 'row Its fields are separated by semicolons'),
    ('c12,500000000000000013,2025-01-01,2025-01-31,1,0', 'device Its check digit does not fit'),
    (f'c13,{ANY},2025-01-01,2025-02-28,1,2', 'last_day The period runs into another month'),
    (',,,,,', 'row It is empty. Delete it.')]
"""Rows at fault, and what the page says of each."""
MANY, SHOWN = 1000, 400
HEADS = ['Device', 'Declared Wh', 'Less corrections Wh', 'Issued', 'Withdrawn by corrections',
         'Carry Wh', 'Balance']


def two_devices(house: House) -> tuple[str, str]:
    account = stage.open_account(house)
    return stage.register(house, account), stage.register(house, account, carrier='hydrogen')


def production(first: str, second: str) -> list[str]:
    """Six rows of 5,440.000001 MWh; the fourth is more than the device's capacity allows."""
    return [f'c1-{first},{first},2024-09-01,2024-09-30,1234567890,34567890',
            f'c2-{first},{first},2024-10-01,2024-10-31,980000000,20000000',
            f'c4-{first},{first},2024-12-01,2024-12-31,702000000,2000000',
            f'c6-{first},{first},2025-01-01,2025-01-31,1490000001,0',
            f'c8-{first},{first},2025-02-01,2025-02-28,450000000,0',
            f'c7-{first},"{second}",2025-01-01,2025-01-31,640000999,999']


def rows_of(page: Browser) -> list[str]:
    return [' '.join(row) for row in page.cells()]


def declare_file(page: Browser, name: str, rows: list[str], press: str) -> None:
    """A file that is chosen and sent."""
    page.choose_file(name, stage.table_of(*rows))
    page.click('main .buttons button', press)
    page.click('dialog[open] button.main')


# -------------------------------------------------------------------- by hand, and the audit

def test_a_period_is_declared_by_hand_and_the_audit_balances(house: House, visit: Visit) -> None:
    device, _ = two_devices(house)
    page = visit(house, 'office', 'declare')
    page.fill('declare', device=device, first_day='2025-02-01', gross_wh='450000345', aux_wh='5')
    assert page.value('form.declare [name=last_day]') == '2025-02-28'
    assert '450 certificates issued' in page.send('declare', sure=True)
    page.go('audit', 'table')
    heads = [head.get_attribute('textContent') for head in page.all('main thead th')]
    assert heads == HEADS and 'does not hold' not in page.text('table')
    rows = [row for row in page.cells() if device in row[0].replace(' ', '')]
    assert [row[1:] for row in rows] == [['450,000,340', '0', '450', '0', '340', 'holds']]
    page.look('audit', dark=True)


# -------------------------------------------------------------------- files that are not sent

@pytest.mark.parametrize('text, told', [
    (stage.table_of(f'c1,{ANY},2024-09-01,2024-09-30,1,0').replace(',', ';'), 'semicolons'),
    ('', 'empty')], ids=['semicolons', 'empty'])
def test_a_file_that_is_none_is_told(house: House, visit: Visit, text: str, told: str) -> None:
    page, before = visit(house, 'office', 'declare'), house.entry()
    page.choose_file('none.csv', text)
    assert told in page.text('.result', 'header') and house.entry() == before


def test_each_row_at_fault_is_told_by_field(house: House, visit: Visit) -> None:
    page, before = visit(house, 'office', 'declare'), house.entry()
    page.choose_file('slips.csv', stage.table_of(f'c0,{ANY},2024-12-01,2024-12-31,1,0',
                                                 *[row for row, _ in SLIPS]))
    told = page.text('.result', 'at fault')
    assert f'{len(SLIPS)} rows of {len(SLIPS) + 1} are at fault' in told
    assert not page.all('main .buttons button.main[type=button]')
    seen = rows_of(page)[:-1]           # those at fault come first
    assert len(seen) == len(SLIPS)
    for (_, reason), row in zip(SLIPS, seen):
        assert reason in row and ('Expected' in row or 'Delete' in row)
    page.look('slips')
    assert house.entry() == before


# -------------------------------------------------------------------- files that are sent

def test_a_dropped_file_is_asked_about_and_told_row_by_row(house: House, visit: Visit) -> None:
    """The rows of a device behind one that is refused are held back."""
    first, second = two_devices(house)
    page, before = visit(house, 'office', 'declare'), house.entry()
    page.see('.drop')
    page.run(DROP, stage.table_of(*production(first, second)))
    page.see('table caption', '6 rows')
    page.click('main .buttons button', 'Declare 6 rows')
    asked = page.text('dialog[open]', 'can’t be taken back')
    wanted = ('6', '2024-09-01', '2025-02-28', '5,440.000001 MWh')
    assert [text for text in wanted if text not in asked] == [] and house.entry() == before
    page.click('dialog[open] button.main')
    told = page.text('.result', '4 accepted')
    assert '1 refused' in told and '1 held back' in told
    rows = rows_of(page)
    assert len(rows) == 6 and all('accepted' in row for row in rows[2:])
    assert 'OverCapacity (14)' in rows[0]               # what failed comes first
    assert 'held back' in rows[1] and 'row 4 of this device' in rows[1]
    page.see('main p.quiet', 'certificates were issued')
    page.look('declare')


def test_the_same_file_again_is_never_doubled(house: House, visit: Visit) -> None:
    first, second = two_devices(house)
    rows = production(first, second)
    reports = [stage.post_table(house, row)[0].split()[1] for row in (*rows[:3], rows[5])]
    assert reports == ['accepted'] * 4
    page = visit(house, 'office', 'declare')
    declare_file(page, 'production.csv', rows, 'Declare 6 rows')
    assert '0 accepted' in page.text('.result', '4 declared before')


def test_of_many_rows_those_that_failed_are_shown(house: House, visit: Visit) -> None:
    page = visit(house, 'office', 'declare')
    house.keys += 1
    rows = [f'l{house.keys}-{i},{gsrn(5 * 10**6 + i)},2025-01-01,2025-01-31,1,0'
            for i in range(MANY)]
    declare_file(page, 'many.csv', rows, f'Declare {MANY:,} rows')
    page.see('.result', f'{MANY:,} refused')
    assert f'first {SHOWN} are shown' in page.text('caption')
    assert 'UnknownDevice (9)' in page.text('tbody tr')


def test_an_answer_lost_in_the_middle_of_a_file(house: House, visit: Visit) -> None:
    """What stands, what is open and what was not sent are told apart; nothing is doubled."""
    account = stage.open_account(house)
    device = stage.register(house, account, tech='T030000', source='F01050200')
    rows = [f'm{month}-{device},{device},2024-{month}-01,2024-{month}-28,2000000,0'
            for month in (10, 11, 12)]
    page = visit(house, 'office', 'declare')
    with Relay(house, ['passed', 'unheard']):
        declare_file(page, 'race.csv', rows, 'Declare 3 rows')
        page.see('.result', 'No answer')
    seen = rows_of(page)
    assert len(seen) == 3 and 'no answer' in seen[0]
    assert 'accepted' in seen[1] and 'not sent' in seen[2]
    page.see('#unanswered', 'choose the file again')
    page.click('#unanswered button', 'Send again')
    assert 'row 2: repeated' in page.text('#unanswered .result', 'row')
    declare_file(page, 'race.csv', rows, 'Declare 3 rows')
    told = page.text('main #view .result', 'accepted')
    assert told.startswith('1 accepted, 2 declared before, 0 refused')
    assert stage.held(house, account) == 6


# -------------------------------------------------------------------- what was issued

def issued_rows(page: Browser, house: House, account: int) -> list[list[str]]:
    """The page's rows, each with what the statement has of its device and first day."""
    lines, _ = stage.statement(house, account)
    held = {(line[3], line[4]): [line[2], f'{line[0]}to{line[1]}'] for line in lines}
    found = []
    for row in [[re.sub(r'[ ,]', '', cell) for cell in row] for row in page.cells()]:
        of = [runs for (device, day), runs in held.items() if device in row[2]
              and row[3].startswith(day)]
        wanted = of[0] if of else ['0', ''] if 'accepted' in row[6] else ['', '']
        assert row[7:] == wanted
        assert of or 'accepted' in row[6] or 'OverCapacity' in row[6]
        found.append(row)
    return found


def test_each_row_is_told_what_it_issued(house: House, visit: Visit) -> None:
    """Count and numbers, by the registry's own statement, or why not; saved as CSV too."""
    account = stage.open_account(house)
    devices = [stage.register(house, account) for _ in range(3)]
    made = [(0, '2025-01-01,2025-01-31,12345678'), (1, '2025-01-01,2025-01-31,999'),
            (0, '2025-02-01,2025-02-28,7000000'), (2, '2025-01-01,2025-01-31,1'),
            (2, '2025-02-01,2025-02-28,9000000000000')]
    rows = [f'u{i}-{devices[of]},{devices[of]},{rest},0' for i, (of, rest) in enumerate(made)]
    page = visit(house, 'office', 'declare')
    declare_file(page, 'january.csv', rows, 'Declare 5 rows')
    page.see('main p.quiet', '19 certificates were issued for these rows')
    seen = issued_rows(page, house, account)
    assert [row[0] for row in seen] == ['5', '1', '2', '3', '4']        # what failed comes first
    seen.sort(key=lambda row: row[0])
    assert [row[7] for row in seen] == ['12', '0', '7', '0', '']
    page.look('issued', dark=True)
    page.click('main .buttons button', 'Save as CSV')
    saved = list(csv.DictReader(io.StringIO(page.saved('issued-january.csv'), newline='')))
    assert [[of['row'], of['outcome'], of['count'], of['first']] for of in saved] == [
        [row[0], re.findall('^[a-z]+', row[6])[0], row[7], row[8][:14]] for row in seen]
    assert 'OverCapacity' in saved[-1]['reason']
    declare_file(page, 'january.csv', rows[:1], 'Declare 1 row')
    page.see('main p.quiet', '12 certificates were issued for these rows')
    assert [row[7] for row in issued_rows(page, house, account)] == ['12']
