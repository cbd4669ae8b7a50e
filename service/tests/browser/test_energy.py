"""What is not plausible of energy is asked about before it is sent; who has not declared."""
from browser import stage
from browser.conftest import Visit
from house import House

WH = 2_000_000 * 744 // 4
"""What a device of 2 MW makes in October at a quarter of its capacity: 372 MWh."""


def file_of(devices: list[str], wh: int) -> str:
    return stage.table_of(*(f'nov-{device},{device},2024-11-01,2024-11-30,{wh},0'
                            for device in devices))


def test_a_file_in_kwh_is_asked_about(house: House, visit: Visit) -> None:
    devices = [stage.issue(house, count=372).device for _ in range(3)]
    house.wait_for_book()
    page = visit(house, 'office', 'declare')
    before = house.entry()
    page.choose_file('kwh.csv', file_of(devices, WH // 1000))
    told = page.text('.result', 'before it is sent: 3 rows')
    assert 'near a thousandth' in told and 'kWh' in told
    assert all('below a thousandth' in row[6] for row in page.cells_when(lambda of: len(of) == 3))
    page.look('energy')
    page.click('main .buttons button.main', 'Declare 3 rows')
    asked = page.text('dialog[open]', 'Is this meant?')
    assert 'kWh' in asked and '1.116 MWh' in asked and '0.0258 %' in asked
    assert page.run('return document.activeElement.textContent') == 'Go back'
    page.look('energy-sure')
    page.click('dialog[open] button', 'Go back')
    assert house.entry() == before
    page.choose_file('wh.csv', file_of(devices, WH))
    page.click('main .buttons button.main', 'Declare 3 rows')
    asked = page.text('dialog[open]', 'Mean load factor')
    assert '1,116 MWh' in asked and '25.8 %' in asked and 'Is this meant?' not in asked
    page.click('dialog[open] button.main')
    assert '3 accepted' in page.text('.result', 'accepted')
    assert house.entry() > before


def test_who_declares_is_asked_too_and_in_german(house: House, visit: Visit) -> None:
    device = stage.issue(house, count=372).device
    house.wait_for_book()
    page = visit(house, 'meter')
    page.set_language('de', 'declare', '.drop')
    page.choose_file('kwh.csv', file_of([device], WH // 1000))
    assert 'in kWh statt in Wh' in page.text('.result', 'anzusehen')
    page.look('energy-german')


def test_one_declaration_by_hand_is_asked_about(house: House, visit: Visit) -> None:
    device = stage.issue(house, count=372).device
    house.wait_for_book()
    page = visit(house, 'office', 'declare', 'form.declare')
    page.fill('declare', device=device, first_day='2024-11-01', last_day='2024-11-30',
              gross_wh=str(WH // 1000), aux_wh='0')
    page.click('form.declare button[type=submit]')
    asked = page.text('dialog[open]', 'Is this meant?')
    assert 'near a thousandth' in asked and 'Mean load factor' in asked
    page.click('dialog[open] button', 'Go back')


def test_who_has_not_declared(house: House, visit: Visit) -> None:
    late = stage.issue(house, site='Late field').device
    shut = stage.issue(house, site='Shut field').device
    stage.declare(house, shut, '2024-12-01', '2024-12-31', 1)
    house.wait_for_book()
    page = visit(house, 'office', 'lists/undeclared/month=2024-11', 'table')
    told = [row for row in page.cells() if late in row[0] or shut in row[0]]
    assert len(told) == 2
    by = {late if late in row[0] else shut: row for row in told}
    assert by[late][3:5] == ['2024-11', '0 of 30'] and by[late][7] == 'yes'
    assert by[shut][7].startswith('no')
    page.look('undeclared')
