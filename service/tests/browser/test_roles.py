"""Who is shown which pages, and is offered what the front door lets him do."""
from browser import stage
from browser.conftest import Visit
from house import House


def test_a_holder_has_a_holders_pages(house: House, visit: Visit) -> None:
    stage.open_holder(house, 'SUN')
    page = visit(house, 'anna')
    assert page.texts('nav a') == ['Start', 'Deadlines', 'History', 'Account', 'Holdings',
                                   'Lists', 'Look up', 'Transfer', 'Cancel', 'Export']
    assert page.text('.top .who', 'SUN')


def test_the_issuing_body_lands_on_its_start_page(house: House, visit: Visit) -> None:
    page = visit(house, 'office')
    assert page.text('.top .who') == 'Issuing body' and page.text('h1') == 'Start'


def test_an_auditor_is_offered_nothing_that_is_refused_to_him(house: House, visit: Visit) -> None:
    lot = stage.issue(house)
    house.wait_for_book()
    page = visit(house, 'audit')
    assert page.text('.top .who') == 'Issuing body, read only'
    assert page.texts('nav a') == ['Start', 'Audit', 'Deadlines', 'History', 'Accounts', 'Holdings',
                                   'Lists', 'Look up']
    page.go(f'account/{lot.account}', 'table')
    assert page.cells() and not page.all('td.acts a')
    page.look('auditor')
    page.go(f'holdings/{lot.account}', '.summed')
    assert page.cells()
    assert not page.all('td.pick, .quantity, .chosen:not([hidden])')
    page.go('withdraw')
    assert page.text('h1') == 'Start' and not page.all('form.withdraw')
    page.go('history', 'table')
    assert any('by office' in row[8] for row in page.cells())
    asked = "return (await fetch('/v1/requests', {method: 'POST', body: '{}'})).status"
    assert page.script(asked) == 403


def test_meter_data_has_the_page_for_files_alone(house: House, visit: Visit) -> None:
    lot = stage.issue(house)
    page = visit(house, 'meter')
    assert page.text('.top .who') == 'Issuing body, declarations only'
    assert page.texts('nav a') == ['Declare'] and not page.all('form.declare')
    page.choose_file('meter.csv', stage.table_of(
        f'm-{lot.device},{lot.device},2025-02-01,2025-02-28,3000000,0'))
    page.click('main .buttons button.main', 'Declare')
    page.click('dialog[open] button.main')
    assert '1 accepted' in page.text('.result', 'accepted')
    assert stage.held(house, lot.account) == lot.count + 3


def test_who_has_no_holder_code_is_told(house: House, visit: Visit) -> None:
    assert visit(house, 'nemo').text('.result', 'No holder code')
