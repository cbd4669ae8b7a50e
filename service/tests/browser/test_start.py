"""The page on which each role lands, and the ways from a row to the act on it."""
from browser import stage
from browser.conftest import Visit
from calls import ISSUER
from house import House


def numbers(house: House, lot: stage.Lot, first: int, last: int) -> dict[str, str]:
    return {'first': lot.number(first), 'last': lot.number(last)}


def test_a_holder_lands_on_what_he_has_and_what_came_in(own_house: House, visit: Visit) -> None:
    lot = stage.issue(own_house, count=300)
    other = stage.issue(own_house, 'VOLT', count=50)
    own_house.wait_for_book()
    page = visit(own_house, 'anna', '', '.sums')
    assert page.text('h1') == 'Start'
    held = stage.held(own_house, lot.account)
    assert f'{held}\nheld' in page.text('.sums')
    assert '300 certificates came in within a month' in page.text('main caption')
    page.look('start-holder')
    stage.enter(own_house, 'transfer', 'VOLT', giver=other.account, taker=lot.account,
                **numbers(own_house, other, 0, 6))
    own_house.wait_for_book()
    page.load('', '.sums')
    assert page.text('main caption', 'came in') == (
        '7 certificates came in since you were here last')
    page.set_language('de', '', '.sums')
    assert page.text('h1') == 'Start' and page.text('h2', 'Was dazukam')
    page.look('start-holder-german')
    page.load('', '.sums')
    assert page.text('p.quiet', 'seit Ihrem letzten Besuch') == (
        'Nichts kam seit Ihrem letzten Besuch dazu.')


def test_an_officer_lands_on_what_is_late_failed_and_waits(own_house: House,
                                                           visit: Visit) -> None:
    lot = stage.issue(own_house, count=300, last_day='2024-10-31')
    stage.enter(own_house, 'add_peer', peer=9)
    stage.enter(own_house, 'export', 'SUN', giver=lot.account, peer=9, account=5,
                **numbers(own_house, lot, 0, 11))
    refused = stage.post(own_house, ISSUER, command='open_account', holder='NOBODY')
    assert refused['outcome'] == 'refused'
    own_house.wait_for_book()
    page = visit(own_house, 'office', '', '.part')
    assert page.text('.part p', 'device has not declared 2025-02 to its end')
    assert page.text('.part td', 'UnknownHolder')
    assert page.text('.part p', '1 notice was sent and not accepted yet, of 12 certificates.')
    assert 'behind' not in page.text('.part', 'Registry’s date')
    page.look('start-officer')
    page.set_language('de', '', '.part')
    assert page.text('.part p', '1 Mitteilung ist gesendet und noch nicht angenommen')
    page.look('start-officer-german')
    page.set_language('en')
    page.set_clock('2025-03-02')
    page.load('', '.part')
    assert page.text('.part .result', 'The registry’s date is behind today.')
    page.click('.part a', 'Which ones')
    assert page.text('h1', 'Not declared')


def test_an_auditor_lands_on_what_was_taken_away(own_house: House, visit: Visit) -> None:
    lot = stage.issue(own_house, count=300)
    stage.enter(own_house, 'withdraw', reason='meter read twice', **numbers(own_house, lot, 0, 4))
    own_house.wait_for_book()
    page = visit(own_house, 'audit', '', '.part')
    assert page.text('.part td', 'meter read twice')
    assert not page.all('.part a[href="#date"]')
    page.look('start-auditor')


def test_the_pages_are_in_three_groups(house: House, visit: Visit) -> None:
    stage.open_holder(house, 'SUN')
    page = visit(house, 'anna')
    groups = page.run("return [...document.querySelectorAll('nav [data-group]')]"
                      '.map(e => e.dataset.group)')
    assert groups == ['Overview', 'Records', 'Acts']


def test_an_act_is_reached_from_where_its_object_is_seen(house: House, visit: Visit) -> None:
    lot = stage.issue(house, count=40, site='Żółwia Góra')
    house.wait_for_book()
    page = visit(house, 'office', 'lists/declarations/q=ZOLWIA', 'td.acts a')
    rows = page.cells()
    assert len(rows) == 1 and 'Żółwia Góra' in rows[0][1] and lot.device in rows[0][1]
    page.click('td.acts a', 'correct')
    page.see('form.correct')
    assert page.value('form.correct [name=device]') == lot.device
    assert page.value('form.correct [name=first_day]') == '2024-10-01'
    page.go(f'holdings/{lot.account}', 'td.acts a')
    page.click('td.acts a', 'withdraw')
    assert page.text('form.bundle button.main', 'Withdraw')
    assert '40' in page.text('dl.head')


def test_a_day_is_typed_as_it_is_written(house: House, visit: Visit) -> None:
    lot = stage.issue(house, count=10)
    page = visit(house, 'office', 'declare', 'form.declare')
    page.fill('declare', device=lot.device, first_day='01.03.2025')
    page.type('form.declare [name=gross_wh]', '1')
    assert 'such as 2025-03-31' in page.text('form.declare .field.day .hint', '2025-03-31')
    page.fill('declare', first_day='2025-02-30')
    page.type('form.declare [name=aux_wh]', '1')
    assert 'such as 2025-03-31' in page.text('form.declare .field.day .hint', '2025-03-31')
    page.fill('declare', first_day='2025-02-01')
    page.type('form.declare [name=aux_wh]', '1')
    page.wait(lambda: page.value('form.declare [name=last_day]') == '2025-02-28')
