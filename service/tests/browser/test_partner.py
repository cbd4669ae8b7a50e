"""Whose account a transfer or an export goes to: the code beside the number, and the name in the
question before the act."""
import json
import os

import pytest
from browser import stage
from browser.chromium import Browser
from browser.conftest import Visit
from house import House

PEERS = {'peers': [{'registry': 9, 'sent': [], 'received': [],
                    'accounts': [{'account': 5, 'holder': 'NORD', 'name': 'Nord Kraft ÅB'}]}]}


def filled(page: Browser, lot: stage.Lot, taker: int, holder: str) -> None:
    page.fill('transfer', giver=str(lot.account), taker=str(taker), taker_holder=holder,
              first=lot.number(0), last=lot.number(9))
    page.click('form.transfer button[type=submit]')


def test_the_takers_name_is_in_the_question(house: House, visit: Visit) -> None:
    lot, taker = stage.issue(house), stage.open_account(house, 'VOLT')
    house.wait_for_book()
    page = visit(house, 'anna', 'transfer', 'form.transfer')
    filled(page, lot, taker, 'volt')
    asked = page.text('dialog[open]', 'Volt Handel AG')
    assert f'{taker}' in asked and 'VOLT' in asked
    page.look('partner')
    page.click('dialog[open] button.main')
    assert '10 certificates moved' in page.text('form.transfer .result', 'moved')
    assert stage.held(house, taker) == 10


def test_a_wrong_pair_sends_nothing(house: House, visit: Visit) -> None:
    """One digit is another firm's; and no code at all."""
    lot, taker = stage.issue(house), stage.open_account(house, 'VOLT')
    house.wait_for_book()
    page = visit(house, 'anna', 'transfer', 'form.transfer')
    before = house.entry()
    filled(page, lot, taker, 'BIG')
    assert page.text('form.transfer .wrong', f'Account {taker} is not one of BIG')
    page.fill('transfer', taker_holder='')
    page.click('form.transfer button[type=submit]')
    assert page.text('form.transfer .wrong', f'account {taker} is not yours')
    assert not page.all('dialog[open]') and house.entry() == before
    filled(page, lot, taker, 'VOLT')
    assert page.text('dialog[open]', 'Volt Handel AG')
    page.click('dialog[open] button', 'Go back')


def test_an_own_account_wants_no_code(house: House, visit: Visit) -> None:
    lot, taker = stage.issue(house), stage.open_account(house, 'SUN')
    house.wait_for_book()
    page = visit(house, 'anna', 'transfer', 'form.transfer')
    filled(page, lot, taker, '')
    page.click('dialog[open] button.main')
    assert '10 certificates moved' in page.text('form.transfer .result', 'moved')


def test_the_account_of_another_registry(house: House, visit: Visit) -> None:
    lot = stage.issue(house)
    stage.post(house, 'ISSUER', command='add_peer', peer=9)
    stage.post(house, 'ISSUER', command='add_peer', peer=8)
    (house.book / 'exchange.json').write_text(json.dumps(PEERS), encoding='utf-8')
    house.wait_for_book()
    page = visit(house, 'anna', 'export', 'form.export')
    given = {'giver': str(lot.account), 'first': lot.number(0), 'last': lot.number(1)}
    page.fill('export', peer='9', account='5', **given)
    page.click('form.export button[type=submit]')
    assert page.text('form.export .wrong', 'registry 9 publishes its accounts')
    page.fill('export', far_holder='NORD', account='6')
    page.click('form.export button[type=submit]')
    assert page.text('form.export .wrong', 'Account 6 is not one of NORD')
    page.fill('export', account='5')
    page.click('form.export button[type=submit]')
    assert page.text('dialog[open]', 'Nord Kraft ÅB')
    page.look('partner-export')
    page.click('dialog[open] button', 'Go back')
    page.fill('export', peer='8', account='5', far_holder='')
    page.click('form.export button[type=submit]')
    assert page.text('dialog[open]', 'Registry 8 publishes no accounts')
    page.click('dialog[open] button.main')
    assert '2 certificates exported' in page.text('form.export .result', 'exported')


def test_a_selection_wants_the_code_too(house: House, visit: Visit) -> None:
    lot, taker = stage.issue(house, count=20), stage.open_account(house, 'VOLT')
    house.wait_for_book()
    page = visit(house, 'anna', f'holdings/{lot.account}', '.summed')
    page.click('.summed button', 'Choose all')
    page.click('.chosen button', 'Transfer')
    page.fill('bundle', taker=str(taker), taker_holder='SUN')
    page.click('form.bundle button.main', 'Transfer')
    assert page.text('form.bundle .wrong', f'Account {taker} is not one of SUN')
    page.fill('bundle', taker_holder='VOLT')
    page.click('form.bundle button.main', 'Transfer')
    assert page.text('dialog[open]', 'Volt Handel AG')
    page.click('dialog[open] button', 'Go back')


def test_the_directory(house: House, visit: Visit) -> None:
    taker = stage.open_account(house, 'VOLT')
    house.wait_for_book()
    page = visit(house, 'anna', 'lists/directory', 'table')
    assert [str(taker), 'VOLT', 'Volt Handel AG'] in page.cells()
    page.look('directory')


def test_a_directory_that_is_switched_off(visit: Visit, monkeypatch: pytest.MonkeyPatch) -> None:
    """The pair is looked at all the same, and no name is shown. In German."""
    monkeypatch.setitem(os.environ, 'GOO_RECORDS_DIRECTORY', 'hidden')
    with House() as house:
        lot, taker = stage.issue(house), stage.open_account(house, 'VOLT')
        house.wait_for_book()
        page = visit(house, 'anna', 'lists', '.known')
        assert 'Directory' not in page.text('.known', 'Devices')
        page.set_language('de', 'transfer', 'form.transfer')
        filled(page, lot, taker, 'SUN')
        assert page.text('form.transfer .wrong', f'Konto {taker} gehört nicht SUN')
        filled(page, lot, taker, 'VOLT')
        asked = page.text('dialog[open]', 'zeigt keine Namen')
        assert 'VOLT' in asked and 'Handel' not in asked
        page.look('partner-hidden-german')
        page.click('dialog[open] button', 'Zurück')
        page.leave()
