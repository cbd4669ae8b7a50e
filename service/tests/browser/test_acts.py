"""What a holder does: transfers, cancellations and exports, one range at a time."""
import re

import pytest
from browser import stage
from browser.conftest import Visit
from browser.relay import Relay
from house import House
from selenium.webdriver.common.keys import Keys

DOUBTFUL = [
    ('2024-01-01', '2024-08-31', 'ends before the production began, on 2024-10-01'),
    ('2025-11-01', '2025-12-31', 'more than a year after the production ended, on 2024-10-31'),
    ('2015-01-01', '2025-12-31', 'longer than a year'),
    ('2025-03-02', '2025-03-31', 'lies in the future')]
"""Periods of use of what was produced in October 2024, and what is asked about them."""


def test_a_statements_row_is_transferred_after_a_question(house: House, visit: Visit) -> None:
    lot, taker = stage.issue(house, count=1000), stage.open_account(house, 'VOLT')
    page = visit(house, 'anna', f'account/{lot.account}')
    assert 'held' in page.text('ul.sums', '1,000')
    page.look('statement-holder')
    page.click('td a', 'transfer')
    page.see('h1', 'Transfer')
    assert page.value('form.transfer [name=first]') == lot.number(0)
    page.fill('transfer', taker=str(taker), taker_holder='VOLT', last=lot.number(299))
    assert page.text('.size', '300 ce') == '300 certificates, 300 MWh'
    before = house.entry()
    page.click('form.transfer button[type=submit]')
    page.see('dialog[open]', 'can’t be taken back')
    page.look('sure')
    page.keys(Keys.ESCAPE)
    page.gone('dialog[open]')
    assert not page.all('form.transfer .result') and house.entry() == before
    assert '300 certificates moved' in page.send('transfer', sure=True)
    assert [stage.held(house, account) for account in (lot.account, taker)] == [700, 300]


def test_a_refusal_names_the_certificate(house: House, visit: Visit) -> None:
    lot, taker = stage.issue(house, count=400), stage.open_account(house, 'VOLT')
    stage.enter(house, 'transfer', 'SUN', giver=lot.account, taker=taker, first=lot.number(200),
                last=lot.number(209))
    page = visit(house, 'anna', f'transfer/{lot.account}')
    page.fill('transfer', taker=str(taker), taker_holder='VOLT', first=lot.number(100),
              last=lot.number(399))
    told = page.send('transfer', sure=True)
    assert 'NotHeld (17)' in told and lot.number(200) in re.sub(r'\s', '', told)
    page.look('transfer')
    assert stage.held(house, lot.account) == 390


def test_the_question_before_a_transfer_names_both_holders(house: House, visit: Visit) -> None:
    lot, taker = stage.issue(house), stage.open_account(house, 'VOLT')
    stage.enter(house, 'transfer', 'SUN', giver=lot.account, taker=taker, first=lot.number(-1),
                last=lot.number(-1))            # who has dealt with an account knows its holder
    house.wait_for_book()
    page = visit(house, 'anna', f'transfer/{lot.account}/{lot.number(0)}/{lot.number(0)}')
    page.fill('transfer', taker=str(taker), taker_holder='VOLT')
    page.click('form.transfer button[type=submit]')
    asked = page.text('dialog[open]', 'can’t be taken back')
    assert 'SUN, Sun Power GmbH' in asked and 'VOLT, Volt Handel AG' in asked
    page.look('sure-named')
    page.click('dialog[open] .buttons button:last-child')


def test_a_lost_answer_is_kept_and_done_once(house: House, visit: Visit) -> None:
    """A cancellation whose answer does not come is there after a load, and is sent again."""
    lot = stage.issue(house)
    page = visit(house, 'anna', f'cancel/{lot.account}/{lot.number(0)}/{lot.number(9)}')
    page.fill('cancel', beneficiary='Bäckerei Müller', use_first='2024-10-01',
              use_last='2024-12-31')
    with Relay(house, ['unheard']):
        told = page.send('cancel', sure=True)
    assert 'No answer' in told and 'kept' in told
    page.look('cancel-lost')
    page.load(f'account/{lot.account}')
    page.see('#unanswered', 'Bäckerei Müller')
    page.click('#unanswered button', 'Send again')
    told = page.text('#unanswered .result', 'cancelled')
    assert 'Done already' in told and '10 certificates cancelled: cancellation' in told
    kept = "return Object.keys(localStorage).filter(k => k.includes('unanswered'))"
    assert page.run(kept) == []
    assert stage.statement(house, lot.account)[1]['cancelled'] == 10


@pytest.mark.parametrize('first, last, asked', DOUBTFUL, ids=[of[2][:20] for of in DOUBTFUL])
def test_an_odd_period_of_use_is_asked_about(house: House, visit: Visit, first: str, last: str,
                                             asked: str) -> None:
    lot = stage.issue(house)
    page = visit(house, 'anna', f'cancel/{lot.account}/{lot.number(0)}/{lot.number(1)}')
    page.fill('cancel', beneficiary='Walden', use_first=first, use_last=last)
    before = house.entry()
    page.click('form.cancel button[type=submit]')
    told = page.text('dialog[open]', 'Is this meant?')
    assert asked in told and 'Produced' in told and '2024-10-01 to 2024-10-31' in told
    assert house.entry() == before
    page.look('cancel-sure')
    page.click('dialog[open] .buttons button:last-child')
    page.gone('dialog[open]')
    assert house.entry() == before


def test_an_export_gives_its_notice_as_a_file(house: House, visit: Visit) -> None:
    lot = stage.issue(house)
    stage.add_peer(house)
    page = visit(house, 'anna', 'export')
    page.fill('export', giver=str(lot.account), peer='9', account='5', first=lot.number(0),
              last=lot.number(99))
    told = page.send('export', sure=True)
    found = re.search(r'notice (\d+)', told)
    assert '100 certificates exported' in told and found
    page.look('export')
    page.click('form.export .result button', f'Save notice {found[1]}')
    notice = house.ask('anna', 'GET', f'/v1/notices/{found[1]}').text
    assert page.saved(f'notice-07-{found[1]}.json') == notice
    assert stage.statement(house, lot.account)[1]['exported'] == 100


def test_a_certificate_is_looked_up(house: House, visit: Visit) -> None:
    lot = stage.issue(house)
    gas = stage.issue(house, carrier='hydrogen', site='Electrolyser by the mill')
    reply = stage.cancel(house, lot, 0, 9)
    page = visit(house, 'anna', f'look-up/{lot.number(0)}')
    told = page.text('.certificate')
    assert f'cancelled {reply["cancellation"]}' in told and 'North field' in told
    assert '2,000,000' in told and 'electricity' in told
    page.go(f'look-up/{gas.number(0)}')
    told = page.text('.certificate', 'hydrogen')
    assert 'held' in told and 'Electrolyser by the mill' in told
    page.look('look-up')
