"""Withdrawals, corrections, imports by hand, accounts that close, and the date."""
import json
import re

from browser import stage
from browser.chromium import Browser
from browser.conftest import Visit
from house import House

NEXT = '2026-04-01'


def row_of_audit(page: Browser, device: str) -> list[str]:
    """What the audit shows of a device."""
    page.go('audit', 'table')
    rows = [row for row in page.cells() if device in row[0].replace(' ', '')]
    assert len(rows) == 1
    return rows[0]


def test_certificates_are_withdrawn(house: House, visit: Visit) -> None:
    lot = stage.issue(house)
    page = visit(house, 'office', 'withdraw')
    page.fill('withdraw', first=lot.number(0), last=lot.number(99), reason='meter read twice')
    told = page.send('withdraw', sure=True)
    assert re.search(r'100 certificates withdrawn.*withdrawal \d+', told)
    page.look('withdraw')
    assert stage.statement(house, lot.account)[1]['withdrawn'] == 100


def test_a_correction_withdraws_what_is_in_excess(house: House, visit: Visit) -> None:
    """The page tells how many certificates are in excess, and names the last."""
    lot = stage.issue(house, count=960)
    page = visit(house, 'office', 'correct')
    page.fill('correct', device=lot.device, first_day='2024-10-01', less_wh='1500000',
              first=lot.number(100), reason='meter read twice')
    assert page.text('form.correct .advice', 'in excess').startswith('2 certificates are in excess')
    assert page.value('form.correct [name=last]') == lot.number(101)
    told = page.send('correct', sure=True)
    assert re.search(r'2 certificates withdrawn: withdrawal \d+', told)
    assert '500,000 Wh are carried over' in told
    page.look('correct')
    assert row_of_audit(page, lot.device)[2:] == ['1,500,000', '960', '2', '500,000', 'holds']


def test_a_correction_that_the_carry_covers_withdraws_nothing(house: House, visit: Visit) -> None:
    lot = stage.issue(house, count=960)
    stage.enter(house, 'correct', device=lot.device, first_day='2024-10-01', less_wh=1_500_000,
                first=lot.number(100), last=lot.number(101), reason='meter read twice')
    page = visit(house, 'office', 'correct')
    page.fill('correct', device=lot.device, first_day='2024-10-01', less_wh='500000',
              reason='meter read twice')
    told = page.text('form.correct .advice', 'excess')
    assert told.startswith('No certificate is in excess')
    before = house.entry()
    page.fill('correct', first=lot.number(200))
    page.click('form.correct button[type=submit]')
    assert 'in the same registry' in page.text('form.correct .hint.wrong')
    assert house.entry() == before
    page.fill('correct', first='')
    told = page.send('correct', sure=True)
    assert 'no certificate was in excess; 0 Wh are carried over' in told
    assert row_of_audit(page, lot.device)[2:] == ['2,000,000', '960', '2', '0', 'holds']


def test_another_devices_certificate_corrects_nothing(house: House, visit: Visit) -> None:
    lot, other = stage.issue(house, count=960), stage.issue(house)
    page = visit(house, 'office', 'correct')
    page.fill('correct', device=lot.device, first_day='2024-10-01', less_wh='1000000',
              first=other.number(5), last=other.number(5), reason='meter read twice')
    told = page.send('correct', sure=True)
    assert 'OtherDevice (34)' in told and other.number(5) in re.sub(r'\s', '', told)


def test_a_statements_row_fills_a_correction(house: House, visit: Visit) -> None:
    lot = stage.issue(house)
    page = visit(house, 'office', f'account/{lot.account}', 'table')
    page.click('td a', 'correct')
    page.see('h1', 'Correct')
    assert page.value('form.correct [name=device]') == lot.device
    assert page.value('form.correct [name=first_day]') == '2024-10-01'


def test_a_notice_that_comes_home_is_imported(house: House, visit: Visit) -> None:
    lot = stage.issue(house)
    stage.add_peer(house)
    sent = stage.enter(house, 'export', 'SUN', giver=lot.account, peer=9, account=5,
                       first=lot.number(0), last=lot.number(99))
    notice = json.loads(house.ask('anna', 'GET', f'/v1/notices/{sent["notice"]}').text)
    house.keys += 1
    notice.update(sender=9, addressee=7, account=lot.account, number=house.keys)
    home = {'first': lot.number(0), 'last': lot.number(19)}
    notice['parts'] = [{**part, **home} for part in notice['parts']]
    page = visit(house, 'office', 'exchange')
    page.choose_file('notice.json', json.dumps(notice, separators=(',', ':'), sort_keys=True))
    assert 'electricity' in page.text('dl.head', '20')
    page.look('exchange')
    page.click('main button', 'Import')
    assert '20 certificates imported' in page.text('.result', 'imported')
    assert stage.statement(house, lot.account)[1]['held'] == 220


def test_only_an_empty_account_is_closed(house: House, visit: Visit) -> None:
    lot, empty = stage.issue(house), stage.open_account(house)
    page = visit(house, 'office', 'register')
    page.fill('close_account', account=str(lot.account))
    assert 'AccountNotEmpty (7)' in page.send('close_account', sure=True)
    page.go('register')
    page.fill('close_account', account=str(empty))
    assert 'The account is closed' in page.send('close_account', sure=True)


# -------------------------------------------------------------------- the date

def held_by_day(house: House, account: int, least: str, below: str) -> int:
    """What an account holds of production that ended in this time."""
    lines, _ = stage.statement(house, account)
    return stage.total([line for line in lines if least <= line[5] < below])


def two_accounts(house: House) -> tuple[int, int]:
    """Of two holders, with certificates of two years."""
    accounts = []
    for holder, count in (('SUN', 700), ('VOLT', 300)):
        old = stage.issue(house, holder, count, first_day='2024-09-01', last_day='2024-09-30')
        stage.issue(house, holder, count + 5, account=old.account)
        accounts.append(old.account)
    return accounts[0], accounts[1]


def test_a_day_after_today_is_typed_twice(own_house: House, visit: Visit) -> None:
    """And what it does to held certificates is told before it is sent."""
    sun, volt = two_accounts(own_house)
    page, before = visit(own_house, 'office', 'date'), own_house.entry()
    page.fill('advance', day=NEXT)
    page.click('form.advance button[type=submit]')
    assert 'after today, 2025-03-01' in page.text('form.advance .hint.wrong')
    assert not page.all('dialog[open]')
    page.fill('advance', again='2026-04-02')
    page.click('form.advance button[type=submit]')
    page.see('form.advance', 'two days differ')
    assert own_house.entry() == before
    page.look('date-after-today')
    page.fill('advance', again=NEXT)
    page.click('form.advance button[type=submit]')
    told = page.text('dialog[open]', 'can’t be taken back')
    expire = {of: held_by_day(own_house, of, '', '2024-10-01') for of in (sun, volt)}
    close = {of: held_by_day(own_house, of, '2024-10-01', '2025-04-01') for of in (sun, volt)}
    assert expire == {sun: 700, volt: 300} and close == {sun: 705, volt: 305}
    assert '1,000' in told and '1,010 certificates' in told
    assert f'Account {volt} of VOLT: 300 expire, trade closes for 305.' in told
    page.look('date-sure')
    page.click('dialog[open] button.main')
    assert '1,000 certificates expired' in page.text('form.advance .result', 'expired')
    page.look('date')
    assert [stage.statement(own_house, of)[1]['expired'] for of in (sun, volt)] == [700, 300]
