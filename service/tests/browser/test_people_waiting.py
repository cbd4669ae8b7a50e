"""Tokens of programs, rules, and four eyes: two users of a holder, and two of the issuing body."""
import json
import subprocess
from collections.abc import Iterator

import pytest
from browser import stage
from browser.conftest import Chromiums
from browser.german import english_in
from browser.signed import Signed
from goo_service.people.store import changing
from house import House

KEPT = '.result.kept'
OPEN = '.waits > article.waiting'


@pytest.fixture(scope='module')
def house() -> Iterator[House]:
    with House(people=True) as made:
        for holder in ('SUN', 'VOLT'):
            stage.open_holder(made, holder)
        made.people.make_user('ada', 'SUN', administrator=True)
        made.people.make_user('alma', 'SUN')
        made.people.make_user('otto', 'ISSUER', 'officer')
        yield made


@pytest.fixture
def signed(house: House, chromiums: Chromiums) -> Iterator[Signed]:
    with house.people.open() as db, changing(db):
        db.execute('DELETE FROM delay')
        db.execute('DELETE FROM rule')
    made = Signed(chromiums.of('signed'), house).begin()
    yield made
    found = made.page.errors()
    made.page.leave()
    assert found == []


@pytest.fixture
def second(house: House, chromiums: Chromiums) -> Iterator[Signed]:
    """The browser of the second user."""
    made = Signed(chromiums.of('guest'), house).begin()
    yield made
    found = made.page.errors()
    made.page.leave()
    assert found == []


def set_rule(house: House, caller: str, command: str, above: int) -> None:
    with house.people.open() as db, changing(db):
        db.execute('INSERT INTO rule VALUES (?, ?, ?, 7)', (caller, command, above))


def ask_transfer(signed: Signed, lot: stage.Lot, taker: int, count: int) -> None:
    signed.page.go('transfer', 'form.transfer')
    signed.page.fill('transfer', giver=str(lot.account), taker=str(taker), taker_holder='VOLT',
                     first=lot.number(0), last=lot.number(count - 1))
    signed.page.click('form.transfer button[type=submit]')
    signed.page.click('dialog[open] button.main')


def curl(house: House, token: str, path: str) -> int:
    """The status of a request that a program makes by a token."""
    done = subprocess.run(
        ['curl', '--silent', '--cacert', str(house.door.etc / 'tls/cert.pem'), '--output',
         '/dev/null', '--write-out', '%{http_code}', '--header', f'Authorization: Bearer {token}',
         f'https://localhost:{house.port}{path}'], capture_output=True, text=True, check=True)
    return int(done.stdout)


# -------------------------------------------------------------------- tokens

def test_a_token_is_made_used_and_revoked(house: House, signed: Signed) -> None:
    lot = stage.issue(house, count=20)
    with house.people.open() as db, changing(db):
        db.execute("DELETE FROM token WHERE user = (SELECT id FROM user WHERE name = 'anna')")
    page = signed.sign_in('anna', 'my-account', '.my-account table')
    page.click('summary', 'Make a token')
    page.fill('token', name='ERP')
    page.click('form.token button.main')
    token = page.see('.result.good input.token').get_attribute('value') or ''
    page.look('people-token', dark=True)
    assert token.startswith('goo_')
    path = f'/v1/accounts/{lot.account}/statement'
    assert curl(house, token, path) == 200
    page.load('my-account', '.my-account table')
    assert token not in page.text('main')                          # it was shown once
    row = next(of for of in page.cells('.part:nth-of-type(4) tbody tr') if of[0] == 'ERP')
    assert row[1] == 'reads' and row[4] != 'never'
    page.click('.part:nth-of-type(4) button', 'Revoke')
    page.click('dialog[open] button.main')
    page.see('.result.good', 'The token ERP is revoked')
    assert curl(house, token, path) == 401


def test_a_token_is_bounded_and_its_bounds_are_told(house: House, signed: Signed) -> None:
    page = signed.sign_in('anna', 'my-account', '.my-account table')
    page.click('summary', 'Make a token')
    page.fill('token', name='trader', most='1000', account='1')
    page.click('form.token .ticks label', 'trades')
    page.click('form.token button.main')
    page.see('.result.good input.token')
    row = next(of for of in page.cells('.part:nth-of-type(4) tbody tr') if of[0] == 'trader')
    assert row[1] == 'reads, trades up to 1,000 a day, account 1 alone'
    page.click('summary', 'Make a token')
    page.fill('token', name='trader')
    page.click('form.token button.main')
    page.see('form.token .result.bad', 'there is a token trader already')


# -------------------------------------------------------------------- rules and four eyes

def test_a_rule_is_set_and_a_looser_one_waits(house: House, signed: Signed,
                                              second: Signed) -> None:
    page = signed.sign_in('ada', 'rules', 'form.rule')
    page.look('people-rules')
    page.click('form.rule.transfer label', 'wait for a second user')
    page.fill('rule.transfer', above='100', days='5')
    page.click('form.rule.transfer button.main')
    page.see('form.rule.transfer .result.good', 'The rule holds')
    with house.people.open() as db:
        assert [tuple(row) for row in db.execute('SELECT * FROM rule')] == [
            ('SUN', 'transfer', 100, 5)]
    page.fill('rule.transfer', above='900')
    page.forget('form.rule.transfer .result')
    page.click('form.rule.transfer button.main')
    page.see(f'form.rule.transfer {KEPT}', 'It waits for a second user')
    with house.people.open() as db:
        assert db.execute('SELECT above FROM rule').fetchone()[0] == 100
    other = second.sign_in('alma', 'waiting', OPEN)
    assert '900' in other.text(OPEN, 'Change of a rule')
    other.click(f'{OPEN} button.main', 'Confirm')
    other.click('dialog[open] button.main')
    other.see('.waits .result.good', 'is confirmed')
    with house.people.open() as db:
        assert db.execute('SELECT above FROM rule').fetchone()[0] == 900


def test_four_eyes_with_two_users(house: House, signed: Signed, second: Signed) -> None:
    """Below the rule it is done at once, above it a second user confirms, with a code of now."""
    lot, taker = stage.issue(house, count=300), stage.open_account(house, 'VOLT')
    house.wait_for_book()
    set_rule(house, 'SUN', 'transfer', 100)
    signed.sign_in('anna')
    ask_transfer(signed, lot, taker, 100)
    signed.page.see('form.transfer .result.good', '100 certificates moved')
    ask_transfer(signed, stage.Lot(lot.account, lot.device, lot.first + 100, 200), taker, 150)
    told = signed.page.text(f'form.transfer {KEPT}', 'It waits for a second user')
    assert 'a transfer above 100 certificates' in told and stage.held(house, taker) == 100
    assert not signed.page.all('#unanswered:not([hidden])')
    signed.page.go('waiting', OPEN)
    assert 'You have asked for it' in signed.page.text(OPEN)
    assert signed.page.texts(f'{OPEN} button') == ['Take it back']
    other = second.sign_in('alma', 'start', f'.part {KEPT}')
    other.see(f'.part {KEPT}', '1 request waits until you confirm or refuse it')
    other.click(f'.part {KEPT} a', 'Which ones')
    shown = other.text(OPEN)
    assert 'Transfer certificates' in shown and '(150)' in shown and 'anna' in shown
    other.look('people-waiting', dark=True)
    second.age()
    other.click(f'{OPEN} button.main', 'Confirm')
    other.click('dialog[open] .buttons button.main', 'Confirm')
    second.confirm_code('alma')
    other.see('.waits .result.good', '150 certificates moved')
    assert stage.held(house, taker) == 250
    house.wait_for_book()
    other.go('history', 'table')
    other.click('main tbody tr:first-child a')
    other.see('dl', 'Confirmed by')
    assert 'alma' in other.text('.certificate dl')


def test_a_request_is_refused_and_one_is_taken_back(house: House, signed: Signed,
                                                    second: Signed) -> None:
    lot, taker = stage.issue(house, count=300), stage.open_account(house, 'VOLT')
    house.wait_for_book()
    set_rule(house, '*', 'transfer', 100)
    signed.sign_in('anna')
    for _ in range(2):
        ask_transfer(signed, lot, taker, 200)
        signed.page.see(f'form.transfer {KEPT}', 'It waits for a second user')
    other = second.sign_in('alma', 'waiting', OPEN)
    other.click(f'{OPEN} button', 'Refuse')
    other.click('dialog[open] button.main')
    other.see('.waits .result.good', 'is refused')
    signed.page.go('waiting', OPEN)
    signed.page.click(f'{OPEN} button', 'Take it back')
    signed.page.click('dialog[open] button.main')
    signed.page.see('.waits .result.good', 'is taken back')
    signed.page.see('.waits', 'Nothing waits for a second user')
    assert stage.held(house, taker) == 0 and stage.held(house, lot.account) == 300


def test_a_selection_waits_whole(house: House, signed: Signed, second: Signed) -> None:
    lot, taker = stage.issue(house, count=300), stage.open_account(house, 'VOLT')
    house.wait_for_book()
    set_rule(house, 'SUN', 'transfer', 10)
    page = signed.sign_in('anna', f'holdings/{lot.account}', '.summed')
    page.click('.summed button', 'Choose all')
    page.click('.chosen button', 'Transfer')
    page.fill('bundle', taker=str(taker), taker_holder='VOLT')
    page.click('form.bundle button.main', 'Transfer')
    page.click('dialog[open] button.main')
    page.see(f'main {KEPT}', 'It waits for a second user')
    other = second.sign_in('alma', 'waiting', OPEN)
    assert '300' in other.text(OPEN)
    other.click(f'{OPEN} button.main', 'Confirm')
    other.click('dialog[open] button.main')
    other.see('.waits .result.good', 'is confirmed')
    assert stage.held(house, taker) == 300


def test_a_withdrawal_of_the_body_waits_for_a_second_officer(house: House, signed: Signed,
                                                             second: Signed) -> None:
    lot = stage.issue(house, count=50)
    set_rule(house, 'ISSUER', 'withdraw', 0)
    page = signed.sign_in('office', f'withdraw/{lot.account}/{lot.number(0)}/{lot.number(9)}',
                          'form.withdraw')
    page.fill('withdraw', first=lot.number(0), last=lot.number(9), reason='meter read twice')
    page.click('form.withdraw button[type=submit]')
    page.click('dialog[open] button.main')
    page.see(f'form.withdraw {KEPT}', 'a withdrawal')
    assert stage.held(house, lot.account) == 50
    other = second.sign_in('second', 'waiting', OPEN)
    assert 'meter read twice' in other.text(OPEN)
    assert 'Withdraw' not in other.texts('nav a')                  # he confirms, and asks nothing
    other.click(f'{OPEN} button.main', 'Confirm')
    other.click('dialog[open] button.main')
    other.see('.waits .result.good', '10 certificates withdrawn')
    assert stage.held(house, lot.account) == 40


def test_waiting_and_rules_in_german(house: House, signed: Signed, second: Signed) -> None:
    lot, taker = stage.issue(house, count=300), stage.open_account(house, 'VOLT')
    house.wait_for_book()
    set_rule(house, 'SUN', 'transfer', 100)
    page = signed.sign_in('anna')
    page.set_language('de', 'transfer', 'form.transfer')
    ask_transfer(signed, lot, taker, 200)
    page.see(f'form.transfer {KEPT}', 'Es wartet auf einen zweiten Benutzer')
    assert english_in(page) == []
    other = second.sign_in('ada')
    other.set_language('de', 'waiting', OPEN)
    other.click('summary', 'Was entschieden wurde')
    assert english_in(other) == []
    other.look('people-waiting-german')
    other.go('rules', 'form.rule')
    assert english_in(other) == []
    assert json.loads(house.people.sign_in('alma').ask('GET', '/people/v1/waiting').text)['items']
