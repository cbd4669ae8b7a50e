"""Sign-in by the page: password and code, a security key, the first factor, sessions, German."""
from collections.abc import Iterator

import pytest
from browser import stage
from browser.conftest import Chromiums
from browser.german import english_in
from browser.signed import Signed
from goo_service.people import store
from goo_service.people.store import changing
from door import TOP
from house import House
from house_people import word_of
from selenium.webdriver.common.keys import Keys

FAILED = 'The name, the password or the code is wrong'


@pytest.fixture(scope='module')
def house() -> Iterator[House]:
    with House(people=True) as made:
        stage.open_holder(made, 'SUN')
        yield made


@pytest.fixture
def anna(house: House, chromiums: Chromiums) -> Iterator[Signed]:
    with house.people.open() as db, changing(db):
        db.execute('DELETE FROM delay')
        db.execute('DELETE FROM session')
    signed = Signed(chromiums.of('signed'), house).begin()
    yield signed
    found = signed.page.errors()
    signed.page.leave()
    assert found == []


def test_signed_in_with_password_and_code_the_page_comes_that_was_asked_for(anna: Signed) -> None:
    page = anna.sign_in('anna', 'my-account', '.my-account table')
    described = (TOP / 'docs/people.yaml').read_text(encoding='utf-8')
    assert page.text('.top .who') == 'Holder SUN, anna' and page.text('h1') == 'My account'
    assert page.run('return document.cookie') == ''              # no script reads the session
    assert [row[4] for row in page.cells('.part:nth-of-type(3) tbody tr')] == ['this one']
    page.look('people-account')
    page.click('footer a', 'users and their rights')
    assert page.saved('people-openapi.yaml') == described


def test_each_failure_has_one_text(anna: Signed) -> None:
    anna.type_password('anna', 'a wrong password')
    told = anna.page.text('form.sign-in .result.bad', FAILED)
    anna.page.look('people-sign-in')
    anna.type_password('nobody', 'a wrong password')
    assert anna.page.text('form.sign-in .result.bad', FAILED) == told
    anna.type_password('anna')
    anna.page.see('form.sign-in [name=code]')
    anna.page.fill('sign-in', code='000 000')
    anna.page.click('form.sign-in button.main')
    assert anna.page.text('form.sign-in .result.bad', FAILED) == told
    anna.type_code('anna')                                        # the same page goes on
    anna.page.see('nav a')


def test_signed_in_by_keys_alone(anna: Signed) -> None:
    """The focus is in the first field of each step."""
    page = anna.page
    page.load_path('/sign-in.html', 'form.sign-in')
    page.keys('anna', Keys.TAB, word_of('anna'), Keys.ENTER)
    page.see('form.sign-in [name=code]')
    page.keys(anna.house.people.code('anna'), Keys.ENTER)
    page.see('nav a')


def test_who_has_no_session_is_led_to_the_sign_in_and_back(anna: Signed) -> None:
    anna.page.load_path('/#history', 'form.sign-in')              # in the place of the page
    anna.page.fill('sign-in', user='anna', password=word_of('anna'))
    anna.page.click('form.sign-in button.main')
    anna.page.see('form.sign-in [name=code]')
    anna.type_code('anna')
    anna.page.see('h1', 'History')
    with anna.house.people.open() as db, changing(db):
        db.execute('DELETE FROM session')
    anna.page.driver.execute_script("location.hash = 'lists'")
    anna.page.see('form.sign-in [name=user]')
    assert anna.page.run('return location.pathname + location.hash') == '/sign-in.html#lists'


def test_a_first_factor_is_added_before_anything_else(anna: Signed, house: House) -> None:
    house.people.make_user('nina', 'SUN')
    with house.people.open() as db, changing(db):
        db.execute("DELETE FROM factor WHERE user = (SELECT id FROM user WHERE name = 'nina')")
    anna.type_password('nina')
    anna.page.see('h1', 'Add a second factor')
    assert not anna.page.all('nav a')
    anna.page.click('form.add-app button.main')
    anna.page.see('svg.qr')
    anna.page.look('people-enrol', dark=True)
    anna.page.fill('first-code', code='000000')
    anna.page.click('form.first-code button.main')
    anna.page.see('form.first-code .hint.wrong', 'This code is not right')
    anna.add_app()
    anna.page.see('nav a')
    assert anna.page.text('.top .who', 'nina')


def test_a_security_key_is_added_and_signs_in(anna: Signed, house: House) -> None:
    house.people.make_user('kim', 'SUN')
    anna.add_key()
    page = anna.sign_in('kim', 'my-account', '.my-account table')
    page.click('summary', 'Add a second factor')
    page.fill('add-key', name='Blue key')
    page.click('form.add-key button.main')
    page.see('.my-account .result.good', 'The second factor is added')
    assert [row[:2] for row in page.cells('.part:nth-of-type(2) tbody tr')] == [
        ['App', 'one-time codes'], ['Blue key', 'security key']]
    page.click('nav button', 'Sign out')
    page.see('main .result.good', 'The session has ended')
    anna.type_password('kim')
    page.click('button', 'Use the security key')
    page.see('nav a')
    with house.people.open() as db:
        [way] = [row['way'] for row in db.execute(
            "SELECT session.way FROM session JOIN user ON user.id = user WHERE name = 'kim'")]
    assert way == 'key'


def test_who_has_a_key_alone_signs_in_again_for_what_wants_a_factor_of_now(
        anna: Signed, house: House) -> None:
    house.people.make_user('lou', 'SUN')
    with house.people.open() as db, changing(db):
        db.execute("DELETE FROM factor WHERE user = (SELECT id FROM user WHERE name = 'lou')")
    anna.add_key()
    anna.type_password('lou')
    anna.page.click('form.add-key button.main')
    anna.page.see('nav a')
    anna.age()
    anna.page.go('my-account', '.my-account table')
    anna.page.click('summary', 'Make a token')
    anna.page.fill('token', name='ERP')
    anna.page.click('form.token button.main')
    anna.page.see('dialog[open]', 'Sign in again with your security key')
    anna.page.click('dialog[open] a', 'Sign in')
    anna.page.see('form.sign-in [name=user]')
    anna.page.fill('sign-in', user='lou', password=word_of('lou'))
    anna.page.click('form.sign-in button.main')
    anna.page.see('.my-account table')                            # the key was touched at once
    anna.page.click('summary', 'Make a token')
    anna.page.fill('token', name='ERP')
    anna.page.click('form.token button.main')
    anna.page.see('.result.good input.token')


def test_signed_out_everywhere_no_browser_is_signed_in(anna: Signed, house: House) -> None:
    other = house.people.sign_in('anna')
    page = anna.sign_in('anna', 'my-account', '.my-account table')
    assert len(page.cells('.part:nth-of-type(3) tbody tr')) == 2
    page.click('button', 'Sign out everywhere')
    page.click('dialog[open] button.main')
    page.see('form.sign-in [name=user]')
    assert other.ask('GET', '/records/v1/status').status == 401
    with house.people.open() as db:
        assert db.execute('SELECT count(*) FROM session').fetchone()[0] == 0


def test_signed_out_the_page_is_nobodys(anna: Signed) -> None:
    page = anna.sign_in('anna')
    page.click('nav button', 'Sign out')
    page.see('main .result.good', 'The session has ended')
    page.click('main .buttons button', 'Sign in')
    page.see('form.sign-in [name=user]')
    status = "return (await fetch('/records/v1/status')).status"
    assert page.script(status) == 401


def test_a_new_password_is_the_one_that_signs_in(anna: Signed, house: House) -> None:
    house.people.make_user('paul', 'SUN')
    page, word = anna.sign_in('paul', 'my-account', '.my-account table'), 'four words in a row'
    page.fill('password', old='a wrong password', password=word, again=word)
    page.click('form.password button.main')
    page.see('form.password .hint.wrong', 'This is not your present password')
    page.see('form.password [name=old]').clear()
    page.fill('password', old=word_of('paul'))
    page.click('form.password button.main')
    page.see('form.password .result.good', 'The password is changed')
    page.click('nav button', 'Sign out')
    page.see('main .result.good', 'The session has ended')
    anna.type_password('paul')
    page.see('form.sign-in .result.bad', FAILED)
    anna.type_password('paul', word)
    page.see('form.sign-in [name=code]')


def test_a_browser_asks_once_a_day_for_a_provider(anna: Signed, house: House) -> None:
    page = anna.page
    for _ in range(2):
        page.load_path('/sign-in.html', 'form.sign-in')
        page.wait(lambda: page.run("return localStorage.getItem('goo/provider')"))
    asked = (house.folder / 'front-door.log').read_text(encoding='utf-8').count('oidc/begin')
    page.load_path('/sign-in.html', 'form.sign-in')
    assert not page.all('.provider a')
    page.run("""localStorage.setItem('goo/provider', JSON.stringify({at: Date.now(), is: true}))""")
    page.load_path('/sign-in.html', '.provider a')
    assert page.see('.provider a').get_attribute('href') == f'{page.origin}/people/v1/oidc/begin'
    log = (house.folder / 'front-door.log').read_text(encoding='utf-8')
    assert log.count('oidc/begin') == asked


def test_sign_in_and_account_in_german(anna: Signed) -> None:
    page = anna.page
    page.load_path('/sign-in.html', 'form.sign-in')
    page.click('button.language', 'Deutsch')
    page.see('h1', 'Anmelden')
    assert english_in(page) == []
    page.fill('sign-in', user='anna', password='falsch, aber lang')
    page.click('form.sign-in button.main')
    page.see('form.sign-in .result.bad', 'Name, Passwort oder Code ist falsch')
    assert english_in(page) == []
    page.look('people-sign-in-german')
    anna.type_password('anna')
    page.see('form.sign-in [name=code]')
    anna.type_code('anna')
    page.see('nav a')
    page.go('my-account', '.my-account table')
    assert english_in(page) == []
    page.look('people-account-german')
    assert store.now()
