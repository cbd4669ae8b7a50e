"""Users by the page: the first administrator, an invitation that is accepted, access by account, a
reset, and the end of a user."""
import re
from collections.abc import Iterator

import pytest
from browser import stage
from browser.conftest import Chromiums
from browser.german import english_in
from browser.signed import Signed
from goo_service.people.store import changing
from house import House
from house_people import word_of

WORD = 'four words in a row'
LINK = '.users .result.good input.token'


@pytest.fixture(scope='module')
def house() -> Iterator[House]:
    with House(people=True) as made:
        for holder in ('SUN', 'VOLT', 'BIG'):
            stage.open_holder(made, holder)
        stage.issue(made)
        made.people.make_user('ada', 'SUN', administrator=True)
        with made.people.open() as db, changing(db):
            db.execute("UPDATE user SET mail = name || '@goo.example' WHERE role <> 'peer'")
        made.wait_for_book()
        yield made


@pytest.fixture
def signed(house: House, chromiums: Chromiums) -> Iterator[Signed]:
    with house.people.open() as db, changing(db):
        db.execute('DELETE FROM delay')
    made = Signed(chromiums.of('signed'), house).begin()
    yield made
    found = made.page.errors()
    made.page.leave()
    assert found == []


@pytest.fixture
def guest(house: House, chromiums: Chromiums) -> Iterator[Signed]:
    """A second browser."""
    made = Signed(chromiums.of('guest'), house).begin()
    yield made
    found = made.page.errors()
    made.page.leave()
    assert found == []


def access_of(house: House, name: str) -> list[tuple[int, ...]]:
    with house.people.open() as db:
        return [tuple(row) for row in db.execute(
            'SELECT account, reads, trades, cancels FROM access '
            'JOIN user ON user.id = user WHERE name = ? ORDER BY account', (name,))]


def accept(guest: Signed, link: str, name: str) -> None:
    """Opens a link, and becomes a user with an app."""
    guest.page.driver.get(link)
    guest.page.see('form.accept')
    assert guest.page.run('return location.hash') == ''           # the secret is out of the address
    guest.page.fill('accept', name=name, password=WORD, again=WORD)
    guest.page.click('form.accept button.main')
    guest.page.see('main .result.good', f'Welcome, {name}')
    guest.add_app()
    guest.page.see('nav a')


def test_an_invitation_is_made_accepted_and_used(house: House, signed: Signed,
                                                 guest: Signed) -> None:
    page = signed.sign_in('ada', 'users', 'form.invite')
    page.look('people-users', dark=True)
    page.fill('invite', mail='nina@sun.example')
    page.click('form.invite button.main')
    link = page.see(LINK).get_attribute('value') or ''
    assert re.fullmatch(rf'https://localhost:{house.port}/accept\.html#[\w-]{{43}}', link)
    assert 'nina@sun.example' in page.text('.users .result.good')
    accept(guest, link, 'nina')
    assert guest.page.text('.top .who') == 'Holder SUN, nina'
    assert access_of(house, 'nina') == [(0, 1, 0, 0)]
    assert 'Transfer' not in guest.page.texts('nav a')             # whoever reads is offered no act
    page.go('users', '.users table')
    assert ['nina', 'user'] in [row[:2] for row in page.cells('.users > table tbody tr')]


def test_a_link_that_was_used_says_so(house: House, signed: Signed, guest: Signed) -> None:
    page = signed.sign_in('ada', 'users', 'form.invite')
    page.fill('invite', mail='olaf@sun.example')
    page.click('form.invite button.main')
    link = page.see(LINK).get_attribute('value') or ''
    accept(guest, link, 'olaf')
    guest.begin()
    guest.page.driver.get(link)
    guest.page.see('main .result.bad', 'This invitation is over')
    guest.page.driver.get(link[:-43] + 'x' * 43)
    guest.page.see('main .result.bad', 'This invitation is over')


def test_a_name_that_is_taken_is_told_at_its_field(signed: Signed, guest: Signed) -> None:
    page = signed.sign_in('ada', 'users', 'form.invite')
    page.fill('invite', mail='paul@sun.example')
    page.click('form.invite button.main')
    guest.page.driver.get(page.see(LINK).get_attribute('value') or '')
    guest.page.see('form.accept')
    guest.page.fill('accept', name='bela', password=WORD, again=WORD)
    guest.page.click('form.accept button.main')
    guest.page.see('form.accept .hint.wrong', 'This name is taken')
    guest.page.look('people-accept')
    guest.page.fill('accept', name='paul')
    guest.page.click('form.accept button.main')
    guest.page.see('h1', 'Add a second factor')


def test_access_by_account_asks_for_a_code_of_now(house: House, signed: Signed) -> None:
    house.people.make_user('rita', 'SUN')
    page = signed.sign_in('ada', 'users/rita', 'form.access')
    signed.age()
    page.fill('access', account='1')
    page.click('.access-row label', 'cancels')
    page.click('form.access button.main')
    signed.confirm_code('ada')
    page.see('form.access .result.good', 'The access of rita is changed')
    assert access_of(house, 'rita') == [(1, 1, 1, 0)]
    page.fill('access', account='99')
    page.click('form.access button.main')
    signed.confirm_code('ada')
    page.see('form.access .result.bad', 'SUN has no account 99')
    assert access_of(house, 'rita') == [(1, 1, 1, 0)]


def test_a_wrong_code_of_now_is_asked_again(house: House, signed: Signed) -> None:
    house.people.make_user('rosa', 'SUN')
    page = signed.sign_in('ada', 'users/rosa', 'form.access')
    signed.age()
    page.click('form.access button.main')
    page.see('dialog[open] form.fresh')
    page.look('people-fresh')
    page.fill('fresh', code='000000')
    page.click('dialog[open] form.fresh button.main')
    page.see('dialog[open] .hint.wrong', 'This code is wrong')
    page.click('dialog[open] button', 'Go back')
    page.gone('dialog[open]')
    assert not page.all('form.access .result')


def test_a_user_who_ends_is_out(house: House, signed: Signed) -> None:
    house.people.make_user('emil', 'SUN')
    other = house.people.sign_in('emil')
    page = signed.sign_in('ada', 'users', '.users table')
    page.run("""[...document.querySelectorAll('tbody tr')].find(e => e.innerText.includes('emil'))
        .querySelectorAll('button')[1].click()""")
    assert 'emil' in page.text('dialog[open] dl')
    page.click('dialog[open] button.main')
    page.see('.users .result.good', 'emil is ended')
    assert 'emil' not in [row[0] for row in page.cells('.users > table tbody tr')]
    assert other.ask('GET', '/records/v1/status').status == 401


def test_an_officer_invites_the_first_administrator(house: House, signed: Signed,
                                                    guest: Signed) -> None:
    page = signed.sign_in('office', 'users', 'form.first-administrator')
    page.look('people-users-officer')
    page.fill('first-administrator', caller='none', mail='x@big.example')
    page.click('form.first-administrator button.main')
    page.see('form.first-administrator .result.bad', 'there is no holder NONE')
    page.fill('first-administrator', caller='big', mail='bea@big.example')
    page.click('form.first-administrator button.main')
    accept(guest, page.see(LINK).get_attribute('value') or '', 'bea')
    assert guest.page.text('.top .who') == 'Holder BIG, bea, administrator'
    guest.page.go('users', 'form.invite')
    page.fill('first-administrator', caller='big', mail='bob@big.example')
    page.click('form.first-administrator button.main')
    page.see('form.first-administrator .result.bad', 'BIG has an administrator')


def test_who_lost_everything_gets_a_link_by_mail(house: House, signed: Signed,
                                                 guest: Signed) -> None:
    house.people.make_user('lena', 'SUN')
    with house.people.open() as db, changing(db):
        db.execute("UPDATE user SET mail = 'lena@sun.example' WHERE name = 'lena'")
    page = signed.sign_in('ada', 'users', '.users table')
    page.run("""[...document.querySelectorAll('tbody tr')].find(e => e.innerText.includes('lena'))
        .querySelectorAll('button')[0].click()""")
    page.click('dialog[open] button.main')
    page.see('.users .result.good', 'lena gets a link')
    assert not page.all(LINK)
    with house.people.open() as db:
        [mail] = db.execute("SELECT body FROM mail WHERE address = 'lena@sun.example'").fetchall()
    secret = re.search(r'accept\.html#([\w-]{43})', mail['body'])
    assert secret
    guest.page.driver.get(f'https://localhost:{house.port}/accept.html#{secret[1]}')
    guest.page.see('form.accept')
    assert not guest.page.all('form.accept [name=name]')
    guest.page.fill('accept', password=WORD, again=WORD)
    guest.page.click('form.accept button.main')
    guest.page.see('main .result.good', 'Welcome, lena')
    guest.begin().type_password('lena', word_of('lena'))           # that of before
    guest.page.see('form.sign-in .result.bad', 'is wrong')


def test_users_and_invitations_in_german(signed: Signed, guest: Signed) -> None:
    page = signed.sign_in('ada', 'users', 'form.invite')
    page.fill('invite', mail='udo@sun.example')
    page.click('form.invite button.main')
    link = page.see(LINK).get_attribute('value') or ''
    page.set_language('de', 'users', 'form.invite')
    page.click('summary', 'Was mit Benutzern')
    page.see('.acts-of-people table')
    assert english_in(page) == []
    page.look('people-users-german')
    guest.page.load_path('/verify.html')
    guest.page.run("localStorage.setItem('goo/language', 'de')")
    guest.page.driver.get(link)
    guest.page.see('form.accept')
    assert english_in(guest.page) == []
    guest.page.look('people-accept-german')
