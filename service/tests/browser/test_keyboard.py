"""The page without a mouse: keys alone. To sign in is the browser's own question."""
import pytest
from browser import stage
from browser.chromium import Browser
from browser.conftest import Visit
from house import House
from selenium.webdriver.common.action_chains import ActionChains
from selenium.webdriver.common.keys import Keys

FOCUSED = """const e = document.activeElement, s = getComputedStyle(e);
const ring = s.outlineStyle !== 'none' && parseFloat(s.outlineWidth) >= 2;
return [e.matches(arguments[0]) && (e.innerText ?? '').includes(arguments[1]),
        e === document.body || ring, e.outerHTML.slice(0, 120)]"""
MOST = 200
"""Presses of Tab until something has to be reached."""


class Hands:
    """A person without a mouse. `unseen` is what had the focus and no ring around it."""

    def __init__(self, page: Browser) -> None:
        self.page = page
        self.unseen: list[str] = []

    def is_at(self, css: str, text: str = '') -> bool:
        return bool(self.page.run(FOCUSED, css, text)[0])

    def tab_to(self, css: str, text: str = '', back: bool = False) -> None:
        seen = []
        for _ in range(MOST):
            chain = ActionChains(self.page.driver)
            if back:
                chain.key_down(Keys.SHIFT).send_keys(Keys.TAB).key_up(Keys.SHIFT).perform()
            else:
                chain.send_keys(Keys.TAB).perform()
            is_there, has_ring, what = self.page.run(FOCUSED, css, text)
            seen.append(what)
            self.unseen += [] if has_ring else [what]
            if is_there:
                return
        raise AssertionError(f'Tab does not reach {css} {text!r}, but {seen[:40]}')

    def press(self, css: str, text: str = '', key: str = Keys.ENTER) -> None:
        self.page.see(css, text)
        self.tab_to(css, text)
        self.page.keys(key)

    def leave_question(self) -> None:
        self.page.see('dialog[open]')
        self.page.keys(Keys.ESCAPE)
        self.page.gone('dialog[open]')


@pytest.fixture
def world(house: House) -> stage.World:
    made = stage.world(house)
    house.wait_for_book()
    return made


def test_lots_are_filtered_chosen_and_transferred(house: House, world: stage.World,
                                                  visit: Visit) -> None:
    page = visit(house, 'anna', '', 'table')
    hands = Hands(page)
    page.keys(Keys.TAB)
    assert hands.is_at('a.skip', 'Skip to the content')
    page.run('location.hash = arguments[0]', f'account/{world.account}')
    page.see('h1', 'Account')
    hands.press('nav a', 'Holdings')
    page.see('.summed')
    assert hands.is_at('main')              # another page has the focus
    page.go(f'holdings/{world.account}', '.summed')
    hands.press('.filters [name=tradable]', key=Keys.SPACE)
    hands.tab_to('.filters [name=tech]', back=True)
    page.keys('Wind')
    lines, _ = stage.statement(house, world.account)
    wind = stage.total([line for line in lines
                        if line[6] == 'T020001' and stage.day_of(line) >= '2024-03-01'])
    page.see('.summed b', f'{wind:,} certificates')
    hands.press('th.right button.head', 'Count')
    page.see('th.right button.head', 'Count ↑')
    assert hands.is_at('th.right button.head', 'Count')
    hands.press('td.pick input', key=Keys.SPACE)
    chosen = int(page.text('.chosen b').split()[0].replace(',', ''))
    hands.press('.chosen button.main', 'Transfer')
    page.see('form.bundle')
    transfer(house, world, hands, chosen)
    assert hands.unseen == []


def transfer(house: House, world: stage.World, hands: Hands, chosen: int) -> None:
    """A question that is left gives the focus back; one that is there keeps it."""
    page, before = hands.page, stage.held(house, world.account)
    hands.press('form.bundle [name=taker]', key=str(world.other))
    hands.press('form.bundle [name=taker_holder]', key='VOLT\n')
    hands.leave_question()
    assert hands.is_at('form.bundle [name=taker_holder]')
    hands.press('form.bundle button.main', 'Transfer')
    hands.leave_question()
    assert hands.is_at('form.bundle button.main')
    page.keys(Keys.ENTER)
    page.see('dialog[open]')
    for _ in range(5):
        assert hands.is_at('dialog *') or hands.is_at('body')
        page.keys(Keys.TAB)
    page.forget('main .result')
    hands.press('dialog button.main')
    page.see('main .result', 'accepted')
    assert stage.held(house, world.account) == before - chosen
    assert stage.held(house, world.other) == chosen


def test_a_certificate_is_cancelled_and_its_document_printed(house: House, visit: Visit) -> None:
    """Days are typed as they are written, whatever the language of the browser."""
    lot = stage.issue(house)
    page = visit(house, 'anna')
    hands, number = Hands(page), lot.number(0)
    hands.press('nav a', 'Cancel')
    page.see('form.cancel')
    for name, text in (('account', str(lot.account)), ('first', number), ('last', number),
                       ('beneficiary', 'Bahnhof Nordheim'), ('use_first', '2024-10-10'),
                       ('use_last', '2024-12-12')):
        hands.tab_to(f'form.cancel [name={name}]')
        page.keys(text)
    typed = page.run("return [...document.querySelectorAll('form.cancel input[name]')]"
                     '.map(e => e.value)')
    assert typed == [str(lot.account), number, number, 'Bahnhof Nordheim', '2024-10-10',
                     '2024-12-12']
    hands.press('form.cancel button[type=submit]')
    page.see('dialog[open]')
    page.keys(Keys.ENTER)
    page.see('form.cancel .result', '1 certificate cancelled')
    house.wait_for_book()
    hands.press('form.cancel .result a', 'Document')
    page.see('article.sheet', 'Bahnhof Nordheim')
    page.run('window.print = () => { window.printed = true }')
    hands.press('main .buttons button', 'Print')
    assert page.run('return window.printed === true')
    assert hands.unseen == []


@pytest.mark.thorough
def test_tab_reaches_pages_field_and_buttons(house: House, visit: Visit) -> None:
    """And the focus is seen each time."""
    lot = stage.issue(house)
    page = visit(house, 'office', f'account/{lot.account}', 'table')
    page.run('document.activeElement.blur(); scrollTo(0, 0)')
    seen = []
    for _ in range(40):
        page.keys(Keys.TAB)
        element = page.driver.switch_to.active_element
        seen.append((element.text or element.get_attribute('name'), page.run(FOCUSED, 'a', '')))
    names = [name for name, _ in seen]
    assert names[0] == 'Skip to the content'
    assert {'Audit', 'account', 'Show statement', 'Save as text', 'Save as CSV',
            'Save holdings as CSV', 'Print'} <= set(names)
    assert [what for _, (_, has_ring, what) in seen if not has_ring] == []
