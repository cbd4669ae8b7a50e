"""Signing out: what the browser forgets, what it keeps, and what the page says of it."""
import json
from collections.abc import Callable
from collections.abc import Iterator
from pathlib import Path

import pytest
from browser import stage
from browser.chromium import Browser
from browser.conftest import Visit
from browser.german import english_in
from house import House

ASKED = """await fetch('/style.css', {method: 'HEAD', cache: 'no-store'}).catch(() => 0);
await fetch('/acts.js', {method: 'HEAD', cache: 'no-store',
                         signal: AbortSignal.timeout(2000)}).catch(() => 0)"""
SEEN = "return Object.keys(localStorage).filter(k => k.includes('seen'))"
KEPT = [("204, headers: {'GOO-Kept': 'password'}", 'keeps'), ('404', 'of before')]
"""The front door's answers where the browser keeps the password, or where it can't tell."""
PUT = """const real = fetch; fetch = (path, more) => path === '/sign-out'
  ? Promise.resolve(new Response(null, {status: %s})) : real(path, more)"""


def entries_of(house: House) -> list[dict[str, str]]:
    """The lines of the front door's log."""
    lines = (house.folder / 'front-door.log').read_text(encoding='utf-8').splitlines()
    return [json.loads(line) for line in lines]


def test_signed_out_the_browser_has_forgotten(house: House, visit: Visit) -> None:
    """What was seen of accounts too; the password is no longer sent."""
    lot = stage.issue(house)
    page = visit(house, 'office', f'account/{lot.account}', 'table')
    assert page.run(SEEN)
    page.click('nav button', 'Sign out')
    page.see('main .result.good', 'forgotten your password')
    assert page.run(SEEN) == [] and not page.all('nav li')
    assert page.see('footer').text == '' and page.see('.top').text.count('Issuing body') == 0
    page.look('signed-out')
    count = len(entries_of(house))
    page.script(ASKED)
    told = [(of['status'], of['user']) for of in entries_of(house)[count:]
            if of['route'] == '/acts.js']
    assert told == [('401', '')]
    page.sign_in()
    assert page.text('.who', 'Issuing body')


@pytest.mark.parametrize('answer, why', KEPT, ids=[of[1] for of in KEPT])
def test_a_browser_that_keeps_the_password_is_to_be_closed(house: House, visit: Visit, answer: str,
                                                           why: str) -> None:
    page = visit(house, 'office')
    page.run(PUT % answer)
    page.click('nav button', 'Sign out')
    assert 'Close all its windows' in page.text('main .result.kept')


# -------------------------------------------------------------------- by certificate

STATUS = "return (await fetch('/v1/certificates/1', {cache: 'no-store'})).status"
"""404 where the browser is somebody's, as there is none; 403 where it is nobody's."""


Opened = Callable[[], Browser]


@pytest.fixture(scope='module')
def certified() -> Iterator[House]:
    """A house whose users have certificates."""
    with House(certificates=True, more=()) as house:
        stage.open_holder(house, 'SUN')
        yield house


@pytest.fixture
def opened(certified: House, tmp_path: Path, pictures: Path | None) -> Iterator[Opened]:
    """Opens anna's browser, which has her certificate; it is the same one each time."""
    browsers: list[Browser] = []

    def begin() -> Browser:
        for browser in browsers:
            browser.quit()
        browsers.append(Browser('anna', tmp_path, pictures, certificate=certified))
        browsers[-1].visit(certified)
        browsers[-1].load('', 'nav a')
        return browsers[-1]
    yield begin
    found = browsers[-1].errors()
    browsers[-1].quit()
    assert found == []


def test_signed_in_by_a_certificate(certified: House, opened: Opened) -> None:
    """No browser forgets it: signed out, nobody is signed in by it until somebody says so."""
    page = opened()
    assert page.text('.who', 'SUN') and page.script(STATUS) == 404
    page.click('nav button', 'Sign out')
    page.see('main .result.good', 'Nothing is done with your certificate')
    page.look('signed-out-certificate')
    assert page.script(STATUS) == 403
    answer = certified.ask(None, 'GET', '/', certificate='anna')    # a program still does
    assert answer.fields['goo-signed-in'] == 'SUN'
    page.set_language('de', wait='main .result.good')
    page.see('main .result.good', 'Mit Ihrem Zertifikat geschieht nichts mehr')
    assert page.script(STATUS) == 403 and english_in(page) == []
    page.run('localStorage.clear()')
    page.click('main .buttons button', 'Anmelden')
    page.see('.who', 'SUN')
    assert page.script(STATUS) == 404


def test_opened_anew_a_browser_is_signed_in_by_its_certificate(opened: Opened) -> None:
    page = opened()
    page.click('nav button', 'Sign out')
    page.see('main .result.good', 'Nothing is done')
    page = opened()
    assert page.text('.who', 'SUN') and page.script(STATUS) == 404
