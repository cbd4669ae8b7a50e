"""The document of a cancellation: on the screen, printed, and with odd names in it."""
import re

from browser import stage
from browser.chromium import Browser
from browser.conftest import Visit
from house import House

TURNED = 'Stadtwerke \u202enedlaW'
"""What is written after the override is shown turned round, as `Walden`."""
PARTS = ('.top', 'nav', '.buttons')


def cancelled(house: House, page: Browser, lot: stage.Lot, last: int, **fields: str) -> str:
    """The number of a cancellation that the page made of a lot's first certificates."""
    page.go(f'cancel/{lot.account}/{lot.number(0)}/{lot.number(last)}')
    page.fill('cancel', **{'beneficiary': 'Stadtwerke Nordheim', 'use_first': '2024-10-01',
                           'use_last': '2024-12-31', **fields})
    found = re.search(r'cancellation (\d+)', page.send('cancel', sure=True))
    assert found
    return found[1]


def test_a_cancellation_has_its_document(house: House, visit: Visit) -> None:
    lot = stage.issue(house, count=500)
    page = visit(house, 'anna')
    number = cancelled(house, page, lot, 499)
    house.wait_for_book()           # until then the registry's own is shown
    page.click('form.cancel .result a', 'Document')
    told = page.text('article.sheet', 'Stadtwerke Nordheim')
    assert '500 MWh of energy' in told and f'Document of cancellation 07-{number}-1' in told
    page.look('document')


def test_a_document_is_printed_alone_on_one_page(house: House, visit: Visit) -> None:
    lot = stage.issue(house, count=500)
    number = stage.cancel(house, lot, 0, 499)['cancellation']
    house.wait_for_book()
    page = visit(house, 'anna', f'document/{number}', 'article.sheet')
    page.look('document-printed', widths=(794,), printed=True)
    page.run('window.print = () => { window.printed = true }')
    page.click('main .buttons button', 'Print')
    assert page.run('return window.printed === true')
    page.set_media(media='print')
    seen = [page.run('return document.querySelector(arguments[0]).checkVisibility()', css)
            for css in (*PARTS, '.sheet')]
    assert seen == [False, False, False, True]
    assert page.pdf().count(b'/Type /Page\n') == 1


def test_a_mark_that_turns_a_name_round_does_not_act(house: House, visit: Visit) -> None:
    """It is asked about before it is sent, kept as it came, and shown by its code."""
    lot = stage.issue(house)
    page = visit(house, 'anna', f'cancel/{lot.account}/{lot.number(0)}/{lot.number(1)}')
    page.fill('cancel', beneficiary=TURNED, use_first='2024-01-01', use_last='2024-12-31')
    page.click('form.cancel button[type=submit]')
    told = page.text('dialog[open] .doubts')
    assert 'U+202E right-to-left override' in told and 'longer' not in told
    page.click('dialog[open] button.main')
    found = re.search(r'cancellation (\d+)', page.text('form.cancel .result', 'cancellation'))
    assert found
    house.wait_for_book()
    page.go(f'document/{found[1]}', 'article.sheet')
    text = page.see('article.sheet').get_attribute('textContent') or ''
    assert '\u202e' not in text and text.count('Stadtwerke U+202EnedlaW') == 2
    assert 'cannot be seen' in text and text.count('U+202E') == 3
    assert len(page.all('.sheet bdi')) >= 2
    page.look('document-odd')
    assert TURNED in house.ask('anna', 'GET', f'/v1/cancellations/{found[1]}').text


def test_a_document_is_headed_by_the_registrys_own_number(house: House, visit: Visit) -> None:
    number = stage.cancel(house, stage.issue(house), 0, 9)['cancellation']
    house.wait_for_book()
    page = visit(house, 'anna', f'document/000{number}', 'article.sheet')
    assert page.text('article.sheet h1') == f'Document of cancellation 07-{number}-1'
