"""What stands in the page's address or in the browser's memory, and parts that do not come."""
import datetime
import json
import re
from pathlib import Path

import pytest
from browser import stage
from browser.chromium import Browser
from browser.conftest import Visit
from house import House

ODD = ['constructor', '__proto__/1', '%', '%E0%A4%A', 'document/', 'document/toString',
       'account/%22%3E', 'look-up/toString', 'cancel/x/y/z', 'hasOwnProperty/1']
FORGED = ['document/{}%23%20Cancellation%201%20of%20500%20MWh', 'document/{}%3Fx', 'document/%20{}',
          'document/{}%2F..%2F2', 'document/{}/2', 'document/１']
STORED = ['{', 'null', '[]', '"x"', '{"accounts":null}']
DOCS = Path(__file__).resolve().parents[3] / 'docs'
DESCRIPTIONS = [('the registry', 'registry-openapi.yaml', 'openapi-outside.yaml'),
                ('the records of acts', 'records-openapi.yaml', 'records.yaml')]


def at(page: Browser, address: str) -> str:
    """What the page shows at an address, once it has come to rest."""
    page.run("document.getElementById('view').replaceChildren('Loading');"
             'location.hash = arguments[0]', address)
    shown: str = page.wait(lambda: page.text('#view'), lambda text: not re.search(
        'Loading|Looking', text))
    return shown


def test_each_address_ends_in_a_page(house: House, visit: Visit) -> None:
    stage.open_holder(house, 'SUN')
    page = visit(house, 'anna', 'toString')
    assert page.text('h1') == 'Start'
    for address in ODD:
        assert at(page, address)


def test_a_forged_address_is_no_document(house: House, visit: Visit) -> None:
    number = stage.cancel(house, stage.issue(house, count=500), 0, 499)['cancellation']
    house.wait_for_book()
    page = visit(house, 'anna', f'document/{number}', 'article.sheet')
    for form in FORGED:
        told = at(page, form.format(number))
        assert 'No such document' in told and '500' not in told, form
        assert not page.all('.sheet'), form


@pytest.mark.parametrize('stored', STORED)
def test_what_the_browser_keeps_may_be_anything(house: House, visit: Visit, stored: str) -> None:
    stage.open_holder(house, 'SUN')
    page = visit(house, 'anna')
    page.run("localStorage.setItem('goo/seen/SUN', arguments[0]);"
             "localStorage.setItem('goo/unanswered/SUN/x', arguments[0])", stored)
    page.load('cancel', 'form.cancel')


def test_a_part_that_does_not_come_is_told(house: House, visit: Visit) -> None:
    page = visit(house, 'anna')
    page.set_blocked('*/lists.js')
    page.load('', '#view .result')
    assert 'did not come. Load it again' in page.text('#view .result')
    page.errors()                       # of the part that was kept away
    page.set_blocked()


def test_today_is_the_servers(house: House, visit: Visit) -> None:
    page = visit(house, 'anna')
    page.set_clock(None)
    page.load()
    before = datetime.date.today().isoformat()
    seen = page.script("return (await import('/session.js')).today()")
    assert seen in (before, datetime.date.today().isoformat())


@pytest.mark.parametrize('text, name, docs', DESCRIPTIONS, ids=[of[1] for of in DESCRIPTIONS])
def test_the_foot_has_the_descriptions_for_programs(house: House, visit: Visit, text: str,
                                                    name: str, docs: str) -> None:
    stage.open_holder(house, 'SUN')
    page = visit(house, 'anna')
    page.click('footer a', text)
    assert page.saved(name) == (DOCS / docs).read_text(encoding='utf-8')


def test_the_page_asks_two_questions_at_once_at_most(house: House, visit: Visit) -> None:
    """As many as the front door lets a user ask: twelve are answered, and none is asked twice."""
    for _ in range(12):
        stage.open_account(house)
    house.wait_for_book()
    page = visit(house, 'anna')
    counts = page.script("""const {asked} = await import('/records.js');
        const answers = Array.from({length: 12}, (_, i) => asked('acts', {limit: i + 1}));
        return (await Promise.all(answers)).map(({items}) => items.length)""")
    lines = (house.folder / 'front-door.log').read_text().splitlines()
    told = [json.loads(line) for line in lines]
    statuses = [line['status'] for line in told if re.fullmatch(
        r'/records/v1/acts\?limit=([1-9]|1[0-2])', line['route'])]
    assert counts == list(range(1, 13)) and statuses[-12:] == ['200'] * 12


def test_why_the_log_took_nothing_is_told(house: House, visit: Visit) -> None:
    told = visit(house, 'anna').script("""const {reason} = await import('/words.js');
        return [reason(413, 'the table has 30000 rows', 0), reason(429, 'a day', 7201),
                reason(429, 'a crowd', 6)].map(({title, sentence}) => [title, sentence])""")
    assert told == [
        ['Too large', 'The service says: “the table has 30000 rows”. Nothing was done.'],
        ['Too much for one day',
         'The service says: “a day”. The request is kept: send it again in 3 hours.'],
        ['Too many at once', 'Wait a few seconds and send it again.']]
