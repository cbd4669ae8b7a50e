"""A registry whose records of acts are not there: the page shows what the registry tells."""
import csv
import io
from collections.abc import Iterator

import pytest
from browser import stage
from browser.conftest import Visit
from house import DAY
from house import House
from selenium.webdriver.common.keys import Keys

ACCOUNT = ['account', 'holder', 'status', *stage.PLACES]


@pytest.fixture(scope='module')
def house() -> Iterator[House]:
    """SUN, VOLT, and -RUNS with a code that a spreadsheet would take for a formula."""
    with House(parts=('registry', 'log', 'nginx')) as standing:
        lot = stage.issue(standing, count=3950, capacity_w=10**7)
        other = stage.open_account(standing, 'VOLT')
        stage.enter(standing, 'close_account', account=other)
        stage.open_holder(standing, '-RUNS', 'Many Runs')
        stage.open_account(standing, '-RUNS')
        stage.cancel(standing, lot, 0, 9)
        yield standing


def test_a_holder_has_the_pages_of_the_registry(house: House, visit: Visit) -> None:
    page = visit(house, 'anna')
    assert page.texts('nav a') == ['Account', 'Look up', 'Transfer', 'Cancel', 'Export']
    assert page.text('footer') == 'For programs, described by OpenAPI: the registry'
    page.type('.ask input', '1', Keys.ENTER)
    assert 'held' in page.text('ul.sums', '3,940')


def test_all_accounts_are_listed_as_their_statements_say(house: House, visit: Visit) -> None:
    page = visit(house, 'office', 'account')
    page.click('main .buttons button', 'List all accounts')
    page.see('table caption', '3 accounts')
    facts = [dict(line.split(' ', 1) for line in house.ask(
        'office', 'GET', f'/v1/accounts/{of}/statement').text.splitlines() if line[0].islower())
        for of in (1, 2, 3)]
    wanted = [[of[name] for name in ACCOUNT] for of in facts]
    rows = [[cell.replace(',', '') for cell in row] for row in page.cells()]
    assert rows[:-1] == wanted and [of[2] for of in wanted] == ['open', 'closed', 'open']
    sums = [str(sum(int(of[name]) for of in facts)) for name in stage.PLACES]
    assert rows[-1] == ['All', '', '', *sums]
    page.look('accounts')
    page.click('main .buttons button', 'Save as CSV')
    text = page.saved(f'accounts-07-{DAY}.csv')
    cells = list(csv.reader(io.StringIO(text, newline='')))
    wanted[2][1] = "'-RUNS"             # a spreadsheet would take it for a formula
    assert cells == [ACCOUNT, *wanted]
    page.click('main tbody a', '2')
    assert 'VOLT' in page.text('dl.head', 'VOLT')
