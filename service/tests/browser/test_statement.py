"""A statement with certificates in every place: shown, saved, printed, and read out."""
import csv
import io
from collections.abc import Iterator

import pytest
from browser import stage
from browser.chromium import Browser
from browser.chromium import NARROW
from browser.chromium import WIDE
from browser.conftest import Visit
from house import House
from service_commands import command

DAY = '2026-04-01'
RUN = 'first last count device first_day last_day tech source place act'.split()
AUDIT = 'device declared corrected_wh issued corrected carry'.split()
ACCOUNT = ['account', 'holder', 'status', *stage.PLACES]


def make_places(house: House) -> None:
    """A year later certificates of SUN's account 1 are in every place; account 3 is closed."""
    lot = stage.issue(house, count=1000)
    other, empty = (stage.open_account(house, 'VOLT') for _ in range(2))
    stage.add_peer(house)
    stage.issue(house, account=lot.account, carrier='hydrogen', first_day='2024-12-01',
                last_day='2024-12-31')
    stage.issue(house, account=lot.account, first_day='2024-09-01', last_day='2024-09-30')
    stage.enter(house, 'transfer', 'SUN', giver=lot.account, taker=other, first=lot.number(0),
                last=lot.number(299))
    stage.cancel(house, lot, 300, 309)
    stage.cancel(house, lot, 400, 499)
    stage.enter(house, 'export', 'SUN', giver=lot.account, peer=9, account=5,
                first=lot.number(600), last=lot.number(699))
    for at in (700, 800):
        stage.enter(house, 'withdraw', first=lot.number(at), last=lot.number(at + 9),
                    reason='meter read twice')
    stage.enter(house, 'close_account', account=empty)
    stage.enter(house, 'advance', day=DAY)


@pytest.fixture(scope='module')
def house() -> Iterator[House]:
    with House() as standing:
        make_places(standing)
        standing.wait_for_book()
        yield standing


def test_every_place_is_in_the_statement(house: House, visit: Visit) -> None:
    page = visit(house, 'office', 'account/1', 'table')
    _, sums = stage.statement(house, 1)
    told = page.text('ul.sums').split()
    assert all(sums.values()) and [f'{count:,}' in told for count in sums.values()] == [True] * 5
    page.look('statement', dark=True)
    page.look('statement-printed', widths=(794,), printed=True)


def lines_of(text: str) -> list[list[str]]:
    """The lines of a text that begin with a number, in words."""
    return [line.split() for line in text.splitlines() if line[0].isdigit()]


def saved_as(page: Browser, path: str, name: str) -> tuple[str, list[list[str]]]:
    """What a page saves as text, which is the registry's own, and as CSV.

    One after another: two downloads that come late are one more than Chromium allows a page.
    """
    text = page.house.ask(page.user, 'GET', path).text
    page.click('main .buttons button', 'Save as text')
    assert page.saved(f'{name}.txt') == text
    page.click('main .buttons button', 'Save as CSV')
    return text, list(csv.reader(io.StringIO(page.saved(f'{name}.csv'), newline='')))


def test_a_statement_is_saved_as_text_and_csv(house: House, visit: Visit) -> None:
    page = visit(house, 'office', 'account/1', 'table')
    text, cells = saved_as(page, '/v1/accounts/1/statement', f'statement-07-1-{DAY}')
    wanted = [[*words[:-1], *words[-1].partition(':')[::2]] for words in lines_of(text)]
    assert len(wanted) > 5 and cells == [RUN, *wanted]


def test_the_audit_is_saved_as_text_and_csv(house: House, visit: Visit) -> None:
    page = visit(house, 'office', 'audit', 'table')
    text, cells = saved_as(page, '/v1/audit', 'audit')
    assert len(lines_of(text)) == 3 and cells == [AUDIT, *lines_of(text)]


def test_the_holdings_are_saved_as_they_come_of_the_requests(own_house: House,
                                                             visit: Visit) -> None:
    """Run by run with the whole lot: service/goo_service/copies/recount.py has the same."""
    make_places(own_house)
    page = visit(own_house, 'anna', 'account/1', 'table')
    page.click('main .buttons button', 'Save holdings as CSV')
    given = page.saved(f'holdings-07-1-{DAY}.csv')
    page.leave()
    own_house.stop('registry')
    papers = own_house.folder / 'papers'
    own_house.run(*command('goo-copies recount'), own_house.db, '--into', papers)
    paper = (papers / 'holdings-1.csv').read_text(encoding='utf-8')
    assert given.count('\n') > 3 and given == paper


@pytest.mark.parametrize('width', [WIDE, NARROW])
def test_a_statement_is_read_out_as_a_table(house: House, visit: Visit, width: int) -> None:
    """As cards on a telephone too."""
    page = visit(house, 'office', 'account/1', 'table')
    rows = len(page.all('main tr'))
    page.set_size(width)
    page.cdp('Accessibility.enable')
    nodes = page.cdp('Accessibility.getFullAXTree')['nodes']
    roles = [node.get('role', {}).get('value') for node in nodes if not node.get('ignored')]
    count = {role: roles.count(role) for role in (
        'table', 'row', 'columnheader', 'cell', 'navigation', 'main', 'banner')}
    assert count['table'] == count['navigation'] == count['main'] == count['banner'] == 1
    assert count['row'] == rows > 10
    assert count['columnheader'] >= 7 and count['cell'] >= (rows - 1) * 7


# -------------------------------------------------------------------- many runs

RUNS, DEVICES, SHOWN = 480, 40, 400


@pytest.fixture(scope='module')
def many(house: House) -> int:
    """An account of as many runs as devices and days."""
    account = stage.open_account(house, 'SUN')
    devices = [stage.register(house, account, site='Roof') for _ in range(DEVICES)]
    days = [f'2026-02-{day:02}' for day in range(1, 1 + RUNS // DEVICES)]
    rows = [f'{device}-{day},{device},{day},{day},1000000,0' for day in days for device in devices]
    assert all(line.endswith(' accepted') for line in stage.post_table(house, *rows))
    return account


@pytest.mark.thorough
def test_a_long_statement_is_printed_and_saved_whole(house: House, many: int,
                                                     visit: Visit) -> None:
    """It shows the first rows, and says so."""
    page, shown = visit(house, 'office', f'account/{many}', 'table'), 'main tbody tr'
    assert len(page.all(shown)) == SHOWN
    told = page.text('caption')
    assert f'{RUNS} runs of certificates, of which the first {SHOWN} are shown' in told
    assert page.pdf().count(b'/Type /Page\n') > RUNS / 60
    assert len(page.all(shown)) == RUNS
    assert page.text('caption') == f'{RUNS} runs of certificates'
    page.click('main .buttons button', 'Save as CSV')
    text = page.saved(f'statement-07-{many}-{DAY}.csv')
    assert len(list(csv.reader(io.StringIO(text, newline='')))) == RUNS + 1


def test_a_name_like_a_formula_is_saved_as_text(house: House, visit: Visit) -> None:
    account, name = stage.open_account(house, 'SUN'), '=HYPERLINK("http://x","y")'
    stage.issue(house, account=account, site=name, first_day='2026-02-01', last_day='2026-02-01',
                count=1)
    page = visit(house, 'office', f'account/{account}', 'table')
    page.click('main .buttons button', 'Save holdings as CSV')
    text = page.saved(f'holdings-07-{account}-{DAY}.csv')
    rows = list(csv.DictReader(io.StringIO(text, newline='')))
    assert [row['site'] for row in rows] == [f"'{name}"]
