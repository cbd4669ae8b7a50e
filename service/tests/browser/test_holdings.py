"""Own accounts, what is held by lot, filters, subtotals, what is chosen, and deadlines.

The tests of this file look and change nothing, so the house has one world for all of them.
"""
import pytest
from browser import stage
from browser.chromium import Browser
from browser.conftest import Visit
from house import House


@pytest.fixture(scope='module')
def world(house: House) -> stage.World:
    made = stage.world(house)
    house.wait_for_book()
    return made


def of_tech(house: House, account: int, tech: str) -> int:
    """How many certificates of a technology an account holds."""
    lines, _ = stage.statement(house, account)
    return stage.total([line for line in lines if line[6] == tech])


def number(text: str) -> int:
    return int(text.replace(',', ''))


def test_a_holder_sees_the_sums_of_his_accounts(house: House, world: stage.World,
                                                visit: Visit) -> None:
    page = visit(house, 'anna', 'account', 'table')
    rows, own = page.cells(), (world.account, world.apart)
    assert [[row[0], *row[3:8]] for row in rows] == [
        [str(of), *(f'{n:,}' for n in stage.statement(house, of)[1].values())] for of in own]
    assert 'Sun Power GmbH' in rows[0][1]
    page.look('accounts-own')


def test_what_expires_or_closes_soon_is_told(house: House, world: stage.World,
                                             visit: Visit) -> None:
    """Each of them is a row, the soonest first."""
    held = [line for of in (world.account, world.apart) for line in stage.statement(house, of)[0]]
    expire = stage.total([line for line in held if stage.day_of(line) == '2023-09-30'])
    close = stage.total([line for line in held if stage.day_of(line) == '2024-03-31'])
    page = visit(house, 'anna', '', 'table')
    assert f'trade closes for {close:,} and {expire:,} expire' in page.text('main .result')
    page.click('main .result a', 'Which')
    page.see('h1', 'Deadlines')
    rows = page.cells_when(bool)
    assert [row[0] for row in rows] == ['2025-03-30'] * 4 + ['2025-03-31'] * 4
    assert sum(number(row[2]) for row in rows) == expire + close
    page.look('deadlines')


def test_the_holdings_have_the_sum_of_the_statement(house: House, world: stage.World,
                                                    visit: Visit) -> None:
    page = visit(house, 'anna', f'holdings/{world.account}', '.summed')
    told = page.text('.summed')
    assert f'{stage.held(house, world.account):,} certificates' in told and 'in 18 lots' in told


def test_a_filter_leaves_its_own_and_stands_in_the_address(house: House, world: stage.World,
                                                           visit: Visit) -> None:
    page = visit(house, 'anna', f'holdings/{world.account}', '.summed')
    page.filter('tech', 'Wind')
    page.see('.summed b', f'{of_tech(house, world.account, "T020001"):,} certificates')
    assert len(page.cells()) == 6 and 'tech=T020001' in page.driver.current_url


def test_a_head_sorts_and_turns_round(house: House, world: stage.World, visit: Visit) -> None:
    page = visit(house, 'anna', f'holdings/{world.account}', '.summed')
    for arrow, turned in (('↑', False), ('↓', True)):
        page.click('th.right button.head', 'Count')
        page.see('th.right button.head', f'Count {arrow}')
        counts = [number(text) for text in page.column('Count')]
        assert counts == sorted(counts, reverse=turned) and len(set(counts)) == 18


def test_subtotals_lead_to_their_lots(house: House, world: stage.World, visit: Visit) -> None:
    page = visit(house, 'anna', f'holdings/{world.account}', '.summed')
    page.filter('by', 'technology')
    rows = page.cells_when(lambda rows: bool(rows) and len(rows[0]) == 3)
    wanted = {tech: of_tech(house, world.account, tech) for tech in
              ('T010000', 'T020001', 'T030000')}
    assert {row[0].split()[-1]: number(row[1]) for row in rows} == wanted
    page.click('td a', 'Solar')
    page.see('.summed b', f"{wanted['T010000']:,} certificates")
    assert len(page.cells_when(lambda rows: len(rows) == 6)) == 6


def chosen(page: Browser, count: int) -> str:
    """The bar of what is chosen, once it has so many."""
    return page.text('.chosen', f'{count:,} certificates').replace('\n', ' ')


def test_chosen_lots_stay_chosen_under_another_filter(house: House, world: stage.World,
                                                      visit: Visit) -> None:
    page = visit(house, 'anna', f'holdings/{world.account}', '.summed')
    boxes, rows = page.all('td.pick input'), page.cells()
    counts = [number(text) for text in page.column('Count')]
    for at in (1, 3, 3, 4):
        boxes[at].click()
    count = counts[1] + counts[4]
    assert f'{count:,} certificates chosen in 2 lots' in chosen(page, count)
    page.filter('tech', 'Wind')
    page.cells_when(lambda rows: len(rows) == 6)
    chosen(page, count)
    page.look('holdings', dark=True)
    wind = [at for at, row in enumerate(rows) if 'Parndorf' in ' '.join(row)]
    assert len(wind) == 6
    page.click('main button', 'Choose all of these')
    chosen(page, sum(counts[at] for at in {1, 4, *wind}))


def test_more_than_there_is_cannot_be_chosen(house: House, world: stage.World,
                                             visit: Visit) -> None:
    """And the page says how many there are."""
    page = visit(house, 'anna', f'holdings/{world.account}', '.quantity')
    page.choose_quantity('999,999', 'to cancel', 'the oldest')
    told = page.text('.quantity .result', '999,999 were asked for')
    assert f'{stage.held(house, world.account):,} certificates' in told
