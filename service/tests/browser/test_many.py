"""Whoever has ten thousand lots waits for a few requests and a hundred rows, by no clock.

The log of that registry was written here, and goo_service.rules gave its answers: the
program, which would take minutes, is empty.
"""
import json
import re
from collections.abc import Callable
from collections.abc import Iterator

import pytest
from browser.chromium import Browser
from browser.conftest import Visit
from goo_service.log import entries
from goo_service.log.archive import Archive
from goo_service.rules.registry import Registry
from goo_service.rules.replies import reply
from house import CODE
from house import House
from calls import ISSUER
from mutations import gsrn
from selenium.webdriver.common.keys import Keys

DEVICES, DAYS = 40, 250
LOTS = DEVICES * DAYS
"""Of a megawatt-hour each, every one a run of its own, in account 1 of BIG."""
PAGE, MANY_ROWS, LAYOUTS = 100, 400, 60
"""Rows of a list at once, and of a long table; layouts of one deed, its waiting among them."""
KEY = b'a key of the trial of a page'
HEADER = 'key,device,first_day,last_day,gross_wh,aux_wh\n'
PLANT = {'command': 'register_device', 'account': 1, 'country': 'DE', 'tech': 'T010000',
         'source': 'F01040100', 'capacity_w': 2000000, 'commissioned': '2020-06-15',
         'support': 'none'}


class Written:
    """An archive as a replica has it, of entries that are made here."""

    def __init__(self, archive: Archive, day: str) -> None:
        self.archive, self.model = archive, Registry(CODE, day, 1)
        self.before, self.chain, self.count = '0' * 64, entries.NO_CHAIN, 0

    def request(self, **command: object) -> None:
        answer = {'outcome': 'accepted', 'reply': reply(*self.model.apply(ISSUER, command))}
        body = json.dumps({**command, 'key': f'k{self.count}'})
        self.write('/v1/requests', body, json.dumps(answer))

    def table(self, rows: list[str]) -> None:
        told = ''.join(f'{row} accepted\n' for row in range(1, len(rows) + 1))
        self.write('/v1/declarations', HEADER + ''.join(rows), told)

    def write(self, route: str, body: str, answer: str) -> None:
        self.count += 1
        entry = entries.Entry(
            n=self.count, prev=self.before, time='2025-03-01T09:00:00.000000Z', host='h',
            user='office', address='', role='full', caller=ISSUER, method='POST', route=route,
            version='trial', id=f'{self.count:x}', body=body.encode())
        line = entries.entry_line(entry, KEY)
        outcome = entries.outcome_after(route, 200, answer.encode(), self.chain)
        self.archive.add(line, entry, outcome)
        self.before, self.chain = entries.hash_of(line), outcome.chain


def write_lots(written: Written) -> None:
    written.request(command='open_holder', holder='BIG', name='Viele Läufe')
    written.request(command='open_account', holder='BIG')
    devices = [gsrn(500 + at) for at in range(DEVICES)]
    for at, device in enumerate(devices):
        written.request(**PLANT, device=device, site=f'Roof {at}')
    days = [f'2024-{n // 25 + 3:02}-{n % 25 + 1:02}' for n in range(DAYS)]
    for device in devices:
        written.table([f'{device}-{day},{device},{day},{day},1000000,0\n' for day in days])
    written.archive.sync()


@pytest.fixture(scope='module')
def house() -> Iterator[House]:
    """The records follow the archive that was written here."""
    with House(parts=('registry', 'log', 'nginx')) as standing:
        archive = standing.folder / 'large'
        write_lots(Written(Archive(archive), standing.day))
        records, own = standing.parts['records'], str(standing.state / 'archive')
        words = [str(archive) if word == own else word for word in records.words()]
        records.words = lambda: words
        standing.start('records')
        standing.start('web')
        yield standing


class Costs:
    """What a deed costs the page: requests to the records, layouts, and rows in the end."""

    def __init__(self, page: Browser) -> None:
        self.page, self.log = page, page.house.folder / 'front-door.log'
        page.cdp('Performance.enable')

    def layouts(self) -> int:
        metrics = self.page.cdp('Performance.getMetrics')['metrics']
        return int(next(of['value'] for of in metrics if of['name'] == 'LayoutCount'))

    def asked(self) -> int:
        """Questions to the records that nginx has answered."""
        return len(re.findall('"/records/', self.log.read_text(encoding='utf-8')))

    def of(self, deed: Callable[[], object], requests: int, rows: int = PAGE) -> None:
        asked, laid = self.asked(), self.layouts()
        deed()
        assert self.asked() - asked <= requests
        assert len(self.page.all('tbody tr')) <= rows
        assert self.layouts() - laid <= LAYOUTS


@pytest.fixture
def costs(house: House, visit: Visit) -> Costs:
    """Of the first page of all lots."""
    page = visit(house, 'office')
    found = Costs(page)
    found.of(lambda: page.go('holdings/1', '.summed'), 6)
    assert f'{LOTS:,} certificates in {LOTS:,} lots' in page.text('.summed')
    return found


def test_the_next_page(costs: Costs) -> None:
    page = costs.page

    def turn() -> None:
        page.click('main .buttons button', 'Next page')
        page.see('main .buttons button', 'Page before')
    costs.of(turn, 1)


def test_a_head_sorts(costs: Costs) -> None:
    page = costs.page

    def sort() -> None:
        page.click('th.right button.head', 'Count')
        page.see('th.right button.head', 'Count ↑')
    costs.of(sort, 1)


def test_a_filter(costs: Costs) -> None:
    page = costs.page

    def find() -> None:
        page.filter('q', 'Roof 7', Keys.ENTER)
        page.see('.summed b', f'{DAYS:,} certificates')
    costs.of(find, 2)


def test_all_are_chosen_to_be_withdrawn(costs: Costs) -> None:
    """Ranges that follow one another are one, of up to a hundred lots."""
    page, all_pages = costs.page, -(-LOTS // 1000)

    def choose() -> None:
        page.click('main button', 'Choose all of these')
        page.see('.chosen', f'{LOTS:,} certificates')

    def withdraw() -> None:
        page.click('.chosen button', 'Withdraw')
        page.see('form.bundle')
    costs.of(choose, all_pages)
    costs.of(withdraw, all_pages + 4, MANY_ROWS)
    assert f'{LOTS // 100:,}' in page.text('dl.head', 'Ranges')


def test_a_quantity_of_runs(costs: Costs) -> None:
    page = costs.page
    costs.of(lambda: page.go('holdings/1/by=run', '.summed'), 6)

    def choose() -> None:
        page.type('#quantity', '4,567')
        page.click('.quantity button', 'Choose')
        page.see('.chosen', '4,567 certificates')
    costs.of(choose, 1)


def test_the_history_of_the_account(costs: Costs) -> None:
    costs.of(lambda: costs.page.go('history/1', 'table'), 1)
