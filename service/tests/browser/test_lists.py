"""History, an act, a certificate's life and the lists: who sent what, and who may see it."""
import re
from dataclasses import dataclass

import pytest
from browser import stage
from browser.conftest import Visit
from house import House
from selenium.webdriver.common.keys import Keys


@dataclass(frozen=True)
class Dealt:
    """A lot of SUN's of which parts went, and what came of them."""

    lot: stage.Lot
    taker: int
    notice: int
    cancellation: int


@pytest.fixture(scope='module')
def dealt(house: House) -> Dealt:
    """Transfers of 10 and 40, 4 that came back, and one of each other act; one was refused."""
    lot, taker = stage.issue(house), stage.open_account(house, 'VOLT')
    stage.add_peer(house)

    def transfer(giver: int, receiver: int, first: int, last: int, caller: str = 'SUN') -> None:
        stage.enter(house, 'transfer', caller, giver=giver, taker=receiver,
                    first=lot.number(first), last=lot.number(last))
    transfer(lot.account, taker, 10, 19)
    transfer(lot.account, taker, 110, 149)
    transfer(taker, lot.account, 114, 117, 'VOLT')
    cancelled = stage.cancel(house, lot, 200, 219)
    sent = stage.enter(house, 'export', 'SUN', giver=lot.account, peer=9, account=5,
                       first=lot.number(220), last=lot.number(224))
    stage.post(house, 'SUN', command='transfer', giver=lot.account, taker=77,
               first=lot.number(0), last=lot.number(0))
    stage.enter(house, 'withdraw', first=lot.number(290), last=lot.number(295),
                reason='meter read twice')
    house.wait_for_book()
    return Dealt(lot, taker, sent['notice'], cancelled['cancellation'])


def party(account: int, holder: str) -> str:
    return f'{account} {holder} {stage.NAMES[holder]}'


def test_the_history_tells_who_sent_what_to_whom(house: House, dealt: Dealt, visit: Visit) -> None:
    page = visit(house, 'anna', 'history', 'table')
    rows = page.cells()
    assert rows[4][1:5] == ['transfer', '4', party(dealt.taker, 'VOLT'),
                            party(dealt.lot.account, 'SUN')]
    assert dealt.lot.number(114) in rows[4][5].replace(' ', '')
    assert rows[1][6] == 'refused: UnknownAccount' and rows[0][8] == 'meter read twice'
    assert rows[2][7] == f'notice {dealt.notice}'
    assert rows[3][7] == f'cancellation {dealt.cancellation}'
    assert 'Stadtwerke Nordheim' in rows[3][8]
    page.look('history', dark=True)


def test_the_history_is_filtered(house: House, dealt: Dealt, visit: Visit) -> None:
    page = visit(house, 'anna', 'history', 'table')
    page.filter('kind', 'transfer')
    page.cells_when(lambda rows: {row[1] for row in rows} == {'transfer'})
    page.filter('outcome', 'accepted')
    rows = page.cells_when(lambda rows: len(rows) == 3)
    assert [row[2] for row in rows] == ['4', '40', '10']


def test_an_act_by_itself(house: House, dealt: Dealt, visit: Visit) -> None:
    page = visit(house, 'anna', 'history//kind=cancellation', 'table')
    page.click('td a', '20')
    told = page.text('main dl', 'Stadtwerke Nordheim')
    assert '2025-03-01' in told and 'accepted' in told


def test_the_life_of_a_certificate(house: House, dealt: Dealt, visit: Visit) -> None:
    page = visit(house, 'anna', f'look-up/{dealt.lot.number(115)}', 'table')
    assert [row[1] for row in page.cells()] == ['issue', 'transfer', 'transfer']
    page.look('life')


def test_another_holder_sees_his_own_side(house: House, dealt: Dealt, visit: Visit) -> None:
    """The acts that touched him, and no user of the other side."""
    page = visit(house, 'bela', 'history', 'table')
    rows = [row for row in page.cells() if row[1] == 'transfer']
    assert [row[1:3] for row in rows] == [['transfer', count] for count in ('4', '40', '10')]
    assert [row for row in rows if 'anna' in row[8]] == []


def test_the_list_of_cancellations(house: House, dealt: Dealt, visit: Visit) -> None:
    page = visit(house, 'anna', 'lists/cancellations', 'table')
    rows = [row for row in page.cells() if row[0] == str(dealt.cancellation)]
    assert len(rows) == 1 and rows[0][3] == '20' and 'Stadtwerke Nordheim' in rows[0][5]


def test_the_list_of_devices_has_the_sums_of_the_audit(house: House, dealt: Dealt,
                                                       visit: Visit) -> None:
    page = visit(house, 'anna', 'lists/devices', 'table')
    lines = house.ask('office', 'GET', '/v1/audit').text.splitlines()
    audit = {line.split()[0]: line.split() for line in lines}
    sums = {re.findall(r'\d{18}', row[0])[0]: row[6].replace(',', '') for row in page.cells()}
    assert dealt.lot.device in sums
    assert sums == {device: audit[device][3] for device in sums}
    page.look('lists-devices')


def test_the_list_of_notices_and_their_way(house: House, dealt: Dealt, visit: Visit) -> None:
    page = visit(house, 'anna', 'lists/notices', 'table')
    assert page.cells()[-1][2:5] == ['sent', '9', str(dealt.notice)]


def test_statistics_by_month(house: House, dealt: Dealt, visit: Visit) -> None:
    assert visit(house, 'anna', 'lists/statistics', 'table').cells()[0][0] == '2025-03'


def test_what_the_issuing_body_entered_by_user(house: House, dealt: Dealt, visit: Visit) -> None:
    """No act of a holder is among them."""
    page = visit(house, 'office', 'lists/entered', 'table')
    kinds = {row[1] for row in page.cells()}
    assert kinds and kinds <= {'issue', 'device registered', 'account opened', 'holder opened',
                               'withdrawal', 'registry added'}
    page.look('lists-entered')
    acts = house.ask('office', 'GET', '/records/v1/acts?caller=ISSUER&limit=1000').json['items']
    own = sum(act['user'] == 'office' for act in acts)
    page.filter('user', 'nobody', Keys.ENTER)
    page.see('.listed', 'No act fits')
    page.filter('user', Keys.CONTROL, 'a')
    page.filter('user', 'office', Keys.ENTER)
    rows = page.cells_when(lambda rows: bool(len(rows) == min(own, 100)))
    assert all('by office' in row[8] for row in rows)
