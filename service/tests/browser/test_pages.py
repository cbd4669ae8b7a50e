"""All pages, each by itself: what can be read, the widths, and no English in the German ones."""
from collections.abc import Iterator

import pytest
from browser import stage
from browser.chromium import Browser
from browser.conftest import Visit
from browser.german import english_in
from house import House

LISTS = ('devices', 'declarations', 'corrections', 'cancellations', 'withdrawals', 'notices',
         'entered', 'statistics')
OF_HOLDER = {
    'start': 'Start', 'account': 'Ihre Konten',
    'holdings/{account}': 'Bestand', 'holdings/{account}/by=tech': 'Bestand',
    'deadlines': 'Fristen', 'history': 'Verlauf', 'act/{act}': 'Vorgang',
    'document/{number}': 'Entwertungsnachweis 07-', 'account/{account}': 'Konto',
    'look-up/{first}': 'Nachschlagen', 'cancel': 'Entwerten', 'export': 'Exportieren',
    'transfer': 'Übertragen', **{f'lists/{name}': '' for name in LISTS}}
OF_ISSUER = {
    'start': 'Start',
    'audit': 'Prüfung', 'register': 'Eintragen', 'account': 'Konten', 'account/{account}': 'Konto',
    'correct': 'Berichtigen', 'withdraw': 'Zurückziehen', 'exchange': 'Austausch', 'date': 'Datum',
    'lists/holders': 'Inhaber', 'history//outcome=refused': 'Verlauf',
    'lists/entered': 'Von der ausstellenden Stelle eingegeben', 'declare': 'Erzeugung melden'}
"""Each page's address, and its heading in German."""
ALL = [('anna', page, title) for page, title in OF_HOLDER.items()] + [
    ('office', page, title) for page, title in OF_ISSUER.items()]


@pytest.fixture(scope='module')
def place(house: House) -> Iterator[dict[str, str]]:
    """What stands in the addresses: an account with all kinds of certificates, and its acts."""
    world = stage.world(house)
    lines, _ = stage.statement(house, world.account)
    lot = stage.Lot(world.account, lines[0][3], int(lines[0][0]), int(lines[0][2]))
    stage.add_peer(house)
    number = stage.cancel(house, lot, 10, 29, use_first='2023-09-01', use_last='2023-12-31')
    other = stage.issue(house, account=world.account)
    stage.enter(house, 'export', 'SUN', giver=world.account, peer=9, account=5,
                first=other.number(0), last=other.number(4))
    stage.enter(house, 'withdraw', first=lot.number(40), last=lot.number(45),
                reason='meter read twice')
    stage.post_table(house, f'{lot.device},{lot.device},2025-02-01,2025-02-28,9000000000000,0')
    house.wait_for_book()
    act = house.ask('anna', 'GET', '/records/v1/acts?limit=1').json['items'][0]['id']
    yield {'account': str(world.account), 'act': str(act), 'first': lot.number(0),
           'number': str(number['cancellation'])}


def rest(page: Browser, address: str) -> None:
    """A page, once all that it asks for has come."""
    page.go(address)
    page.wait(lambda: page.all('[aria-busy]'), lambda found: not found)


@pytest.mark.thorough
@pytest.mark.parametrize('user, form, title', ALL, ids=[f'{of[0]}-{of[1]}' for of in ALL])
def test_a_page_can_be_read_at_each_width(house: House, place: dict[str, str], visit: Visit,
                                          user: str, form: str, title: str) -> None:
    """In light and in dark, in English and in German."""
    page, name = visit(house, user), form.replace('/', '-')
    for language in ('', '-german'):
        if language:
            page.set_language('de')
        rest(page, form.format(**place))
        page.look(f'page-{name}{language}')


def test_the_switch_turns_the_page_to_german(house: House, place: dict[str, str],
                                             visit: Visit) -> None:
    """With its numbers; and back."""
    page = visit(house, 'anna', 'account', 'table')
    page.click('nav button', 'Deutsch')
    page.see('h1', 'Ihre Konten')
    held = f'{stage.held(house, int(place["account"])):,}'.replace(',', '.')
    assert held in page.text('table') and len(held) > 3
    assert page.run('return document.documentElement.lang') == 'de'
    page.click('nav button', 'English')
    page.see('nav button', 'Deutsch')
    page.see('h1', 'Your accounts')


@pytest.mark.parametrize('user, pages', [('anna', OF_HOLDER), ('office', OF_ISSUER)],
                         ids=['holder', 'issuer'])
def test_each_page_is_german_throughout(house: House, place: dict[str, str], visit: Visit,
                                        user: str, pages: dict[str, str]) -> None:
    page = visit(house, user)
    page.set_language('de')
    for form, title in pages.items():
        rest(page, form.format(**place))
        assert title in page.text('h1', title)
        assert english_in(page) == [], form
    assert page.script("return [...(await import('/language.js')).missing]") == []


def test_forms_of_holders_in_german(house: House, place: dict[str, str], visit: Visit) -> None:
    page = visit(house, 'anna')
    page.set_language('de')
    rest(page, 'transfer')
    page.look('transfer-german')
    rest(page, f'holdings/{place["account"]}')
    page.look('holdings-german')


def test_refusals_slips_and_the_foot_in_german(house: House, place: dict[str, str],
                                               visit: Visit) -> None:
    page = visit(house, 'office')
    page.set_language('de')
    page.go('history//outcome=refused', 'table')
    assert any(row[6] == 'abgelehnt: OverCapacity' and row[8].endswith('von office')
               for row in page.cells())
    foot = 'Für Programme, beschrieben durch OpenAPI: das Register, die Vorgänge'
    assert page.text('footer') == foot
    page.go('declare')
    page.choose_file('slips-de.csv', stage.table_of(
        's1,600000000000000012,2025-01-01,2025-01-31,1.5,0', 's2,5.00E+17,2025-13-01,,1,0',
        's3,500000000000000012,2025-01-01,2025-02-01,1,2'))
    told = page.text('.result.bad')
    assert 'Nichts wurde gesendet: 3 Zeilen von 3 haben Fehler' in told
    assert english_in(page) == []
    page.look('slips-german')
