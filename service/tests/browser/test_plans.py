"""A supplier's table: planned, shown with what is short, sent once as a bundle; documents."""
import io
import zipfile

import pytest
from browser import stage
from browser.chromium import Browser
from browser.conftest import Visit
from house import House

HEAD = 'beneficiary,quantity,use_first,use_last,country\n'
USED = '2024-10-01,2024-12-31'
PLAN = '.plan[data-table]'


def rows_of(count: int, each: int, name: str = 'Kunde') -> str:
    return ''.join(f'{name} {at},{each},{USED},\n' for at in range(1, count + 1))


def choose(page: Browser, account: int, text: str, name: str = 'customers.csv') -> None:
    """Chooses an account and a table; what a former one showed goes."""
    page.see(f'#plan-account option[value="{account}"]')
    page.run('document.getElementById("plan-account").value = arguments[0]', str(account))
    page.choose_file(name, text, '.many .drop input')


def digest(page: Browser) -> str:
    return str(page.see(PLAN).get_attribute('data-table'))


def sent(page: Browser, table: str) -> None:
    """Says yes to the table that stands there, and waits for the answer to this very one."""
    page.click(f'.plan[data-table="{table}"] .buttons button.main')
    page.click('dialog[open] button.main')
    page.see(f'.plan[data-table="{table}"] [data-answered="{table}"]')


def test_a_table_of_customers_to_documents(house: House, visit: Visit) -> None:
    lot = stage.issue(house, count=60)
    house.wait_for_book()
    page = visit(house, 'anna', 'cancel', '.many')
    before = house.entry()
    choose(page, lot.account, HEAD + rows_of(5, 10))
    assert page.text(f'{PLAN} .result', '5 rows, 50 certificates chosen')
    table, told = digest(page), page.cells(f'{PLAN} tbody tr')
    assert [row[1] for row in told] == [f'Kunde {at}' for at in range(1, 6)]
    assert [row[2] for row in told] == ['10'] * 5 and house.entry() == before
    page.look('plan')
    page.click(f'{PLAN} .buttons button.main')
    asked = page.text('dialog[open]', 'all or none')
    assert 'customers.csv' in asked and '50' in asked and 'Sun Power GmbH' in asked
    page.look('plan-sure')
    page.click('dialog[open] button', 'Go back')
    assert house.entry() == before
    sent(page, table)
    assert house.entry() == before + 1
    assert page.text(f'{PLAN}', 'Save all documents as ZIP')
    page.look('plan-done')
    page.click(f'{PLAN} a.button', 'ZIP')
    path = page.downloads / f'documents-{table}.zip'
    page.wait(path.exists)
    with zipfile.ZipFile(io.BytesIO(path.read_bytes())) as archive:
        names = archive.namelist()
        texts = [archive.read(name).decode() for name in names[:5]]
    assert names == [*(f'000{at}-Kunde-{at}.txt' for at in range(1, 6)), 'documents.csv']
    assert all(f'beneficiary Kunde {at}\n' in text for at, text in enumerate(texts, 1))
    assert stage.held(house, lot.account) == 10


def test_a_table_sent_twice_does_nothing_twice(house: House, visit: Visit) -> None:
    lot = stage.issue(house, count=60)
    house.wait_for_book()
    page = visit(house, 'anna', 'cancel', '.many')
    text = HEAD + rows_of(2, 10, 'Zweimal')
    choose(page, lot.account, text)
    table = digest(page)
    sent(page, table)
    before = house.entry()
    page.go('transfer')
    page.go('cancel', '.many')
    choose(page, lot.account, text, 'again.csv')
    assert page.text(f'{PLAN} .result', 'sent already') and digest(page) == table
    assert not page.all(f'{PLAN} .buttons button.main')
    assert [row[0] for row in page.cells(f'{PLAN} tbody tr')] == ['1', '2']
    assert house.entry() == before and stage.held(house, lot.account) == 40


def test_two_windows_send_a_table_once(house: House, visit: Visit) -> None:
    """Both have planned it before either sent. What the first left is planned by neither."""
    lot = stage.issue(house, count=60)
    house.wait_for_book()
    page = visit(house, 'anna', 'cancel', '.many')
    text = HEAD + rows_of(2, 10, 'Fenster')
    choose(page, lot.account, text)
    table = digest(page)
    body = ''.join(
        f'{{"command":"cancel","key":"t.{table}.{row}.1","account":{lot.account},'
        f'"first":"{lot.number(30 + 10 * row)}","last":"{lot.number(39 + 10 * row)}",'
        f'"beneficiary":"Fenster {row}","use_first":"2024-10-01","use_last":"2024-12-31"}}\n'
        for row in (1, 2))
    assert house.ask('anna', 'POST', '/v1/bundles?whole=yes', body).status == 200
    page.click(f'{PLAN} .buttons button.main')
    page.click('dialog[open] button.main')
    page.see(f'{PLAN} [data-answered="{table}"]')
    assert 'KeyReused' in page.text(f'{PLAN} .result', 'Nothing was done')
    assert stage.held(house, lot.account) == 40


def test_what_is_short_stands_first_and_nothing_is_sent(house: House, visit: Visit) -> None:
    lot = stage.issue(house, count=25)
    house.wait_for_book()
    page = visit(house, 'anna', 'cancel', '.many')
    before = house.entry()
    choose(page, lot.account, HEAD + rows_of(3, 10) + f'Fern,1,{USED},FR\nLeer,,{USED},\n')
    assert page.text(f'{PLAN} .result', '3 rows of 5 are at fault')
    told = page.cells(f'{PLAN} tbody tr')
    assert [row[0] for row in told] == ['3', '4', '5']
    assert '5 of 10' in told[0][4] and 'FR' in told[1][4] and 'Quantity' in told[2][4]
    assert not page.all(f'{PLAN} .buttons button.main') and house.entry() == before
    page.look('plan-short')
    page.set_language('de', 'cancel', '.many')
    choose(page, lot.account, 'Kunde;Menge;Farbe\nA;1;rot\n')
    assert 'Die Spalte Farbe ist nicht bekannt.' in page.text(f'{PLAN} .result', 'Nichts lässt')
    choose(page, lot.account, HEAD + rows_of(3, 10))
    page.text(f'{PLAN} .result', '1 Zeile von 3')
    page.look('plan-short-german')


def test_a_table_of_transfers(house: House, visit: Visit) -> None:
    lot = stage.issue(house, count=50)
    one, other = stage.open_account(house, 'VOLT'), stage.open_account(house, 'VOLT')
    house.wait_for_book()
    page = visit(house, 'anna', 'transfer', '.many')
    head = 'account,holder,quantity,device\n'
    choose(page, lot.account, f'{head}{one},SUN,5,\n')
    assert page.text(f'{PLAN}', 'The account is not one of SUN')
    choose(page, lot.account, f'{head}{one},VOLT,5,{lot.device}\n{other},VOLT,7,\n{one},VOLT,3,\n')
    assert page.text(f'{PLAN} .result', '3 rows, 15 certificates chosen')
    table = digest(page)
    page.click(f'{PLAN} .buttons button.main')
    asked = page.text('dialog[open]', f'8 certificates to account {one} VOLT, Volt Handel AG')
    assert f'7 certificates to account {other}' in asked
    page.click('dialog[open] button.main')
    page.see(f'{PLAN} [data-answered="{table}"]')
    assert '15 certificates moved' in page.text(f'{PLAN} .result', 'moved')
    assert [stage.held(house, at) for at in (lot.account, one, other)] == [35, 8, 7]


@pytest.mark.thorough
def test_three_hundred_customers(house: House, visit: Visit) -> None:
    lot = stage.issue(house, count=3000, capacity_w=2_000_000_000)
    house.wait_for_book()
    page = visit(house, 'anna', 'cancel', '.many')
    choose(page, lot.account, HEAD + rows_of(300, 7, 'Groß'))
    assert page.text(f'{PLAN} .result', '300 rows, 2,100 certificates chosen')
    table = digest(page)
    sent(page, table)
    page.see(f'{PLAN} a.button')
    answer = house.ask('anna', 'GET', f'/records/v1/papers?table={table}')
    with zipfile.ZipFile(io.BytesIO(answer.body)) as archive:
        assert len(archive.namelist()) == 301
    assert stage.held(house, lot.account) == 900
