"""The issuing body's forms: holders, accounts, devices, registries, and what they ask about."""
import pytest
from browser import stage
from browser.conftest import Visit
from house import House
from mutations import gsrn
from selenium.webdriver.common.keys import Keys

REFUSALS = """NotAllowed KeyReused UnknownHolder HolderExists UnknownAccount AccountClosed
AccountNotEmpty DeviceExists UnknownDevice BeforeCommissioning PeriodOrder PeriodSpan
AuxExceedsGross OverCapacity NumbersExhausted UnknownNumber NotHeld TradeClosed SameAccount
DateBackwards UnknownPeer PeerExists WrongRegistry NoticeConflict NumberTaken LotDiffers Stale
FuturePeriod UsePeriod TooManyParts UnknownDeclaration OverCorrected WrongCount
OtherDevice""".split()
"""By code from 1 on (docs/REGISTRY.md)."""
LONG = 'Stadtwerke für Grünstrom und Wärme der Städte Lübeck und Tübingen GmbH'
UNSEEN = [('Sun\u200bPower', 'U+200B zero width space'), ('\u3164\u3164', 'U+3164 Hangul filler'),
          ('Sun\u2028Power', 'U+2028 line separator'), ('Sun\u00a0Power', 'U+00A0 no-break space')]
DEVICE = {'country': 'de', 'tech': 'T010000', 'source': 'F01040100', 'capacity_w': '2000000',
          'commissioned': '2020-06-15', 'support': 'none'}
COLUMNS = ('device,account,site,country,tech,source,capacity_w,commissioned,support,carrier')


def code_of(house: House) -> str:
    """A holder's code that nobody has."""
    house.keys += 1
    return f'NEW-{house.keys}'


def test_every_refusal_has_its_name_and_one_sentence(house: House, visit: Visit) -> None:
    told = visit(house, 'office').script(
        "const {REFUSALS} = await import('/words.js');"
        'return Object.entries(REFUSALS).map(([c, [n, s]]) => [Number(c), n, s])')
    assert [(code, name) for code, name, _ in told] == list(enumerate(REFUSALS, 1))
    assert all(sentence.endswith('.') for *_, sentence in told)


def test_a_holder_and_his_account_are_opened(house: House, visit: Visit) -> None:
    holder, page = code_of(house), visit(house, 'office', 'register')
    assert 'can’t be changed later' in page.text('form.open_holder .final')
    page.fill('open_holder', holder=holder, name='Sun Power')
    assert 'Accepted' in page.send('open_holder', sure=True)
    page.go('register')
    page.fill('open_account', holder=holder)
    told = page.send('open_account')
    assert 'Account' in told and 'is open' in told
    page.go('register')
    page.fill('open_holder', holder=holder, name='Sun Power')
    told = page.send('open_holder', sure=True)
    assert 'HolderExists (4)' in told and 'already exists' in told


def test_a_registry_is_added(own_house: House, visit: Visit) -> None:
    page = visit(own_house, 'office', 'exchange')
    page.fill('add_peer', peer='9')
    assert 'Accepted' in page.send('add_peer', sure=True)


def test_a_slip_in_a_device_number_is_found_at_its_field(house: House, visit: Visit) -> None:
    page = visit(house, 'office', 'register')
    assert 'can’t be changed or removed' in page.text('form.register_device .final')
    assert page.value('form.register_device [name=carrier]') == 'electricity'
    page.fill('register_device', device='500000000000000013')
    page.type('form.register_device [name=device]', Keys.ENTER)
    assert 'does not fit' in page.text('form.register_device .field.gsrn .hint.wrong')
    assert page.driver.switch_to.active_element.get_attribute('name') == 'device'
    page.look('register')


@pytest.mark.parametrize('carrier', ['electricity', 'hydrogen'])
def test_a_device_is_registered(house: House, visit: Visit, carrier: str) -> None:
    account = stage.open_account(house)
    house.keys += 1
    device, page = gsrn(2 * 10**6 + house.keys), visit(house, 'office', 'register')
    page.fill('register_device', device=device, account=str(account), carrier=carrier,
              site='North field', **DEVICE)
    assert 'Accepted' in page.send('register_device', sure=True)
    page.go('audit', 'table')
    assert page.text('main tbody', device[-4:])
    assert device in house.ask('office', 'GET', '/v1/audit').text


def test_a_long_name_is_not_cut_and_its_bytes_are_counted(house: House, visit: Visit) -> None:
    page = visit(house, 'office', 'register')
    page.fill('open_holder', holder=code_of(house), name=LONG)
    hint = 'form.open_holder .field.name .hint'
    assert page.value('form.open_holder [name=name]') == LONG
    assert page.text(hint).startswith(f'{len(LONG.encode())} bytes')
    page.look()
    before = house.entry()
    page.click('form.open_holder button[type=submit]')
    page.see('form.open_holder .hint.wrong')
    assert house.entry() == before and not page.all('dialog[open]')
    page.fill('open_holder', name='ä' * 32)
    assert page.text(hint, '64 of') == '64 of 64 bytes'
    assert 'Accepted' in page.send('open_holder', sure=True)


@pytest.mark.parametrize('text, told', UNSEEN, ids=[of[1][:6] for of in UNSEEN])
def test_what_cannot_be_seen_in_a_name_is_asked_about(house: House, visit: Visit, text: str,
                                                      told: str) -> None:
    page = visit(house, 'office', 'register')
    page.fill('open_holder', holder='ODD', name=text)
    before = house.entry()
    page.click('form.open_holder button[type=submit]')
    assert told in page.text('dialog[open] .doubts') and house.entry() == before
    assert page.driver.switch_to.active_element.text == 'Go back'
    page.keys(Keys.ENTER)
    page.gone('dialog[open]')
    assert house.entry() == before


def test_a_device_of_the_future_is_asked_about(house: House, visit: Visit) -> None:
    page = visit(house, 'office', 'register')
    page.fill('register_device', device=gsrn(7), account='1', site='Far', country='XX',
              tech='T999999', source='F99999999', capacity_w='1', commissioned='2031-01-01')
    assert page.value('form.register_device [name=country]') == 'XX'
    before = house.entry()
    page.click('form.register_device button[type=submit]')
    told = page.text('dialog[open] .doubts')
    assert [text for text in ('commissioned in the future, on 2031-01-01', 'country XX',
                              'technology T999999', 'energy source F99999999')
            if text not in told] == []
    assert house.entry() == before
    page.look('device-sure')
    page.click('dialog[open] .buttons button:last-child')
    page.gone('dialog[open]')


def test_a_country_is_not_cut_to_two_letters(house: House, visit: Visit) -> None:
    page = visit(house, 'office', 'register')
    page.fill('register_device', country='DEU', account='1')
    assert page.value('form.register_device [name=country]') == 'DEU'
    assert 'Two letters' in page.text('form.register_device .field.country .hint', 'Two')


def row_of(house: House, account: int, country: str = 'DE') -> tuple[str, str]:
    """A device's number and its row of a table."""
    house.keys += 1
    device = gsrn(3 * 10**6 + house.keys)
    rest = f'{country},T010000,F01040100,500000,2021-05-01,none,electricity'
    return device, f'{device},{account},"Dach {house.keys}, Süd",{rest}'


def test_many_devices_are_registered_from_a_table(house: House, visit: Visit) -> None:
    """Nothing is sent while a row is at fault."""
    account = stage.open_account(house)
    page, box = visit(house, 'office', 'register'), 'form.register_device ~ .drop input'
    faulty = [row_of(house, account), row_of(house, account, 'DEU')]
    before = house.entry()
    page.choose_file('faults.csv', '\n'.join([COLUMNS, *(row for _, row in faulty), '']), box)
    assert '1 row is at fault' in page.text('main .result.bad')
    assert page.cells()[0][1:] == ['country', 'Two letters.']
    rows = [row_of(house, account) for _ in range(12)]
    page.choose_file('devices.csv', '\n'.join([COLUMNS, *(row for _, row in rows), '']), box)
    page.click('main .buttons button', 'Register 12 devices')
    page.see('dialog[open]')
    assert house.entry() == before
    page.look('devices-csv')
    page.click('dialog[open] button.main')
    page.see('main .result', '12 devices registered')
    audit = house.ask('office', 'GET', '/v1/audit').text
    assert [device for device, _ in rows if device not in audit] == []
