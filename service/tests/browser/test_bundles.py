"""A selection of many ranges: transferred, cancelled and exported as one bundle."""
import re

from browser import stage
from browser.chromium import Browser
from browser.conftest import Visit
from browser.relay import Relay
from house import House


def begin(house: House, page: Browser, account: int, count: str, order: str, act: str) -> None:
    """A quantity of what an account holds is chosen, and its form is there."""
    page.go(f'holdings/{account}', '.quantity')
    page.choose_quantity(count, 'to cancel' if act == 'Cancel' else 'to transfer', order)
    page.see('.chosen', f'{count} certificates')
    page.click('.chosen button', act)
    page.see('form.bundle')


def counts(house: House, world: stage.World) -> tuple[int, int]:
    """What the two holders hold, by the registry's statements."""
    return stage.held(house, world.account), stage.held(house, world.other)


def made(house: House) -> stage.World:
    """A world with a hole in each lot that can be transferred, as one of its went to VOLT."""
    world = stage.world(house)
    lines, _ = stage.statement(house, world.account)
    for number in [line[0] for line in lines if stage.day_of(line) >= '2024-03-01']:
        gone = f'{int(number) + 100:014}'
        stage.enter(house, 'transfer', 'SUN', giver=world.account, taker=world.other, first=gone,
                    last=gone)
    house.wait_for_book()
    return world


def test_a_quantity_is_transferred(house: House, visit: Visit) -> None:
    """The question tells how many, in how many requests, and both holders."""
    world, page = made(house), visit(house, 'anna')
    own, others = counts(house, world)
    begin(house, page, world.account, '1,000', 'the oldest', 'Transfer')
    page.fill('bundle', taker=str(world.other), taker_holder='VOLT')
    page.look('selection', dark=True)
    page.click('form.bundle button.main', 'Transfer 1,000')
    asked = page.text('dialog[open]', 'can’t be taken back')
    wanted = ('1,000', 'SUN, Sun Power GmbH', 'VOLT, Volt Handel AG')
    assert [text for text in wanted if text not in asked] == []
    page.look('selection-sure')
    page.forget('main .result')
    page.click('dialog[open] button.main')
    page.see('main .result', 'All ')
    assert counts(house, world) == (own - 1000, others + 1000)
    page.look('selection-done')


def test_a_selection_whose_answer_is_lost_is_done_once(house: House, visit: Visit) -> None:
    """The page is loaded anew, the bundle is sent again, and nothing is done twice."""
    world, page = made(house), visit(house, 'anna')
    own, others = counts(house, world)
    page.go(f'holdings/{world.account}/tech=T010000&tradable=1', '.summed')
    page.click('main button', 'Choose all of these')
    told = page.text('.chosen', 'certificates chosen in')
    chosen = int(told.split()[0].replace(',', ''))
    page.click('.chosen button', 'Transfer')
    page.fill('bundle', taker=str(world.other), taker_holder='VOLT')
    page.click('form.bundle button.main', 'Transfer')
    page.forget('main .result')
    with Relay(house, ['unheard']) as relay:
        page.click('dialog[open] button.main')
        assert 'kept' in page.text('main .result.kept', 'No answer')
        page.look('selection-lost')
        page.load('', '.part')
        told = page.text('#unanswered li', f'To account {world.other}')
        count = re.search(r'(\d+) requests, sent as one', told)
        assert count and int(count[1]) > 3
        page.look()
        page.click('#unanswered button', 'Send again')
        page.see('#unanswered .result', f'All {count[1]} requests are accepted')
        assert relay.posts == 2
    assert counts(house, world) == (own - chosen, others + chosen)
    kept = "return Object.keys(localStorage).filter(k => k.includes('bundle'))"
    assert page.run(kept) == []


def test_many_are_exported(house: House, visit: Visit) -> None:
    stage.add_peer(house)
    world, page = made(house), visit(house, 'anna')
    before = stage.held(house, world.apart)
    begin(house, page, world.apart, '600', 'the soonest', 'Export')
    page.fill('bundle', peer='9', account='5')
    page.click('form.bundle button.main', 'Export')
    page.forget('main .result')
    page.click('dialog[open] button.main')
    told = page.text('main .result', 'accepted')
    assert '600 certificates exported' in told and 'Notices ' in told
    assert stage.held(house, world.apart) == before - 600


# -------------------------------------------------------------------- one document of many

def spread(numbers: str) -> list[int]:
    """1-3,7 as single numbers."""
    ends = [span.partition('-') for span in numbers.split(',')]
    return [number for first, _, last in ends
            for number in range(int(first), int(last or first) + 1)]


def texts_of(house: House, numbers: list[int]) -> str:
    """The registry's own documents."""
    return ''.join(house.ask('anna', 'GET', f'/v1/cancellations/{of}').text for of in numbers)


def verdict(house: House, numbers: object, code: str) -> tuple[int, str]:
    """What anybody is told of a document by its numbers and its code."""
    answer = house.ask(None, 'GET', f'/verify?number={numbers}&code={code}')
    return answer.status, answer.json.get('text', '')


def test_many_are_cancelled_with_one_document(house: House, visit: Visit) -> None:
    """It has the facts of each lot and a code that belongs to these cancellations alone."""
    world, page = made(house), visit(house, 'anna')
    before = stage.held(house, world.account)
    begin(house, page, world.account, '1,200', 'the oldest', 'Cancel')
    page.fill('bundle', beneficiary='Stadtwerke Nordheim', use_first='2023-10-01',
              use_last='2024-06-30')
    page.click('form.bundle button.main', 'Cancel')
    page.forget('main .result')
    page.click('dialog[open] button.main')
    assert '1,200 certificates cancelled' in page.text('main .result', 'All ')
    assert stage.held(house, world.account) == before - 1200
    house.wait_for_book()
    page.click('main .result a', 'One document')
    told = page.text('article.sheet', '1,200 MWh')
    given = page.driver.current_url.split('document/')[1].replace('%2C', ',')
    numbers = spread(given)
    texts = texts_of(house, numbers)
    lots = set(re.findall(r'(?m)^\d{14} \d{14} +\d+ (\d{18}) ', texts))
    facts = [(stage.PLANTS[at]['site'], f'{at + 2} MW') for at in range(3)
             if world.devices[at] in lots]
    wanted = ['Solar F01040100', 'Germany DE', 'electricity', 'since 2020-06-15', 'no support',
              'Stadtwerke Nordheim', 'Sun Power GmbH', 'registry 07',
              *(text for fact in facts for text in fact)]
    assert len(numbers) > 1 and len(facts) > 1
    assert [text for text in wanted if text not in told] == []
    page.look('document-many')
    page.look('document-many-printed', widths=(794,), printed=True)
    code = page.text('.sheet .check b')
    assert verdict(house, given, code) == (200, texts)
    assert verdict(house, given, code[::-1])[0] == verdict(house, numbers[0], code)[0] == 404
