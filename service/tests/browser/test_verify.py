"""The public check of a document in German, of which test_documents.py has what it says."""
import pytest
from browser import stage
from browser.conftest import Visit
from browser.german import english_in
from house import House


@pytest.fixture(scope='module')
def paper(house: House) -> tuple[str, str]:
    """Numbers and code of one document of two cancellations."""
    lot = stage.issue(house, count=1500, capacity_w=10**7)
    first = stage.cancel(house, lot, 0, 999)['cancellation']
    last = stage.cancel(house, lot, 1000, 1199)['cancellation']
    house.wait_for_book()
    numbers = f'{first}-{last}'
    of = house.ask('anna', 'GET', f'/records/v1/documents?numbers={numbers}').json
    return numbers, str(of['code'])


def test_the_check_in_german(house: House, paper: tuple[str, str], visit: Visit) -> None:
    page = visit(house, '')
    page.load_path('/verify.html', 'form.verify')
    page.run("localStorage.setItem('goo/language', 'de')")
    page.load_path('/verify.html', 'form.verify')
    page.fill('verify', number=paper[0], code=paper[1])
    page.click('form.verify button')
    told = page.text('article.sheet', '1.200 MWh')
    assert 'Sie gehören zusammen' in page.text('.result') and 'Energie, genutzt von' in told
    assert 'Prüfung eines Entwertungsnachweises' in page.text('.top')
    assert page.driver.title.startswith('Eine Entwertung prüfen') and english_in(page) == []
    page.fill('verify', code='AAAA-AAAA-AAAA-AAAA')
    page.click('form.verify button')
    page.see('.result.bad', 'Sie gehören nicht zusammen')
    assert english_in(page) == []
