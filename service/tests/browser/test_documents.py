"""Documents of cancellations: on the screen, on paper, and checked by a stranger."""
import re
import subprocess
from dataclasses import dataclass
from pathlib import Path

import pytest
from browser import stage
from browser.chromium import Browser
from browser.conftest import Visit
from house import BODY
from house import House

RANGES = 170
NAME = 'Żółw Energia Łódź & Αιολική'


@dataclass(frozen=True)
class Document:
    """A document of anna's: its number and its check code."""

    number: str
    code: str
    count: int


@pytest.fixture(scope='module')
def document(house: House) -> Document:
    """Every second certificate of three lots, cancelled one by one for one use."""
    account = stage.open_account(house)
    places = (('DE', 'North field', 'T010000'), ('PL', 'Wieża Łódź', 'T020001'),
              ('GR', 'Ωραία Θέα', 'T020002'))
    lots = [stage.issue(house, count=120, account=account, country=country, site=site, tech=tech)
            for country, site, tech in places]
    numbers = [lot.number(at) for lot in lots for at in range(0, 120, 2)][:RANGES]
    found = [stage.enter(house, 'cancel', 'SUN', account=account, first=number, last=number,
                         beneficiary=NAME, use_first='2024-10-01', use_last='2025-02-28')
             ['cancellation'] for number in numbers]
    house.wait_for_book()
    path = f'/records/v1/documents?numbers={found[0]}-{found[-1]}'
    of = house.ask('anna', 'GET', path).json
    return Document(of['number'], of['code'], len(found))


def open_check(page: Browser, number: str = '', code: str = '', lang: str = 'en') -> None:
    """The page of the public check, by the address of a QR code where a code is given."""
    page.load_path('/verify.html')
    page.run(f"localStorage.setItem('goo/language', '{lang}')")
    page.load_path(f'/verify.html?number={number}&code={code}' if code else '/verify.html')


def test_a_document_has_one_number_and_is_read_at_a_glance(house: House, visit: Visit,
                                                           document: Document) -> None:
    page = visit(house, 'anna', f'document/{document.number}', 'article.sheet')
    said = page.text('article.sheet')
    for text in (document.number, document.code, f'{RANGES} MWh', NAME, BODY, 'Poland PL',
                 'Wieża Łódź', 'Ωραία Θέα', 'Greece GR'):
        assert text in said, text
    rows = page.cells('.sheet table:nth-of-type(1) tbody tr')
    assert [row[3] for row in rows] == ['60', '50', '60', '170']
    page.look('document-many')


def test_a_stranger_checks_by_the_qr_codes_address(house: House, visit: Visit,
                                                   document: Document, tmp_path: Path) -> None:
    page = visit(house, 'anna', f'document/{document.number}', 'article.sheet')
    (tmp_path / 'paper.pdf').write_bytes(page.pdf())
    subprocess.run(['pdftoppm', '-r', '150', '-png', tmp_path / 'paper.pdf', tmp_path / 'page'],
                   check=True)
    first = sorted(tmp_path.glob('page-*.png'))[0]
    read = subprocess.run(['zbarimg', '--quiet', '--raw', first], check=True, capture_output=True,
                          text=True).stdout.strip()
    plain = document.code.replace('-', '')
    assert read == f'{page.origin}/verify.html?number={document.number}&code={plain}'
    stranger = visit(house, '')
    stranger.load_path(read.removeprefix(page.origin), 'article.sheet')
    said = stranger.text('article.sheet', f'{RANGES} MWh')
    assert 'They belong together' in stranger.text('.result.good') and NAME in said
    stranger.look('verify')
    open_check(stranger, document.number, plain, 'de')
    assert 'Sie gehören zusammen' in stranger.text('.result.good')
    assert f'{RANGES} MWh Energie, genutzt von 2024-10-01 bis 2025-02-28 durch {NAME}' in (
        stranger.text('article.sheet'))
    stranger.look('verify-german')


def test_each_printed_page_has_number_code_and_page(house: House, visit: Visit,
                                                    document: Document, tmp_path: Path) -> None:
    page = visit(house, 'anna', f'document/{document.number}', 'article.sheet')
    (tmp_path / 'paper.pdf').write_bytes(page.pdf())
    text = subprocess.run(['pdftotext', '-layout', tmp_path / 'paper.pdf', '-'], check=True,
                          capture_output=True, text=True).stdout
    pages = text.split('\f')[:-1]
    assert len(pages) > 1
    for at, one in enumerate(pages, 1):
        foot = f'Document {document.number}, check code {document.code}'
        assert foot in one and re.search(rf'page {at} of {len(pages)}\n', one), one
    page.go('history', 'table')
    (tmp_path / 'other.pdf').write_bytes(page.pdf())
    other = subprocess.run(['pdftotext', tmp_path / 'other.pdf', '-'], check=True,
                           capture_output=True, text=True).stdout
    assert document.code not in other


def test_a_stranger_types_a_number_and_a_code(house: House, visit: Visit,
                                              document: Document) -> None:
    page = visit(house, '')
    open_check(page)
    page.fill('verify', number=document.number.replace('-', ' – '),
              code=document.code.lower().replace('-', ' '))
    page.click('form.verify button.main')
    assert 'They belong together' in page.text('.result.good')
    page.forget('.result, article.sheet')
    wrong = document.code[:-1] + ('A' if document.code[-1] != 'A' else 'B')
    page.fill('verify', code=wrong)
    page.click('form.verify button.main')
    assert page.text('.result.bad', 'do not belong together') and not page.all('article.sheet')
    page.fill('verify', number='forty-two')
    page.click('form.verify button.main')
    assert page.text('.result.bad', 'Not readable')


def test_a_sealed_pdf_is_saved_and_checked_by_a_stranger(house: House, visit: Visit,
                                                         document: Document) -> None:
    page = visit(house, 'anna', f'document/{document.number}', 'article.sheet')
    page.click('main .buttons button', 'Save as PDF')
    path = page.downloads / f'document-{document.number}.pdf'
    page.wait(path.exists)
    text = subprocess.run(['pdftotext', '-raw', path, '-'], check=True, capture_output=True,
                          text=True).stdout
    assert document.code in text and NAME in text.replace('\n', ' ')
    data = path.read_bytes()
    stranger = visit(house, '')
    for name, sent, kind, told in (
            ('good.pdf', data, 'good', 'as the registry sealed it'),
            ('changed.pdf', data.replace(b'%PDF-1', b'%PDF-2'), 'bad', 'Not as it was sealed'),
            ('other.pdf', b'%PDF-1.7\n', 'bad', 'No sealed PDF')):
        stranger.load_path('/verify.html')
        chosen = path.parent / name
        chosen.write_bytes(sent)
        stranger.see('#file').send_keys(str(chosen))
        assert told in stranger.text(f'.result.{kind}')
    stranger.load_path('/verify.html')
    stranger.look('verify-file')


def test_a_stranger_at_the_front_page_finds_the_check(house: House, visit: Visit) -> None:
    """What a browser shows once its question for a password is left: the answer to the page."""
    answer = house.ask(None, 'GET', '/', Accept='text/html,*/*;q=0.8')
    assert answer.status == 401 and answer.fields['www-authenticate'].startswith('Basic ')
    assert answer.fields['content-type'].startswith('text/html')
    assert 'stranger.js' in answer.text
    program = house.ask(None, 'GET', '/', Accept='*/*')
    assert program.status == 401 and 'signed in' in program.json['error']
    page = visit(house, '')
    page.load_path('/stranger.html')
    page.look('stranger')
    page.click('main a.button', 'Check a cancellation document')
    assert page.see('h1', 'Check a cancellation document')
    page.run("localStorage.setItem('goo/language', 'de')")
    page.load_path('/stranger.html')
    assert page.see('main a.button', 'Einen Entwertungsnachweis prüfen')
