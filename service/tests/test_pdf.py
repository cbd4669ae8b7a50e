"""Documents as PDF: what stands there, the bounds of the renderer, and the seal."""
import functools
import re
import subprocess
import threading
from collections import Counter
from collections.abc import Callable
from pathlib import Path
from typing import Any

import pytest
from goo_service.exchange.signature import Key
from goo_service.records import letters
from goo_service.records import pdf
from goo_service.records import pdf_page
from goo_service.records import render
from goo_service.records import seal
from goo_service.records.questions import BadQuestion
from hypothesis import given
from hypothesis import settings
from hypothesis import strategies
from made_book import Made
from service_commands import command
from test_paper import NAMES
from test_paper import begun_at
from test_paper import facts

SUN = {'GOO-Caller': 'SUN'}
WITHOUT_SPACE: dict[int, None] = dict.fromkeys(map(ord, ' \n\r\t\f\xa0'))


def keys_at(etc: Path) -> Key:
    """The keys of documents, made by openssl as goo-setup does."""
    subprocess.run(['openssl', 'genpkey', '-algorithm', 'ed25519', '-out',
                    etc / 'documents.key'], check=True, capture_output=True)
    subprocess.run(['openssl', 'pkey', '-in', etc / 'documents.key', '-pubout', '-out',
                    etc / 'documents.pub'], check=True, capture_output=True)
    return Key(etc / 'documents.key')


@pytest.fixture(scope='module')
def made(tmp_path_factory: pytest.TempPathFactory) -> Made:
    """A document of 40 ranges of two lots, and documents with names of three scripts."""
    begun = begun_at(Path(tmp_path_factory.mktemp('pdf')))
    keys_at(begun.folder / 'etc')
    numbers = [*range(1, 61, 2), *range(301, 321, 2)]
    for number in numbers:
        begun.must('SUN', 'cancel', account=1, first=f'{7_000_000_000_000 + number:014}',
                   last=f'{7_000_000_000_000 + number:014}', beneficiary=NAMES[1],
                   use_first='2025-02-01', use_last='2025-12-31')
    for at, name in enumerate(('A <b>&amp; \\" "B"', 'Rat\u202ehaus', NAMES[2])):
        begun.must('SUN', 'cancel', account=1, first=f'{7_000_000_000_070 + at:014}',
                   last=f'{7_000_000_000_070 + at:014}', beneficiary=name,
                   use_first='2025-02-01', use_last='2025-12-31')
    return begun


@functools.cache
def pdf_of(made: Made, numbers: str, lang: str = 'en') -> bytes:
    """A PDF, made once for all tests: to render one takes long."""
    answer = made.client().get('/records/v1/documents', headers=SUN, query_string={
        'numbers': numbers, 'lang': lang, 'format': 'pdf'})
    assert answer.status_code == 200, answer.get_data()
    assert answer.content_type == 'application/pdf'
    return bytes(answer.get_data())


def paper_of(made: Made, numbers: str, lang: str = 'en') -> Any:
    return made.asked('SUN', '/records/v1/documents', numbers=numbers, lang=lang)[1]['paper']


def pages_of(data: bytes, tmp_path: Path) -> list[str]:
    """The texts of the pages by Debian's pdftotext."""
    (tmp_path / 'made.pdf').write_bytes(data)
    done = subprocess.run(['pdftotext', '-raw', tmp_path / 'made.pdf', '-'], check=True,
                          capture_output=True, text=True)
    return done.stdout.split('\f')[:-1]


def texts_of(of: Any) -> list[str]:
    """Every text of a document, as the records have it."""
    tables = [text for table in of['tables'] for text in (
        table['caption'], *(line for row in table['rows'] for cell in row for line in cell))]
    heads = [column['name'] for table in of['tables'] for column in table['columns']
             if column['kind'] != 'ranges']
    return [of['house'], of['title'], ''.join(of['claim']), *of['notes'], of['foot'], *tables,
            *heads, *(text for fact in of['facts'] for text in (fact['name'], *fact['lines'])),
            *of['check'].values()]


# -------------------------------------------------------------------- what stands there

@pytest.mark.parametrize(('numbers', 'lang'), [('1-40', 'en'), ('1-40', 'de'), ('43', 'en'),
                                               ('41', 'de'), ('40-43', 'en')])
def test_the_text_of_the_pdf_is_what_stands_on_the_document(made: Made, numbers: str, lang: str,
                                                            tmp_path: Path) -> None:
    """Each text is there, and no letter more or less: but for heads that are repeated."""
    of = paper_of(made, numbers, lang)
    pages = pages_of(pdf_of(made, numbers, lang), tmp_path)
    said = ''.join(pages).translate(WITHOUT_SPACE)
    texts = [letters.render(text).translate(WITHOUT_SPACE) for text in texts_of(of)]
    assert [text for text in texts if text not in said] == []
    feet = [f'{of["each_page"]}{of["page"].format(at + 1, len(pages))}'
            for at in range(len(pages))]
    wanted = Counter(''.join([*texts, *feet]).translate(WITHOUT_SPACE))
    heads = Counter(''.join(column['name'] for column in of['tables'][-1]['columns'][:-1])
                    .translate(WITHOUT_SPACE))
    repeated = Counter({letter: count * (len(pages) - 1) for letter, count in heads.items()})
    found = Counter(said)
    assert not wanted - found and not found - wanted - repeated


def test_each_page_has_number_code_and_page(made: Made, tmp_path: Path) -> None:
    of = paper_of(made, '1-40')
    long = {**of, 'tables': [*of['tables'], *[of['tables'][1]] * 6]}
    pages = pages_of(next(pdf.pdfs([long])), tmp_path)
    assert len(pages) > 2
    for at, text in enumerate(pages, 1):
        assert of['number'] in text and of['code'] in text
        assert f'page {at} of {len(pages)}' in text


def test_names_that_deceive_do_not_act(made: Made, tmp_path: Path) -> None:
    of = paper_of(made, '42')
    assert facts(of)['Beneficiary'] == ['Rat\u202ehaus'] and of['notes']
    said = ''.join(pages_of(pdf_of(made, '42'), tmp_path))
    assert '\u202e' not in said and said.replace('\n', '').count('RatU+202Ehaus') == 2


def test_the_qr_code_of_the_pdf_is_the_address(made: Made, tmp_path: Path) -> None:
    (tmp_path / 'made.pdf').write_bytes(pdf_of(made, '1-40'))
    subprocess.run(['pdftoppm', '-r', '150', '-l', '1', '-png', tmp_path / 'made.pdf',
                    tmp_path / 'page'], check=True)
    done = subprocess.run(['zbarimg', '--quiet', '--raw', *tmp_path.glob('page*.png')], check=True,
                          capture_output=True, text=True)
    assert done.stdout.strip() == paper_of(made, '1-40')['address']


MARKUP = ('<b>x</b>', '</style><script>', '"><img src=x>', '</p>', '<!--', "'>", '&lt;b&gt;',
          '{} %s')
HOSTILE = strategies.lists(strategies.sampled_from(MARKUP) | strategies.text(
    strategies.characters(blacklist_categories=['Cs']), max_size=9), max_size=4).map(''.join)


@settings(max_examples=200)
@given(HOSTILE)
def test_no_text_is_markup_or_style(text: str) -> None:
    of = {'language': 'en', 'number': '07-1-1', 'code': 'A', 'house': text, 'title': text,
          'claim': [text, text, text], 'facts': [{'name': text, 'lines': [text]}], 'notes': [text],
          'tables': [{'caption': text, 'columns': [{'name': text, 'kind': ''}],
                      'rows': [[[text]]]}], 'check': {'name': text, 'code': 'A', 'text': text},
          'qr': [], 'foot': text, 'each_page': text, 'page': 'page {} of {}'}
    plain = pdf_page.page({**of, **{name: 'x' for name in ('house', 'title', 'foot', 'each_page')},
                           'claim': ['x'] * 3, 'notes': ['x'], 'facts': [
                               {'name': 'x', 'lines': ['x']}], 'tables': [
                                   {'caption': 'x', 'columns': [{'name': 'x', 'kind': ''}],
                                    'rows': [[['x']]]}], 'check': {'name': 'x', 'code': 'A',
                                                                   'text': 'x'}})
    tags = re.compile(r'<[a-z/!][^>]*>')
    shown = [tag for tag in tags.findall(pdf_page.page(of)) if 'mark' not in tag]
    closed = [tag for tag in shown if tag != '</span>']
    assert closed == [tag for tag in tags.findall(plain) if tag != '</span>']


# -------------------------------------------------------------------- bounds

def test_a_pdf_fetches_nothing(made: Made, monkeypatch: pytest.MonkeyPatch) -> None:
    asked: list[str] = []
    real = render.refuse

    def told(url: str, *words: Any, **more: Any) -> None:
        asked.append(url)
        real(url, *words, **more)

    monkeypatch.setattr(render, 'refuse', told)
    image = '<img src="file:///etc/passwd"><link rel="stylesheet" href="http://192.0.2.1/a.css">'
    monkeypatch.setattr(render, 'page', lambda of: f'<html><body>{image}</body></html>')
    assert render.render({}).startswith(b'%PDF-')
    assert len(asked) == 2
    assert 'src=' not in pdf_page.page(paper_of(made, '1')) and (
        'href=' not in pdf_page.page(paper_of(made, '1')))


def test_a_pdf_that_takes_long_is_ended(made: Made) -> None:
    with pytest.raises(pdf.NotRendered, match='takes longer than 0.01 s'):
        next(pdf.pdfs([paper_of(made, '1')], 0.01))


@pytest.mark.parametrize('words', [
    ('-c', 'import sys; sys.exit(1)'), ('-c', 'import os; os.abort()'),
    ('-c', 'print("no length", end="")'), ('-c', 'import os; os.write(1, b"\\xff" * 4)')])
def test_a_renderer_that_fails_is_told(made: Made, monkeypatch: pytest.MonkeyPatch,
                                       words: tuple[str, ...]) -> None:
    monkeypatch.setattr(pdf, 'WORDS', (pdf.WORDS[0], *words))
    status, answer = made.asked('SUN', '/records/v1/documents', numbers='1', format='pdf')
    assert (status, answer['error']) == (503, 'the PDF could not be made within its bounds')


def test_the_renderer_has_no_more_memory_than_it_may() -> None:
    text = ('from goo_service.records import render; render.set_limits(); '
            'import resource as r; print(r.getrlimit(r.RLIMIT_AS)[1], '
            'r.getrlimit(r.RLIMIT_CPU)[1], r.getrlimit(r.RLIMIT_FSIZE)[1])')
    done = subprocess.run([pdf.WORDS[0], '-c', text], capture_output=True, text=True, check=True,
                          env=pdf.environment('/tmp'))
    assert done.stdout.split() == [str(render.MEMORY), str(render.PROCESSOR), '0']


def test_one_pdf_at_a_time(made: Made, monkeypatch: pytest.MonkeyPatch) -> None:
    """While one is rendered, the next one is answered 503 with Retry-After, and a list is not."""
    begun, may_end = threading.Event(), threading.Event()

    def slow(_: Any) -> Any:
        begun.set()
        assert may_end.wait(60)
        yield b'%PDF-'

    monkeypatch.setattr('goo_service.records.routes.pdfs', slow)
    client: Callable[[], Any] = made.client().application.test_client
    ask = {'numbers': '1', 'format': 'pdf'}
    first: list[int] = []
    thread = threading.Thread(target=lambda: first.append(client().get(
        '/records/v1/documents', headers=SUN, query_string=ask).status_code))
    thread.start()
    assert begun.wait(60)
    second = client().get('/records/v1/documents', headers=SUN, query_string=ask)
    assert (second.status_code, second.headers['Retry-After']) == (503, '10')
    assert client().get('/records/v1/acts', headers=SUN).status_code == 200
    may_end.set()
    thread.join(60)
    assert first == [200]


def test_what_is_too_long_for_a_pdf_is_told_before(made: Made) -> None:
    of = paper_of(made, '1-40')
    long = {**of, 'tables': [{'rows': [[['x'] * (pdf.MOST_ROWS + 1)]]}]}
    with pytest.raises(BadQuestion, match='2,001 rows and ranges, and a PDF up to 2,000'):
        next(pdf.pdfs([long]))
    with pytest.raises(BadQuestion, match='too many for a PDF'):
        next(pdf.pdfs([{**of, 'number': '1,' * 151}]))


def test_without_weasyprint_it_is_told(made: Made, monkeypatch: pytest.MonkeyPatch) -> None:
    monkeypatch.setattr('importlib.util.find_spec', lambda name: None)
    status, answer = made.asked('SUN', '/records/v1/documents', numbers='1', format='pdf')
    assert status == 501 and 'weasyprint' in answer['error']


def test_without_a_key_it_is_told(tmp_path: Path) -> None:
    made = begun_at(tmp_path)
    made.must('SUN', 'cancel', account=1, first='07000000000001', last='07000000000001',
              beneficiary='B', use_first='2025-02-01', use_last='2025-12-31')
    status, answer = made.asked('SUN', '/records/v1/documents', numbers='1', format='pdf')
    assert status == 501 and 'goo-setup' in answer['error']
    assert made.client().get('/verify/key').status_code == 404


def test_others_have_no_pdf(made: Made) -> None:
    assert made.asked('VOLT', '/records/v1/documents', numbers='1', format='pdf')[0] == 404
    assert made.asked('SUN', '/records/v1/acts', format='pdf')[0] == 400
    assert made.asked('SUN', '/records/v1/documents', numbers='1', format='csv')[0] == 400


# -------------------------------------------------------------------- the seal

def check_of(made: Made, data: bytes) -> int:
    """The status of the public check of a PDF, as the page of the check asks it."""
    of = seal.read_seal(data)
    if not of:
        return 0
    return made.asked(None, '/verify', number=of.number, code=of.code, sha256=of.sha256,
                      seal=of.signature)[0]


def test_a_sealed_pdf_is_verified_and_no_other(made: Made) -> None:
    data = pdf_of(made, '1-40')
    of = seal.read_seal(data)
    assert of and (of.number, of.code) == ('07-1-40', paper_of(made, '1-40')['code'])
    assert check_of(made, data) == 200
    at = data.index(b'stream') + 20
    for changed in (data[:at] + b'x' + data[at + 1:], data.replace(b'07-1-40 ', b'07-2-39 '),
                    b'%PDF-' + data, data.replace(b'\n%goo-seal', b'\n\n%goo-seal')):
        assert changed != data and check_of(made, changed) in (0, 404)
    other = pdf_of(made, '41')
    line = data[data.rindex(b'\n%goo-seal'):]
    assert check_of(made, other[:other.rindex(b'\n%goo-seal')] + line) == 404


def test_the_seal_is_checked_by_openssl_alone(made: Made, tmp_path: Path) -> None:
    """By the words of docs/AUDITING.md."""
    (tmp_path / 'document.pdf').write_bytes(pdf_of(made, '1-40'))
    (tmp_path / 'key.pem').write_bytes(made.client().get('/verify/key').get_data())
    page = (Path(__file__).resolve().parents[2] / 'docs/AUDITING.md').read_text(encoding='utf-8')
    block = re.search(r'```console\n(\$ seal=.*?)```', page, re.S)
    assert block
    words = '\n'.join(line[2:] for line in block[1].splitlines() if line[:2] in ('$ ', '> '))
    done = subprocess.run(['bash', '-euc', words], cwd=tmp_path, capture_output=True, text=True,
                          check=False)
    assert 'Signature Verified Successfully' in done.stdout, (done.stdout, done.stderr)
    data = (tmp_path / 'document.pdf').read_bytes()
    (tmp_path / 'document.pdf').write_bytes(data.replace(b'%PDF-1', b'%PDF-2'))
    done = subprocess.run(['bash', '-euc', words], cwd=tmp_path, capture_output=True, text=True,
                          check=False)
    assert 'Verified Successfully' not in done.stdout


@pytest.mark.parametrize('given', [
    {'sha256': 'a' * 64}, {'seal': 'x'}, {'sha256': 'A' * 64, 'seal': 'x'},
    {'sha256': 'a' * 63, 'seal': 'x'}, {'sha256': 'a' * 64, 'seal': 'x' * 101}])
def test_half_a_seal_is_told(made: Made, given: dict[str, str]) -> None:
    assert made.asked(None, '/verify', number='1', code='A', **given)[0] == 400


@settings(max_examples=300)
@given(strategies.binary(max_size=300), strategies.binary(max_size=200))
def test_any_file_is_read_for_its_seal(before: bytes, after: bytes) -> None:
    assert seal.read_seal(before) is None
    assert seal.read_seal(before + b'\n%goo-seal 1 ' + after) is None


def test_a_pdf_without_a_seal_has_none(made: Made) -> None:
    data = pdf_of(made, '41')
    assert seal.read_seal(data[:data.rindex(b'\n%goo-seal')]) is None
    status, found = made.asked(None, '/verify', number='41', code=paper_of(made, '41')['code'])
    assert (status, found['sealed']) == (200, False)


def test_the_command_tells_which_files_are_sealed(made: Made, tmp_path: Path) -> None:
    data, key = pdf_of(made, '41'), made.folder / 'etc/documents.pub'
    good, bad, none = (tmp_path / f'{name}.pdf' for name in ('good', 'bad', 'none'))
    good.write_bytes(data)
    bad.write_bytes(data.replace(b'%PDF-1', b'%PDF-2'))
    none.write_bytes(b'%PDF-1.7\n')

    def run(*files: Path, public: Path = key) -> 'subprocess.CompletedProcess[str]':
        words = [*command('goo-records'), 'verify-document', *map(str, files)]
        return subprocess.run([*words, '--public-key', str(public)], capture_output=True,
                              text=True, check=False)

    code = paper_of(made, '41')['code']
    done = run(good)
    assert (done.returncode, done.stdout) == (
        0, f'{good}: as it was sealed, document 07-41-1, check code {code}\n')
    done = run(good, bad, none)
    assert (done.returncode, done.stderr) == (
        1, f'{bad}: not sealed by this key, or changed since\n{none}: no sealed PDF\n')
    assert run(tmp_path / 'nowhere').returncode == run(good, public=good).returncode == 3
