"""What stands on a document: beneficiary, sums, lots, the address that checks, in two languages."""
import re
import shutil
import subprocess
from pathlib import Path
from typing import Any

import pytest
from goo_service.records import body
from goo_service.records import code_lists
from goo_service.records import letters
from goo_service.records.body import Body
from goo_service.records.body import read_body
from goo_service.records.code_lists import lists_of
from goo_service.records.code_lists import read_lists
from goo_service.records.paper import Writer
from goo_service.records.paper import join_lots
from goo_service.records.paper_words import GERMAN
from goo_service.rules.commands import ISSUER
from hypothesis import given
from hypothesis import strategies
from made_book import PLANT
from made_book import Made

NAMES = ('Bäckerei Müller & Söhne', 'Zakład Żółw, Łódź', 'Ενέργεια Αθήνα ΑΕ')
SITE = 'https://registry.example'
OWN = Body('Umweltamt Beispiel', 'Wörlitzer Platz 1, 06844 Dessau', SITE)
WIND = '500000000000000029'


def begun_at(folder: Path, own: Body = OWN) -> Made:
    """A country with two devices in two countries, whose issuing body has a name."""
    (folder / 'etc').mkdir(parents=True)
    (folder / 'etc/body.conf').write_text(f'{own.text()}site = {own.site}\n', encoding='utf-8')
    made = Made(folder, '2026-01-15')
    made.country()
    made.must(ISSUER, 'register_device', **{**PLANT, 'device': WIND, 'country': 'PL',
                                            'site': 'Wieża Łódź', 'tech': 'T020001',
                                            'source': 'F01050100', 'capacity_w': 2_500_000})
    made.must(ISSUER, 'declare', device=WIND, first_day='2025-06-01', last_day='2025-06-30',
              gross_wh=50 * 10**6, aux_wh=0)
    return made


@pytest.fixture(scope='module')
def made(tmp_path_factory: pytest.TempPathFactory) -> Made:
    """Cancellations of every second certificate, and of ranges that touch one another."""
    begun = begun_at(Path(tmp_path_factory.mktemp('paper')))
    for first, last, name in ((1, 1, 0), (3, 4, 0), (5, 9, 0), (95, 105, 0), (310, 319, 0),
                              (20, 29, 1), (40, 40, 2)):
        begun.must('SUN', 'cancel', account=1, first=f'{7_000_000_000_000 + first:014}',
                   last=f'{7_000_000_000_000 + last:014}', beneficiary=NAMES[name],
                   use_first='2025-02-01', use_last='2025-12-31')
    return begun


def paper(made: Made, numbers: str, lang: str = 'en') -> Any:
    status, answer = made.asked('SUN', '/records/v1/documents', numbers=numbers, lang=lang)
    assert status == 200, answer
    return answer['paper']


def facts(of: Any) -> dict[str, list[str]]:
    return {fact['name']: fact['lines'] for fact in of['facts']}


# -------------------------------------------------------------------- what stands there

def test_a_document_names_its_beneficiary_and_its_sum(made: Made) -> None:
    of = paper(made, '1-5')
    assert ''.join(of['claim']) == (
        f'29 MWh of energy, used from 2025-02-01 to 2025-12-31 by {NAMES[0]}')
    assert facts(of) == {
        'Issuing body': [OWN.name, OWN.address, 'registry 07'],
        'Day of cancellation': ['2026-01-15'], 'Holder': ['SUN Sun', 'account 1'],
        'Beneficiary': [NAMES[0]], 'Period of use': ['2025-02-01 – 2025-12-31'],
        'Certificates': ['29 of 1 MWh each'], 'Cancellations': ['5', '1 – 5']}
    assert (of['number'], of['title']) == ('07-1-5', 'Document of cancellation 07-1-5')
    assert of['notes'] == []


@pytest.mark.parametrize(('number', 'name'), [('6', NAMES[1]), ('7', NAMES[2])])
def test_names_of_every_script_stand_as_they_are(made: Made, number: str, name: str) -> None:
    for lang in ('en', 'de'):
        of = paper(made, number, lang)
        assert of['claim'][2] == name and [name] in facts(of).values()


def test_a_row_has_the_ranges_of_one_lot(made: Made) -> None:
    """3 to 4 and 5 to 9 are one range; January ends with 100, and the wind begins with 301."""
    of, start = paper(made, '1-5')['tables'][1], '070000000'
    rows = [dict(zip((column['name'] for column in of['columns']), row, strict=True))
            for row in of['rows']]
    assert [row['Certificates'] for row in rows] == [
        [f'{start}00001 (1)', f'{start}00003 – {start}00009 (7)',
         f'{start}00095 – {start}00100 (6)'],
        [f'{start}00101 – {start}00105 (5)'], [f'{start}00310 – {start}00319 (10)'], []]
    assert [row['MWh'] for row in rows] == [['14'], ['5'], ['10'], ['29']]
    assert rows[2] == {
        'Plant': ['Wieża Łódź', WIND, 'Poland PL'], 'Produced': ['2025-06-01', '2025-06-30'],
        'Technology and source': ['Wind, onshore T020001', 'Wind F01050100', 'electricity'],
        'Installation': ['2,500 kW', 'since 2020-01-01', 'no support'],
        'Issued': ['2026-01-15', 'registry 07'], 'MWh': ['10'],
        'Certificates': rows[2]['Certificates']}


def test_the_summary_adds_up_by_country_technology_and_month(made: Made) -> None:
    for lang, words in (('en', ('Germany', 'Solar', 'Poland', 'Wind, onshore', 'In all')),
                        ('de', ('Deutschland', 'Solar', 'Polen', 'Windenergie an Land',
                                'Zusammen'))):
        rows = paper(made, '1-5', lang)['tables'][0]['rows']
        assert rows == [
            [[f'{words[0]} DE'], [f'{words[1]} T010000'], ['2025-01'], ['14']],
            [[f'{words[0]} DE'], [f'{words[1]} T010000'], ['2025-06'], ['5']],
            [[f'{words[2]} PL'], [f'{words[3]} T020001'], ['2025-06'], ['10']],
            [[words[4]], [], [], ['29']]]


def test_different_uses_have_a_row_each_and_no_beneficiary(made: Made) -> None:
    of = paper(made, '5-7')
    assert of['claim'] == ['21 MWh', ' of energy'] and 'Beneficiary' not in facts(of)
    assert [[row[0], row[2], row[4]] for row in of['tables'][0]['rows']] == [
        [['5'], [NAMES[0]], ['10']], [['6'], [NAMES[1]], ['10']], [['7'], [NAMES[2]], ['1']]]
    assert (of['number'], len(of['tables'])) == ('5-7', 3)


def test_in_german(made: Made) -> None:
    of = paper(made, '1-5', 'de')
    assert ''.join(of['claim']) == (
        f'29 MWh Energie, genutzt von 2025-02-01 bis 2025-12-31 durch {NAMES[0]}')
    assert of['title'] == 'Entwertungsnachweis 07-1-5'
    assert [of['each_page'], of['page']] == [
        f'Entwertungsnachweis 07-1-5, Prüfcode {of["code"]}', 'Seite {} von {}']
    assert facts(of)['Ausstellende Stelle'][:2] == [OWN.name, OWN.address]


def test_another_language_is_told(made: Made) -> None:
    status, answer = made.asked('SUN', '/records/v1/documents', numbers='1', lang='fr')
    assert (status, answer['error']) == (400, "lang is 'fr', and not one of en, de")


def test_large_numbers_are_written_as_the_language_has_it() -> None:
    words = [Writer(lang).words.count(1_234_567) for lang in ('en', 'de')]
    assert words == ['1,234,567', '1.234.567']


def test_a_name_that_deceives_is_told() -> None:
    lot: dict[str, object] = {
        'device': '', 'site': '', 'country': '', 'tech': '', 'source': '',
        'first': 1, 'last': 2, 'count': 2, 'first_day': '2025-01-01', 'last_day': '2025-01-31',
        'carrier': 'gas', 'capacity_w': 1500, 'commissioned': '2020-01-01', 'support': 'both',
        'issued_on': '2025-02-01', 'origin': 9}
    of: dict[str, Any] = {
        'number': 3, 'registry': 7, 'day': '2025-04-05', 'account': 1, 'holder': 'SUN',
        'name': 'Sun', 'beneficiary': 'Rat\u202ehaus', 'use_first': '2025-02-01',
        'use_last': '2025-02-28', 'count': 2, 'lots': [lot]}
    assert 'U+202E' in Writer('en').paper([of], '07-3-1', 'A')['notes'][0]
    honest = {**of, 'beneficiary': 'Rathaus'}
    assert Writer('en').paper([honest], '07-3-1', 'A')['notes'] == []


# -------------------------------------------------------------------- the QR code

def read_qr(rows: list[str], tmp_path: Path) -> str:
    """What Debian's zbarimg reads in a QR code."""
    wide = [''.join(letter * 6 for letter in f'0000{row}0000') for row in rows]
    lines = [line for row in wide for line in [row] * 6]
    light = ['0' * len(lines[0])] * 24
    bits = '\n'.join([*light, *lines, *light])
    (tmp_path / 'qr.pbm').write_text(f'P1\n{len(lines[0])} {len(lines) + 48}\n{bits}\n')
    done = subprocess.run(['zbarimg', '--quiet', '--raw', tmp_path / 'qr.pbm'], check=True,
                          capture_output=True, text=True)
    return done.stdout.strip()


@pytest.mark.skipif(not shutil.which('zbarimg'), reason='zbar-tools are not there')
def test_the_qr_code_is_the_address_that_checks(made: Made, tmp_path: Path) -> None:
    of = paper(made, '1-5')
    address = read_qr(of['qr'], tmp_path)
    assert address == of['address'] == (
        f'{SITE}/verify.html?number=07-1-5&code={of["code"].replace("-", "")}')
    query = dict(part.split('=') for part in address.partition('?')[2].split('&'))
    status, found = made.asked(None, '/verify', **query)
    assert (status, found['paper']) == (200, of)


def test_a_code_too_dense_to_be_read_is_none() -> None:
    from goo_service.records.paper import qr_of
    assert qr_of('x' * 400) and qr_of('x' * 401) == []


# -------------------------------------------------------------------- the public check

def test_whoever_checks_sees_what_stands_on_the_document(made: Made) -> None:
    for lang in ('en', 'de'):
        of = paper(made, '1-5', lang)
        status, found = made.asked(None, '/verify', number='07-1-5', code=of['code'], lang=lang)
        assert (status, found['valid'], found['paper']) == (200, True, of)


@pytest.mark.parametrize('at', range(16))
def test_a_wrong_letter_of_the_code_is_refused(made: Made, at: int) -> None:
    code = paper(made, '1-5')['code'].replace('-', '')
    wrong = code[:at] + ('A' if code[at] != 'A' else 'B') + code[at + 1:]
    assert made.asked(None, '/verify', number='07-1-5', code=wrong)[0] == 404


def test_a_code_of_before_is_verified(tmp_path: Path) -> None:
    """A registry that had its key in the book's folder alone, as on each of three hosts."""
    old = begun_at(tmp_path)
    old.must('SUN', 'cancel', account=1, first='07000000000001', last='07000000000001',
             beneficiary='B', use_first='2025-02-01', use_last='2025-12-31')
    before = paper(old, '1')['code']
    (tmp_path / 'etc/code.key').write_text('11' * 32)
    after = paper(old, '1')['code']
    assert before != after
    assert [old.asked(None, '/verify', number='1', code=code)[0]
            for code in (before, after, before[:-1])] == [200, 200, 404]


# -------------------------------------------------------------------- ranges

RANGES = strategies.lists(strategies.tuples(strategies.integers(1, 6), strategies.integers(0, 2),
                                            strategies.integers(0, 1)), min_size=1, max_size=20)


@given(RANGES)
def test_joined_ranges_are_the_same_certificates(parts: list[tuple[int, int, int]]) -> None:
    lots: list[dict[str, Any]] = []
    at = 1
    for count, gap, device in parts:
        at += gap
        lots.append({'first': at, 'last': at + count - 1, 'device': str(device), **{
            name: '' for name in ('first_day', 'last_day', 'site', 'country', 'tech', 'source',
                                  'carrier', 'capacity_w', 'commissioned', 'support', 'issued_on',
                                  'origin')}})
        at += count
    found = join_lots([{'lots': lots}])

    def numbers(device: str, ranges: list[tuple[int, int]]) -> set[tuple[str, int]]:
        return {(device, n) for first, last in ranges for n in range(first, last + 1)}

    wanted = [numbers(lot['device'], [(lot['first'], lot['last'])]) for lot in lots]
    assert set().union(*(numbers(lot.of['device'], lot.ranges) for lot in found)) == (
        set().union(*wanted))
    assert sum(lot.count for lot in found) == sum(count for count, _, _ in parts)
    assert len(found) == len({device for _, _, device in parts})
    for lot in found:
        assert all(a[1] + 1 < b[0] for a, b in zip(lot.ranges, lot.ranges[1:], strict=False))


# -------------------------------------------------------------------- the issuing body, its lists

@pytest.mark.parametrize('text', [
    'no section', '[body]\nname', '[body]\nname = a\x00b\n', f'[body]\nname = {"x" * 201}\n',
    '[body]\nname = a\n[body]\n', '[body]\nsite = http://plain.example\n', '\udc80'])
def test_what_cannot_be_read_of_a_body_is_left_out(tmp_path: Path, text: str) -> None:
    (tmp_path / 'body.conf').write_bytes(text.encode(errors='surrogateescape'))
    (tmp_path / 'host.conf').write_text('server_name goo.example;\n')
    assert read_body(tmp_path) == Body('', '', 'https://goo.example')


def test_a_body_reads_back_as_it_was_written(tmp_path: Path) -> None:
    own = Body('Ämt 100 % #1; "x" = y', 'Straße 1, 12345 Łódź')
    (tmp_path / 'body.conf').write_text(own.text(), encoding='utf-8')
    assert read_body(tmp_path) == own
    assert read_body(tmp_path / 'nowhere') == Body()


@pytest.mark.parametrize(('text', 'good'), [
    ('', True), ('A b', True), ('a\nb', False), ('a\x1b', False), (' a', False), ('a  b', False),
    ('x' * 200, True), ('x' * 201, False), ('a\u202eb', False)])
def test_a_name_is_one_line(text: str, good: bool) -> None:
    assert body.is_name(text) == good


def test_lists_are_read_as_the_page_reads_them() -> None:
    """By the shipped list itself: each code that stands there by a pattern of its own."""
    path = next(path for path in code_lists.SHIPPED if path.is_file())
    text, lists = path.read_text(encoding='utf-8'), lists_of(Path('/nowhere'))
    for code, english, german in re.findall(r"(\w+): \['([^']+)', '([^']+)'\]", text):
        kind = 'tech' if code.startswith('T') else 'source'
        assert (lists.word(kind, code, 'en'), lists.word(kind, code, 'de')) == (english, german)
    countries = re.findall(r"\b([A-Z]{2}): '([^']+)'", text)
    assert len(countries) > 30
    for code, english in countries:
        assert lists.word('country', code, 'en') == english
        assert lists.word('country', code, 'de') != ''


def test_a_list_of_the_body_is_read_in_its_own_form() -> None:
    lists = read_lists(r'''// {a comment: 'x'}
        export const COUNTRIES = { "DE": "Germany", /* AT: 'no' */ AT: 'L\'Autriche', };
        export const TECHNOLOGIES = {T010000: ["Sun", 'S\u00fcd // {no} comment'],};
        const ISSUING_BODIES = {7: 'Amt, Land'};''')
    assert lists.names['country'] == {'DE': ('Germany',), 'AT': ("L'Autriche",)}
    assert lists.word('tech', 'T010000', 'de') == 'Süd // {no} comment'
    assert lists.word('body', '7', 'de') == 'Amt, Land'
    assert lists.word('source', 'F', 'en') == lists.word('country', 'FR', 'de') == ''
    assert Writer('en', lists=lists).registry(7) == 'Amt, Land, registry 07'


@given(strategies.text(max_size=200))
def test_any_list_is_read(text: str) -> None:
    read_lists(text)
    read_lists(f'const COUNTRIES = {{{text}}};')


# -------------------------------------------------------------------- texts and letters

def test_each_text_has_as_many_values_in_german() -> None:
    for english, german in GERMAN.items():
        assert english.count('{}') == german.count('{}') and german


def test_letters_that_deceive_are_those_of_the_page() -> None:
    """By the names that web/dom.js has for them."""
    path = Path(__file__).resolve().parents[2] / 'web/dom.js'
    names = re.search(r'const NAMES = \{(.*?)\n\};', path.read_text(encoding='utf-8'), re.S)
    assert names
    codes = [int(code, 16) for code in re.findall(r"'\\u([0-9a-f]{4})'", names[1])]
    assert len(codes) > 20
    for code in codes:
        assert letters.render(f'a{chr(code)}b') == f'aU+{code:04X}b'
    for plain in ('äöüß', 'Żółw Łódź', 'Ενέργεια', '’–“„', 'a b', '東京', 'е́'):
        assert letters.render(plain) == plain and letters.special(plain) == []
