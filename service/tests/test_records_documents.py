"""Documents, codes, choices, pages and files of the records, by their modules."""
import csv
import io
from pathlib import Path
from typing import Any

import pytest
from goo_service.records.certificates import choose_runs
from goo_service.records.documents import check_code
from goo_service.records.documents import is_code
from goo_service.records.files import csv_of
from goo_service.rules.commands import ISSUER
from hypothesis import given
from hypothesis import settings
from hypothesis import strategies
from made_book import DEVICE
from made_book import Made
from made_book import page_parameter

KEY = b'0' * 64
LETTERS = 'ABCDEFGHIJKLMNOPQRSTUVWXYZ234567'
MANY = 7
"""Acts of a kind, so that pages end within a list, at its end and just behind it."""


@pytest.fixture(scope='module')
def made(tmp_path_factory: pytest.TempPathFactory) -> Made:
    """A country with cancellations of SUN and one of VOLT."""
    begun = Made(Path(tmp_path_factory.mktemp('documents')), '2026-01-15')
    begun.country()
    for at in range(MANY):
        begun.must('SUN', 'cancel', account=1, first=f'{7_000_000_000_091 + 3 * at:014}',
                   last=f'{7_000_000_000_093 + 3 * at:014}', beneficiary=f'Bäckerei {at}',
                   use_first='2025-02-01', use_last='2025-03-31')
    begun.must('SUN', 'transfer', giver=1, taker=2, first='07000000000201', last='07000000000210')
    begun.must('VOLT', 'cancel', account=2, first='07000000000201', last='07000000000201',
               beneficiary='Rathaus', use_first='2025-12-01', use_last='2025-12-31')
    return begun


# -------------------------------------------------------------------- what stands on paper

THIRD = f'''CANCELLATION 4
registry 07
date 2026-01-15
account 1
holder SUN
beneficiary Bäckerei 3
period 2025-02-01 2025-03-31
07000000000100 07000000000100            1 {DEVICE} 2025-01-01 2025-01-28 T010000 F01010100
07000000000101 07000000000102            2 {DEVICE} 2025-06-01 2025-06-28 T010000 F01010100
certificates 3
END
'''
"""By docs/FORMATS.md: the fourth cancellation goes over the end of January's hundred."""


def shown(made: Made, caller: str, path: str, **given: object) -> tuple[int, Any]:
    return made.asked(caller, f'/records/v1/{path}', **given)


def test_a_document_is_the_text_of_the_formats(made: Made) -> None:
    status, of = shown(made, 'SUN', 'cancellations/4')
    assert (status, of['text']) == (200, THIRD)
    facts = {name: of[name] for name in ('number', 'registry', 'account', 'holder', 'name', 'count',
                                         'beneficiary', 'use_first', 'use_last', 'day', 'first',
                                         'last')}
    assert facts == {
        'number': 4, 'registry': 7, 'account': 1, 'holder': 'SUN', 'name': 'Sun', 'count': 3,
        'beneficiary': 'Bäckerei 3', 'use_first': '2025-02-01', 'use_last': '2025-03-31',
        'day': '2026-01-15', 'first': '07000000000100', 'last': '07000000000102'}
    assert [(lot['first'], lot['last'], lot['count'], lot['site']) for lot in of['lots']] == [
        ('07000000000100', '07000000000100', 1, 'North'),
        ('07000000000101', '07000000000102', 2, 'North')]


def test_several_cancellations_are_one_document(made: Made) -> None:
    _, of = shown(made, 'SUN', 'documents', numbers='4,1-2')
    singles = [shown(made, 'SUN', f'cancellations/{number}')[1]['text'] for number in (1, 2, 4)]
    assert of['text'] == ''.join(singles)
    status, found = made.asked(None, '/verify', number='1-2,4', code=of['code'])
    assert (status, found['text'], len(found['items'])) == (200, of['text'], 3)
    for numbers in ('1,4', '1-4', '4', '1-2'):
        assert made.asked(None, '/verify', number=numbers, code=of['code'])[0] == 404


@pytest.mark.parametrize('numbers', ['8', '1,8', '1-8', '9'])
def test_a_document_of_others_is_as_if_it_was_not_there(made: Made, numbers: str) -> None:
    assert shown(made, 'SUN', 'documents', numbers=numbers)[0] == 404
    assert shown(made, 'VOLT', 'documents', numbers='8')[0] == 200


# -------------------------------------------------------------------- codes

def test_a_code_is_sixteen_letters_and_digits() -> None:
    """`openssl dgst -sha256 -hmac ''` of nothing begins with b613679a0814d9ec772f, of which
    coreutils' base32 makes this."""
    code = check_code('', b'')
    assert code == 'WYJW-PGQI-CTM6-Y5ZP'
    assert check_code('x', b'') != code != check_code('', b'x')


@given(strategies.text(max_size=40), strategies.integers(0, 15), strategies.sampled_from(LETTERS))
def test_each_letter_of_a_code_counts(text: str, at: int, letter: str) -> None:
    code = check_code(text, KEY).replace('-', '')
    wrong = code[:at] + letter + code[at + 1:]
    assert is_code(text, KEY, wrong) == (wrong == code)


@given(strategies.text(max_size=40), strategies.integers(0, 15))
def test_no_part_of_a_code_is_one(text: str, length: int) -> None:
    code = check_code(text, KEY).replace('-', '')
    for part in (code[:length], code[:length] + '-' * (16 - length), code + code[:length + 1]):
        assert not is_code(text, KEY, part)
    for spaced in (code.lower(), ' '.join(code), f' {code[:4]}-{code[4:]}\n'):
        assert is_code(text, KEY, spaced)


# -------------------------------------------------------------------- choices

def runs_of(counts: list[int]) -> list[dict[str, Any]]:
    """Runs of so many certificates each, with gaps between."""
    runs, first = [], 1
    for count in counts:
        runs.append({'first': first, 'last': first + count - 1, 'count': count})
        first += count + 1
    return runs


COUNTS = strategies.lists(strategies.integers(1, 50), min_size=1, max_size=12)


@settings(max_examples=300)
@given(COUNTS, strategies.data(), strategies.booleans())
def test_a_choice_adds_up_and_is_within_its_runs(counts: list[int], data: strategies.DataObject,
                                                 fitting: bool) -> None:
    runs = runs_of(counts)
    if fitting:
        runs.sort(key=lambda run: int(run['count']), reverse=True)
    wanted = data.draw(strategies.integers(1, sum(counts)))
    chosen = choose_runs(runs, wanted, fitting)
    numbers = [number for run in chosen for number in range(run['first'], run['last'] + 1)]
    there = {number for run in runs for number in range(run['first'], run['last'] + 1)}
    assert len(numbers) == len(set(numbers)) == wanted
    assert set(numbers) <= there
    assert numbers == sorted(numbers)
    assert [run['count'] for run in chosen] == [run['last'] - run['first'] + 1 for run in chosen]
    most = sorted(counts, reverse=True)
    fewest = next(at for at in range(1, len(most) + 1) if sum(most[:at]) >= wanted)
    if fitting:
        assert len(chosen) == fewest
    else:
        assert [run['first'] for run in chosen] == [run['first'] for run in runs[:len(chosen)]]


# -------------------------------------------------------------------- pages and files

@pytest.mark.parametrize('limit', [1, 2, 3, MANY - 1, MANY, MANY + 1, 1000])
@pytest.mark.parametrize(('name', 'given'), [
    ('acts', {'kind': 'cancellation'}), ('cancellations', {}), ('holdings', {'by': 'run'}),
    ('accounts', {}), ('declarations', {}), ('statistics', {'by': 'production'})])
def test_no_row_is_lost_between_two_pages(made: Made, name: str, given: dict[str, str],
                                          limit: int) -> None:
    found: list[Any] = []
    more: dict[str, object] = {}
    while True:
        status, page = shown(made, ISSUER, name, limit=limit, **given, **more)
        assert status == 200 and len(page['items']) <= limit
        found += page['items']
        if page['next'] is None:
            break
        more = {page_parameter(name): page['next']}
    whole = shown(made, ISSUER, name, limit=1000, **given)[1]['items']
    assert found == whole
    if name in ('acts', 'cancellations'):
        assert sorted(item['number'] for item in found) == list(range(1, MANY + 2))


TEXTS = strategies.text(strategies.characters(blacklist_categories=['Cs']), max_size=20)


@given(strategies.lists(strategies.tuples(TEXTS, strategies.integers(0, 10 ** 14 - 1)), max_size=8))
def test_a_file_reads_back_and_no_cell_is_a_formula(rows: list[tuple[str, int]]) -> None:
    items = [{'note': note, 'first': first, 'count': 1} for note, first in rows]
    text = b''.join(csv_of(('note', 'first', 'count'), items)).decode()
    head, *cells = csv.reader(io.StringIO(text, newline=''))
    assert head == ['note', 'first', 'count']
    for (note, first), cell in zip(rows, cells, strict=True):
        is_formula = note.startswith(('=', '+', '-', '@', '\t', '\r'))
        assert cell == [f"'{note}" if is_formula else note, f'{first:014}', '1']
