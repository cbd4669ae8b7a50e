"""Numbers of documents: what they stand for, and how people write them."""
from pathlib import Path
from typing import Any

import pytest
from goo_service.records import numbers
from goo_service.records.numbers import DocumentNumber
from goo_service.records.numbers import render_list
from goo_service.records.numbers import read_numbers
from goo_service.records.questions import BadQuestion
from hypothesis import given
from hypothesis import strategies
from made_book import Made

USES = ((1, 'Bäckerei', '2025-01-01'), (1, 'Bäckerei', '2025-01-01'), (1, 'Żółw', '2025-01-01'),
        (1, 'Bäckerei', '2025-01-01'), (1, 'Bäckerei', '2025-02-01'), (2, 'Bäckerei', '2025-01-01'),
        (1, 'Bäckerei', '2025-01-01'))
"""Account, beneficiary and first day of use of cancellations 1 to 7."""


@pytest.fixture(scope='module')
def made(tmp_path_factory: pytest.TempPathFactory) -> Made:
    begun = Made(Path(tmp_path_factory.mktemp('numbers')), '2026-01-15')
    begun.country()
    begun.must('SUN', 'transfer', giver=1, taker=2, first='07000000000201', last='07000000000210')
    for at, (account, beneficiary, first_day) in enumerate(USES):
        number = f'{7_000_000_000_001 + 2 * at if account == 1 else 7_000_000_000_201:014}'
        begun.must(('SUN', 'VOLT')[account - 1], 'cancel', account=account, first=number,
                   last=number, beneficiary=beneficiary, use_first=first_day, use_last='2025-03-31')
    return begun


def document(made: Made, numbers: str, caller: str = 'SUN') -> Any:
    status, answer = made.asked(caller, '/records/v1/documents', numbers=numbers)
    return answer if status == 200 else status


# -------------------------------------------------------------------- which cancellations

@pytest.mark.parametrize(('given', 'number', 'of'), [
    ('1', '07-1-1', [1]), ('1,2', '07-1-2', [1, 2]), ('1-2,4,7', '07-1-4', [1, 2, 4, 7]),
    ('2,4,7', '07-2-3', [2, 4, 7]), ('1,4', '1,4', [1, 4]), ('1-3', '1-3', [1, 2, 3]),
    ('07-1-4', '07-1-4', [1, 2, 4, 7]), ('7-5-1', '07-5-1', [5])])
def test_a_document_has_one_number(made: Made, given: str, number: str, of: list[int]) -> None:
    answer = document(made, given)
    assert (answer['number'], [item['number'] for item in answer['items']]) == (number, of)
    again = document(made, number)
    assert (again['code'], again['text']) == (answer['code'], answer['text'])


def test_a_number_and_its_list_have_one_code(made: Made) -> None:
    """What was printed with a list of numbers is verified for good."""
    code = document(made, '1-2,4,7')['code']
    for number in ('1-2,4,7', '07-1-4', '7, 4, 1–2', '07 – 1 – 4'):
        status, found = made.asked(None, '/verify', number=number, code=code)
        assert (status, found['number']) == (200, '07-1-4')
    for number in ('07-1-3', '07-1-5', '08-1-4', '07-2-4', '07-4-1'):
        assert made.asked(None, '/verify', number=number, code=code)[0] == 404


@pytest.mark.parametrize('number', ['07-1-5', '08-1-1', '07-8-1', '07-0-1'])
def test_no_document_of_more_than_there_are(made: Made, number: str) -> None:
    assert document(made, number) == 404


def test_later_cancellations_change_no_number(tmp_path: Path) -> None:
    made = Made(tmp_path, '2026-01-15')
    made.country()
    span = {'use_first': '2025-01-01', 'use_last': '2025-03-31', 'beneficiary': 'Żółw'}
    numbers = [f'{7_000_000_000_001 + at:014}' for at in range(3)]
    made.must('SUN', 'cancel', account=1, first=numbers[0], last=numbers[0], **span)
    made.must('SUN', 'cancel', account=1, first=numbers[1], last=numbers[1], **span)
    before = document(made, '07-1-2')
    made.must('SUN', 'cancel', account=1, first=numbers[2], last=numbers[2], **span)
    after = document(made, '07-1-2')
    assert (after['code'], after['text']) == (before['code'], before['text'])


def test_others_do_not_see_a_document_by_its_number(made: Made) -> None:
    assert document(made, '07-1-4', 'VOLT') == document(made, '07-6-1') == 404
    assert document(made, '07-6-1', 'VOLT')['number'] == '07-6-1'


# -------------------------------------------------------------------- as people write them

@pytest.mark.parametrize(('text', 'wanted'), [
    ('7', [7]), (' 7 ', [7]), ('1-3', [1, 2, 3]), ('1–3', [1, 2, 3]), ('1 — 3', [1, 2, 3]),
    ('1 to 3', [1, 2, 3]), ('1 bis 3', [1, 2, 3]), ('1 BIS 3', [1, 2, 3]), ('1‑3', [1, 2, 3]),
    ('1 through 3', [1, 2, 3]), ('1−3', [1, 2, 3]), ('1,3 and 7', [1, 3, 7]),
    ('1, 3 und 7', [1, 3, 7]), ('1 3 7', [1, 3, 7]), ('1;3;7', [1, 3, 7]), ('1, 3,', [1, 3]),
    ('Nr. 7', [7]), ('no. 7', [7]), ('Nos 1 to 3', [1, 2, 3]), ('#7', [7]), ('１-３', [1, 2, 3]),
    ('1 - 3, 7', [1, 2, 3, 7]), ('1-3\u00a0,\u00a07', [1, 2, 3, 7]), ('1\n3', [1, 3]),
    ('07-42-170', DocumentNumber(7, 42, 170)), ('07–42–170', DocumentNumber(7, 42, 170)),
    ('7 - 42 - 170', DocumentNumber(7, 42, 170)), ('Nr. 07-42-170', DocumentNumber(7, 42, 170)),
    ('Document 07-42-170', DocumentNumber(7, 42, 170)), ('07‐42‐1', DocumentNumber(7, 42, 1))])
def test_numbers_as_people_write_them(text: str, wanted: object) -> None:
    assert read_numbers(text, 'number') == wanted


@pytest.mark.parametrize('text', [
    '', ' ', ',', '-', 'x', '1-', '-1', '3-1', '1--3', '1-2-3-4', '1.5', '1/2', '0x1', '1e3',
    '1234567890', '1-1234567890', '1-1001', '1-600,1-600', '07-42-0', '07-42-5001', '07-42-170,1',
    '٣', '1 bis', 'bis 3', 'drop table', '1\0', '1' * 7000])
def test_what_is_no_number_is_told(text: str) -> None:
    with pytest.raises(BadQuestion, match='^number '):
        read_numbers(text, 'number')


NUMBERS = strategies.lists(strategies.integers(0, 400), min_size=1, max_size=60, unique=True)
BETWEEN = strategies.sampled_from(['-', '–', ' to ', ' bis ', ' - '])
AFTER = strategies.sampled_from([',', ', ', ' ', ' und ', ' and ', '; '])


@given(NUMBERS, BETWEEN, AFTER)
def test_a_list_is_read_however_it_is_written(of: list[int], between: str, after: str) -> None:
    text = render_list(sorted(of)).replace('-', between).replace(',', after)
    assert read_numbers(text, 'number') == sorted(of)


@given(strategies.integers(0, 99), strategies.integers(0, 10**9 - 1),
       strategies.integers(1, numbers.MOST_OF_ONE), BETWEEN)
def test_a_number_reads_back(registry: int, first: int, count: int, between: str) -> None:
    number = DocumentNumber(registry, first, count)
    assert read_numbers(str(number).replace('-', between), 'number') == number


@given(strategies.text(max_size=60))
def test_any_text_is_read_or_told(text: str) -> None:
    try:
        found = read_numbers(text, 'number')
    except BadQuestion:
        return
    assert isinstance(found, DocumentNumber) or found == sorted(set(found))
