"""Numbers of documents, and numbers of cancellations as people write them.

A document has one number, however many cancellations it is of: `07-42-170` is of registry 07, of
its cancellation 42, and of those that follow it for the same use, 170 in all. A use is an account,
a beneficiary and a period. Which cancellations these are follows from the log alone. So the number
means the same after a restore, on another host, and in a book that is made anew; later
cancellations for the same use change nothing of it.

Cancellations that are no such row have a document too: its number is the list of theirs.
"""
import re
import sqlite3
import unicodedata
from collections.abc import Sequence
from dataclasses import dataclass

from goo_service.records.questions import BadQuestion
from goo_service.records.questions import NotFound

MOST = 1000
"""Cancellations that a list may name."""
MOST_OF_ONE = 5000
"""Cancellations that one number may stand for."""
LONGEST = 6000
"""Letters of numbers as they are given: a list of the most numbers fits."""
DASHES = re.compile('[\u2010-\u2015\u2212\u00ad]')
WORDS = ((re.compile(r'\b(?:document|dokument|nachweis|nos?|nrn?)\b\.?|[#№]'), ' '),
         (re.compile(r'\b(?:to|through|bis)\b'), '-'), (re.compile(r'\b(?:and|und)\b|[&;+]'), ','))
"""Words around numbers, in both languages of the page, and what stands for them."""
DOCUMENT = re.compile(r'([0-9]{1,2})-([0-9]{1,9})-([0-9]{1,4})')
SPAN = re.compile(r'([0-9]{1,9})(?:-([0-9]{1,9}))?')
LIKE = 'numbers as 07-42-170, 7 or 1-3,7'
FOLLOWING = '''
    SELECT other.number FROM cancellation AS one JOIN cancellation AS other
    ON other.account = one.account AND other.number >= one.number
    AND other.beneficiary = one.beneficiary AND other.use_first = one.use_first
    AND other.use_last = one.use_last
    WHERE one.number = ? ORDER BY other.number LIMIT ?'''


@dataclass(frozen=True)
class DocumentNumber:
    """A document by its registry, its first cancellation, and how many it is of."""

    registry: int
    first: int
    count: int

    def __str__(self) -> str:
        return f'{self.registry:02}-{self.first}-{self.count}'


def plain(text: str) -> str:
    """Numbers as a person wrote them, with commas and hyphens alone between them: of `1 bis 3 und
    7` it is `1-3,7`."""
    plain_text = DASHES.sub('-', unicodedata.normalize('NFKC', text).lower())
    for word, mark in WORDS:
        plain_text = word.sub(mark, plain_text)
    joined = re.sub(r'\s*-\s*', '-', plain_text.strip(' ,\t\r\n'))
    return re.sub(r'[\s,]+', ',', joined)


def read_numbers(text: str, name: str) -> DocumentNumber | list[int]:
    """What was given: the number of a document, or those of cancellations in rising order."""
    if len(text) > LONGEST:
        raise BadQuestion(f'{name} has {len(text):,} letters, and not up to {LONGEST:,}')
    given = plain(text)
    if of := DOCUMENT.fullmatch(given):
        number = DocumentNumber(*map(int, of.groups()))
        if not 1 <= number.count <= MOST_OF_ONE:
            raise BadQuestion(f'{name} is {text!r}: a document is of 1 to {MOST_OF_ONE:,}')
        return number
    return read_list(given, text, name)


def read_list(given: str, text: str, name: str) -> list[int]:
    """The numbers of a list of numbers and spans."""
    numbers: set[int] = set()
    count = 0
    for part in given.split(','):
        span = SPAN.fullmatch(part)
        if not span:
            raise BadQuestion(f'{name} is {text!r}, and not {LIKE}')
        first, last = int(span[1]), int(span[2] or span[1])
        count += last - first + 1
        if last < first or count > MOST:
            raise BadQuestion(f'{name} is {text!r}, and not up to {MOST:,} numbers, each span '
                              'rising')
        numbers.update(range(first, last + 1))
    return sorted(numbers)


def following(database: sqlite3.Connection, first: int, count: int) -> list[int]:
    """A cancellation and those that follow it for the same use, so many in all; fewer where there
    are no more."""
    return [number for number, in database.execute(FOLLOWING, (first, count))]


def cancellations_of(database: sqlite3.Connection,
                     given: DocumentNumber | list[int]) -> list[int]:
    """The cancellations that a document is of."""
    if isinstance(given, list):
        return given
    own, = database.execute('SELECT code FROM meta').fetchone()
    found = following(database, given.first, given.count)
    if given.registry != own or len(found) < given.count:
        raise NotFound(f'no document {given}')
    return found


def number_of_document(database: sqlite3.Connection, numbers: Sequence[int]) -> str:
    """The number of the document of these cancellations."""
    if following(database, numbers[0], len(numbers)) == list(numbers):
        own, = database.execute('SELECT code FROM meta').fetchone()
        return str(DocumentNumber(own, numbers[0], len(numbers)))
    return render_list(numbers)


def render_list(numbers: Sequence[int]) -> str:
    """Numbers in rising order as a list: `1-3,7`."""
    spans: list[list[int]] = []
    for number in numbers:
        if spans and number == spans[-1][1] + 1:
            spans[-1][1] = number
        else:
            spans.append([number, number])
    return ','.join(str(a) if a == b else f'{a}-{b}' for a, b in spans)
