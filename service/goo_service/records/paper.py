"""What stands on a document: the one source of the page, of paper and of the PDF.

It is data, with the texts in the reader's language: a title, a claim, facts, tables, the check code
and a foot. A column of ranges stands below its row, over its whole width. web/paper.js and
records/pdf_page.py lay it out, and add no text of their own.
"""
import itertools
from collections.abc import Iterable
from collections.abc import Sequence
from dataclasses import dataclass
from dataclasses import field
from urllib.parse import urlencode

from goo_service.common import qr
from goo_service.records.body import Body
from goo_service.records.code_lists import CodeLists
from goo_service.records.letters import special
from goo_service.records.paper_words import CHECKED
from goo_service.records.paper_words import FOOT
from goo_service.records.paper_words import NOTE
from goo_service.records.paper_words import SUPPORT
from goo_service.records.paper_words import TYPED
from goo_service.records.paper_words import Words
from goo_service.records.questions import BadQuestion
from goo_service.records.questions import Given
from goo_service.records.questions import Row

LANGUAGES = ('en', 'de')
LONGEST_ADDRESS = 400
"""Letters of an address that a QR code on paper still shows to a telephone."""
MOST_SHOWN = 48
"""Letters of a list of numbers that stand in a title."""
USE = ('account', 'beneficiary', 'use_first', 'use_last')
LOT = ('device', 'first_day', 'last_day', 'site', 'country', 'tech', 'source', 'carrier',
       'capacity_w', 'commissioned', 'support', 'issued_on', 'origin')
CAPACITIES = ((10**6, 'MW'), (10**3, 'kW'), (1, 'W'))


def language_of(given: Given) -> str:
    """The language that a document is asked for in."""
    language = given.get('lang') or LANGUAGES[0]
    if language not in LANGUAGES:
        raise BadQuestion(f'lang is {language!r}, and not one of {", ".join(LANGUAGES)}')
    return language


@dataclass(frozen=True)
class Writer:
    """Who writes documents in one language: the issuing body, and the words of its codes."""

    language: str
    body: Body = Body()
    lists: CodeLists = field(default_factory=CodeLists)

    @property
    def words(self) -> Words:
        return Words(self.language)

    def render_code(self, name: str, code: str) -> str:
        """A code with its word in front."""
        word = self.lists.word(name, code, self.language)
        return f'{word} {code}' if word else code

    def registry(self, code: int) -> str:
        """A registry, with its issuing body where a list has it."""
        name, two = self.lists.word('body', str(code), self.language), f'{code:02}'
        return self.words('{}, registry {}', name, two) if name else self.words('registry {}', two)

    # ---------------------------------------------------------------- the document

    def paper(self, items: Sequence[Row], number: str, code: str) -> Row:
        """The document of these cancellations."""
        words, own, total = self.words, items[0]['registry'], sum(of['count'] for of in items)
        is_one_use = is_same(items, USE)
        claim = [words('{} MWh', words.count(total)), words(' of energy')]
        if is_one_use:
            first = items[0]
            claim = [claim[0], words(' of energy, used from {} to {} by ', first['use_first'],
                                     first['use_last']), first['beneficiary']]
        lots = join_lots(items)
        address = address_of(self.body.page, number, code) if self.body.site else ''
        tables = [self.summary(lots, total), self.certificates(lots, total)]
        return {
            'language': self.language, 'number': number, 'code': code,
            'house': words('Registry of guarantees of origin {}', f'{own:02}'),
            'title': words('Document of cancellation {}', shorten(number)), 'claim': claim,
            'facts': self.facts(items, total, is_one_use), 'notes': self.notes(items, lots),
            'tables': tables if is_one_use else [self.uses(items), *tables],
            'check': self.check(number, code, address), 'address': address,
            'qr': qr_of(address) if address else [],
            'foot': words(FOOT),
            'each_page': words('Document {}, check code {}', shorten(number), code),
            'page': words('page {} of {}', '{}', '{}')}

    def facts(self, items: Sequence[Row], total: int, is_one_use: bool) -> list[Row]:
        """The facts, each a name with its lines."""
        words, first = self.words, items[0]
        days = sorted({of['day'] for of in items})
        accounts = ', '.join(str(of) for of in dict.fromkeys(of['account'] for of in items))
        body = [*self.body.lines, self.registry(first['registry'])]
        found = [(words('Issuing body'), body),
                 (words('Day of cancellation'), [span(days[0], days[-1])])]
        if is_same(items, ('holder',)):
            found.append((words('Holder'), [f'{first["holder"]} {first["name"]}',
                                            words('account {}', accounts)]))
        if is_one_use:
            found += [(words('Beneficiary'), [first['beneficiary']]),
                      (words('Period of use'), [span(first['use_first'], first['use_last'])])]
        found += [(words('Certificates'), [words('{} of 1 MWh each', words.count(total))])]
        if len(items) > 1:
            ends = span(str(items[0]['number']), str(items[-1]['number']))
            found += [(words('Cancellations'), [words.count(len(items)), ends])]
        return [{'name': name, 'lines': lines} for name, lines in found]

    def notes(self, items: Sequence[Row], lots: Sequence['Lot']) -> list[str]:
        """What a reader has to know of the letters of the names."""
        names = (*(text for of in items for text in (of['beneficiary'], of['name'])),
                 *(lot.of['site'] for lot in lots))
        marks = dict.fromkeys(mark for name in dict.fromkeys(names) for mark in special(name))
        return [self.words(NOTE, ', '.join(marks))] if marks else []

    def check(self, number: str, code: str, address: str) -> Row:
        """The check code, and how anybody uses it."""
        text = TYPED if len(address) > LONGEST_ADDRESS else CHECKED
        page = self.body.page if self.body.site else 'verify.html'
        return {'name': self.words('Check code'), 'code': code,
                'text': self.words(text, page, number)}

    # ---------------------------------------------------------------- tables

    def table(self, caption: str, columns: Sequence[tuple[str, str]],
              rows: Sequence[Sequence[list[str]]]) -> Row:
        heads = [{'name': self.words(name), 'kind': kind} for name, kind in columns]
        return {'caption': self.words(caption), 'columns': heads, 'rows': rows}

    def uses(self, items: Sequence[Row]) -> Row:
        """Cancellations that are not for one and the same use: a row each."""
        rows = [[[str(of['number'])], [of['day']], [of['beneficiary']],
                 [span(of['use_first'], of['use_last'])], [self.words.count(of['count'])]]
                for of in items]
        return self.table('Cancellations of this document', USES, rows)

    def summary(self, lots: Sequence['Lot'], total: int) -> Row:
        """The sums by country, technology and month of production."""
        sums: dict[tuple[str, str, str], int] = {}
        for lot in lots:
            month = span(lot.of['first_day'][:7], lot.of['last_day'][:7])
            key = lot.of['country'], lot.of['tech'], month
            sums[key] = sums.get(key, 0) + lot.count
        count = self.words.count
        rows = [[[self.render_code('country', country)], [self.render_code('tech', tech)], [month],
                 [count(sums[country, tech, month])]] for country, tech, month in sorted(sums)]
        return self.table('By country, technology and month of production', SUMMARY,
                          [*rows, [[self.words('In all')], [], [], [count(total)]]])

    def certificates(self, lots: Sequence['Lot'], total: int) -> Row:
        """A row for each lot, with its ranges below it."""
        end: list[list[str]] = [[] for _ in CERTIFICATES]
        end[0], end[-2] = [self.words('In all')], [self.words.count(total)]
        return self.table('Certificates cancelled', CERTIFICATES, [*map(self.row, lots), end])

    def row(self, lot: 'Lot') -> list[list[str]]:
        words, of = self.words, lot.of
        return [[of['site'], of['device'], self.render_code('country', of['country'])],
                [self.render_code('tech', of['tech']), self.render_code('source', of['source']),
                 words(of['carrier'])],
                [of['first_day'], of['last_day']],
                [power(of['capacity_w'], words), words('since {}', of['commissioned']),
                 words(SUPPORT[of['support']])],
                [of['issued_on'], self.registry(of['origin'])], [words.count(lot.count)],
                [f'{span(f"{first:014}", f"{last:014}")} ({words.count(last - first + 1)})'
                 for first, last in lot.ranges]]


USES = (('Cancellation', ''), ('Day', 'days'), ('Beneficiary', 'wide'), ('Period of use', 'wide'),
        ('Count', 'right'))
SUMMARY = (('Country', 'wide'), ('Technology', 'wide'), ('Month', 'days'), ('MWh', 'right'))
CERTIFICATES = (('Plant', 'wide'), ('Technology and source', 'wide'), ('Produced', 'days'),
                ('Installation', 'wide'), ('Issued', 'wide'), ('MWh', 'right'),
                ('Certificates', 'ranges'))


# -------------------------------------------------------------------- parts

@dataclass(frozen=True)
class Lot:
    """What of one lot was cancelled: the lot's facts, and the ranges of its certificates. Ranges
    between which nothing lies are one."""

    of: Row
    ranges: list[tuple[int, int]]

    @property
    def count(self) -> int:
        return sum(last - first + 1 for first, last in self.ranges)


def join_lots(items: Iterable[Row]) -> list[Lot]:
    """The lots of cancellations, each once, in the order of their first certificates."""
    found: dict[tuple[object, ...], Lot] = {}
    parts = sorted((lot for of in items for lot in of['lots']), key=lambda lot: int(lot['first']))
    for part in parts:
        lot = found.setdefault(tuple(part[name] for name in LOT), Lot(part, []))
        if lot.ranges and lot.ranges[-1][1] + 1 == part['first']:
            lot.ranges[-1] = lot.ranges[-1][0], part['last']
        else:
            lot.ranges.append((part['first'], part['last']))
    return list(found.values())


def is_same(items: Sequence[Row], names: Iterable[str]) -> bool:
    return all(of[name] == items[0][name] for of, name in itertools.product(items, names))


def span(first: str, last: str) -> str:
    """Two ends, or one where they are the same."""
    return first if first == last else f'{first} – {last}'


def power(watts: int, words: Words) -> str:
    """A capacity in the unit that suits it."""
    unit, name = next((unit, name) for unit, name in CAPACITIES if watts % unit == 0)
    return f'{words.count(watts // unit)} {name}'


def shorten(number: str) -> str:
    """The number of a document; of a long list its beginning."""
    return number if len(number) <= MOST_SHOWN else f'{number[:MOST_SHOWN].rpartition(",")[0]},…'


def address_of(page: str, number: str, code: str) -> str:
    """The address that checks a document when it is opened."""
    return f'{page}?{urlencode({"number": number, "code": code.replace("-", "")}, safe=",")}'


def qr_of(address: str) -> list[str]:
    """The QR code of an address, row by row, 1 where it is dark; none where it would be too dense
    to be read from paper."""
    if len(address) > LONGEST_ADDRESS:
        return []
    return qr.rows_of(address)
