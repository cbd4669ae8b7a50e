"""A table of transfers or cancellations as a spreadsheet has it: its columns, what each field has
to be, and what is wrong with one."""
import datetime
import re
from collections.abc import Callable
from collections.abc import Iterator
from collections.abc import Mapping
from dataclasses import dataclass
from dataclasses import field

from goo_service.records.plan import FIELDS
from goo_service.records.plan import Fault
from goo_service.records.plan import Span
from goo_service.records.plan import Want

TRANSFER, CANCEL = 'transfer', 'cancel'
COMMANDS = (TRANSFER, CANCEL)
OWN = {TRANSFER: ('account', 'holder'), CANCEL: ('beneficiary', 'use_first', 'use_last')}
"""The columns that a table of each command has to have."""
"""Those that any table may have: one of the first two it has to."""
NAMES = {
    'account': ('konto', 'to account', 'taker'), 'holder': ('inhaber', 'kürzel', 'code'),
    'beneficiary': ('begünstigter', 'begünstigte', 'kunde', 'customer'),
    'use_first': ('verbrauch ab', 'used from', 'von'),
    'use_last': ('verbrauch bis', 'used to', 'bis'),
    'quantity': ('menge', 'anzahl', 'mwh', 'count'), 'ranges': ('nummern', 'bereiche', 'range'),
    'tech': ('technologie', 'technology'), 'source': ('energieträger', 'energy source'),
    'country': ('land',), 'device': ('anlage', 'gsrn'), 'month': ('monat', 'production month'),
    'reference': ('referenz', 'note', 'bemerkung')}
"""Other names of a column, in small letters."""
LONGEST = 64
"""Bytes of a beneficiary, as the registry takes them."""
MOST_WHOLE = 10 ** 12
RANGE = re.compile('([0-9]{14}) ?[-–] ?([0-9]{14})|([0-9]{14})')
SEPARATED = re.compile("[0-9]{1,3}([ .,'’\u00a0\u2009\u202f][0-9]{3})+")
CONTROL = re.compile('[\0-\x1f\x7f-\x9f]')
DAY = re.compile('([0-9]{1,2})[.]([0-9]{1,2})[.]([0-9]{4})')


def column_of(name: str) -> str | None:
    """The column of a name at a table's head."""
    plain = ' '.join(name.strip().casefold().replace('_', ' ').split())
    return next((column for column, others in NAMES.items()
                 if plain == column.replace('_', ' ') or plain in others), None)


# -------------------------------------------------------------------- fields

def whole_of(text: str) -> int:
    plain = re.sub('[^0-9]', '', text) if SEPARATED.fullmatch(text) else text
    if not (plain.isascii() and plain.isdigit()) or not 0 < int(plain[:16]) <= MOST_WHOLE:
        raise ValueError
    return int(plain)


def day_of(text: str) -> str:
    """A day, as 2025-01-31 or 31.01.2025."""
    if found := DAY.fullmatch(text):
        text = f'{found[3]}-{int(found[2]):02}-{int(found[1]):02}'
    if not re.fullmatch('(19|20)[0-9]{2}-[0-9]{2}-[0-9]{2}', text):
        raise ValueError
    return datetime.date.fromisoformat(text).isoformat()


def month_of(text: str) -> str:
    """A month, as 2025-01; a day of it where a spreadsheet made one of it."""
    day = day_of(text if len(text) > 7 else f'{text}-01')
    return day[:7]


def name_of(text: str) -> str:
    if len(text.encode()) > LONGEST or CONTROL.search(text):
        raise ValueError
    return text


def ranges_of(text: str) -> tuple[Span, ...]:
    """Ranges as the lists of the records have them: with blanks, commas or semicolons between."""
    found, rest = [], RANGE.sub('', text)
    if rest.strip(' ,;\n'):
        raise ValueError
    for first, last, alone in RANGE.findall(text):
        found.append((int(first or alone), int(last or alone)))
        if found[-1][1] < found[-1][0] or str(found[-1][0])[:-12] != str(found[-1][1])[:-12]:
            raise ValueError
    return tuple(found)


def pattern_reader(pattern: str) -> Callable[[str], str]:
    """A reader of texts that fit a pattern, in capital letters."""
    def read(text: str) -> str:
        plain = ''.join(text.split()).upper()
        if not re.fullmatch(pattern, plain):
            raise ValueError
        return plain
    return read


READERS: dict[str, Callable[[str], object]] = {
    'account': whole_of, 'holder': pattern_reader('[A-Z0-9-]{1,16}'), 'beneficiary': name_of,
    'use_first': day_of, 'use_last': day_of, 'quantity': whole_of, 'ranges': ranges_of,
    'tech': pattern_reader(r'T[0-9]{6}|T[0-9]{0,5}\*'),
    'source': pattern_reader(r'F[0-9]{8}|F[0-9]{0,7}\*'),
    'country': pattern_reader('[A-Z]{2}'), 'device': pattern_reader('[0-9]{18}'), 'month': month_of,
    'reference': name_of}
KINDS = {'account': 'number', 'quantity': 'number', 'use_first': 'day', 'use_last': 'day',
         'beneficiary': 'name', 'reference': 'name', 'ranges': 'ranges', 'month': 'month'}
"""The kind of fault of a field that can't be read; of others it is `code`."""


@dataclass
class Line:
    """A row of a table, by its number from 1 on: the fields that could be read."""

    row: int
    given: dict[str, object] = field(default_factory=dict)

    def text(self, name: str) -> str:
        return str(self.given.get(name, ''))

    def whole(self, name: str) -> int:
        value = self.given.get(name, 0)
        return value if isinstance(value, int) else 0

    @property
    def ranges(self) -> tuple[Span, ...]:
        value = self.given.get('ranges', ())
        return value if isinstance(value, tuple) else ()

    @property
    def want(self) -> Want:
        """What it wants of the certificates."""
        return Want(self.row, self.whole('quantity'), self.ranges,
                    **{name: self.text(name) for name in FIELDS})


def read_line(row: int, fields: Mapping[str, str], command: str, faults: list[Fault]) -> Line:
    """A row of a table. What is wrong with it is added to the faults."""
    line = Line(row)
    for name, text in fields.items():
        if not text:
            if name in OWN[command]:
                faults.append(Fault(row, name, 'needed'))
            continue
        try:
            line.given[name] = READERS[name](text)
        except ValueError:
            kind = 'formula' if text.startswith('=') else KINDS.get(name, 'code')
            faults.append(Fault(row, name, kind, value=text[:40]))
    faults += line_faults(line, fields)
    return line


def line_faults(line: Line, fields: Mapping[str, str]) -> Iterator[Fault]:
    """What is wrong between the fields of a row."""
    if not fields.get('quantity') and not fields.get('ranges'):
        yield Fault(line.row, 'quantity', 'both')
    if line.given.get('use_last') and line.text('use_last') < line.text('use_first'):
        yield Fault(line.row, 'use_last', 'order')
