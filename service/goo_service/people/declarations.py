"""Reads a file of declarations before it is sent, and tells each field at fault.

usage: goo-check-declarations [--devices CSV] [--declared CSV] FILE

With a fault goes the reason, and what was expected. A period that a device has declared shuts out
every earlier one for good. So a file with one bad row loses that row's production as soon as a
later row of the same device is accepted. Nothing is sent from here. The page reads a file by the
same rules (web/reading.js), which are those of docs/FORMATS.md and docs/REGISTRY.md that a file
alone can show: the form of each field, the check digit of a GSRN, a period within one month,
auxiliaries of no more than the gross production, a key of its own for each row, and the order of a
device's periods. A table has 21,000 rows at most: the log in front of the registry takes no longer
one.

Where nothing is at fault, the sum in MWh is told. With the list of devices, as the page or the
records save it (/records/v1/devices?format=csv), the mean load factor is told too, and what is
doubtful about the energy is asked: a row below a thousandth of its device's capacity or above what
is plausible. With the list of declarations (/records/v1/declarations?format=csv) rows and file are
held against what the devices made before: a file in kWh is asked about. A program whose user has
the role `declares` asks the same by POST of the file to /records/v1/doubts. A doubt forbids
nothing.

Rows are numbered as in the registry's report: row 1 is the first below the header. Exit status 0
where nothing is at fault, 1 where something is, 2 for a usage error, and 3 where a file can't be
read.
"""
import argparse
import calendar
import csv
import io
import re
import sys
from collections.abc import Iterator
from dataclasses import dataclass
from dataclasses import field
from pathlib import Path
from typing import NamedTuple
from typing import NoReturn

from goo_service.log.bounds import ROWS as MOST_ROWS
from goo_service.people import doubts

HEADER = 'key,device,first_day,last_day,gross_wh,aux_wh'
FIELDS = {'key': 'key', 'device': 'gsrn', 'first_day': 'day', 'last_day': 'day', 'gross_wh': 'wh',
          'aux_wh': 'wh'}
"""The name of each field, and what kind of text it is."""
MOST_BYTES = 16_777_216
MOST_WH = 10 ** 15
BLANK = '[ \t\xa0]'
SHORTENED = '[+-]?[0-9]+([.,][0-9]+)?[eE][+-]?[0-9]+'
EXPECTED = {
    'key': 'Expected 1 to 40 characters: letters A to Z, digits, and - _ . : are allowed.',
    'gsrn': 'Expected the 18 digits of a GSRN.',
    'day': 'Expected a day from 1900 to 2099 in the form 2025-01-31.',
    'wh': 'Expected a whole number of Wh from 0 to 1,000,000,000,000,000, digits alone.',
}
SLIPS: dict[str, list[tuple[str, str]]] = {
    'key': [],
    'gsrn': [(SHORTENED, 'A spreadsheet has shortened it and its last digits are lost.'),
             ('[0-9]{18}',
              'Its check digit does not fit the other digits: look for a typing mistake.'),
             ('[0-9]+', 'It has too few or too many digits.')],
    'day': [('[0-9]{4}-[0-9]{2}-[0-9]{2}', 'There is no such day.'),
            ('[0-9]{1,4}[./-][0-9]{1,2}[./-][0-9]{1,4}',
             'A spreadsheet has changed the form of the day.'),
            ('[0-9]{5}([.,][0-9]+)?', 'A spreadsheet has turned the day into a number.')],
    'wh': [(SHORTENED, 'A spreadsheet has shortened it and its last digits may be lost.'),
           ('-.*', 'It is negative.'),
           ("[0-9]{1,3}([., '\xa0\u202f’][0-9]{3})+", 'It has separators between its digits.'),
           ('[0-9]+[.,][0-9]+', 'It has decimals.'),
           ('[0-9]+', 'It is too large.')],
}
"""What often goes wrong with each kind of text: the first pattern that fits gives the reason."""


class Fault(NamedTuple):
    """What is at fault: a row (0 is the header), a field of it, and the reason."""

    row: int
    field: str
    reason: str


def is_gsrn(text: str) -> bool:
    """Eighteen digits, the last one GS1's check digit: weights 3, 1, 3, .. over the first 17."""
    if not re.fullmatch('[0-9]{18}', text):
        return False
    weighed = sum(int(digit) * (1 if place % 2 else 3) for place, digit in enumerate(text[:17]))
    return (weighed + int(text[17])) % 10 == 0


def is_day(text: str) -> bool:
    """A day of the calendar from 1900-01-01 to 2099-12-31."""
    if not re.fullmatch('(19|20)[0-9]{2}-[0-9]{2}-[0-9]{2}', text):
        return False
    year, month, day = map(int, text.split('-'))
    return 1 <= month <= 12 and 1 <= day <= calendar.monthrange(year, month)[1]


def is_wh(text: str) -> bool:
    """1 to 16 digits, at most 10^15."""
    return re.fullmatch('[0-9]{1,16}', text) is not None and int(text) <= MOST_WH


def is_key(text: str) -> bool:
    """1 to 40 characters that a key may have."""
    return re.fullmatch('[A-Za-z0-9_.:-]{1,40}', text) is not None


FITS = {'key': is_key, 'gsrn': is_gsrn, 'day': is_day, 'wh': is_wh}


def field_fault(kind: str, text: str) -> str:
    """Why a field is not of its kind, and what was expected; '' where nothing is wrong."""
    if FITS[kind](text):
        return ''
    slips = [('', 'It is empty.'), (f'{BLANK}.*|.*{BLANK}', 'There is a space before or after it.'),
             *SLIPS[kind]]
    return f'{reason_by(slips, text)} {EXPECTED[kind]}'.strip()


def reason_by(slips: list[tuple[str, str]], text: str) -> str:
    """The reason beside the first pattern that a text fits, if it fits one."""
    return next((reason for pattern, reason in slips if re.fullmatch(pattern, text)), '')


def period_faults(first: str, last: str, gross: str, aux: str) -> Iterator[tuple[str, str]]:
    """What is wrong between the fields of one row."""
    if last < first:
        yield 'last_day', ('The period ends before it begins. '
                           'Expected a day from first_day to the end of its month.')
    elif last[:7] != first[:7]:
        yield 'last_day', ('The period runs into another month. '
                           'Expected a day of the month of first_day: one row for each month.')
    if int(aux) > int(gross):
        yield 'aux_wh', 'The auxiliaries exceed the gross production. Expected at most gross_wh.'


def row_faults(fields: list[str]) -> list[tuple[str, str]]:
    """The fields of a row that are at fault, each with its reason; `row` for the row as a whole."""
    if re.fullmatch(f'{BLANK}*', ''.join(fields)):
        return [('row', 'It is empty. Delete it.')]
    if any(re.search('[\r\n]', field) for field in fields):
        return [('row', 'It goes on in another line. '
                        'Look for a quotation mark that is not closed.')]
    if len(fields) == 1 and fields[0].count(';') == len(FIELDS) - 1:
        return [('row', 'Its fields are separated by semicolons. Expected commas.')]
    if len(fields) != len(FIELDS):
        return [('row', f'Expected {len(FIELDS)} fields, and it has {len(fields)}.')]
    faults = [(name, reason) for (name, kind), text in zip(FIELDS.items(), fields)
              if (reason := field_fault(kind, text))]
    return faults or list(period_faults(*fields[2:]))


@dataclass
class Earlier:
    """The rows that were read before one."""

    keys: dict[str, int] = field(default_factory=dict)
    """The row of each key."""
    ends: dict[str, tuple[str, int]] = field(default_factory=dict)
    """Of each device where its last period ended, and in which row."""

    def add(self, number: int, fields: list[str]) -> None:
        key, device, _, last, _, _ = fields
        self.keys[key], self.ends[device] = number, (last, number)

    def faults(self, fields: list[str]) -> Iterator[tuple[str, str]]:
        """What is wrong between a row and those before it."""
        key, device, first, _, _, _ = fields
        if key in self.keys:
            yield 'key', (f'Row {self.keys[key]} has the same key. '
                          'Expected a key of its own for each row.')
        day, row = self.ends.get(device, ('', 0))
        if first <= day:
            yield 'first_day', f'Row {row} of this device ends on {day}. Expected a later day.'


def header_fault(header: list[str]) -> str:
    """What is wrong with the first record; '' where it is the header."""
    text = ','.join(header)
    if text == HEADER and len(header) == len(FIELDS):
        return ''
    slips = [('(?s).*[\0\ufffd].*', 'The file is not UTF-8 text.'),
             ('(?s).*;.*', 'The fields are separated by semicolons.'),
             ('(?s).*\t.*', 'The fields are separated by tabs.'), ('', 'The file is empty.')]
    expected = f'Expected a CSV in UTF-8 that begins with {HEADER}'
    return f'{reason_by(slips, text)} {expected}'.strip()


def records(text: str) -> list[list[str]]:
    """The records of a CSV. Blank lines are passed over."""
    csv.field_size_limit(sys.maxsize)
    lines = io.StringIO(text.removeprefix('\ufeff'), newline='')
    return [record for record in csv.reader(lines) if record]


def read(text: str) -> tuple[list[list[str]], list[Fault]]:
    """The rows of a file, and what is at fault."""
    header, *rows = records(text) or [[]]
    if reason := header_fault(header):
        return rows, [Fault(0, 'header', reason)]
    if not rows:
        return rows, [Fault(0, 'file', 'There is no row below the header. Expected one at least.')]
    if len(rows) > MOST_ROWS:
        return rows, [Fault(0, 'file', f'It has {len(rows):,} rows. Expected at most '
                            f'{MOST_ROWS:,}: split it, each part with the header.')]
    faults: list[Fault] = []
    earlier = Earlier()
    for number, fields in enumerate(rows, 1):
        found = row_faults(fields) or list(earlier.faults(fields))
        faults += [Fault(number, *fault) for fault in found]
        if not found:
            earlier.add(number, fields)
    return rows, faults


def end(line: str | None, status: int) -> int:
    print(line, file=sys.stderr)
    return status


def place_of(rows: list[list[str]], fault: Fault) -> str:
    """The place of a fault as a person reads it, with what stands there."""
    if fault.row == 0:
        return fault.field
    is_field = fault.field in FIELDS
    value = rows[fault.row - 1][list(FIELDS).index(fault.field)] if is_field else ''
    return f'row {fault.row}, {fault.field}{f" {ascii(value[:40])}" if value else ""}'


def saved(name: str | None, wanted: tuple[str, ...]) -> list[dict[str, str]]:
    """The rows of a list that was saved as CSV; none where none is given."""
    if name is None:
        return []
    with open(name, encoding='utf-8-sig', newline='') as file:
        rows = csv.DictReader(file)
        if lacking := sorted(set(wanted) - set(rows.fieldnames or ())):
            raise ValueError(f'there is no column {", ".join(lacking)}')
        return list(rows)


def known_of(devices: str | None, declared: str | None) -> dict[str, doubts.Device]:
    """The devices of a saved list, with the periods of another one."""
    periods: dict[str, list[doubts.Period]] = {}
    for of in saved(declared, DECLARED):
        net = int(of['gross_wh']) - int(of['aux_wh']) - int(of['corrected_wh'] or 0)
        periods.setdefault(of['device'], []).append(
            doubts.Period(of['first_day'], of['last_day'], net))
    return {of['gsrn']: doubts.Device(
                int(of['capacity_w']), of['tech'],
                tuple(sorted(periods.get(of['gsrn'], []), key=lambda period: period.first_day,
                             reverse=True)))
            for of in saved(devices, DEVICES)}


DEVICES = 'gsrn', 'capacity_w', 'tech'
DECLARED = 'device', 'first_day', 'last_day', 'gross_wh', 'aux_wh', 'corrected_wh'
"""The columns of saved lists that are read."""


def tell_energy(rows: list[list[str]], known: dict[str, doubts.Device]) -> None:
    """The end of the last line about a file without faults, and what is asked about it."""
    energy = doubts.energy_of(doubts.rows_of(rows), known)
    mwh = f'{energy.net_wh // 1_000_000:,}.{energy.net_wh % 1_000_000:06} MWh'
    factor = energy.factor
    mean = '' if factor is None else f', mean load factor {doubts.percent(factor)}'
    print(f', {mwh}{mean}')
    for doubt in energy.doubts:
        place = f'row {doubt.row}, key {rows[doubt.row - 1][0]!r}' if doubt.row else 'file'
        print(f'is it meant? {place}: {doubts.text_of(doubt)}')


class Words(argparse.ArgumentParser):
    """The words of the command line. What is wrong with them is told with all that is known."""

    def error(self, message: str) -> NoReturn:
        sys.exit(end(f'{__doc__}\ncheck-declarations: {message}', 2))


def given_words() -> argparse.Namespace:
    words = Words(prog='goo-check-declarations', add_help=False)
    words.add_argument('-h', '--help', action='store_true')
    words.add_argument('--devices')
    words.add_argument('--declared')
    words.add_argument('file', nargs='?')
    given = words.parse_args()
    if given.help or not given.file:
        sys.exit(end(__doc__, 0 if given.help else 2))
    return given


def main() -> int:
    given = given_words()
    try:
        data = Path(given.file).read_bytes()
    except OSError as error:
        return end(f'check-declarations: {given.file}: {error.strerror}', 3)
    if len(data) > MOST_BYTES:
        return end(f'check-declarations: {given.file}: {len(data):,} bytes. Expected at most '
                   f'{MOST_BYTES:,}: split it, each part with the header', 1)
    try:
        known = known_of(given.devices, given.declared)
    except (OSError, ValueError, csv.Error) as error:
        return end(f'check-declarations: the saved lists: {error}', 3)
    rows, faults = read(data.decode('utf-8', 'replace'))
    for fault in faults:
        print(f'{place_of(rows, fault)}: {fault.reason}')
    at_fault = len({fault.row for fault in faults})
    hint = ': do not send the file\n' if faults else ''
    count = f'{len(rows)} row{"" if len(rows) == 1 else "s"}'
    print(f'{count}, {at_fault or "none"} at fault{hint}', end='')
    if not faults:
        tell_energy(rows, known)
    return 1 if faults else 0


if __name__ == '__main__':
    sys.exit(main())
