"""The rows of a table that was sent as CSV or as a spreadsheet (XLSX), bounded before they are
read. No formula is computed: a field that has one is told as it stands."""
import csv
import datetime
import io
import zipfile
import zlib
from collections.abc import Iterator
from collections.abc import Sequence

try:
    import openpyxl  # type: ignore[import]
except ImportError:                 # a package that is recommended, and not needed
    openpyxl = None

from goo_service.records.plan import Fault

MOST_ROWS, MOST_COLUMNS = 1000, 40
MOST_FIELD = 4000
"""Letters of a field: room for a row's ranges."""
UNPACKED, PARTS = 4 << 20, 200
"""Bytes of all parts of a spreadsheet, and how many there may be."""
ZIP = b'PK\x03\x04'
FORBIDDEN = (b'<!DOCTYPE', b'<!ENTITY')
"""What no part of a spreadsheet has: texts that would grow as they are read."""


class Unreadable(Exception):
    """A file that can't be read, by the kind of fault."""


def records_of(data: bytes) -> list[list[str]]:
    """The records of a file: its head and its rows. Empty ones are left out at the end."""
    records = list(of_spreadsheet(data) if data.startswith(ZIP) else of_csv(data))
    while records and not any(records[-1]):
        records.pop()
    if not records:
        raise Unreadable('empty')
    if len(records) > MOST_ROWS + 1:
        raise Unreadable('rows')
    if any(len(text) > MOST_FIELD for record in records for text in record):
        raise Unreadable('field')
    return records


def of_csv(data: bytes) -> Iterator[list[str]]:
    """The records of a CSV, its fields separated by commas, semicolons or tabs."""
    try:
        text = data.decode('utf-8-sig')
    except UnicodeDecodeError as fault:
        raise Unreadable('encoding') from fault
    if '\0' in text:
        raise Unreadable('encoding')
    head = text.split('\n', 1)[0]
    separator = max(',;\t', key=head.count)
    csv.field_size_limit(len(text) + 1)
    try:
        for number, record in enumerate(csv.reader(io.StringIO(text, newline=''),
                                                   delimiter=separator)):
            if number > MOST_ROWS + 1 or len(record) > MOST_COLUMNS:
                raise Unreadable('rows')
            yield [field.strip(' \u00a0') for field in record]
    except csv.Error as fault:
        raise Unreadable('csv') from fault


def of_spreadsheet(data: bytes) -> Iterator[list[str]]:
    """The records of the first sheet."""
    if openpyxl is None:
        raise Unreadable('xlsx_none')
    verify_size(data)
    try:
        book = openpyxl.load_workbook(io.BytesIO(data), read_only=True, data_only=False)
        sheet = book.worksheets[0]
        sheet.reset_dimensions()        # what a file says of its size need not be so
        for record in sheet.iter_rows(max_row=MOST_ROWS + 2, max_col=MOST_COLUMNS):
            yield [text_of(cell.value) for cell in record]
    except Exception as fault:          # whatever a damaged file brings the library to
        raise Unreadable('xlsx') from fault


def verify_size(data: bytes) -> None:
    """Raises Unreadable for a spreadsheet that is larger than a table, or grows as it is read."""
    try:
        with zipfile.ZipFile(io.BytesIO(data)) as archive:
            parts = archive.infolist()
            if len(parts) > PARTS or sum(part.file_size for part in parts) > UNPACKED:
                raise Unreadable('xlsx_large')
            texts = (archive.read(part) for part in parts
                     if part.filename.endswith(('.xml', '.rels')))
            if any(is_harmful(text) for text in texts):
                raise Unreadable('xlsx')
    except (zipfile.BadZipFile, ValueError, OSError, EOFError, RuntimeError, NotImplementedError,
            zlib.error) as fault:
        raise Unreadable('xlsx') from fault


def is_harmful(text: bytes) -> bool:
    """Whether a part may define texts of its own. Another encoding than UTF-8 could hide them."""
    return text[:2] in (b'\xff\xfe', b'\xfe\xff') or b'\0' in text or any(
        word in text for word in FORBIDDEN)


def text_of(value: object) -> str:
    """What a cell has, as it would stand in a CSV."""
    if value is None:
        return ''
    if isinstance(value, datetime.datetime):
        return value.date().isoformat()
    if isinstance(value, float) and value.is_integer():
        return str(int(value))
    return str(value).strip(' \u00a0')


def columns_of(head: Sequence[str], names: Sequence[str | None],
               wanted: Sequence[str]) -> Iterator[Fault]:
    """What is wrong with a table's head: its columns by name, and those that it has to have."""
    for text, name in zip(head, names):
        if name is None and text:
            yield Fault(0, 'header', 'column', value=text[:40])
        elif name and names.count(name) > 1:
            yield Fault(0, 'header', 'column_twice', value=text[:40])
    for name in wanted:
        if name not in names:
            yield Fault(0, 'header', 'column_lacks', value=name)
