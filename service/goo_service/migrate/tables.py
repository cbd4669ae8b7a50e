"""The tables of an old registry, read row by row; and tables that are written."""
import codecs
import contextlib
import csv
import hashlib
import json
from collections.abc import Iterable
from collections.abc import Iterator
from dataclasses import dataclass
from pathlib import Path

from goo_service.migrate.faults import Fault
from goo_service.migrate.settings import COLUMNS
from goo_service.migrate.settings import DELIMITERS
from goo_service.migrate.settings import NAME
from goo_service.migrate.settings import OPTIONAL_COLUMNS
from goo_service.migrate.settings import OPTIONAL_TABLES
from goo_service.migrate.settings import Settings

FOLDER = 'tables'
MOST_BYTES = 8 << 30                # of a table
MOST_ROWS = 20_000_000
MOST_FIELD = 4096                   # characters
LONGEST = 1 << 17                   # characters of a field that is read to its end at all
BLOCK = 1 << 20


class Refused(Exception):
    """A table that can't be read to its end; the fault."""

    def __init__(self, fault: Fault) -> None:
        super().__init__(fault.text)
        self.fault = fault


@dataclass(frozen=True)
class Row:
    """A row, numbered from 1, with its fields by our names of the columns.

    A column that the table lacks, and need not have, has empty fields.
    """

    table: str
    number: int
    fields: dict[str, str]

    def fault(self, kind: str, field: str, reason: str) -> Fault:
        return Fault(kind, self.table, self.number, field, reason)


def path_of(folder: Path, table: str) -> Path:
    return folder / FOLDER / f'{table}.csv'


def is_there(folder: Path, table: str) -> bool:
    """Whether a table is given. All but a few have to be."""
    return table not in OPTIONAL_TABLES or path_of(folder, table).exists()


def hash_of(path: Path) -> str:
    """The SHA-256 of a file."""
    digest = hashlib.sha256()
    with path.open('rb') as file:
        while block := file.read(BLOCK):
            digest.update(block)
    return digest.hexdigest()


def hashes(folder: Path) -> dict[str, str]:
    """The SHA-256 of each table that is there, and of the settings, by the name of its file."""
    paths = [path_of(folder, table) for table in COLUMNS] + [folder / NAME]
    return {path.name: hash_of(path) for path in paths if path.exists()}


def rows_in(folder: Path, table: str, settings: Settings) -> Iterator[Row | Fault]:
    """The rows of a table, each or its fault. Refused where it can't be read on."""
    path, number = path_of(folder, table), 0
    csv.field_size_limit(LONGEST)
    try:
        if path.stat().st_size > MOST_BYTES:
            raise Refused(Fault('size', table, 0, 'file', f'it has more than {MOST_BYTES} bytes'))
        with path.open(encoding=settings.encoding, errors='surrogateescape', newline='') as file:
            file.seek(mark_length(table, path))
            records = csv.reader(file, delimiter=settings.delimiter, strict=True)
            places = places_of(table, next(records, []), settings)
            for number, record in enumerate(records, 1):
                if record:                  # and no blank line
                    yield row_of(table, number, record, places, settings.encoding)
    except csv.Error as fault:
        raise Refused(Fault('csv', table, number + 1, 'row', f'it is no CSV: {fault}')) from fault
    except OSError as fault:
        raise Refused(Fault('header', table, 0, 'file', fault.strerror or str(fault))) from fault


def mark_length(table: str, path: Path) -> int:
    """The length of the byte order mark in front; Refused where it is that of UTF-16."""
    with path.open('rb') as file:
        begin = file.read(3)
    if begin[:2] in (codecs.BOM_UTF16_LE, codecs.BOM_UTF16_BE):
        raise Refused(Fault('encoding', table, 0, 'file', 'it is UTF-16: save it as UTF-8'))
    return len(codecs.BOM_UTF8) if begin == codecs.BOM_UTF8 else 0


@dataclass(frozen=True)
class Places:
    """Where the columns of a table stand, and how many it has."""

    width: int
    by_name: dict[str, int]


def places_of(table: str, header: list[str], settings: Settings) -> Places:
    """Where each column is that we know. Others may be there too."""
    names = {name: settings.column(table, name) for name in COLUMNS[table]}
    for name in OPTIONAL_COLUMNS.get(table, ()):
        if names[name] == name and name not in header:      # and none is named in the settings
            del names[name]
    for name, called in names.items():
        if header.count(called) != 1:
            found = 'twice' if called in header else 'not there'
            told = ''.join(letter if letter.isprintable() else '?'
                           for letter in ', '.join(header)[:200])
            hint = delimiter_hint(header, settings)
            raise Refused(Fault('header', table, 0, name, f'column {called!r} is {found}; the '
                                f'header has {told or "nothing"}{hint}'))
    return Places(len(header), {name: header.index(called) for name, called in names.items()})


def delimiter_hint(header: list[str], settings: Settings) -> str:
    """What to change where a header is one field by the delimiter, and more by another one."""
    text = header[0] if len(header) == 1 else ''
    other = next((one for one in DELIMITERS if one in text and one != settings.delimiter), '')
    return f'; say delimiter = {json.dumps(other)} under [tables]' if other else ''


def row_of(table: str, number: int, record: list[str], places: Places,
           encoding: str) -> Row | Fault:
    """A row with its fields, or why it has not got them."""
    if number > MOST_ROWS:
        raise Refused(Fault('size', table, number, 'file', f'it has more than {MOST_ROWS} rows'))
    if len(record) != places.width:
        return Fault('fields', table, number, 'row',
                     f'it has {len(record)} fields, and the header has {places.width}')
    if long := next((len(field) for field in record if len(field) > MOST_FIELD), 0):
        return Fault('fields', table, number, 'row', f'a field has {long} characters')
    fields = dict.fromkeys(OPTIONAL_COLUMNS.get(table, ()), '')
    fields |= {name: record[at].strip() for name, at in places.by_name.items()}
    for name, text in fields.items():
        if not text.isascii() and (why := encoding_fault(text, encoding)):
            return Fault('encoding', table, number, name, why)
    return Row(table, number, fields)


def encoding_fault(text: str, encoding: str) -> str:
    """Why a field is not text of the encoding; '' where it is.

    Bytes that the encoding has not are surrogates in the text. Bytes of another encoding that are
    letters in UTF-8 are such: no table has these sequences by chance.
    """
    advice = 'is encoding under [tables] right?'
    if lost := [ord(letter) - 0xDC00 for letter in text if 0xDC80 <= ord(letter) <= 0xDCFF]:
        return f'it is not text in {encoding}: byte {lost[0]:#04x} in {text[:40]!a}; {advice}'
    if encoding == 'utf-8':
        return ''
    with contextlib.suppress(UnicodeDecodeError):
        return f'it is {text.encode(encoding).decode()[:40]!r} in utf-8, and {encoding} reads ' \
               f'{text[:40]!r}; {advice}'
    return ''


def write_table(path: Path, columns: tuple[str, ...], rows: Iterable[tuple[object, ...]]) -> None:
    """Writes a CSV in place of the one of before."""
    part = path.with_suffix('.part')
    with part.open('w', encoding='utf-8', newline='') as file:
        writer = csv.writer(file)
        writer.writerow(columns)
        writer.writerows(rows)
    part.replace(path)
