"""Lists as a workbook of Excel: texts stay texts, so that no number of a certificate or a device is
rounded and no name is computed.

A row is on the disk once the next one is written, so a long list takes little memory.
"""
import re
import tempfile
from collections.abc import Iterable
from collections.abc import Iterator
from typing import Any

from xlsxwriter import Workbook  # type: ignore[import]

from goo_service.records.files import cells
from goo_service.records.files import heads

OPTIONS: dict[str, object] = {
    'constant_memory': True, 'strings_to_numbers': False, 'strings_to_formulas': False,
    'strings_to_urls': False}
EXACT = 2 ** 53
"""From here on a cell of numbers no longer has each whole number."""
MOST_LETTERS = 32_767
"""Of a cell, by Excel's own limits."""
PART = 1 << 16
"""Bytes that are sent at once."""
WIDTH = 18
"""Of a column, in letters."""
NO_XML = re.compile('[^\t\n\r\x20-\ud7ff\ue000-\ufffd\U00010000-\U0010ffff]')


def text_of(text: str) -> str:
    """A text as a cell can have it."""
    return NO_XML.sub('\ufffd', text)[:MOST_LETTERS]


def write(sheet: Any, row: int, values: Iterable[Any]) -> None:
    """A row: whole numbers that are exact as numbers, all else as text."""
    for column, value in enumerate(values):
        if isinstance(value, int) and abs(value) < EXACT:
            sheet.write_number(row, column, value)
        elif value is not None:
            sheet.write_string(row, column, text_of(str(value)))


def xlsx_of(columns: Iterable[str], rows: Iterable[dict[str, Any]],
            about: dict[str, object], most: int) -> Iterator[bytes]:
    """The parts of a workbook with a list, and with a sheet that says what it is of. Nothing comes
    before it is whole."""
    names = tuple(columns)
    with tempfile.TemporaryDirectory(prefix='goo-sheet-') as folder:
        book = Workbook(f'{folder}/list.xlsx', dict(OPTIONS, tmpdir=folder))
        sheet = book.add_worksheet('list')
        sheet.freeze_panes(1, 0)
        titles = [head for name in names for head in heads(name)]
        sheet.set_column(0, len(titles) - 1, WIDTH)
        write(sheet, 0, titles)
        count = 0
        for count, row in enumerate(rows, 1):
            write(sheet, count, (cell for name in names for cell in cells(name, row[name])))
        of = book.add_worksheet('about')
        of.set_column(0, 1, WIDTH)
        more = 'there may be more: ask for less' if count >= most else 'none'
        for line, pair in enumerate({**about, 'rows': count, 'rows left out': more}.items()):
            write(of, line, pair)
        book.close()
        with open(f'{folder}/list.xlsx', 'rb') as file:
            yield from iter(lambda: file.read(PART), b'')
