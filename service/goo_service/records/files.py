"""Lists as they are sent: numbers of certificates in 14 digits, and CSV row by row."""
import csv
import io
from collections.abc import Iterable
from collections.abc import Iterator
from typing import Any

NUMBERS = ('first', 'last')
"""Members that are numbers of certificates."""
FORMULA = ('=', '+', '-', '@', '\t', '\r')
"""What a cell begins with that a spreadsheet would compute."""
PARTIES = ('giver', 'taker')
"""Members that are an account with its holder, or none."""
PARTY = ('account', 'holder', 'name')
BYTE_ORDER = '\ufeff'
"""The mark by which Excel knows that a CSV is UTF-8."""
PART = 1 << 16
"""Letters that are sent at once."""


def render_value(value: Any) -> Any:
    """The same value with the numbers of certificates as the registry writes them."""
    if isinstance(value, dict):
        return {name: f'{of:014}' if name in NUMBERS and isinstance(of, int) else render_value(of)
                for name, of in value.items()}
    return [render_value(of) for of in value] if isinstance(value, list) else value


def spans(ranges: list[dict[str, Any]]) -> str:
    """Ranges of certificates in one cell."""
    return ' '.join(f'{span["first"]:014}-{span["last"]:014}' for span in ranges)


def cells(name: str, value: Any) -> list[Any]:
    """The cells of a column: one, or those of an account with its holder."""
    if name in PARTIES:
        return [cell for of in PARTY for cell in cells(of, value and value[of])]
    if isinstance(value, list):
        return [spans(value)]
    return [f'{value:014}'] if name in NUMBERS and isinstance(value, int) else [value]


def harmless(cell: Any) -> Any:
    """A cell that a spreadsheet does not compute where it reads a CSV."""
    return f"'{cell}" if isinstance(cell, str) and cell.startswith(FORMULA) else cell


def heads(name: str) -> list[str]:
    """What stands above the cells of a column."""
    return [f'{name}_{of}' for of in PARTY] if name in PARTIES else [name]


def csv_of(columns: Iterable[str], rows: Iterable[dict[str, Any]],
           mark: str = '') -> Iterator[bytes]:
    """The parts of a file, each made when it is asked for. `mark` is what it begins with."""
    text, names = io.StringIO(), tuple(columns)
    text.write(mark)
    writer = csv.writer(text, lineterminator='\r\n')
    writer.writerow([head for name in names for head in heads(name)])
    for row in rows:
        writer.writerow([harmless(cell) for name in names for cell in cells(name, row[name])])
        if text.tell() >= PART:
            yield text.getvalue().encode()
            text.seek(0)
            text.truncate()
    yield text.getvalue().encode()
