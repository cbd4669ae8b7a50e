"""The rows of a table of declarations, read as the registry's program reads them.

The program reads the default dialect of Rust's csv crate (docs/FORMATS.md). Python's csv module
reads nearly the same dialect, but refuses a field of more than 131,072 letters. A request may have
such a field. So the rows are read here, and a row may be as long as a request.
"""
import re
from collections.abc import Iterator

MARK = b'\xef\xbb\xbf'
"""The byte order mark, of which one may stand in front of a table."""
QUOTED = re.compile(rb'"((?:[^"]++|"")*+)(?:"([^,\r\n]*+))?')
"""A field in quotes, and what stands behind its last quote. The last quote may be missing."""
PLAIN = re.compile(rb'[^,\r\n]*+')
LINE_ENDS = re.compile(rb'[\r\n]*+')


def records_in(table: bytes) -> Iterator[list[bytes]]:
    """The records of a table, its header first. Blank lines are passed over."""
    table = table.removeprefix(MARK)
    if b'"' in table:
        yield from records_in_quotes(table)
    else:
        yield from (line.split(b',') for line in table.splitlines() if line)


def records_in_quotes(table: bytes) -> Iterator[list[bytes]]:
    """The same where fields may be in quotes."""
    at = past_line_ends(table, 0)
    while at < len(table):
        fields = []
        while True:
            field, at = field_at(table, at)
            fields.append(field)
            if table[at:at + 1] != b',':
                break
            at += 1
        yield fields
        at = past_line_ends(table, at)


def past_line_ends(table: bytes, at: int) -> int:
    found = LINE_ENDS.match(table, at)
    return found.end() if found else at


def field_at(table: bytes, at: int) -> tuple[bytes, int]:
    """The field that begins here, and the place behind it."""
    if found := QUOTED.match(table, at):
        return found[1].replace(b'""', b'"') + (found[2] or b''), found.end()
    end = PLAIN.match(table, at)
    return (end[0], end.end()) if end else (b'', at)
