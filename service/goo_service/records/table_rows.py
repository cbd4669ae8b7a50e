"""The rows of an answered table of declarations, for the book of acts: what each came to, and which
of them one act tells of together.

A table of a mebibyte may have half a million rows that state nothing. An act for each would fill a
book with what nobody looks for. So one act tells of all unreadable rows of a table: how many, and
which lines. A holder may declare nothing, so all rows of a table of his are refused, and one act
for each refusal tells of them. Of the issuing body an auditor asks why a device has no certificates
for a period: its refused rows are acts of their own, with key and device. Of a table with more than
OWN_ACTS refused rows the later ones are told together. The log keeps each table and each report
whole, so nothing is lost.
"""
from collections.abc import Iterator
from dataclasses import dataclass
from dataclasses import field

from goo_service.common import tables
from goo_service.rules.commands import ISSUER
from goo_service.rules.refusals import REFUSALS

OWN_ACTS = 1_000
"""Refused rows of one table that are acts of their own."""
SPANS = 20
"""Spans of lines that one act names."""


@dataclass(frozen=True)
class Row:
    """A row of a table and what it came to."""

    line: int
    """Counted from 1 below the header."""
    fields: list[str]
    outcome: str
    refusal: str | None


@dataclass
class Same:
    """Rows that came to the same, as one act tells of them."""

    outcome: str
    refusal: str | None
    count: int = 0
    spans: list[tuple[int, int]] = field(default_factory=list)

    def add(self, line: int) -> None:
        self.count += 1
        first, last = self.spans[-1] if self.spans else (line, line - 1)
        if last == line - 1:
            self.spans[-1:] = [(first, line)]
        elif len(self.spans) < SPANS:
            self.spans.append((line, line))

    @property
    def lines(self) -> str:
        """The first lines, as 1-3,7."""
        texts = (f'{first}-{last}' if last > first else f'{first}' for first, last in self.spans)
        return ','.join(texts)


@dataclass
class Together:
    """The rows of a table that have no act of their own."""

    caller: str
    kinds: dict[tuple[str, str | None], Same] = field(default_factory=dict)
    refused: int = 0

    def add(self, row: Row) -> bool:
        """Whether a row is told with others, among which it is counted then."""
        if row.outcome == 'refused':
            self.refused += 1
            is_own = self.caller == ISSUER and self.refused <= OWN_ACTS
        else:
            is_own = row.outcome != 'unreadable'
        if not is_own:
            kind = row.outcome, row.refusal
            self.kinds.setdefault(kind, Same(*kind)).add(row.line)
        return not is_own


def rows_of_table(table: bytes, report: bytes) -> Iterator[Row]:
    """Each row that a report answers. The report decides which rows there are."""
    records = tables.records_in(table)
    next(records, None)
    for line in report.splitlines():
        number, outcome, *code = line.decode().split(' ')
        fields = [text.decode(errors='replace') for text in next(records, [])]
        yield Row(int(number), fields, outcome, REFUSALS[int(code[0]) - 1] if code else None)
