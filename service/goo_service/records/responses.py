"""Responses of the records: an answer as JSON or as a file, and the response to a fault."""
import itertools
import json
import sqlite3
import threading
from collections.abc import Generator
from collections.abc import Iterator

from flask import Response

from goo_service.records.files import BYTE_ORDER
from goo_service.records.files import csv_of
from goo_service.records.files import render_value
from goo_service.records.parties import TooMany
from goo_service.records.pdf import NotInstalled
from goo_service.records.pdf import NotRendered
from goo_service.records.questions import BadQuestion
from goo_service.records.questions import Busy
from goo_service.records.questions import FILES
from goo_service.records.questions import Listed
from goo_service.records.questions import NotFound
from goo_service.records.questions import NotShown
from goo_service.records.questions import Row
from goo_service.records.questions import TooFew
from goo_service.records.sheets import xlsx_of
from goo_service.records.timed import TooLong

XLSX = 'application/vnd.openxmlformats-officedocument.spreadsheetml.sheet'
HEADERS = {'Cache-Control': 'no-store', 'X-Content-Type-Options': 'nosniff'}
BUSY = {'Retry-After': '10'}
STATUSES: dict[type[Exception], int] = {
    BadQuestion: 400, NotShown: 403, NotFound: 404, TooFew: 409, TooMany: 429, NotInstalled: 501}
FAULTS: tuple[type[Exception], ...] = (
    TooLong, Busy, NotRendered, OSError, sqlite3.DatabaseError, *STATUSES)
"""What an answer can come to instead."""
Answer = Response | Listed | Row


def reply(status: int, value: object, **fields: str) -> Response:
    """An answer in JSON."""
    text = json.dumps(render_value(value), ensure_ascii=False, separators=(',', ':'))
    return Response(f'{text}\n', status, {**HEADERS, **fields}, content_type='application/json')


def render_file(of: Listed, about: Row) -> tuple[str, str, Iterator[bytes]]:
    """The type of a file, the end of its name, and its parts."""
    if about['format'] == 'xlsx':
        return XLSX, 'xlsx', xlsx_of(of.columns, of.rows, about, FILES['xlsx'])
    mark = BYTE_ORDER if about['format'] == 'csv-bom' else ''
    return 'text/csv; charset=utf-8', 'csv', csv_of(of.columns, of.rows, mark)


class Few:
    """What few requests do at once: the others are told to ask again."""

    def __init__(self, most: int, why: str) -> None:
        self.free, self.why = threading.BoundedSemaphore(most), why

    def __enter__(self) -> None:
        if not self.free.acquire(blocking=False):
            raise Busy(self.why)

    def __exit__(self, *_: object) -> None:
        self.free.release()

    def parts(self, parts: Iterator[bytes]) -> Generator[bytes, None, None]:
        """The same parts, as one of the few until the last."""
        with self:
            yield from parts


def file_response(of: Listed, about: Row, files: Few) -> Response:
    """A list as a file, written as it is read. Where the time ends within, so does the
    connection, and the client has no whole answer."""
    kind, ending, written = render_file(of, about)
    parts = files.parts(written)
    first = next(parts)         # what fails at once is told by its status
    name = f'attachment; filename="{about["list"]}.{ending}"'
    answer = Response(itertools.chain([first], parts), 200,
                      {**HEADERS, 'Content-Disposition': name}, content_type=kind)
    answer.call_on_close(parts.close)
    return answer
