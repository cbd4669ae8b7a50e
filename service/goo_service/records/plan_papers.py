"""The documents of a table of cancellations that was sent: one a row, and all of them in a ZIP."""
import io
import re
import sqlite3
import zipfile
from collections.abc import Iterator

from goo_service.records.documents import Maker
from goo_service.records.documents import fetch_document
from goo_service.records.documents import whole
from goo_service.records.files import csv_of
from goo_service.records.plans import DIGEST
from goo_service.records.plans import fetch_outcomes
from goo_service.records.questions import BadQuestion
from goo_service.records.questions import Given
from goo_service.records.questions import NotFound
from goo_service.records.questions import Row
from goo_service.records.questions import Viewer

BYTES = 64 << 20
"""Bytes of all documents of a table."""
COLUMNS = ('row', 'file', 'beneficiary', 'use_first', 'use_last', 'count', 'number', 'code')
TABLE = re.compile(f'[a-z2-7]{{{DIGEST}}}')
LONGEST = 40
"""Letters of a beneficiary in the name of a file."""


def papers(database: sqlite3.Connection, viewer: Viewer, given: Given,
           maker: Maker) -> Iterator[Row]:
    """Row by row the document of its cancellations."""
    digest = given.get('table') or ''
    if not TABLE.fullmatch(digest):
        raise BadQuestion(f'table is {digest[:40]!r}, and not the digest of one')
    rows = [row for row in fetch_outcomes(database, viewer, digest) if row['numbers']]
    if not rows:
        raise NotFound(f'no cancellation was sent by the table {digest}')
    for row in rows:
        items = [fetch_document(database, viewer, number) for number in row['numbers']]
        yield {'row': row['row'], **whole(database, items, given, maker)}


def file_name(row: int, beneficiary: str) -> str:
    """The name of a document's file: the row, and the beneficiary in letters that any system
    takes."""
    plain = re.sub(r'[^\w.-]+', '-', beneficiary).strip('-.')[:LONGEST]
    return f'{row:04}-{plain}.txt' if plain else f'{row:04}.txt'


def zip_of(database: sqlite3.Connection, viewer: Viewer, given: Given, maker: Maker) -> bytes:
    """All documents of a table, with a list of them."""
    made, listed, total = io.BytesIO(), list[Row](), 0
    with zipfile.ZipFile(made, 'w', zipfile.ZIP_DEFLATED) as archive:
        for paper in papers(database, viewer, given, maker):
            first = paper['items'][0]
            name = file_name(paper['row'], first['beneficiary'])
            text = f'{paper["text"]}\nNUMBER {paper["number"]}\nCODE {paper["code"]}\n'
            total += len(text)
            if total > BYTES:
                raise BadQuestion(f'the documents of this table have more than {BYTES:,} bytes: '
                                  'ask for them one by one')
            archive.writestr(name, text)
            listed.append({**first, 'row': paper['row'], 'file': name, 'number': paper['number'],
                           'count': sum(of['count'] for of in paper['items']),
                           'code': paper['code']})
        archive.writestr('documents.csv', b'\xef\xbb\xbf' + b''.join(csv_of(COLUMNS, listed)))
    return made.getvalue()
