"""ETags: whoever has an answer asks whether it is still the same, and is told so in no bytes.

An answer is a function of the question, of who asks, and of the entry by which the book stands; of
notices also of what the exchange wrote. So the tag is made of these, and no list is read for it. A
document depends on what the issuing body says of itself too, and attachments come by another way:
these have no tag.
"""
import hashlib
import os
import sqlite3
from pathlib import Path

from flask import Response
from flask import request

from goo_service.records.schema import FORM

UNTAGGED = ('documents', 'cancellations/NUMBER', 'verify', 'attachments', 'attachments/NUMBER',
            'status')
MADE = Path(__file__).stat().st_mtime_ns, os.environ.get('GOO_RECORDS_DIRECTORY')
"""Another version of this service, or another configuration, may answer otherwise."""


def tag_of(name: str, database: sqlite3.Connection, exchange: Path) -> str:
    """The tag of the answer to this request of a route; no text where it has none."""
    if request.method != 'GET' or name in UNTAGGED:
        return ''
    entry, digest = database.execute('SELECT entry, hash FROM meta').fetchone()
    try:
        written = exchange.stat().st_mtime_ns
    except OSError:
        written = 0
    of = (FORM, MADE, entry, digest, written, request.headers.get('GOO-Accounts'),
          request.headers.get('GOO-Caller'), request.full_path)
    return f'"{hashlib.sha256(repr(of).encode()).hexdigest()[:32]}"'


def is_known(tag: str) -> bool:
    """Whether the one who asks has the answer. A tag that a proxy made weak is the same."""
    given = (request.headers.get('If-None-Match') or '').split(',')
    return bool(tag) and tag in (one.strip().removeprefix('W/') for one in given)


def add_tag(response: Response, tag: str) -> None:
    if tag and response.status_code == 200:
        response.headers['ETag'] = tag
