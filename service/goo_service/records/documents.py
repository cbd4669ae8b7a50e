"""Documents of cancellations: the registry's own text, and the code by which anybody checks it."""
import base64
import hashlib
import hmac
import sqlite3
from collections.abc import Callable
from dataclasses import dataclass

from goo_service.records.certificates import LOT_COLUMNS
from goo_service.records.certificates import RUNS
from goo_service.records.numbers import DocumentNumber
from goo_service.records.numbers import cancellations_of
from goo_service.records.numbers import number_of_document
from goo_service.records.numbers import read_numbers
from goo_service.records.paper import Writer
from goo_service.records.paper import language_of
from goo_service.records.questions import BadQuestion
from goo_service.records.questions import Given
from goo_service.records.questions import NotFound
from goo_service.records.questions import Row
from goo_service.records.questions import Viewer
from goo_service.records.questions import rows_of
from goo_service.records.schema import CANCELLATION
from goo_service.records.seal import SHA256
from goo_service.records.seal import Seal

CODE_LENGTH = 16
"""Letters and digits of a check code: 80 bits."""


@dataclass(frozen=True)
class Maker:
    """What makes a document: the keys of check codes, of which the first one makes codes and each
    one verifies them, and who writes in a language."""

    keys: tuple[bytes, ...]
    writer: Callable[[str], Writer]
    public: str = ''
    """The public key of seals, where there is one."""


def document(database: sqlite3.Connection, number: int) -> Row:
    """What a cancellation's document says: the registry's text, and the facts of each lot."""
    found = rows_of(database, f'''
        SELECT {CANCELLATION}, account.holder, holder.name, (SELECT code FROM meta) AS registry
        FROM cancellation JOIN account ON account.number = cancellation.account
        JOIN holder ON holder.code = account.holder WHERE cancellation.number = ?''', (number,))
    if not found:
        raise NotFound(f'no cancellation {number}')
    of = found[0]
    lots = rows_of(database, f'''
        SELECT run.first, run.last, run.last - run.first + 1 AS count, {LOT_COLUMNS} {RUNS}
        WHERE run.first BETWEEN ? AND ? ORDER BY run.first''', (of['first'], of['last']))
    return {**of, 'count': of['last'] - of['first'] + 1, 'lots': lots}


def document_text(of: Row) -> str:
    """The registry's own text of the document."""
    lines = [f'{lot["first"]:014} {lot["last"]:014} {lot["count"]:12} {lot["device"]} '
             f'{lot["first_day"]} {lot["last_day"]} {lot["tech"]} {lot["source"]}'
             for lot in of['lots']]
    head = [f'CANCELLATION {of["number"]}', f'registry {of["registry"]:02}', f'date {of["day"]}',
            f'account {of["account"]}', f'holder {of["holder"]}',
            f'beneficiary {of["beneficiary"]}', f'period {of["use_first"]} {of["use_last"]}']
    return '\n'.join([*head, *lines, f'certificates {of["count"]}', 'END', ''])


def check_code(text: str, key: bytes) -> str:
    """The code that is printed on a document: a keyed hash over its text, in letters and digits
    that can't be mistaken for one another."""
    code = base64.b32encode(hmac.digest(key, text.encode(), hashlib.sha256)).decode()[:CODE_LENGTH]
    return '-'.join(code[at:at + 4] for at in range(0, CODE_LENGTH, 4))


def is_code(text: str, key: bytes, given: str) -> bool:
    """Whether a code belongs to a text, however it is spaced."""
    plain = ''.join(given.upper().split()).replace('-', '')
    wanted = check_code(text, key).replace('-', '')
    return hmac.compare_digest(wanted.encode(), plain.encode(errors='replace'))


def fetch_document(database: sqlite3.Connection, viewer: Viewer, number: int) -> Row:
    """A document, for those who see the cancellation."""
    of, accounts = document(database, number), viewer.accounts(database)
    if accounts is not None and of['account'] not in accounts:
        raise NotFound(f'no cancellation {number}')
    return of


def render_documents(database: sqlite3.Connection, viewer: Viewer, given: Given,
                     maker: Maker) -> Row:
    """One document of several cancellations: each of them, the text of all, its number and code,
    and what stands on it."""
    numbers = cancellations_of(database, numbers_of(given, 'numbers'))
    return whole(database, [fetch_document(database, viewer, of) for of in numbers], given, maker)


def whole(database: sqlite3.Connection, items: list[Row], given: Given, maker: Maker) -> Row:
    """The document of these cancellations."""
    text = ''.join(map(document_text, items))
    code = check_code(text, maker.keys[0])
    number = number_of_document(database, [of['number'] for of in items])
    paper = maker.writer(language_of(given)).paper(items, number, code)
    return {'number': number, 'code': code, 'items': items, 'text': text, 'paper': paper}


def render_document(database: sqlite3.Connection, viewer: Viewer, number: int, key: bytes) -> Row:
    """A cancellation with its document's text and check code."""
    of = fetch_document(database, viewer, number)
    text = document_text(of)
    return {**of, 'text': text, 'code': check_code(text, key)}


def verify_document(database: sqlite3.Connection, given: Given, maker: Maker) -> Row | None:
    """What a document says whose number and code belong together; None where they do not, or where
    a seal is given that is not ours. Nobody has to sign in for this."""
    seal = seal_of(given)
    try:
        numbers = cancellations_of(database, numbers_of(given, 'number'))
        found = [document(database, number) for number in numbers]
    except NotFound:
        return None
    text = ''.join(map(document_text, found))
    if not any([is_code(text, key, given.get('code', '')) for key in maker.keys]):
        return None
    if seal and not (maker.public and seal.is_of(maker.public)):
        return None
    return {'sealed': bool(seal), **whole(database, found, given, maker)}


def seal_of(given: Given) -> Seal | None:
    """The seal that is given with a number and a code; None where there is none."""
    digest, signature = given.get('sha256'), given.get('seal')
    if not digest and not signature:
        return None
    if not digest or not signature or not SHA256.fullmatch(digest) or len(signature) > 100:
        raise BadQuestion('sha256 and seal belong together: 64 hexadecimal digits, and a signature '
                          'in base64')
    return Seal(given.get('number', ''), given.get('code', ''), digest, signature)


def numbers_of(given: Given, name: str) -> DocumentNumber | list[int]:
    return read_numbers(given.get(name) or '', name)
