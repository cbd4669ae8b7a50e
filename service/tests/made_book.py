"""A log of requests that a model of the registry answers, and the book of acts that is made of it.

    made = Made(tmp_path)
    made.send('SUN', 'transfer', giver=1, taker=2, first=.., last=..)
    made.book()                     # takes what came since, and is ready for readers
    made.asked('SUN', '/records/v1/acts', account='1')

The answers are those of tools/lib/model.py, which was written from the documents and shares no code
with the program. So books are made and asked within milliseconds, and no process runs.
"""
import json
import sqlite3
from collections.abc import Iterable
from pathlib import Path
from typing import Any

from goo_service.log import entries
from goo_service.log.archive import Archive
from goo_service.records import schema
from goo_service.records import web
from goo_service.records.book import Book
from goo_service.records.parameters import PARAMETERS
from goo_service.records.places import Places
from goo_service.records.registry import WatchedRegistry
from goo_service.records.responses import Few
from goo_service.records.routes import Routes
from model import CODES
from model import Model
from goo_service.rules.commands import ISSUER

CODE = 7
DAY = '2026-01-15'
BEGINNING = f'--begun {CODE} {DAY} 1'
OWN = CODE * 10 ** 12
HEADER = b'key,device,first_day,last_day,gross_wh,aux_wh\n'
BAD, FORBIDDEN, CONFLICT = 400, 403, 409
BUNDLES = '/v1/bundles'
WAYS = ('session', 'token nightly', '')
SECOND = ('', '', '', 'ben')
"""How users signed in, and who confirmed, one after another."""


def status_of(outcome: bytes) -> int:
    """The status that belongs to the outcome of a request."""
    told = json.loads(outcome)
    if told['outcome'] == 'refused':
        return FORBIDDEN if told['code'] == CODES['NotAllowed'] else CONFLICT
    return BAD if told['outcome'] == 'unreadable' else 200


def page_parameter(route: str) -> str:
    """The parameter that takes the `next` of a page of this list."""
    return next(name for name in ('before', 'after', 'offset') if name in PARAMETERS[route])


def routes_of(folder: Path) -> Routes:
    """The routes over a book in a folder."""
    return Routes(Places.of_unit(folder, folder / 'state.json', None, None), True, Few(1, ''))


class Made:
    """A registry of the model, its log in memory, and the book of both in a folder."""

    def __init__(self, folder: Path, day: str = DAY) -> None:
        self.folder, self.model = folder, Model(CODE, day)
        self.keys = self.last = 0
        self.chain = entries.NO_CHAIN
        self.path = folder / 'book-1.db'
        registry = WatchedRegistry(CODE, day, 1)
        self.writer = Book.make(self.path.with_suffix('.making'), registry, BEGINNING)
        self.is_open = False
        (folder / 'code.key').write_text('00' * 32)

    # ------------------------------------------------------------ requests

    def record(self, caller: str, route: str, body: bytes, status: int, answer: bytes,
               **more: Any) -> entries.Record:
        """The record of a request that was answered so."""
        self.last += 1
        entry = entries.Entry(
            n=self.last, prev='', time=f'2026-02-01T00:00:00.{self.last:06}Z', host='h1',
            user=f'user-{caller.lower()}', address='', role='full', caller=caller, method='POST',
            route=route, version='trial', id=f'{self.last:x}', body=body,
            way=WAYS[self.last % len(WAYS)], confirmed=SECOND[self.last % len(SECOND)])
        outcome = entries.outcome_after(route, status, answer, self.chain)
        self.chain = outcome.chain
        return entries.Record(entry._replace(**more), outcome, f'{self.last:064}')

    def take(self, record: entries.Record) -> None:
        """Gives a record to the book, as `records follow` does."""
        self.writer.apply(record)
        self.writer.commit(record.entry.n, record.hash, record.entry.time)

    def send_body(self, caller: str, body: bytes) -> dict[str, Any]:
        answer = self.model.line(caller.encode() + b' ' + body)
        self.take(self.record(caller, '/v1/requests', body, status_of(answer), answer))
        return dict(json.loads(answer))

    def send(self, caller: str, command: str, *, key: str = '', **members: Any) -> dict[str, Any]:
        """A request under a key of its own, unless one is given."""
        self.keys += 1
        whole = {'command': command, 'key': key or f'k{self.keys}', **members}
        return self.send_body(caller, json.dumps(whole, ensure_ascii=False).encode())

    def send_bundle(self, caller: str, requests: list[dict[str, Any]], route: str = BUNDLES,
                    status: int = 200, answer: bytes = b'') -> list[dict[str, Any]]:
        """A bundle, each line by itself, or one that was answered so; what its lines came to."""
        lines = [json.dumps(of, ensure_ascii=False).encode() for of in requests]
        answers = [] if answer else [self.model.line(b'%b %b' % (caller.encode(), line))
                                     for line in lines]
        told = answer or b''.join(b'%b\n' % one.strip() for one in answers)
        self.take(self.record(caller, route, b''.join(b'%b\n' % line for line in lines), status,
                              told))
        return [json.loads(one) for one in answers]

    def must(self, caller: str, command: str, **members: Any) -> dict[str, Any]:
        """The reply to a request that has to be accepted."""
        told = self.send(caller, command, **members)
        assert told['outcome'] == 'accepted', told
        return dict(told['reply'])

    def send_table(self, caller: str, table: bytes) -> bytes:
        """A table of declarations; the report, which is empty where there is none."""
        _, report, told = self.model.declare(table, caller)
        status = BAD if told else 200
        self.take(self.record(caller, '/v1/declarations', table, status, report))
        return bytes(report)

    # ------------------------------------------------------------ a small country

    def country(self, count: int = 100) -> None:
        """SUN with account 1 and a device, VOLT with account 2, and certificates of 2025."""
        for holder in ('SUN', 'VOLT'):
            self.must(ISSUER, 'open_holder', holder=holder, name=holder.title())
            self.must(ISSUER, 'open_account', holder=holder)
        self.must(ISSUER, 'register_device', **PLANT)
        for month in (1, 6, 12):
            self.must(ISSUER, 'declare', device=DEVICE, first_day=f'2025-{month:02}-01',
                      last_day=f'2025-{month:02}-28', gross_wh=count * 10 ** 6, aux_wh=0)

    # ------------------------------------------------------------ the book

    def book(self) -> sqlite3.Connection:
        """A connection to the book as it stands, ready for readers."""
        if not self.is_open:
            self.writer.publish(self.path)
            (self.folder / 'current').symlink_to(self.path.name)
            self.is_open = True
        return schema.connect(self.path, read_only=True)

    def size(self) -> int:
        """Bytes of the book on the disk, after what waits beside it was written into it."""
        self.book().close()
        self.writer.database.execute('PRAGMA wal_checkpoint(TRUNCATE)')
        return self.path.stat().st_size

    def client(self) -> Any:
        """Flask's client of the service over this book."""
        self.book().close()
        return web.application(self.folder, self.folder / 'state.json',
                               etc=self.folder / 'etc',
                               attachments=self.folder / 'attachments').test_client()

    def asked(self, caller: str | None, path: str, **parameters: object) -> tuple[int, Any]:
        """Status and JSON of an answer."""
        head = {'GOO-Caller': caller} if caller else {}
        client = self.client()
        answer = client.get(path, query_string=parameters or None, headers=head)
        return answer.status_code, answer.get_json()

    def items(self, caller: str, name: str, **parameters: object) -> list[dict[str, Any]]:
        """All items of a list, page by page."""
        found: list[dict[str, Any]] = []
        more: dict[str, object] = {'limit': 1000, **parameters}
        while True:
            status, answer = self.asked(caller, f'/records/v1/{name}', **more)
            assert status == 200, answer
            found += answer['items']
            if answer['next'] is None:
                return found
            more[page_parameter(name)] = answer['next']

    def acts(self, caller: str = ISSUER, **parameters: object) -> list[dict[str, Any]]:
        """The acts that a caller sees, the newest first."""
        return self.items(caller, 'acts', **parameters)


class Logged(Made):
    """The same without a book of its own: the records go into an archive, from a number on."""

    def __init__(self, folder: Path, first: int = 1, before: str = '0' * 64) -> None:
        super().__init__(folder)
        self.archive = Archive(folder / 'archive')
        self.last, self.hash = first - 1, before

    def take(self, record: entries.Record) -> None:
        entry = record.entry._replace(prev=self.hash)
        line = entries.entry_line(entry, b'a key of a trial of records')
        self.hash = entries.hash_of(line)
        self.archive.add(line, entry, record.outcome)
        self.archive.sync()

    def send_all(self, requests: Iterable[tuple[Any, ...]]) -> None:
        """Requests as tools/lib/records_trial.py makes them: user, caller, route, body, role."""
        for user, caller, route, body, *role in requests:
            if role:
                answer = FORBIDDEN, b'Forbidden\n'
            elif route == '/v1/declarations':
                _, report, told = self.model.declare(body, caller)
                answer = BAD if told else 200, bytes(report)
            else:
                report = self.model.line(caller.encode() + b' ' + body)
                answer = status_of(report), report
            self.take(self.record(caller, route, body, *answer, user=user,
                                  role=''.join(role) or 'full'))


def rows_of_book(path: Path) -> list[tuple[Any, ...]]:
    """The rows of all tables of a book, and which acts have which letters by its indexes of
    texts."""
    database = schema.connect(path, read_only=True)
    names = [name for name, in database.execute(TABLES)]
    found = [(name, *row) for name in names for row in database.execute(f'SELECT * FROM {name}')]
    for index in ('word', 'name'):
        database.execute(f'CREATE VIRTUAL TABLE temp.of_{index} '
                         f'USING fts5vocab (main, {index}, instance)')
        found += map(tuple, database.execute(f'SELECT term, doc FROM of_{index} '
                                             'ORDER BY term, doc'))
    database.close()
    return found


TABLES = """SELECT name FROM main.sqlite_master WHERE type = 'table' AND name NOT LIKE 'word%'
            AND name NOT LIKE 'name%' AND name NOT LIKE 'passed_%' AND name <> 'letters'
            ORDER BY name"""
"""Those that are the same however a book came to its rows."""
DEVICE = '500000000000000012'
PLANT = {'device': DEVICE, 'account': 1, 'country': 'DE', 'site': 'North', 'tech': 'T010000',
         'source': 'F01010100', 'capacity_w': 10 ** 9, 'support': 'none',
         'commissioned': '2020-01-01'}
