"""The records of acts over HTTP, for the page and for programs: read-only, behind the front door.
docs/RECORDS.md has the routes.

gunicorn runs `application()`. The front door names the caller by GOO-Caller, as it does for the
registry, and nothing else reaches this service's socket. GOO_RECORDS names the folder with the book
and the key of check codes, GOO_EXCHANGE the file in which the exchange writes what became of
notices, GOO_ETC the folder with what the issuing body says of itself, GOO_ATTACHMENTS the folder of
documents that were brought over, GOO_RECORDS_DIRECTORY says whether holders see whose accounts
there are.
"""
import contextlib
import functools
import re
import sqlite3
import sys
import time
from collections.abc import Callable
from pathlib import Path

from flask import Flask
from flask import Response
from flask import request

from goo_service.log.bounds import BODY
from goo_service.log.narrowed import Accounts
from goo_service.log.narrowed import accounts_in
from goo_service.records import documents
from goo_service.records import feed
from goo_service.records import known
from goo_service.records.parameters import parameters_of
from goo_service.records.parties import TooMany
from goo_service.records.pdf import NotRendered
from goo_service.records.places import Places
from goo_service.records.places import shows_directory
from goo_service.records.questions import BadQuestion
from goo_service.records.questions import Busy
from goo_service.records.questions import FILES
from goo_service.records.questions import Given
from goo_service.records.questions import Listed
from goo_service.records.questions import Viewer
from goo_service.records.questions import standing
from goo_service.records.responses import Answer
from goo_service.records.responses import BUSY
from goo_service.records.responses import FAULTS
from goo_service.records.responses import Few
from goo_service.records.responses import HEADERS
from goo_service.records.responses import STATUSES
from goo_service.records.responses import file_response
from goo_service.records.responses import reply
from goo_service.records.routes import Routes
from goo_service.records.routes import acts_of
from goo_service.records.schema import Mismatch
from goo_service.records.schema import read_moment
from goo_service.records.timed import LIMITS
from goo_service.records.timed import Limits
from goo_service.records.timed import Timed
from goo_service.rules.certificates import PLACES
from goo_service.rules.commands import ISSUER

PAGES = (Path(__file__).resolve().parents[3] / 'docs/records.yaml',
         Path('/usr/share/goo/api/records.yaml'))
CALLER = re.compile(r'[A-Z0-9][A-Z0-9_-]{0,15}')


def viewer_of_request() -> Viewer | None:
    """Who looks; None where the front door does not say."""
    callers = request.headers.getlist('GOO-Caller')
    is_known = len(callers) == 1 and (callers[0] == ISSUER or CALLER.fullmatch(callers[0]))
    return Viewer(callers[0], accounts_of_request()) if is_known else None


def accounts_of_request() -> Accounts:
    """The accounts that he may read, where they are not all of his holder."""
    fields = request.headers.getlist('GOO-Accounts')
    return accounts_in(','.join(fields)) if len(fields) < 2 else frozenset()


def with_viewer(viewer: Viewer, answer: Callable[[sqlite3.Connection, Viewer, Given], Answer],
                database: sqlite3.Connection, given: Given) -> Answer:
    return answer(database, viewer, given)


class Service:
    """Answers requests, each from one moment of the present book."""

    def __init__(self, places: Places, limits: Limits = LIMITS,
                 shows_directory: bool = True) -> None:
        self.places, self.limits = places, limits
        self.files = Few(limits.files, 'other files are being written: ask again in some seconds')
        self.waiting = feed.Waiting(limits.waiting)
        self.routes = Routes(places, shows_directory, self.files)

    def book(self, end: float) -> Timed:
        """One moment of the present book, for one answer that has time until then."""
        database = read_moment(self.places.folder / 'current', Timed)
        assert isinstance(database, Timed)
        database.create_function('PLACE', 1, PLACES.get, deterministic=True)
        database.set_end(end)
        return database

    def for_viewer(self, name: str,
                   answer: Callable[[sqlite3.Connection, Viewer, Given], Answer]) -> Response:
        """The answer of a route to whoever is signed in, or the error that it came to."""
        viewer = viewer_of_request()
        if viewer is None:
            return reply(403, {'error': 'nobody is signed in'})
        return self.for_anybody(name, functools.partial(with_viewer, viewer, answer))

    def for_anybody(self, name: str,
                    answer: Callable[[sqlite3.Connection, Given], Answer]) -> Response:
        """The answer of a route, or the error that it came to. Its book is closed once it is
        sent."""
        kind = request.args.get('format') or ''
        is_file = name == 'papers' or kind in (*FILES, 'pdf')
        seconds = self.limits.file if is_file else self.limits.question
        try:
            given = parameters_of(name, request.args)
            database = self.book(time.monotonic() + seconds)
        except BadQuestion as error:
            return reply(400, {'error': str(error)})
        except (sqlite3.Error, Mismatch, OSError):
            return reply(503, {'error': 'the records are being made'}, **BUSY)
        try:
            tag = known.tag_of(name, database, self.places.exchange)
            if known.is_known(tag):
                response = Response(status=304, headers={**HEADERS, 'ETag': tag})
            else:
                response = self.response(answer(database, given), database, name, given)
                known.add_tag(response, tag)
        except FAULTS as error:
            response = self.failure(error, database.is_late(), seconds)
        except BaseException:
            database.close()
            raise
        response.call_on_close(database.close)
        return response

    def failure(self, error: Exception, is_late: bool, seconds: float) -> Response:
        """The answer where there is none."""
        if status := STATUSES.get(type(error)):
            wait = {'Retry-After': str(error.wait)} if isinstance(error, TooMany) else {}
            return reply(status, {'error': str(error)}, **wait)
        if isinstance(error, Busy | NotRendered):
            return reply(503, {'error': str(error)}, **BUSY)
        if is_late:
            text = (f'the answer takes longer than {seconds:g} s: ask for less, for example for '
                    'one account, one kind of act or some days')
            return reply(503, {'error': text}, **BUSY)
        print(f'records: {self.places.folder / "current"}: {error}', file=sys.stderr, flush=True)
        return reply(503, {'error': 'the records cannot be read'})

    def response(self, answer: Answer, database: sqlite3.Connection, name: str,
                 given: Given) -> Response:
        """An answer as it is sent: JSON, or for a list a file."""
        if isinstance(answer, Response):
            return answer
        if not isinstance(answer, Listed):
            return reply(200, {'stands': standing(database), **answer})
        if given.get('format') in FILES:
            about = {'list': name, **given, **standing(database)}
            return file_response(answer, about, self.files)
        found = list(answer.rows)
        return reply(200, {'stands': standing(database), 'items': found, **answer.beside(found)})

    def answer_list(self, name: str) -> Response:
        """The answer of a list, or of another route without a number."""
        if name == 'acts' and request.args.get('wait'):
            return self.answer_feed()
        answer = self.routes.lists.get(name) or self.routes.others.get(name)
        if answer is None:
            return reply(404, {'error': f'there is no list {name}'})
        return self.for_viewer(name, answer)

    def answer_feed(self) -> Response:
        """Acts after an entry. Where there is none, the answer is held back for a while."""
        try:
            seconds = feed.seconds_of(parameters_of('acts', request.args))
        except BadQuestion as error:
            return reply(400, {'error': str(error)})
        until = time.monotonic() + seconds
        user = request.headers.get('GOO-User') or request.headers.get('GOO-Caller') or ''
        try:
            with self.waiting.one(user):
                return self.hold_back(until)
        except feed.TooMany:
            text = f'{user} waits already, or {self.limits.waiting} others do: ask again later'
            return reply(503, {'error': text}, **BUSY)

    def hold_back(self, until: float) -> Response:
        """The answer, once it has an act or the time is over."""
        while True:
            seen = self.entry()
            response = self.for_viewer('acts', acts_of)
            if not says_nothing(response) or not feed.wait_for_entry(self.entry, seen, until):
                return response
            response.close()

    def entry(self) -> int | None:
        """That by which the book stands; None while there is none."""
        try:
            with contextlib.closing(self.book(time.monotonic() + 1)) as database:
                return int(standing(database)['entry'])
        except FAULTS:
            return None

    def table(self, name: str) -> Response:
        """The answer to a table that is sent to be looked at. Nothing of it is kept."""
        if name not in self.routes.posted:
            return reply(405, {'error': 'the records are only read'})
        if (request.content_length or 0) > BODY:
            return reply(413, {'error': f'a table has {BODY:,} bytes at most'})
        body = request.get_data(cache=False)
        return self.for_viewer(name, lambda database, viewer, given:
                               self.routes.posted[name](database, viewer, given, body))

    def verify(self) -> Response:
        """The public check: whether number and code belong together."""
        def answer(database: sqlite3.Connection, given: Given) -> Response:
            found = documents.verify_document(database, given, self.routes.maker)
            if found is None:
                text = ('this file is not as the registry sealed it' if given.get('seal') else
                        'number and code do not belong together')
                return reply(404, {'valid': False, 'error': text})
            return reply(200, {'valid': True, **found})

        return self.for_anybody('verify', answer)

    def public_key(self) -> Response:
        """The key by which anybody sees that a PDF is as the registry sealed it."""
        try:
            parameters_of('verify/key', request.args)
        except BadQuestion as error:
            return reply(400, {'error': str(error)})
        path = self.places.etc / 'documents.pub'
        if not path.exists():
            return reply(404, {'error': 'this registry has no key of documents'})
        return Response(path.read_bytes(), 200, HEADERS, content_type='application/x-pem-file')


def says_nothing(response: Response) -> bool:
    """Whether an answer has no act, or none that is not known."""
    status = response.status_code
    return status == 304 or status == 200 and b'"items":[]' in response.data[:400]


def description() -> Response:
    """The description of the routes."""
    try:
        parameters_of('openapi.yaml', request.args)
    except BadQuestion as error:
        return reply(400, {'error': str(error)})
    page = next((page for page in PAGES if page.is_file()), None)
    if page is None:
        return reply(404, {'error': 'there is no description here'})
    return Response(page.read_bytes(), 200, HEADERS, content_type='application/yaml')


def application(folder: Path | None = None, exchange: Path | None = None,
                limits: Limits = LIMITS, etc: Path | None = None,
                attachments: Path | None = None) -> Flask:
    """The service as a WSGI application."""
    places = Places.of_unit(folder, exchange, etc, attachments)
    service = Service(places, limits, shows_directory())
    app = Flask('goo-records', static_folder=None)

    @app.get('/records/v1/<name>')
    def a_list(name: str) -> Response:
        return service.answer_list(name)

    @app.get('/records/v1/<name>/<int:number>')
    def one(name: str, number: int) -> Response:
        if number >= 10 ** 15:
            return reply(404, {'error': f'there is no number {number}'})
        if name not in service.routes.ones:
            return reply(404, {'error': f'there is no {name}'})
        return service.for_viewer(f'{name}/NUMBER', lambda database, viewer, _:
                                  service.routes.ones[name](database, viewer, number))

    @app.post('/records/v1/<name>')
    def a_table(name: str) -> Response:
        return service.table(name)

    app.get('/records/v1/openapi.yaml')(description)
    app.get('/verify')(service.verify)
    app.get('/verify/key')(service.public_key)
    app.register_error_handler(404, missing)
    app.register_error_handler(405, not_allowed)
    return app


def missing(_: Exception) -> Response:
    return reply(404, {'error': f'there is no {request.path}'})


def not_allowed(_: Exception) -> Response:
    return reply(405, {'error': 'the records are only read'})
