"""What each route of the records answers, from one moment of the book."""
import functools
import sqlite3
from collections.abc import Callable
from collections.abc import Iterator
from urllib.parse import quote

from flask import Response
from flask import request

from goo_service.records import acts
from goo_service.records import certificates
from goo_service.records import documents
from goo_service.records import doubts
from goo_service.records import feed
from goo_service.records import folded
from goo_service.records import lists
from goo_service.records.attachments import Attachments
from goo_service.records.body import read_body
from goo_service.records.code_lists import lists_of
from goo_service.records.fates import fates_in
from goo_service.records.keys import key_of_seals
from goo_service.records.keys import keys_of_codes
from goo_service.records.keys import public_in
from goo_service.records.paper import Writer
from goo_service.records.parties import Parties
from goo_service.records.pdf import pdfs
from goo_service.records.places import Places
from goo_service.records.plan_papers import zip_of
from goo_service.records.plans import Planner
from goo_service.records.questions import Given
from goo_service.records.questions import Listed
from goo_service.records.questions import Row
from goo_service.records.questions import Viewer
from goo_service.records.questions import is_set
from goo_service.records.responses import Answer
from goo_service.records.responses import Few
from goo_service.records.responses import HEADERS
from goo_service.records.seal import add_seal

ListOf = Callable[[sqlite3.Connection, Viewer, Given], Listed]
OneOf = Callable[[sqlite3.Connection, Viewer, int], Answer]
OtherOf = Callable[[sqlite3.Connection, Viewer, Given], Answer]
PostedOf = Callable[[sqlite3.Connection, Viewer, Given, bytes], Row]


class Routes:
    """The answer of each route, by its name."""

    def __init__(self, places: Places, shows_directory: bool, files: Few) -> None:
        self.folder, self.exchange, self.etc = places.folder, places.exchange, places.etc
        self.parties = Parties(places.exchange, shows_directory)
        self.kept = Attachments(places.attachments)
        self.files = files
        self.papers = Few(1, 'another document is being made: ask again in some seconds')
        self.lists: dict[str, ListOf] = {
            'acts': acts_of, 'holdings': certificates.holdings,
            'deadlines': certificates.deadlines, 'choice': certificates.choice,
            'holders': lists.holders, 'withdrawals': lists.withdrawals,
            'statistics': lists.statistics, 'undeclared': doubts.undeclared_months,
            'directory': self.parties.directory,
            **{name: functools.partial(lists.fetch_list, name) for name in lists.LISTS},
            'notices': self.notices, 'attachments': self.attachments}
        self.ones: dict[str, OneOf] = {
            'acts': acts.act, 'certificates': certificates.certificate,
            'cancellations': self.cancellation, 'attachments': self.attachment}
        self.others: dict[str, OtherOf] = {
            'status': self.status, 'documents': self.documents, 'party': self.party,
            'papers': self.table_papers}
        self.planner = Planner()
        self.posted: dict[str, PostedOf] = {'doubts': doubts.doubts, 'plan': self.plan}

    @property
    def maker(self) -> documents.Maker:
        """Who makes documents and their check codes, by the keys that are there at the moment."""
        public = self.etc / 'documents.pub'
        return documents.Maker(keys_of_codes(self.etc, self.folder), self.writer,
                               public_in(public) if public.exists() else '')

    def writer(self, language: str) -> Writer:
        """Who writes documents, by what the issuing body says of itself at the moment."""
        return Writer(language, read_body(self.etc), lists_of(self.etc))

    def notices(self, database: sqlite3.Connection, viewer: Viewer, given: Given) -> Listed:
        """Notices with what became of them, as far as the exchange wrote it; null where it did
        not."""
        fates = fates_in(self.exchange)
        found = lists.fetch_list('notices', database, viewer, given)
        rows = ({**row, 'fate': fates.get((row['sent'], row['peer'], row['number']))}
                for row in found.rows)
        return Listed((*found.columns, 'fate'), rows, found.beside)

    def cancellation(self, database: sqlite3.Connection, viewer: Viewer, number: int) -> Row:
        return documents.render_document(database, viewer, number, self.maker.keys[0])

    def documents(self, database: sqlite3.Connection, viewer: Viewer,
                  given: Given) -> Row | Response:
        """A document, as data or as a PDF. While a PDF is rendered, the book is not read."""
        made = documents.render_documents(database, viewer, given, self.maker)
        if given.get('format') != 'pdf':
            return made
        database.close()
        return self.pdf(made['paper'])

    def pdf(self, paper: Row) -> Response:
        """A document as a PDF with its seal. Each process renders one at a time, as one of its few
        files."""
        key = key_of_seals(self.etc)
        with self.papers:
            made, = self.files.parts(pdfs([paper]))
        name = f'document-{paper["number"].replace(",", "_")[:60]}.pdf'
        fields = {**HEADERS, 'Content-Disposition': f'attachment; filename="{name}"'}
        return Response(add_seal(made, paper['number'], paper['code'], key), 200, fields,
                        content_type='application/pdf')

    def status(self, _: sqlite3.Connection, viewer: Viewer, __: Given) -> Row:
        """Who looks, and whether he sees the directory."""
        return {'caller': viewer.caller, 'directory': self.parties.is_shown or viewer.sees_all,
                'attachments': self.kept.is_there() and viewer.only is None}

    def party(self, database: sqlite3.Connection, viewer: Viewer, given: Given) -> Row:
        user = request.headers.get('GOO-User') or viewer.caller
        return self.parties.party(database, viewer, given, user)

    def plan(self, database: sqlite3.Connection, viewer: Viewer, given: Given,
             body: bytes) -> Row:
        """What a table of transfers or cancellations comes to."""
        def pair(account: int, holder: str) -> Row:
            return self.party(database, viewer, {'account': str(account), 'holder': holder})

        return self.planner.plan(database, viewer, given, body, pair)

    def table_papers(self, database: sqlite3.Connection, viewer: Viewer,
                     given: Given) -> Response:
        """The documents of a table that was sent, in a ZIP."""
        def parts() -> Iterator[bytes]:
            yield zip_of(database, viewer, given, self.maker)

        whole = b''.join(self.files.parts(parts()))
        name = f'documents-{given["table"]}.zip'
        fields = {**HEADERS, 'Content-Disposition': f'attachment; filename="{name}"'}
        return Response(whole, 200, fields, content_type='application/zip')

    def attachments(self, _: sqlite3.Connection, viewer: Viewer, given: Given) -> Listed:
        return self.kept.fetch_page(viewer, given)

    def attachment(self, _: sqlite3.Connection, viewer: Viewer, number: int) -> Response:
        """A document that was brought over. A browser saves it, and never opens it here."""
        found, content = self.kept.content(viewer, number)
        name = quote(found.file, safe='')
        fields = {**HEADERS, 'Content-Disposition': f"attachment; filename*=UTF-8''{name}"}
        return Response(content, 200, fields, content_type='application/octet-stream')


def acts_of(database: sqlite3.Connection, viewer: Viewer, given: Given) -> Listed:
    """Acts: the newest first, with each bundle as one row where that is asked for, or as they come
    after an entry."""
    feed.seconds_of(given)
    if 'after' in given:
        return feed.acts(database, viewer, given)
    if is_set(given, 'folded'):
        return folded.acts(database, viewer, given)
    return acts.acts(database, viewer, given)
