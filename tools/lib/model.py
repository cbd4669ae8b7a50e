"""What the registry has to answer and to show, by service/goo_service/rules and tools/lib/readings.py: for the tools that try the program by chance.

Both were written from docs/REGISTRY.md and docs/FORMATS.md, apart from the program. A Model reads bytes, carries out what they ask for, and gives each answer
byte for byte: outcomes of lines, reports of tables, responses over HTTP, statements, documents and the audit, and the rows that the tables have to have.
"""
import os
import re
import sqlite3
import sys
from contextlib import closing
from pathlib import Path

TOP = Path(__file__).resolve().parents[2]
sys.path.insert(0, os.environ.get('GOO_SERVICE', str(TOP / 'service')))
import mutations
import readings
from client import response
from goo_service.copies import expected
from goo_service.rules.certificates import PLACES
from goo_service.rules.certificates import join_runs
from goo_service.rules.commands import ISSUER
from goo_service.rules.lots import LOT
from goo_service.rules.refusals import Again
from goo_service.rules.refusals import Wrong
from goo_service.rules.registry import Registry
from goo_service.rules.replies import reply
from readings import Fault, compact

CODES = {name: int(code) for code, name in re.findall(r'^\| (\d+) \| `(\w+)` \|', (TOP / 'docs/REGISTRY.md').read_text(encoding='utf-8'), re.M)}
"""The number of each refusal, by the table of docs/REGISTRY.md."""


def outcome(word, **more):
    """The text of an outcome."""
    return compact({'outcome': word, **more}).encode()


def is_good(text):
    """Whether a request with this outcome was carried out, now or before."""
    return text.startswith((b'{"outcome":"accepted"', b'{"outcome":"repeated"'))


class Model:
    """A registry that was begun with a code, a day and a serial."""

    def __init__(self, code, today, next_serial=1):
        self.registry, self.receipts = Registry(code, today, next_serial), {}
        self.shown = None

    # requests

    def decided(self, caller, key, command):
        """The outcome of a request; one that is accepted is carried out."""
        text = compact(command)
        if (caller, key) in self.receipts:
            kept, answer = self.receipts[caller, key]
            return outcome('repeated', reply=reply(*answer)) if kept == text else self.refused('KeyReused')
        try:
            answer = self.registry.apply(caller, command)
        except Again as again:
            return outcome('repeated', reply=reply(*again.answer))
        except Wrong as wrong:
            return self.refused(wrong.refusal, wrong.number)
        self.receipts[caller, key], self.shown = (text, answer), None
        return outcome('accepted', reply=reply(*answer))

    @staticmethod
    def refused(name, number=None):
        return outcome('refused', code=CODES[name], name=name, **({} if number is None else {'number': f'{number:014}'}))

    def line(self, line):
        """The outcome of a line."""
        try:
            return self.decided(*readings.line_in(line))
        except Fault as fault:
            return outcome('unreadable', fault=str(fault))

    def run(self, lines):
        """What a run over lines ends with: status, standard output, standard error."""
        outcomes = [self.line(line) for line in lines]
        return int(not all(map(is_good, outcomes))), b''.join(one + b'\n' for one in outcomes), b''

    def row(self, caller, row):
        """What a row of a table of declarations came to."""
        if row is None:
            return 'unreadable'
        text = self.decided(caller, *row)
        found = re.match(rb'\{"code":(\d+),', text)
        return f'refused {int(found[1])}' if found else 'accepted' if text.startswith(b'{"outcome":"accepted"') else 'repeated'

    def declare(self, table, caller=ISSUER):
        """What an import of a table ends with: status, report, standard error."""
        rows = readings.table_in(table)
        if rows is None:
            return 1, b'', b'goo: header\n'
        came = [self.row(caller, row) for row in rows]
        return int(any(word.startswith(('refused', 'unreadable')) for word in came)), ''.join(f'{at} {word}\n' for at, word in enumerate(came, 1)).encode(), b''

    # texts

    def runs(self):
        """The longest runs of one lot and one place, made once after each change."""
        if self.shown is None:
            self.shown = self.registry.certificates.longest_runs()
        return self.shown

    def statement(self, account):
        """The statement of an account, or None where there is none."""
        if account not in self.registry.accounts:
            return None
        return expected.statement_text(self.registry, account, [run for run in self.runs() if run[3].account == account]).encode()

    def document(self, number):
        """The document of a cancellation, or None."""
        if number not in self.registry.cancellations:
            return None
        _, first, last, *_ = self.registry.cancellations[number]
        return expected.document_text(self.registry, number, join_runs(run[:3] for run in self.registry.certificates.within(first, last))).encode()

    def audit(self):
        return expected.audit_text(self.registry).encode()

    def notice(self, number):
        """The notice of an export, or None."""
        return self.registry.sent[number][1].encode() if number in self.registry.sent else None

    def certificate(self, number):
        """What is shown of a certificate, or None."""
        found = self.registry.certificates.within(number, number)
        if not found:
            return None
        _, _, lot, place = found[0]
        stated = readings.without_electricity({name: value for name, value in zip(LOT, lot)})
        return compact({'account': place.account, 'act': place.act, 'lot': stated, 'number': f'{number:014}', 'place': PLACES[place.kind]}).encode()

    def texts(self):
        """The audit and the statement of each account, as the program prints them."""
        return [(0, self.audit(), b''), *((0, self.statement(account), b'') for account in self.registry.accounts), (1, b'', b'goo: unknown account\n')]

    def rows(self):
        """The rows of each table, as recount reads them, and the kept requests."""
        kept = [(*of, text.encode(), *answer) for of, (text, answer) in self.receipts.items()]
        return {**{name: list(rows) for name, rows in expected.rows_of(self.registry).items()}, 'receipt': kept}

    # HTTP

    def holder_of(self, route, number):
        """Whose statement, document or notice it is."""
        act = {'cancellation': self.registry.cancellations, 'notice': self.registry.sent}.get(route, {}).get(number)
        return self.registry.holder_of(number if route == 'statement' else act[0] if act else None)

    def shown_to(self, caller, route, number):
        """The response to a read of what a number names."""
        if route == 'certificate':
            return self.certificate_shown_to(caller, number)
        if caller not in (ISSUER, self.holder_of(route, number)):
            return response(403)
        text = {'statement': self.statement, 'cancellation': self.document, 'notice': self.notice}[route](number)
        return response(404) if text is None else response(200, text, route == 'notice')

    def certificate_shown_to(self, caller, number):
        """The response to a read of a certificate."""
        if caller != ISSUER and caller not in self.registry.holders:
            return response(403)
        found = self.registry.certificates.within(number, number)
        is_seen = found and caller in (ISSUER, self.registry.holder_of(found[0][3].account))
        return response(200, self.certificate(number), True) if is_seen else response(404)

    def respond(self, request):
        """The response to the bytes of a connection."""
        asked = readings.request_in(request)
        if asked.status:
            return response(asked.status, allow=asked.allow, is_head=asked.is_head)
        if asked.route == 'requests':
            return self.applied(asked)
        if asked.route == 'declarations':
            status, report, told = self.declare(asked.body, asked.caller)
            return response(400) if told else response(200, report)
        if asked.route == 'audit':
            return response(200, self.audit()) if asked.caller == ISSUER else response(403)
        return self.shown_to(asked.caller, asked.route, int(asked.part))

    def applied(self, asked):
        """The response to a request."""
        text = self.line(asked.caller.encode() + b' ' + asked.body)
        found = re.match(rb'\{"code":(\d+),', text)
        status = (403 if int(found[1]) == CODES['NotAllowed'] else 409) if found else 200 if is_good(text) else 400
        return response(status, text, True)


def rows_in(file):
    """The rows of a registry's file as a model has them, the kept requests in their order."""
    with closing(sqlite3.connect(file)) as database:
        found = {name: database.execute(query).fetchall() for name, query in expected.ROWS.items()}
        found['receipt'] = database.execute('SELECT caller, key, command, kind, n1, n2, n3 FROM receipt ORDER BY rowid').fetchall()
    return found


def table_faults(name, wanted, found):
    """Where the rows of a table are not the wanted ones."""
    if found == wanted:
        return []
    return expected.table_faults(name, wanted, found) or (['in another order'] if name == 'receipt' else [])


def row_faults(rows, file):
    """Where the rows of a registry's file are not those of a model."""
    found = rows_in(file)
    return [f'table {name}: {fault}' for name, wanted in rows.items() for fault in table_faults(name, wanted, found[name])]


def requests_in(file):
    """How many accepted requests a registry's file keeps."""
    with closing(sqlite3.connect(file)) as database:
        return database.execute('SELECT count(*) FROM receipt').fetchone()[0]


def model_of(case):
    """The registry that a worked case begins with, and its lines."""
    return Model(mutations.CODE, mutations.TODAY, case.serial), readings.lines_in(case.requests)


def model_after(lines, kept, *begun):
    """A registry after the first so many of these lines that are accepted."""
    model = Model(*begun)
    for line in lines:
        if len(model.receipts) == kept:
            break
        model.line(line)
    return model
