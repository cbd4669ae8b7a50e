"""Tables of transfers and cancellations, looked at before they are sent: what each row takes of an
account, what is wrong with it, and whether the very table was sent before.

The keys of a table's requests are made of its content, the account and the act. So a table that is
sent twice is carried out once: what was sent is found by its keys, and what is under way is refused
or repeated by the registry.
"""
import base64
import bisect
import hashlib
import itertools
import json
import sqlite3
import threading
from collections.abc import Callable
from collections.abc import Iterator
from collections.abc import Sequence
from dataclasses import dataclass
from dataclasses import field
from typing import Any

from goo_service.records.certificates import ACTS
from goo_service.records.certificates import RUNS
from goo_service.records.certificates import TODAY
from goo_service.records.parties import TooMany
from goo_service.records.plan import Fault
from goo_service.records.plan import Plan
from goo_service.records.plan import Run
from goo_service.records.plan import Span
from goo_service.records.plan import make_plan
from goo_service.records.plan import size
from goo_service.records.plan_file import MOST_ROWS
from goo_service.records.plan_file import Unreadable
from goo_service.records.plan_file import columns_of
from goo_service.records.plan_file import records_of
from goo_service.records.plan_words import CANCEL
from goo_service.records.plan_words import COMMANDS
from goo_service.records.plan_words import OWN
from goo_service.records.plan_words import TRANSFER
from goo_service.records.plan_words import Line
from goo_service.records.plan_words import column_of
from goo_service.records.plan_words import read_line
from goo_service.records.questions import ALL
from goo_service.records.questions import BadQuestion
from goo_service.records.questions import Busy
from goo_service.records.questions import Given
from goo_service.records.questions import NotFound
from goo_service.records.questions import Row
from goo_service.records.questions import Viewer
from goo_service.records.questions import number_of
from goo_service.records.questions import rows_of
from goo_service.rules.certificates import HELD

LINES, BYTES = 4000, 1_000_000
"""Requests of one table, and their bytes: a bundle takes a few more (log/bundles.py)."""
MOST_RUNS = 100_000
"""Runs of an account among which is chosen."""
MOST_FAULTS = 500
DIGEST = 20
"""Letters of a table's digest: 100 bits."""
NEVER = '9999-12-31'
DEADLINES = {TRANSFER: 'trade_until', CANCEL: 'expires_on'}


@dataclass(frozen=True)
class Table:
    """A table of one command over one account, as it was read."""

    command: str
    account: int
    lines: list[Line]
    faults: list[Fault]

    @property
    def digest(self) -> str:
        """Its content in few letters, whatever the file's form."""
        content = [self.command, self.account,
                   [sorted(line.given.items()) for line in self.lines]]
        text = json.dumps(content, ensure_ascii=False, separators=(',', ':'))
        letters = base64.b32encode(hashlib.sha256(text.encode()).digest()).decode().lower()
        return letters[:DIGEST]


def prefix_of(digest: str) -> str:
    """What the keys of a table's requests begin with. Row and part follow."""
    return f't.{digest}.'


def table_of(command: str, account: int, body: bytes) -> Table:
    """The table in a file."""
    table = Table(command, account, [], [])
    try:
        head, *records = records_of(body)
    except Unreadable as fault:
        table.faults.append(Fault(0, 'file', str(fault), wanted=MOST_ROWS))
        return table
    names = [column_of(text) for text in head]
    table.faults.extend(columns_of(head, names, OWN[command]))
    if not table.faults and not records:
        table.faults.append(Fault(0, 'file', 'empty'))
    if table.faults:
        return table
    for row, record in enumerate(records, 1):
        fields = {name: text for name, text in zip(names, [*record, *[''] * len(names)]) if name}
        if len(record) > len(names) and any(record[len(names):]):
            table.faults.append(Fault(row, 'row', 'longer', len(record), len(names)))
        elif not any(record):
            table.faults.append(Fault(row, 'row', 'empty'))
        table.lines.append(read_line(row, fields, command, table.faults))
    return table


# -------------------------------------------------------------------- against the book

def runs_of(database: sqlite3.Connection, command: str, account: int) -> list[Run]:
    """What the act can take of an account."""
    deadline = DEADLINES[command]
    is_open = (f'(lot.trade_until IS NULL OR lot.trade_until >= {TODAY})'
               if ACTS[command] == 'tradable' else 'TRUE')
    found = database.execute(f'''
        SELECT run.first, run.last, coalesce(lot.{deadline}, '{NEVER}'), lot.tech, lot.source,
               lot.country, lot.device, substr(lot.first_day, 1, 7), lot.last_day
        {RUNS} WHERE run.account = ? AND run.kind = {HELD} AND {is_open} LIMIT ?''',
                             (account, MOST_RUNS + 1)).fetchall()
    if len(found) > MOST_RUNS:
        raise BadQuestion(f'account {account} has more than {MOST_RUNS:,} runs: choose by hand')
    return [Run(*row) for row in found]


PairOf = Callable[[int, str], Row]
"""Whether an account and a holder's code fit. TooMany where no more pairs are looked at."""


@dataclass(frozen=True)
class Question:
    """A table that is asked about."""

    database: sqlite3.Connection
    viewer: Viewer
    table: Table
    pair: PairOf

    def answer(self) -> Row:
        """What the table comes to."""
        table = self.table
        earlier = [] if table.faults else fetch_outcomes(self.database, self.viewer, table.digest)
        known: dict[str, Any] = {
            'digest': table.digest, 'command': table.command, 'account': table.account,
            'sent': earlier, 'rows': [], 'faults': [], 'requests': 0, 'more': 0}
        if earlier or any(not fault.row for fault in table.faults):
            faults = table.faults[:MOST_FAULTS]
            return {**known, 'faults': list(map(render_fault, faults))}
        wrong = {fault.row for fault in table.faults}
        wants = [line.want for line in table.lines if line.row not in wrong]
        runs = runs_of(self.database, table.command, table.account)
        plan = make_plan(runs, wants)
        names = self.names(wrong) if table.command == TRANSFER else {}
        faults = [*table.faults, *plan.faults, *(of for of in names.values()
                                                 if isinstance(of, Fault))]
        count = sum(map(len, plan.ranges.values()))
        if count > LINES or self.size(plan) > BYTES:
            faults.append(Fault(0, 'file', 'requests', count, LINES))
        faults.sort(key=lambda fault: fault.row)
        ordered = sorted(runs, key=lambda run: run.first)
        return {**known, 'faults': [render_fault(fault) for fault in faults[:MOST_FAULTS]],
                'more': max(0, len(faults) - MOST_FAULTS), 'requests': count,
                'rows': [self.row(line, plan, ordered, names.get(line.row))
                         for line in table.lines]}

    def names(self, wrong: set[int]) -> dict[int, Row | Fault]:
        """Of each row of a transfer its taker, or what is wrong with it. Once too many pairs are
        wrong no more are looked at."""
        found: dict[int, Row | Fault] = {}
        asked: dict[tuple[int, str], Row | Fault] = {}
        for line in self.table.lines:
            pair = line.whole('account'), line.text('holder')
            if line.row not in wrong:
                if pair not in asked:
                    asked[pair] = self.pair_of(line.row, *pair)
                of = asked[pair]
                found[line.row] = (Fault(line.row, of.field, of.kind, value=of.value)
                                   if isinstance(of, Fault) else of)
        return found

    def pair_of(self, row: int, account: int, holder: str) -> Row | Fault:
        if account == self.table.account:
            return Fault(row, 'account', 'same', value=str(account))
        try:
            found = self.pair(account, holder)
        except TooMany:
            return Fault(row, 'holder', 'unseen', value=holder)
        if not found['fits']:
            return Fault(row, 'holder', 'pair', value=holder)
        return Fault(row, 'account', 'closed', value=str(account)) if found['closed'] else found

    def row(self, line: Line, plan: Plan, runs: Sequence[Run], taker: Row | Fault | None) -> Row:
        """A row as it is shown: what it wants, and what it gets."""
        spans = plan.ranges.get(line.row, [])
        made = list(periods(runs, spans))
        given = {name: value for name, value in line.given.items() if name != 'ranges'}
        return {'row': line.row, **given,
                'name': taker['name'] if isinstance(taker, dict) else None,
                'wanted': line.whole('quantity') or size(line.ranges), 'count': size(spans),
                'ranges': [{'first': first, 'last': last} for first, last in spans],
                'produced': ([min(of for of, _ in made), max(of for _, of in made)]
                             if made else None)}

    def size(self, plan: Plan) -> int:
        """Bytes of the requests, about."""
        texts = {line.row: len(json.dumps(line.text('beneficiary'))) for line in self.table.lines}
        return sum(len(spans) * (250 + texts[row]) for row, spans in plan.ranges.items())


def periods(runs: Sequence[Run], spans: Sequence[Span]) -> Iterator[tuple[str, str]]:
    """First and last day, to the month, of what some ranges have."""
    for first, last in spans:
        at = max(0, bisect.bisect_right(runs, first, key=lambda run: run.first) - 1)
        reach = itertools.takewhile(lambda run: run.first <= last, itertools.islice(runs, at, None))
        yield from ((f'{run.month}-01', run.last_day) for run in reach if first <= run.last)


def render_fault(fault: Fault) -> Row:
    """A fault as it is shown."""
    return {'row': fault.row, 'field': fault.field, 'kind': fault.kind, 'there': fault.there,
            'wanted': fault.wanted, 'other': fault.other, 'value': fault.value}


# -------------------------------------------------------------------- what was sent

def fetch_outcomes(database: sqlite3.Connection, viewer: Viewer, digest: str) -> list[Row]:
    """What came of a table that was sent: its rows, each with the numbers of its cancellations."""
    begin = prefix_of(digest)
    whose, values = ALL if viewer.sees_all else ('act.caller = ?', (viewer.caller,))
    seen, more = viewer.of_acts()
    acts = rows_of(database, f'''
        SELECT act.key, act.number, act.kind, act.entry, act.day FROM act
        WHERE act.key >= ? AND act.key < ? AND act.outcome = 'accepted' AND {whose}
        AND ({seen}) ORDER BY act.id''', (begin, f'{begin[:-1]}/', *values, *more))
    rows: dict[int, Row] = {}
    for act in acts:
        number = act['key'].removeprefix(begin).partition('.')[0]
        if number.isascii() and number.isdigit():
            row = rows.setdefault(int(number), {'row': int(number), 'entry': act['entry'],
                                                'day': act['day'], 'numbers': []})
            row['numbers'] += [act['number']] if act['kind'] == 'cancellation' else []
    return [rows[number] for number in sorted(rows)]


@dataclass
class Planner:
    """Looks at one table at a time in each process."""

    lock: threading.Lock = field(default_factory=threading.Lock)

    def plan(self, database: sqlite3.Connection, viewer: Viewer, given: Given, body: bytes,
             pair: PairOf) -> Row:
        """The plan of a table."""
        command, account = given.get('command') or CANCEL, number_of(given, 'account', 10 ** 9, 1)
        if command not in COMMANDS:
            raise BadQuestion(f'command is {command!r}, and not one of {", ".join(COMMANDS)}')
        if account is None:
            raise BadQuestion('account is wanted')
        if account not in (viewer.accounts(database) or ()):
            raise NotFound(f'no account {account} of yours')
        if not self.lock.acquire(blocking=False):
            raise Busy('another table is being looked at: send it again in some seconds')
        try:
            return Question(database, viewer, table_of(command, account, body), pair).answer()
        finally:
            self.lock.release()
