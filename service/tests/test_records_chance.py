"""Every answer of the records held against the registry itself, over requests by chance.

The requests go to the program, and into an archive as the log writes one. The book is made of that
archive. Audit, statements, documents and certificates of the program are compared with what the
service answers; lives, deadlines and choices with what the requests themselves say.
--seed N and --acts N choose the requests.
"""
import collections
import csv
import datetime
import io
import json
import random
import re
from collections.abc import Iterator
from dataclasses import dataclass
from pathlib import Path
from typing import Any

import pytest
from acts_by_chance import ACCOUNTS
from acts_by_chance import BEYOND
from acts_by_chance import CODE
from acts_by_chance import OWN
from acts_by_chance import REQUESTS
from acts_by_chance import Requests
from acts_by_chance import Service
from acts_by_chance import TODAY
from acts_by_chance import follow
from archives import make_archive
from client import answered
from client import request
from goo_service.log import reader
from goo_service.log import entries
from goo_service.records import acts as acts_module
from goo_service.rules.certificates import PLACES
from goo_service.rules.commands import ISSUER
from programs import find_registry
import viewers
from viewers import has_text

TOP = Path(__file__).resolve().parents[2]
PATIENCE = 300
GROUPS = ('lot', 'account', 'tech', 'source', 'country', 'carrier', 'device', 'month',
          'trade_until', 'expires_on', 'origin')
IMPORTED = 40
Row = dict[str, Any]


@dataclass
class Truth:
    """What the program itself answers, asked while it still runs."""

    port: int

    def __post_init__(self) -> None:
        self.audit = self.get('/v1/audit')[1]
        self.statements = {account: self.get(f'/v1/accounts/{account}/statement')[1]
                           for account in ACCOUNTS}
        self.documents: dict[int, str] = {}
        while (of := self.get(f'/v1/cancellations/{len(self.documents) + 1}'))[0] == 200:
            self.documents[len(self.documents) + 1] = of[1]
        issued = sum(int(line.split()[3]) for line in self.audit.splitlines())
        chance = random.Random(1)
        numbers = sorted({f'{OWN + chance.randint(1, issued):014}' for _ in range(200)})
        self.certificates = {number: json.loads(self.get(f'/v1/certificates/{number}')[1])
                             for number in numbers}

    def get(self, path: str) -> tuple[int, str]:
        came = answered(self.port, request(target=path), patience=PATIENCE)
        return came.status, came.body.decode()


@dataclass(frozen=True)
class Made:
    """The service over a book, the entries of its archive, and what the program says."""

    service: Service
    records: list[entries.Record]
    truth: Truth


@pytest.fixture(scope='module')
def made(tmp_path_factory: pytest.TempPathFactory, pytestconfig: pytest.Config) -> Made:
    folder = tmp_path_factory.mktemp('records')
    seed, acts = pytestconfig.getoption('--seed'), pytestconfig.getoption('--acts')
    print(f'seed {seed}')
    truth: list[Truth] = []
    make_archive(find_registry(), folder / 'archive', Requests(seed).all(acts), code=CODE,
                 today=TODAY, then=lambda port: truth.append(Truth(port)))
    follow(folder / 'archive', folder / 'book')
    records = list(reader.read_archive(folder / 'archive'))
    return Made(Service(folder / 'book'), records, truth[0])


# ------------------------------------------------------------------ the program

def test_the_devices_add_up_to_the_audit(made: Made) -> None:
    columns = ('gsrn', 'declared_wh', 'corrected_wh', 'issued', 'withdrawn', 'carry_wh')
    lines = [' '.join(str(of[column]) for column in columns)
             for of in made.service.items(ISSUER, 'devices')]
    assert lines == made.truth.audit.splitlines()


def line_of(run: Row, place: str) -> str:
    """A run of a list of holdings as a line of a statement."""
    return (f'{run["first"]} {run["last"]} {run["count"]:12} {run["device"]} {run["first_day"]} '
            f'{run["last_day"]} {run["tech"]} {run["source"]} {place}')


def runs_of(lines: list[str]) -> list[tuple[int, int, list[str]]]:
    """The runs of each lot in each place, joined where they follow each other."""
    joined: list[tuple[int, int, list[str]]] = []
    for line in sorted(lines):
        first, last, _, *rest = line.split()
        if joined and int(first) == joined[-1][1] + 1 and joined[-1][2] == rest:
            joined[-1] = (joined[-1][0], int(last), rest)
        else:
            joined.append((int(first), int(last), rest))
    return joined


@pytest.mark.parametrize('account', ACCOUNTS)
def test_an_account_has_the_runs_and_the_sums_of_its_statement(made: Made, account: int) -> None:
    holder, text = ACCOUNTS[account], made.truth.statements[account].splitlines()
    lines = [line_of(run, place) for place in PLACES.values()
             for run in made.service.items(holder, 'holdings', by='run', account=account,
                                           place=place)]
    told = [line for line in text if line[:2].isdigit()]
    wanted = [line.rsplit(':', 1)[0] if ':' in line.split()[-1] else line for line in told]
    assert runs_of(lines) == runs_of(wanted)
    sums = [(place, made.service.answer(ISSUER, 'holdings', account=account, place=place))
            for place in PLACES.values()]
    assert [f'{place} {of["sum"]["count"]}' for place, of in sums] == text[-6:-1]


def test_documents_are_those_of_the_registry_and_their_code_alone_serves(made: Made) -> None:
    def verifies(number: int, code: str) -> bool:
        return made.service.ask(None, '/verify', number=number, code=code)[0] == 200

    documents = made.truth.documents
    assert len(documents) > 1
    for number, text in documents.items():
        of = made.service.answer(ISSUER, f'cancellations/{number}')
        code = of['code']
        assert of['text'] == text and verifies(number, code)
        assert not verifies(number, code.replace(code[0], 'B' if code[0] == 'A' else 'A', 1))
        assert not verifies(number % len(documents) + 1, code)


def test_a_certificate_has_the_place_that_the_registry_tells(made: Made) -> None:
    assert made.truth.certificates
    for number, of in made.truth.certificates.items():
        shown = made.service.answer(ISSUER, f'certificates/{int(number)}')
        seen = [shown[name] for name in ('account', 'place', 'act_number', 'device')]
        assert seen == [of['account'], of['place'], of['act'], of['lot']['device']], number


# ------------------------------------------------------------------ the requests

def test_each_request_is_an_act_with_its_outcome_and_a_repeated_one_is_none(made: Made) -> None:
    heard = [record for record in made.records if record.entry.role == 'full']
    told = collections.Counter(json.loads(record.outcome.body)['outcome'] for record in heard
                               if record.entry.route == REQUESTS)
    tables = [record.outcome.body.decode() for record in heard if record.entry.route != REQUESTS]
    told.update(line.split()[1] for text in tables for line in text.splitlines())
    acts = made.service.items(ISSUER, 'acts')
    shown = collections.Counter(act['outcome'] for act in acts
                                if act['kind'] != 'expiry' and act['refusal'] != 'Role')
    assert told.pop('repeated') and told == shown
    for act in acts:
        entry = made.records[act['entry'] - 1].entry
        assert [act[name] for name in ('user', 'role', 'way', 'confirmed', 'time', 'caller')] == [
            entry.user, entry.role, entry.way or None, entry.confirmed or None, entry.time,
            entry.caller]


def test_what_a_role_did_not_allow_is_told_as_that(made: Made) -> None:
    """Who tried what, when, and by which role; none of it is unreadable."""
    kinds = dict(BEYOND)
    tried = [record.entry for record in made.records if record.entry.role != 'full']
    wanted = [(of.n, kinds[of.user, of.caller, of.route, of.body, of.role], 'refused', 0, of.user,
               of.role, of.time) for of in tried]
    columns = ('entry', 'kind', 'outcome', 'count', 'user', 'role', 'time')
    shown = [tuple(act[name] for name in columns)
             for act in reversed(made.service.items(ISSUER, 'acts', refusal='Role'))]
    assert shown == wanted and len({kind for _, kind, *_ in wanted}) > 6
    text = made.service.text(ISSUER, 'acts', refusal='Role', format='csv')
    rows = reversed(list(csv.DictReader(io.StringIO(text, newline=''))))
    assert [(int(row['entry']), row['outcome'], row['refusal'], row['user'], row['role'])
            for row in rows] == [(of.n, 'refused', 'Role', of.user, of.role) for of in tried]
    assert not [act for act in made.service.items(ISSUER, 'acts', outcome='unreadable')
                if '403' in (act['refusal'] or '')]


def is_named(record: entries.Record, number: int) -> bool:
    """Whether an accepted request names a range with this certificate in it."""
    if record.entry.route != REQUESTS or b'"accepted"' not in record.outcome.body:
        return False
    of = json.loads(record.entry.body)
    if of['command'] not in ('transfer', 'cancel', 'withdraw', 'export', 'correct'):
        return False
    return bool(of['first']) and int(of['first']) <= number <= int(of['last'])


def test_the_life_of_a_certificate_has_the_accepted_requests_that_name_it(made: Made) -> None:
    """In their order."""
    tried = 0
    for number in random.Random(2).sample(range(OWN + 1, OWN + 2000), 100):
        status, of = made.service.ask(ISSUER, f'/records/v1/certificates/{number}')
        if status == 200:
            wanted = [record.entry.n for record in made.records if is_named(record, number)]
            assert wanted == [act['entry'] for act in of['life']
                              if act['kind'] not in ('issue', 'expiry')], number
            tried += 1
    assert tried > 10


# ------------------------------------------------------------------ choices, deadlines, sums

def fewest(runs: list[Row], count: int) -> int:
    """Of how many runs at least so many certificates come."""
    sizes, taken = sorted((run['count'] for run in runs), reverse=True), 0
    while count > 0:
        count, taken = count - sizes[taken], taken + 1
    return taken


@pytest.mark.parametrize('account', ACCOUNTS)
def test_a_choice_adds_up_is_held_and_has_the_fewest_ranges_where_asked(
        made: Made, account: int) -> None:
    holder, service, chance = ACCOUNTS[account], made.service, random.Random(account)
    held = service.items(holder, 'holdings', by='run', account=account)
    there = sum(run['count'] for run in held)
    for order in ('oldest', 'expiring', 'fewest') * 3 if there else ():
        count = chance.randint(1, there)
        of = service.answer(holder, 'choice', account=account, count=f'{count:,}', order=order,
                            act='cancel')
        parts = [(int(run['first']), int(run['last'])) for run in of['items']]
        assert all(any(int(run['first']) <= low and high <= int(run['last']) for run in held)
                   for low, high in parts)
        numbers = [number for low, high in parts for number in range(low, high + 1)]
        assert len(numbers) == len(set(numbers)) == count
        assert order != 'fewest' or len(parts) == fewest(held, count)
    path = '/records/v1/choice'
    for asked in (account, account % 10 + 1):
        assert service.ask(holder, path, account=asked, count=there + 1, act='cancel')[0] == 409
    today = service.answer(ISSUER, 'status')['stands']['today']
    tradable = sum(run['count'] for run in held if run['trade_until'] >= today)
    assert service.ask(holder, path, account=account, count=tradable + 1)[0] == 409
    if tradable:
        chosen = service.answer(holder, 'choice', account=account, count=tradable)['items']
        assert all(run['trade_until'] >= today for run in chosen)


def test_somebody_elses_account_has_nothing_to_choose_from(made: Made) -> None:
    for account, holder in ACCOUNTS.items():
        words = {'account': account % 10 + 1, 'count': 1}
        assert made.service.ask(holder, '/records/v1/choice', **words)[0] == 409


def test_deadlines_are_those_of_the_lots_that_are_held(made: Made) -> None:
    service = made.service
    today = service.answer(ISSUER, 'status')['stands']['today']
    runs, tried = service.items(ISSUER, 'holdings', by='run'), 0
    for days in (60, 600):          # a history may end on a day that nothing is near to
        limit = str(datetime.date.fromisoformat(today) + datetime.timedelta(days=days))
        wanted = {(run['account'], run['device'], run['first_day']) for run in runs
                  if today <= run['trade_until'] <= limit or run['expires_on'] <= limit}
        items = service.items(ISSUER, 'deadlines', days=days)
        assert {(of['account'], of['device'], of['first_day']) for of in items} == wanted
        tried += len(wanted)
    assert tried


@pytest.mark.parametrize('by', GROUPS)
def test_subtotals_add_up_to_the_whole(made: Made, by: str) -> None:
    whole = made.service.answer(ISSUER, 'holdings')['sum']['count']
    assert whole == sum(row['count'] for row in made.service.items(ISSUER, 'holdings', by=by))


def test_statistics_add_up_to_what_is_in_each_place(made: Made) -> None:
    flows: collections.Counter[str] = collections.Counter()
    for row in made.service.items(ISSUER, 'statistics', by='month,tech,source,carrier,country'):
        flows.update({name: count for name, count in row.items() if isinstance(count, int)})
    places = {place: made.service.answer(ISSUER, 'holdings', place=place)['sum']['count']
              for place in PLACES.values()}
    ends = ('cancelled', 'expired', 'withdrawn', 'exported')
    assert dict(flows) == {**{place: places[place] for place in ends}, 'imported': IMPORTED,
                           'issued': sum(places.values()) - IMPORTED}


# ------------------------------------------------------------------ filters

def fits(act: Row, name: str, value: Any) -> bool:
    """Whether an act fits a filter."""
    if name == 'q':
        return has_text(act, value)
    if name == 'before':
        return bool(act['id'] < value)
    if name in ('from', 'to'):
        return bool(act['day'] >= value if name == 'from' else act['day'] <= value)
    if str(value).endswith('*'):
        return (act['key'] or '').startswith(value[:-1])
    return not value or act[name] == value


def questions(acts: list[Row]) -> Iterator[Row]:
    """By user, days, kind, key, entry and text."""
    days = sorted({act['day'] for act in acts})
    users = sorted({act['user'] for act in acts if act['user']})
    for low, high in ((days[0], days[-1]), (days[5], days[7]), (days[3], days[3])):
        yield from ({'user': user, 'caller': ISSUER, 'kind': kind, 'from': low, 'to': high}
                    for user in users for kind in ('issue', 'date'))
    yield from ({'from': days[4]}, {'to': days[4]}, {'from': '2030-01-01'}, {'to': '2000-01-01'},
                {'from': days[6], 'to': days[2]}, {'key': 'k7*'}, {'key': 'k7'}, {'q': 'söhne'},
                {'key': 'm2025-0*', 'outcome': 'accepted'}, {'entry': 1}, {'before': 5},
                {'caller': ISSUER, 'from': days[5], 'to': days[9]}, {'entry': acts[0]['entry']},
                {'entry': acts[0]['entry'] + 1}, {'device': acts[-20]['device'] or ''})


def test_each_filter_of_acts_finds_what_is_in_the_whole_list(made: Made) -> None:
    acts = made.service.items(ISSUER, 'acts')
    for asked in questions(acts):
        wanted = [act['id'] for act in acts
                  if all(fits(act, name, value) for name, value in asked.items())]
        found = (made.service.answer(ISSUER, 'acts', **asked)['items'] if 'before' in asked
                 else made.service.items(ISSUER, 'acts', **asked))
        assert [act['id'] for act in found] == wanted, asked


# ------------------------------------------------------------------ uploads

class Issued:
    """What rows of uploads issue, by plain sums of the rows themselves."""

    def __init__(self) -> None:
        self.carries: collections.Counter[str] = collections.Counter()
        self.serial = OWN + 1
        text = (TOP / 'docs/REGISTRY.md').read_text(encoding='utf-8')
        self.names = dict(re.findall(r'(?m)^\| (\d+) \| `(\w+)` \|', text))

    def correct(self, command: Row) -> None:
        left = self.carries[command['device']] - command['less_wh']
        self.carries[command['device']] = left % 1_000_000

    def rows(self, record: entries.Record) -> Iterator[tuple[object, ...]]:
        """Of each row: its line, outcome and refusal, how many it issued, and their ranges."""
        answers = record.outcome.body.decode().splitlines()
        for line, row in enumerate(record.entry.body.decode().splitlines()[1:], 1):
            _, word, *code = answers[line - 1].split(' ')
            due = self.due(row) if word == 'accepted' else 0
            ranges = [(f'{self.serial:014}', f'{self.serial + due - 1:014}')] if due else []
            yield line, word, self.names[code[0]] if code else None, due, ranges
            self.serial += due

    def due(self, row: str) -> int:
        _, device, _, _, gross, aux = row.split(',')
        whole = self.carries[device] + int(gross) - int(aux)
        due, self.carries[device] = divmod(whole, 1_000_000)
        return due


def test_each_row_of_an_upload_tells_what_it_issued_or_why_not(made: Made) -> None:
    issued, count = Issued(), 0
    for record in made.records:
        if b'"correct"' in record.entry.body and b'"accepted"' in record.outcome.body:
            issued.correct(json.loads(record.entry.body))
        if record.entry.route != REQUESTS and record.entry.role == 'full':
            acts = made.service.items(ISSUER, 'acts', entry=record.entry.n)
            shown = [(act['line'], act['outcome'], act['refusal'], act['count'],
                      [(span['first'], span['last']) for span in act['ranges']])
                     for act in reversed(acts)]
            assert shown == list(issued.rows(record))
            count += 1
    refused = made.service.items(ISSUER, 'acts', kind='issue', outcome='refused')
    assert count and {act['refusal'] for act in refused if act['line']} == {
        'PeriodOrder', 'UnknownDevice'}


# ------------------------------------------------------------------ who sees what

@pytest.fixture(scope='module')
def rows(made: Made) -> viewers.Rows:
    """All rows of each list, as the issuing body sees them."""
    return {name: viewers.whole(made.service, name) for name in viewers.LISTS}


def test_each_route_is_tried_and_has_rows(made: Made, rows: viewers.Rows) -> None:
    own = made.service.own
    tried = {*viewers.LISTS, *viewers.SUMS, *viewers.ONES, *viewers.OTHERS, *viewers.ELSEWHERE}
    assert tried == {*own.lists, *own.ones, *own.others}
    assert not [name for name, found in rows.items() if not found]


@pytest.mark.parametrize('name', viewers.LISTS)
def test_each_holder_sees_his_own_rows_all_of_them_and_nobody_else_does(
        made: Made, rows: viewers.Rows, name: str) -> None:
    assert not list(viewers.faults_of_list(made.service, name, rows[name]))


@pytest.mark.parametrize('name', viewers.SUMS)
def test_what_the_holders_see_adds_up_to_what_there_is(made: Made, name: str) -> None:
    service, theirs = made.service, collections.Counter[object]()
    for viewer in viewers.VIEWERS:
        theirs += viewers.sums_of(service, viewer.code, name)
    assert theirs and theirs == +viewers.sums_of(service, ISSUER, name)
    assert not viewers.sums_of(service, viewers.STRANGER, name)


@pytest.mark.parametrize('name', viewers.ONES)
def test_who_may_not_see_a_number_is_answered_as_if_it_were_not_there(
        made: Made, rows: viewers.Rows, name: str) -> None:
    assert not list(viewers.faults_of_number(made.service, name, rows))


@pytest.mark.parametrize('name', viewers.OTHERS)
def test_other_routes_tell_whom_it_concerns(
        made: Made, rows: viewers.Rows, name: str) -> None:
    assert not list(viewers.OTHERS[name](made.service, rows))


def test_nobody_two_at_once_and_a_name_that_is_none_are_told_nothing(made: Made) -> None:
    refused = (403, {'error': 'nobody is signed in'})
    assert all(answer == refused for answer in viewers.answers_to_nobody(made.service))


def test_nobody_finds_an_act_by_what_he_does_not_see_of_it(
        made: Made, rows: viewers.Rows) -> None:
    assert not list(viewers.found_by(made.service, rows['acts']))


def test_before_there_is_a_book_each_route_says_so(tmp_path: Path) -> None:
    service = Service(tmp_path)
    assert service.ask(None, '/verify', number=1, code='x')[0] == 503
    assert {service.ask(ISSUER, f'/records/v1/{path}')[0] for path in viewers.paths(service)} == {
        503}


@pytest.mark.parametrize('viewer', [ISSUER, *(viewer.code for viewer in viewers.VIEWERS)])
def test_a_text_is_found_by_whom_its_acts_are_shown_to(
        made: Made, rows: viewers.Rows, viewer: str, monkeypatch: pytest.MonkeyPatch) -> None:
    """By the index and by a plain look; each viewer finds all that he sees, and nothing else."""
    asked = list(viewers.searches(made.service, viewer, made.service.items(ISSUER, 'acts')))
    assert (sum(bool(one.acts) for one in asked) < 5) == (viewer == viewers.STRANGER)
    for few in (0, acts_module.FEW):
        monkeypatch.setattr(acts_module, 'FEW', few)
        for one in asked:
            assert one.found(made.service, viewer) == one.acts[:viewers.FIRST], one
