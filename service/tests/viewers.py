"""Who sees what of the records: each route of the service, asked by everybody.

The routes are those of the service's own tables. A new one fails until one of LISTS, SUMS, ONES and
OTHERS has a line for it.
"""
import collections
import random
import unicodedata
from collections.abc import Callable
from collections.abc import Iterator
from dataclasses import dataclass
from typing import Any

from acts_by_chance import ACCOUNTS
from acts_by_chance import HOLDERS
from acts_by_chance import Service
from goo_service.records.acts import ACT_FILTERS
from goo_service.records.acts import OWN_ALONE
from goo_service.rules.commands import ISSUER

Row = dict[str, Any]
Rows = dict[str, list[Row]]


@dataclass(frozen=True)
class Viewer:
    """A holder, and its accounts."""

    code: str
    accounts: frozenset[int]


STRANGER = 'STRANGER'
VIEWERS = [Viewer(code, frozenset(account for account, of in ACCOUNTS.items() if of == code))
           for code in (*HOLDERS, STRANGER)]
HIDDEN = {'user', 'role', 'way', 'confirmed', 'key', 'count', 'ranges', 'ranges_in_all', 'stands'}
"""Members of an act that some see and others don't, or not all of them."""
SOME = 25
"""Numbers that each viewer asks for, of his own and of others."""


def by(column: str) -> Callable[[Row, Viewer], bool]:
    """Rows are of the holder of the account in this column."""
    return lambda row, viewer: row[column] in viewer.accounts


def touches(act: Row, viewer: Viewer) -> bool:
    """A holder's act, or one that touched an account of his."""
    is_accepted = act['outcome'] == 'accepted'
    accounts = {act[side]['account'] for side in ('giver', 'taker') if act[side] and is_accepted}
    accounts |= {span[name] for span in act['ranges'] for name in ('account', 'from_account')}
    opened = act['kind'] in ('holder', 'account') and act['holder'] == viewer.code and is_accepted
    return bool(act['caller'] == viewer.code or opened or accounts & viewer.accounts)


BY_ACCOUNT = ('devices', 'declarations', 'corrections', 'cancellations', 'notices')
LISTS: dict[str, tuple[dict[str, Any], Callable[[Row, Viewer], bool]]] = {
    'acts': ({}, touches), 'holdings': ({'by': 'run'}, by('account')),
    'deadlines': ({'days': 4000}, by('account')),
    'directory': ({}, lambda row, viewer: True),
    'undeclared': ({'month': '2027-06'}, by('account')),
    'holders': ({}, lambda row, viewer: bool(row['code'] == viewer.code)),
    'accounts': ({}, by('number')), **{name: ({}, by('account')) for name in BY_ACCOUNT}}
"""What is asked of a list, and whose each row is."""
SUMS: dict[str, dict[str, Any]] = {'withdrawals': {}, 'statistics': {'by': 'month,device'}}
"""Lists whose rows have parts of several holders.

What all of them see adds up to what the issuing body sees.
"""
ONES = {'acts': ('acts', 'id'), 'cancellations': ('cancellations', 'number'),
        'certificates': ('holdings', 'first')}
"""What is asked for by its number: the list that has these numbers, and its column."""


def whole(service: Service, name: str) -> list[Row]:
    """All rows of a list for the issuing body, acts with all their ranges."""
    rows = service.items(ISSUER, name, **LISTS[name][0])
    return [service.answer(ISSUER, f'acts/{row["id"]}')
            if row.get('ranges_in_all', 0) > len(row.get('ranges', ())) else row for row in rows]


def plain(row: Row) -> Row:
    return {name: value for name, value in row.items() if name not in HIDDEN}


def faults_of_list(service: Service, name: str, rows: list[Row]) -> Iterator[object]:
    """Rows in another order or of others, what only others may see, and another file."""
    asked, is_his = LISTS[name]
    for viewer in VIEWERS:
        seen = service.items(viewer.code, name, **asked)
        if [plain(row) for row in seen] != [plain(row) for row in rows if is_his(row, viewer)]:
            yield viewer.code, len(seen), sum(is_his(row, viewer) for row in rows)
        yield from ((viewer.code, row) for row in seen if tells_of_others(row, viewer))
        file = service.text(viewer.code, name, format='csv', limit=SOME, **asked)
        if file.count('\r\n') != min(len(seen), SOME) + 1:
            yield viewer.code, 'as a file', file[:200]


def tells_of_others(row: Row, viewer: Viewer) -> bool:
    """Whether it tells the user or the key of another holder, or a range of others."""
    is_own = row.get('caller', viewer.code) == viewer.code
    spans = [{span['account'], span['from_account']} for span in row.get('ranges', ())]
    return (not is_own and any(row.get(name) for name in OWN_ALONE)
            or not all(span & viewer.accounts for span in spans))


def sums_of(service: Service, viewer: str, name: str) -> collections.Counter[object]:
    """What a viewer sees of each sum."""
    rows = service.items(viewer, name, **SUMS[name])
    return collections.Counter({
        (row.get('month'), row.get('device'), row.get('number'), column): count
        for row in rows for column, count in row.items()
        if isinstance(count, int) and column not in ('number', 'act')})


def faults_of_number(service: Service, name: str, rows: Rows) -> Iterator[object]:
    """A number is answered to those whose it is, and to others as if it were not there."""
    source, column = ONES[name]
    is_his = LISTS[source][1]
    for viewer in VIEWERS:
        own = [row[column] for row in rows[source] if is_his(row, viewer)][:SOME]
        others = [row[column] for row in rows[source] if not is_his(row, viewer)][:SOME]
        yield from ((viewer.code, 'may see it', number) for number in own
                    if service.ask(viewer.code, f'/records/v1/{name}/{number}')[0] != 200)
        yield from ((viewer.code, 'may not see it', number) for number in others
                    if service.ask(viewer.code, f'/records/v1/{name}/{number}')
                    != (404, missing(service, name, number)))


def missing(service: Service, name: str, number: object) -> Row | None:
    """The answer for a number that is not there, as it would be for this one."""
    none = '9' * 12
    status, answer = service.ask(ISSUER, f'/records/v1/{name}/{none}')
    shown = f'{int(none):014}' if name == 'certificates' else none
    return {'error': answer['error'].replace(shown, str(number))} if status == 404 else None


def faults_of_choice(service: Service, rows: Rows) -> Iterator[object]:
    """An account of somebody else has nothing to choose from."""
    for viewer in VIEWERS:
        for account in {row['account'] for row in rows['holdings']}:
            status, _ = service.ask(viewer.code, '/records/v1/choice', account=account, count=1,
                                    act='cancel')
            if status != (200 if account in viewer.accounts else 409):
                yield viewer.code, account


def faults_of_documents(service: Service, rows: Rows) -> Iterator[object]:
    """One document of several cancellations is for whom all of them are."""
    for viewer in VIEWERS:
        own = [row['number'] for row in rows['cancellations']
               if row['account'] in viewer.accounts][:3]
        foreign = [row['number'] for row in rows['cancellations']
                   if row['account'] not in viewer.accounts][:1]
        for numbers, wanted in ((own, 200), (own + foreign, 404), (foreign, 404)):
            words = ','.join(map(str, numbers))
            if numbers and service.ask(viewer.code, '/records/v1/documents',
                                       numbers=words)[0] != wanted:
                yield viewer.code, numbers, wanted


def faults_of_status(service: Service, rows: Rows) -> Iterator[object]:
    """Everybody learns who he is himself."""
    yield from (viewer.code for viewer in VIEWERS
                if service.answer(viewer.code, 'status').get('caller') != viewer.code)


def faults_of_party(service: Service, rows: Rows) -> Iterator[object]:
    """Whether an account is a holder's is told to whoever names both."""
    for viewer in VIEWERS:
        for account, holder in ACCOUNTS.items():
            asked = {'account': account, 'holder': holder}
            if service.answer(viewer.code, 'party', **asked)['fits'] is not True:
                yield viewer.code, asked
        if service.answer(viewer.code, 'party', account=1, holder='VOLT')['fits'] is not False:
            yield viewer.code, 'another holder'


OTHERS = {'choice': faults_of_choice, 'documents': faults_of_documents, 'status': faults_of_status,
          'party': faults_of_party}
ELSEWHERE = {'attachments', 'papers'}
"""What this book has none of. test_migrate.py tries who sees documents of an old registry, and
test_plans.py who gets the documents of a table."""
NOBODY: tuple[list[str], ...] = ([], ['SUN', 'SUN'], ['SUN', ISSUER], ['sun'], [''],
                                 ['SUN VOLT'], ['%'], ['A' * 17])
"""Fields of a request that do not say who asks."""


def paths(service: Service) -> list[str]:
    return [*service.own.lists, *service.own.others, *(f'{name}/1' for name in service.own.ones)]


def answers_to_nobody(service: Service) -> Iterator[object]:
    """What routes answer where it isn't clear who asks."""
    for path in paths(service):
        for callers in NOBODY:
            answer = service.client.get(f'/records/v1/{path}',
                                        headers=[('GOO-Caller', caller) for caller in callers])
            yield answer.status_code, answer.get_json()


def found_by(service: Service, acts: list[Row]) -> Iterator[object]:
    """Acts that a viewer finds by a value that they don't show him.

    Each filter is tried with values of acts that are not his.
    """
    for name in {*ACT_FILTERS, *OWN_ALONE}:
        values = dict.fromkeys(act[name] for act in acts if act[name] is not None)
        for value in list(values)[:6]:
            yield from ((code, name, value, row['id']) for code, row in seen_by(
                service, {name: value}) if row[name] != value)
    for key in [act['key'] for act in acts if act['key']][:20]:
        yield from ((code, 'q', key, row['id']) for code, row in seen_by(service, {'q': key})
                    if key not in shown_of(row))


def seen_by(service: Service, asked: dict[str, Any]) -> Iterator[tuple[str, Row]]:
    """Each viewer with the acts that he finds."""
    for viewer in VIEWERS:
        for row in service.answer(viewer.code, 'acts', limit=SOME, **asked)['items']:
            yield viewer.code, row


# ------------------------------------------------------------------ texts

SEARCHED = ('note', 'key', 'device', 'holder')
COUNT, FIRST = 60, 50
"""Texts by chance that each viewer looks for, and how many of the acts with each are looked at."""
ODD = ('"', '""', 'a"b', "'", '*', '%', 'ab*', '\0', 'before\0after', 'e\0a', '  ', '   ', 'OR',
       'NEAR(', 'a AND b', '^', '\ue000\ue001\ue002', 'SÖHNE', 'söhne', 'zzzz')
"""Texts that a language of searches could take for something else, and those that are nowhere."""
BESIDES: tuple[dict[str, Any], ...] = (
    {}, {}, {'account': 3}, {'kind': 'transfer'}, {'outcome': 'refused'}, {'from': '2026-06-01'},
    {'to': '2026-06-01'}, {'caller': ISSUER}, {'user': 'user-sun'}, {'key': 'k1*'},
    {'before': 900})
"""What is asked for besides a text."""


def shown_of(act: Row) -> str:
    return ' '.join(act[member] or '' for member in SEARCHED)


def bare(text: str) -> str:
    """Letters alone, without their marks and their case."""
    return ''.join(letter for letter in unicodedata.normalize('NFD', text.casefold())
                   if unicodedata.category(letter) != 'Mn')


def has_text(act: Row, text: str) -> bool:
    """Whether a text stands in what an act shows, whatever the case and the accents."""
    return bare(text) in bare(shown_of(act))


def text_by_chance(chance: random.Random, acts: list[Row]) -> str:
    """A piece of what an act shows, its letters large or small, or with one of them changed."""
    text = shown_of(chance.choice(acts))
    at = chance.randrange(len(text))
    size = chance.choice((1, 2, 3, 3, 4, 5, 6, 7, 9, 12, 40))
    piece = ''.join(chance.choice((letter, letter.upper(), letter.lower()))
                    if letter.isascii() else letter for letter in text[at:at + size])
    return piece if chance.random() < 0.8 else piece[:-1] + chance.choice('0a"é')


@dataclass(frozen=True)
class Search:
    """A text, what is asked for besides, and the acts that have it as a viewer sees them."""

    text: str
    besides: dict[str, Any]
    acts: list[int]

    def found(self, service: Service, viewer: str) -> list[int]:
        answer = service.answer(viewer, 'acts', limit=FIRST, q=self.text, **self.besides)
        return [act['id'] for act in answer['items']]


def searches(service: Service, viewer: str, acts: list[Row]) -> Iterator[Search]:
    """Texts, taken from all acts, that a viewer looks for."""
    chance, seen = random.Random(viewer), dict[str, list[Row]]()
    for at, text in enumerate((*ODD, *(text_by_chance(chance, acts) for _ in range(COUNT)))):
        besides = BESIDES[at % len(BESIDES)]
        if str(besides) not in seen:
            seen[str(besides)] = service.items(viewer, 'acts', **besides)
        rows = seen[str(besides)]
        yield Search(text, besides, [act['id'] for act in rows if has_text(act, text)])
