"""Lists of what the registry has: accounts, devices, declarations, documents, notices, sums."""
import sqlite3
from collections.abc import Callable
from collections.abc import Mapping
from dataclasses import dataclass
from dataclasses import field

from goo_service.records.acts import BY_LOT
from goo_service.records.acts import FIRST
from goo_service.records.acts import LAST
from goo_service.records.certificates import LOT_FILTERS
from goo_service.records.pages import Query
from goo_service.records.pages import read_page
from goo_service.records.questions import BadQuestion
from goo_service.records.questions import Condition
from goo_service.records.questions import Conditions
from goo_service.records.questions import Given
from goo_service.records.questions import Listed
from goo_service.records.questions import Viewer
from goo_service.records.questions import fetch_page
from goo_service.records.questions import plant_filters
from goo_service.records.questions import text_of
from goo_service.records.questions import threes_in
from goo_service.records.schema import CANCELLATION
from goo_service.records.schema import NAMES
from goo_service.rules.certificates import CANCELLED
from goo_service.rules.certificates import EXPIRED
from goo_service.rules.certificates import EXPORTED
from goo_service.rules.certificates import HELD
from goo_service.rules.certificates import PLACES
from goo_service.rules.certificates import WITHDRAWN
from goo_service.rules.lots import PLANT

SUMS = ', '.join(f'''(SELECT coalesce(sum(last - first + 1), 0) FROM run
    WHERE run.account = account.number AND run.kind = {kind}) AS {word}'''
                 for kind, word in PLACES.items())


PLANT_COLUMNS = ', '.join(f'device.{name}' for name in (
    'gsrn', 'account', *PLANT, 'carrier', 'last_day', 'carry_wh', 'declared_wh', 'corrected_wh',
    'issued', 'withdrawn', 'act'))


@dataclass(frozen=True)
class List(Query):
    """A list of which a viewer sees the rows of his accounts."""

    account: str = ''
    """The column of the account that decides who sees a row."""
    filters: Mapping[str, str] = field(default_factory=dict)
    """Its filters besides the account."""
    found: Callable[[str], Condition] | None = None
    """The condition that a text is found in a row, where it has one."""


def name_search(table: str) -> Callable[[str], Condition]:
    """A text is in the name of a row, by the index of names where it has three letters."""
    def condition(text: str) -> Condition:
        inside = f'instr({NAMES[table]}, ?)', (text,)
        if len(text) < 3:
            return inside
        by_index = f'{table}.act IN (SELECT rowid FROM name WHERE name MATCH ?)'
        return f'{by_index} AND {inside[0]}', (threes_in(text), text)

    return condition


def name_search_by(column: str, table: str, key: str) -> Callable[[str], Condition]:
    """A text is in the name of the row of another table that a column names."""
    def condition(text: str) -> Condition:
        inside, values = name_search(table)(text)
        return f'{column} IN (SELECT {table}.{key} FROM {table} WHERE {inside})', values

    return condition


LISTS = {
    'accounts': List(
        f'account.number, account.holder, holder.name, account.closed, {SUMS}',
        'account JOIN holder ON holder.code = account.holder', 'account.number', 'number',
        {'number': 'account.number', 'holder': 'account.holder', 'name': 'holder.folded'},
        account='account.number', filters={'holder': 'account.holder = ?'},
        found=name_search_by('account.holder', 'holder', 'code')),
    'devices': List(
        PLANT_COLUMNS, 'device', 'device.gsrn', 'gsrn',
        {'gsrn': 'device.gsrn', 'site': 'device.folded', 'commissioned': 'device.commissioned',
         'capacity_w': 'device.capacity_w'}, account='device.account',
        filters={'device': 'device.gsrn = ?', **plant_filters('device'),
                 **{name: f'device.{name} = ?'
                    for name in ('tech', 'source', 'country', 'carrier', 'support')}},
        found=name_search('device')),
    'declarations': List(
        '''declaration.*, device.site, device.account, act.entry, act.time, act.day, act.user,
        act.caller, act.key''',
        '''declaration JOIN device ON device.gsrn = declaration.device
        JOIN act ON act.id = declaration.act''', 'declaration.act', '-act',
        {'act': 'declaration.act'}, account='device.account',
        filters={'device': 'declaration.device = ?', 'from': 'declaration.first_day >= ?',
                 'to': 'declaration.last_day <= ?'},
        found=name_search_by('declaration.device', 'device', 'gsrn')),
    'corrections': List(
        '''correction.*, device.site, device.account, act.day, act.entry, act.time, act.number,
        withdrawal.reason, withdrawal.first, withdrawal.last''',
        '''correction JOIN device ON device.gsrn = correction.device
        JOIN act ON act.id = correction.act
        LEFT JOIN withdrawal ON withdrawal.number = correction.withdrawal''',
        'correction.act', '-act', {'act': 'correction.act'}, account='device.account',
        filters={'device': 'correction.device = ?'},
        found=name_search_by('correction.device', 'device', 'gsrn')),
    'cancellations': List(
        f'{CANCELLATION}, cancellation.last - cancellation.first + 1 AS count', 'cancellation',
        'cancellation.number', '-number',
        {'number': 'cancellation.number', 'day': 'cancellation.day',
         'beneficiary': 'cancellation.folded'}, account='cancellation.account',
        filters={'number': 'cancellation.number = ?', 'from': 'cancellation.day >= ?',
                 'to': 'cancellation.day <= ?'}, found=name_search('cancellation')),
    'notices': List(
        'notice.*', 'notice', 'notice.act', '-act', {'act': 'notice.act'},
        account='notice.account',
        filters={'peer': 'notice.peer = ?', 'number': 'notice.number = ?'}),
}
HOLDERS = Query(
    '''holder.code, holder.name,
    (SELECT count(*) FROM account WHERE account.holder = holder.code) AS accounts''',
    'holder', 'holder.code', 'code', {'code': 'holder.code', 'name': 'holder.folded'})
WITHDRAWALS = Query(
    '''withdrawal.number, withdrawal.reason, withdrawal.day, min(moved.first) AS first,
    max(moved.last) AS last, sum(moved.last - moved.first + 1) AS count, withdrawal.act''',
    'withdrawal JOIN moved ON moved.act = withdrawal.act', 'withdrawal.number', '-number',
    {'number': 'withdrawal.number'}, 'GROUP BY withdrawal.number')
BY = {'month': 'substr(act.day, 1, 7)', 'production': 'substr(lot.first_day, 1, 7)',
      **{name: f'lot.{name}' for name in ('tech', 'source', 'carrier', 'country', 'device')}}
FLOWS = {'issued': "act.kind = 'issue'", 'imported': "act.kind = 'import'",
         'cancelled': f'moved.kind = {CANCELLED}', 'expired': f'moved.kind = {EXPIRED}',
         'withdrawn': f'moved.kind = {WITHDRAWN}', 'exported': f'moved.kind = {EXPORTED}'}


def fetch_list(name: str, database: sqlite3.Connection, viewer: Viewer, given: Given) -> Listed:
    """A list of the registry's records, the newest first where they are acts."""
    of = LISTS[name]
    conditions = Conditions(viewer.of_accounts(of.account))
    conditions.add_given({'account': f'{of.account} = ?', **of.filters}, given)
    if of.found and (text := text_of(given)):
        conditions.add(*of.found(text))
    found = read_page(of, database, conditions, given)
    if viewer.sees_all:
        return found
    hidden = {name for name in ('user', 'key') if name in found.columns}
    shown = ({**row, **(dict.fromkeys(hidden) if row.get('caller') != viewer.caller else {})}
             for row in found.rows)
    return Listed(found.columns, shown, found.beside)


def holders(database: sqlite3.Connection, viewer: Viewer, given: Given) -> Listed:
    """All holders for the issuing body, himself for a holder."""
    own = ('holder.code = ?', (viewer.caller,))
    conditions = Conditions(*([] if viewer.sees_all else [own]))
    conditions.add_given({'holder': 'holder.code = ?'}, given)
    if text := text_of(given):
        conditions.add(*name_search('holder')(text))
    return read_page(HOLDERS, database, conditions, given)


def withdrawals(database: sqlite3.Connection, viewer: Viewer, given: Given) -> Listed:
    """Withdrawals with their reason. A holder sees those of certificates that he held, and his part
    of their range."""
    conditions = Conditions(viewer.of_accounts('moved.account'))
    return read_page(WITHDRAWALS, database, conditions, given)


def statistics(database: sqlite3.Connection, viewer: Viewer, given: Given) -> Listed:
    """How many certificates were issued, came in, were cancelled, expired, were withdrawn and went
    out, by one or more of month, technology, source, carrier, country."""
    by = (given.get('by') or 'month').split(',')
    if wrong := [name for name in by if name not in BY or by.count(name) > 1]:
        raise BadQuestion(f'by is {",".join(wrong)!r}, and not of {", ".join(BY)}, each once')
    flows = f"moved.kind <> {HELD} OR act.kind IN ('issue', 'import')"
    conditions = Conditions(viewer.of_accounts('moved.account'), (flows, ()))
    names = ('tech', 'source', 'carrier', 'country', 'device')
    of_lot = {name: LOT_FILTERS[name] for name in names}
    conditions.add_given({'from': 'act.day >= ?', 'to': 'act.day <= ?', **of_lot}, given)
    columns = ', '.join(f'{BY[name]} AS {name}' for name in by)
    sums = ', '.join(f'sum(CASE WHEN {test} THEN {LAST} - {FIRST} + 1 ELSE 0 END) AS {name}'
                     for name, test in FLOWS.items())
    places = ', '.join(map(str, range(1, len(by) + 1)))
    return fetch_page(given, database, f'''
        SELECT {columns}, {sums} FROM moved CROSS JOIN act ON act.id = moved.act {BY_LOT}
        WHERE {conditions.where} GROUP BY {places} ORDER BY {places}''', conditions.values)
