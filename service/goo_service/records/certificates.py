"""Certificates: one by its number, what is held, what has a deadline, and a choice by quantity."""
import sqlite3

from goo_service.records.acts import party_of
from goo_service.records.acts import render_act
from goo_service.records.questions import BadQuestion
from goo_service.records.questions import Conditions
from goo_service.records.questions import Given
from goo_service.records.questions import Listed
from goo_service.records.questions import NotFound
from goo_service.records.questions import Row
from goo_service.records.questions import TooFew
from goo_service.records.questions import Viewer
from goo_service.records.questions import is_set
from goo_service.records.questions import number_of
from goo_service.records.questions import number_or
from goo_service.records.questions import order_of
from goo_service.records.questions import fetch_page
from goo_service.records.questions import plant_filters
from goo_service.records.questions import read
from goo_service.records.questions import rows_of
from goo_service.records.questions import text_of
from goo_service.rules.certificates import PLACES

LOT_COLUMNS = ', '.join(f'lot.{name}' for name in (
    'origin', 'device', 'country', 'site', 'tech', 'source', 'capacity_w', 'commissioned',
    'support', 'first_day', 'last_day', 'issued_on', 'carrier', 'trade_until', 'expires_on'))
GROUPS = {
    'lot': f'lot.id AS lot, {LOT_COLUMNS}',
    'run': f'run.first, run.last, run.account, {LOT_COLUMNS}',
    'account': 'run.account', 'month': 'substr(lot.first_day, 1, 7) AS month',
    **{name: f'lot.{name}' for name in ('tech', 'source', 'country', 'carrier', 'device',
                                        'trade_until', 'expires_on', 'origin')}}
"""What holdings may be added up by, and what each sum is shown with."""
KEYS = {'lot': 'lot.id', 'run': 'run.first', 'month': 'substr(lot.first_day, 1, 7)'}
ORDERS = {'oldest': 'lot.first_day, run.first',
          'expiring': 'lot.expires_on IS NULL, lot.expires_on, run.first',
          'fewest': 'run.last - run.first DESC, run.first'}
LOT_FILTERS = {
    **{name: f'lot.{name} = ?' for name in ('tech', 'source', 'country', 'carrier', 'device',
                                            'origin', 'support')},
    'from': 'lot.first_day >= ?', 'to': 'lot.last_day <= ?',
    'expires_before': 'lot.expires_on <= ?',
    **plant_filters('lot')}
ACTS = {'transfer': 'tradable', 'export': 'tradable', 'cancel': 'held', 'withdraw': 'held'}
"""The acts that certificates are chosen for, and which of an account's certificates are fit for
each: those whose trade is open, or all that are held."""
TODAY = '(SELECT today FROM meta)'
SUM = 'sum(run.last - run.first + 1) AS count'
RUNS = 'FROM run JOIN lot ON lot.id = run.lot'


def certificate(database: sqlite3.Connection, viewer: Viewer, number: int) -> Row:
    """One certificate: its lot, its place, and the acts that moved it.

    A holder sees it where the registry shows it to him, and the acts that touched his accounts.
    """
    condition, values = viewer.of_accounts('run.account')
    found = rows_of(database, f'''
        SELECT run.account, PLACE(run.kind) AS place, run.number AS act_number, run.lot, lot.begin,
               {LOT_COLUMNS} {RUNS}
        WHERE run.first = (SELECT max(first) FROM run WHERE first <= ?) AND run.last >= ?
        AND {condition}''', (number, number, *values))
    if not found:
        raise NotFound(f'no certificate {number:014}')
    offset, lot = number - found[0].pop('begin'), found[0]['lot']
    seen, seen_values = viewer.of_acts()
    life = rows_of(database, f'''
        SELECT act.* FROM passed JOIN moved ON moved.id = passed.id JOIN act ON act.id = moved.act
        WHERE passed.lot <= ? AND passed.to_lot >= ? AND passed.first <= ? AND passed.last >= ?
        AND ? BETWEEN moved.first AND moved.last AND {seen} ORDER BY act.id''', (
            lot, lot, offset, offset, number, *seen_values))
    return {'number': f'{number:014}', **found[0],
            'holder': party_of(database, found[0]['account']),
            'life': [render_act(database, viewer, row, 1) for row in life]}


def conditions_of(viewer: Viewer, given: Given) -> Conditions:
    """Which runs are looked for: of the viewer's accounts, by default those that are held."""
    place = given.get('place') or 'held'
    kinds = {word: kind for kind, word in PLACES.items()}
    if place not in kinds:
        raise BadQuestion(f'place is {place!r}, and not one of {", ".join(kinds)}')
    conditions = Conditions(viewer.of_accounts('run.account'), ('run.kind = ?', (kinds[place],)))
    if (account := number_of(given, 'account')) is not None:
        conditions.add('run.account = ?', (account,))
    conditions.add_given(LOT_FILTERS, given)
    if text := text_of(given):
        conditions.add("instr(lot.folded || ' ' || lot.device, ?)", (text,))
    if is_set(given, 'tradable'):
        conditions.add(f'lot.trade_until IS NULL OR lot.trade_until >= {TODAY}')
    return conditions


def holdings(database: sqlite3.Connection, viewer: Viewer, given: Given) -> Listed:
    """What is held, added up by lot or by what is given."""
    by = given.get('by') or 'lot'
    if by not in GROUPS:
        raise BadQuestion(f'by is {by!r}, and not one of {", ".join(GROUPS)}')
    conditions = conditions_of(viewer, given)
    joined = f'{RUNS} WHERE {conditions.where}'
    names = [column.split(' AS ')[-1].split('.')[-1] for column in GROUPS[by].split(', ')]
    order = order_of(given, [*names, 'count', 'runs'], names[0])
    found = fetch_page(given, database, f'''
        SELECT {GROUPS[by]}, {SUM}, count(*) AS runs {joined}
        GROUP BY {KEYS.get(by, GROUPS[by])} ORDER BY {order}''', conditions.values)
    whole = f'''SELECT coalesce(sum(run.last - run.first + 1), 0) AS count, count(*) AS runs,
                count(DISTINCT run.lot) AS lots {joined}'''

    def beside(shown: list[Row]) -> Row:
        in_all = dict(database.execute(whole, tuple(conditions.values)).fetchone())
        return {**found.beside(shown), 'sum': in_all}

    return Listed(found.columns, found.rows, beside)


def deadlines(database: sqlite3.Connection, viewer: Viewer, given: Given) -> Listed:
    """Lots of which something is held and whose trade closes, or that expire, within so many days
    of the registry's date, the soonest first."""
    days = f'+{number_or(60, given, "days", 4000)} days'
    conditions = conditions_of(viewer, {**given, 'place': 'held'})
    near, is_open = f'date({TODAY}, ?)', f'lot.trade_until >= {TODAY}'
    return fetch_page(given, database, f'''
        SELECT run.account, lot.id AS lot, {LOT_COLUMNS}, {SUM},
               CASE WHEN {is_open} THEN 'trade' ELSE 'expiry' END AS next
        {RUNS} WHERE {conditions.where}
        AND (lot.trade_until BETWEEN {TODAY} AND {near} OR lot.expires_on <= {near})
        GROUP BY run.account, lot.id
        ORDER BY min(coalesce(lot.expires_on, '9999'),
                     CASE WHEN {is_open} THEN lot.trade_until ELSE '9999' END),
                 run.account, lot.id''', (*conditions.values, days, days))


def choice(database: sqlite3.Connection, viewer: Viewer, given: Given) -> Listed:
    """So many certificates of one account that are fit for an act, as ranges that add up exactly.
    Where no act is named, they are fit for any."""
    account, count = number_of(given, 'account'), number_of(given, 'count')
    order, act = given.get('order') or 'oldest', given.get('act') or 'transfer'
    if not account or not count:
        raise BadQuestion('account and count are wanted')
    for name, value, known in (('order', order, list(ORDERS)), ('act', act, list(ACTS))):
        if value not in known:
            raise BadQuestion(f'{name} is {value!r}, and not one of {", ".join(known)}')
    is_tradable = is_set(given, 'tradable') or ACTS[act] == 'tradable'
    conditions = conditions_of(viewer, {**given, 'place': 'held',
                                        'tradable': 'yes' if is_tradable else 'no'})
    found = read(database, f'''
        SELECT run.first, run.last, run.last - run.first + 1 AS count, lot.id AS lot, {LOT_COLUMNS}
        {RUNS} WHERE {conditions.where} ORDER BY {ORDERS[order]}''', conditions.values)
    runs = list(found.rows)
    there = sum(run['count'] for run in runs)
    if there < count:
        fit = ' and whose trade is open' if is_tradable else ''
        raise TooFew(f'{there:,} certificates of account {account} are held that fit{fit}, and '
                     f'{count:,} were asked for')
    chosen = choose_runs(runs, count, order == 'fewest')
    return Listed(found.columns, iter(chosen), lambda shown: {'count': count})


def choose_runs(runs: list[Row], count: int, fitting: bool) -> list[Row]:
    """The first of these runs that make up the count, the last one cut. With `fitting` the last one
    is the smallest that has enough."""
    chosen: list[Row] = []
    while count:
        rest = runs[len(chosen):]
        run = rest[0]
        if fitting and run['count'] > count:
            run = min((other for other in rest if other['count'] >= count),
                      key=lambda other: int(other['count']))
        part = min(count, run['count'])
        chosen.append({**run, 'last': run['first'] + part - 1, 'count': part})
        count -= part
    return sorted(chosen, key=lambda run: int(run['first'])) if fitting else chosen
