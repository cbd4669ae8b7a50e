"""Acts: the list of them, newest first, one by its number, and the text in which one is found."""
import bisect
import sqlite3
from collections.abc import Iterator
from dataclasses import dataclass
from typing import Any

from goo_service.records.questions import Condition
from goo_service.records.questions import Conditions
from goo_service.records.questions import Given
from goo_service.records.questions import Listed
from goo_service.records.questions import NotFound
from goo_service.records.questions import Row
from goo_service.records.questions import Viewer
from goo_service.records.questions import day_of
from goo_service.records.questions import limit_of
from goo_service.records.questions import number_of
from goo_service.records.questions import number_or
from goo_service.records.questions import read
from goo_service.records.questions import rows_of
from goo_service.records.questions import quote
from goo_service.records.questions import text_of
from goo_service.records.questions import threes_in
from goo_service.records.schema import search_text

RANGES = 20
"""Ranges that are shown with an act in a list; the act by itself has all."""
ACT_FILTERS = {name: f'act.{name} = ?' for name in
               ('kind', 'outcome', 'refusal', 'caller', 'user', 'role', 'way', 'confirmed',
                'device', 'peer', 'number', 'bundle')}
OWN_ALONE = ('user', 'role', 'way', 'confirmed', 'key')
"""Members of an act that its own side and the issuing body see. Nobody else finds it by them."""
FEW, MOST_THREES = 20_000, 60
"""Acts that are read one by one where a text is looked for: of more the index of texts leads to
those that can have it. And how many threes of letters are looked up there at once."""
NO_THREE = '""'
"""What no act has, in the language of FTS5."""
STARTS = {
    'word': ('word CROSS JOIN act ON act.id = word.rowid', 'word.rowid'),
    'touched': ('touched CROSS JOIN act ON act.id = touched.act', 'touched.act'),
    'seen': ('seen CROSS JOIN act ON act.id = seen.act', 'seen.act'),
    'act': ('act', 'act.id')}
"""Where the reading of acts begins: with those that can have a text, that touched an account, that
a viewer sees, or with all; and the column with their ids."""
BY_LOT = '''CROSS JOIN lot ON lot.id BETWEEN moved.lot AND moved.to_lot
    AND (moved.lot = moved.to_lot OR lot.begin BETWEEN moved.first AND moved.last)'''
FIRST, LAST = (f'CASE WHEN moved.lot = moved.to_lot THEN moved.{end} ELSE lot.{of} END'
               for end, of in (('first', 'begin'), ('last', 'finish')))
"""What was moved, lot by lot: a row of `moved` may go through many lots, and has all certificates
of them then (moves.py)."""


@dataclass(frozen=True)
class Found:
    """The acts that fit a question: where the reading of them begins, and their ids."""

    tables: str
    column: str
    conditions: Conditions
    low: int
    high: int


def find_acts(database: sqlite3.Connection, viewer: Viewer, given: Given) -> Found:
    low, high = ids_of(database, given)
    start, conditions = start_of(database, viewer, given, high - low)
    tables, column = STARTS[start]
    conditions.add(f'{column} BETWEEN ? AND ?', (low, high))
    conditions.add_given(ACT_FILTERS, given)
    add_words(conditions, viewer, given)
    return Found(tables, column, conditions, low, high)


def acts(database: sqlite3.Connection, viewer: Viewer, given: Given) -> Listed:
    """Acts that the viewer may see, the newest first. `before` is the id to go on from."""
    of, limit = find_acts(database, viewer, given), limit_of(given)
    found = read(database, f'''SELECT act.* FROM {of.tables} WHERE {of.conditions.where}
                               ORDER BY {of.column} DESC LIMIT ?''',
                 (*of.conditions.values, limit))
    shown = (render_act(database, viewer, act, RANGES) for act in found.rows)

    def beside(acts: list[Row]) -> Row:
        return {'next': acts[-1]['id'] if len(acts) == limit else None}

    return Listed((*found.columns, 'count', 'ranges', 'ranges_in_all'), shown, beside)


def start_of(database: sqlite3.Connection, viewer: Viewer, given: Given,
             span: int) -> tuple[str, Conditions]:
    """The table that leads to the fewest acts, and conditions on account, viewer and text."""
    account, text = number_of(given, 'account'), text_of(given)
    touched = FEW if account is None else count_of(database, 'touched', 'account', account)
    seen = FEW if viewer.sees_all else count_of(database, 'seen', 'viewer', viewer.caller)
    others = min((count_of(database, 'act', name, given[name])
                  for name in ('kind', 'device', 'key', 'bundle') if given.get(name)), default=FEW)
    if text and min(span, touched, seen, others) >= FEW:
        if letters := letters_of(database, text):
            of_text = 'word MATCH ?', (letters,)
            return 'word', Conditions(of_text, viewer.of_acts(), *of_account(account))
    if others < min(touched, seen):
        return 'act', Conditions(viewer.of_acts(), *of_account(account))
    is_own = not viewer.sees_all and account in (viewer.accounts(database) or ())
    if account is not None and (is_own or touched <= seen):     # of his own account he sees all
        who = [] if is_own else [viewer.of_acts()]
        return 'touched', Conditions(('touched.account = ?', (account,)), *who)
    if viewer.sees_all:
        return 'act', Conditions()
    who = [('seen.viewer = ?', (viewer.caller,))]
    narrowed = [viewer.of_acts()] if viewer.only is not None else []
    return 'seen', Conditions(*who, *narrowed, *of_account(account))


def count_of(database: sqlite3.Connection, table: str, column: str, value: object) -> int:
    """How many rows have this value, or FEW where they are more."""
    count, = database.execute(f'''SELECT count(*) FROM (SELECT 1 FROM {table} WHERE {column} = ?
                                  LIMIT {FEW})''', (value,)).fetchone()
    return int(count)


def of_account(account: int | None) -> Iterator[Condition]:
    """Where an account is given: the act touched it."""
    if account is not None:
        yield ('EXISTS (SELECT 1 FROM touched WHERE touched.account = ? AND touched.act = act.id)',
               (account,))


def ids_of(database: sqlite3.Connection, given: Given) -> tuple[int, int]:
    """The first and the last id of the acts of these entries and days.

    Acts stand in the order of entries, and the registry's date never goes back, so both are found
    by halving.
    """
    most, = database.execute('SELECT coalesce(max(id), 0) FROM act').fetchone()
    entry, before = number_of(given, 'entry'), number_or(most + 1, given, 'before')
    after = entry if entry is not None else after_of(given)
    ids, low, high = range(1, most + 1), 1, min(before - 1, most)
    for column, first, last in (('entry', after, entry),
                                ('day', day_of(given, 'from'), day_of(given, 'to'))):
        def value_of(number: int, column: str = column) -> Any:
            query = f'SELECT {column} FROM act WHERE id = ?'
            return database.execute(query, (number,)).fetchone()[0]

        if first is not None:
            low = max(low, bisect.bisect_left(ids, first, key=value_of) + 1)
        if last is not None:
            high = min(high, bisect.bisect_right(ids, last, key=value_of))
    return low, high


def after_of(given: Given) -> int | None:
    """The first entry of a feed, which is the one after `after`."""
    entry = (given.get('after') or '').partition('.')[0]
    return int(entry) + 1 if entry.isdecimal() else None


def add_words(conditions: Conditions, viewer: Viewer, given: Given) -> None:
    """The key (with `*` at its end: all that begin so) and the text. What the viewer does not see,
    he does not find."""
    if any(given.get(name) for name in OWN_ALONE) and not viewer.sees_all:
        conditions.add('act.caller = ?', (viewer.caller,))
    if (key := given.get('key') or '').endswith('*'):
        conditions.add('act.key >= ? AND act.key < ?', (key[:-1], f'{key[:-1]}\x7f'))
    elif key:
        conditions.add('act.key = ?', (key,))
    if text := text_of(given):
        whose = () if viewer.sees_all else (viewer.caller,)
        own_key = 'CASE WHEN act.caller = ? THEN act.key END' if whose else 'act.key'
        conditions.add(f'instr(FOLD({search_text(own_key)}), ?)', (*whose, text))


# -------------------------------------------------------------------- the index of texts

def letters_of(database: sqlite3.Connection, text: str) -> str:
    """What is looked up in the index of texts: three letters at a time, all of which an act has
    that has the folded text. Nothing where the index is no help."""
    return threes_in(text) if len(text) > 2 else threes_of(database, text)


def threes_of(database: sqlite3.Connection, begin: str) -> str:
    """The threes of letters that begin so: an act with this text has one of them. Nothing where
    they are many, as then the acts with the text are many."""
    found = database.execute('SELECT term FROM letters WHERE term BETWEEN ? AND ? LIMIT ?',
                             (begin, f'{begin}\U0010ffff', MOST_THREES))
    threes = [three for three, in found]
    if len(threes) == MOST_THREES:
        return ''
    return ' OR '.join(map(quote, threes)) or NO_THREE


# -------------------------------------------------------------------- one act

def act(database: sqlite3.Connection, viewer: Viewer, number: int) -> Row:
    """One act with all its ranges."""
    condition, values = viewer.of_acts()
    found = rows_of(database, f'SELECT act.* FROM act WHERE act.id = ? AND {condition}',
                    (number, *values))
    if not found:
        raise NotFound(f'no act {number}')
    return render_act(database, viewer, found[0], None)


def render_act(database: sqlite3.Connection, viewer: Viewer, row: Row, most: int | None) -> Row:
    """An act as the viewer may see it: his own ranges, the user on his own side alone, names beside
    accounts."""
    if not viewer.sees_all and row['caller'] != viewer.caller:
        row = {**row, **dict.fromkeys(OWN_ALONE)}
    ranges = ranges_of(database, viewer, row['id'])
    sides = {name: party_of(database, row[name]) if row[name] else None
             for name in ('giver', 'taker')}
    longest = join_ranges(ranges)
    count = sum(span['count'] for span in ranges)
    return {**row, **sides, 'count': count, 'ranges': longest[:most],
            'ranges_in_all': len(longest)}


def ranges_of(database: sqlite3.Connection, viewer: Viewer, number: int) -> list[Row]:
    """What an act moved, lot by lot, as far as the viewer held or received it."""
    own_from, from_values = viewer.of_accounts('moved.from_account')
    own_to, to_values = viewer.of_accounts('moved.account')
    return rows_of(database, f'''
        SELECT {FIRST} AS first, {LAST} AS last, {LAST} - {FIRST} + 1 AS count, lot.id AS lot,
               moved.account, moved.from_account, PLACE(moved.kind) AS place
        FROM moved {BY_LOT} WHERE moved.act = ? AND ({own_from} OR {own_to})
        ORDER BY moved.first, lot.id''', (number, *from_values, *to_values))


WAY = ('lot', 'account', 'from_account', 'place')
"""What ranges of one act have in common that are told as one."""


def join_ranges(ranges: list[Row], same: tuple[str, ...] = WAY) -> list[Row]:
    """Ranges in rising order, those made one that follow each other in the same lot and went the
    same way."""
    longest: list[Row] = []
    for span in ranges:
        last = longest[-1] if longest else None
        if last and last['last'] == span['first'] - 1 and all(
                last[name] == span[name] for name in same):
            longest[-1] = {**last, 'last': span['last'], 'count': last['count'] + span['count']}
        else:
            longest.append(span)
    return longest


def party_of(database: sqlite3.Connection, account: int) -> Row:
    """An account with its holder's name."""
    found = database.execute('''SELECT account.number AS account, account.holder, holder.name
                                FROM account JOIN holder ON holder.code = account.holder
                                WHERE account.number = ?''', (account,)).fetchone()
    return dict(found) if found else {'account': account, 'holder': None, 'name': None}
