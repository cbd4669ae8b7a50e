"""Acts with each bundle as one row: its sum, its first ranges, how many acts it has.

The acts of a bundle are those of one entry, so their ids follow one another. A page is read from
its newest act on: where an act is of a bundle, all acts of the bundle that fit are told in one row,
and the reading goes on below the lowest of them.
"""
import sqlite3
from collections.abc import Iterator
from dataclasses import dataclass
from typing import Any

from goo_service.records.acts import Found
from goo_service.records.acts import RANGES
from goo_service.records.acts import find_acts
from goo_service.records.acts import join_ranges
from goo_service.records.acts import render_act
from goo_service.records.questions import Given
from goo_service.records.questions import Listed
from goo_service.records.questions import Row
from goo_service.records.questions import Viewer
from goo_service.records.questions import limit_of
from goo_service.records.questions import rows_of

SAME = ('kind', 'giver', 'taker', 'peer', 'note', 'device')
"""Members that a bundle has where all of its acts have the same."""
AT_ONCE = 200
"""Acts that are read at once."""
ALONE = {'acts': 1, 'failed': 0, 'last_number': None}
"""What stands beside an act that is of no bundle."""


@dataclass(frozen=True)
class Question:
    """The acts that fit a question, as one viewer sees them."""

    database: sqlite3.Connection
    viewer: Viewer
    of: Found

    def below(self, high: int) -> list[Row]:
        """The newest acts up to an id."""
        of = self.of
        return rows_of(self.database, f'''
            SELECT act.* FROM {of.tables} WHERE {of.conditions.where} AND {of.column} <= ?
            ORDER BY {of.column} DESC LIMIT {AT_ONCE}''', (*of.conditions.values, high))

    def of_bundle(self, bundle: int) -> tuple[str, tuple[Any, ...]]:
        """The ids of those of a bundle, as SQL. What an earlier page has told is among them."""
        of = self.of
        return (f'SELECT act.id FROM {of.tables} WHERE {of.conditions.where} '
                'AND act.bundle = ?', (*of.conditions.values, bundle))


def acts(database: sqlite3.Connection, viewer: Viewer, given: Given) -> Listed:
    """Acts as a list of them has them, with each bundle as one row."""
    of, limit = find_acts(database, viewer, given), limit_of(given)
    shown = rows(Question(database, viewer, of), of.high, limit)
    lowest: list[int] = []

    def kept() -> Iterator[Row]:
        for row in shown:
            lowest[:] = [row.pop('lowest')]
            yield row

    def beside(acts: list[Row]) -> Row:
        return {'next': lowest[0] if len(acts) == limit else None}

    columns = tuple(name for _, name, *_ in database.execute('PRAGMA table_info(act)'))
    return Listed((*columns, 'count', 'ranges', 'ranges_in_all', *ALONE), kept(), beside)


def rows(found: Question, high: int, limit: int) -> Iterator[Row]:
    """So many rows at most, from the newest act on."""
    left, acts = limit, found.below(high)
    while acts and left:
        low = acts[0]['id']
        for act in acts:
            if act['id'] > low or not left:
                continue                        # it is told in the row of its bundle
            row = fold_bundle(found, act) if act['bundle'] else single(found, act)
            low, left = row['lowest'] - 1, left - 1
            yield row
        acts = found.below(low) if left else []


def single(found: Question, act: Row) -> Row:
    shown = render_act(found.database, found.viewer, act, RANGES)
    return {**shown, **ALONE, 'lowest': act['id']}


def fold_bundle(found: Question, act: Row) -> Row:
    """One row of a bundle. It is that of its first accepted act, or of the first one."""
    ids, values = found.of_bundle(act['bundle'])
    among = f'FROM act WHERE act.id IN ({ids})'
    distinct = ', '.join(f'count(DISTINCT {name}) AS {name}, count({name}) AS {name}_there'
                         for name in SAME)
    of, = rows_of(found.database, f'''
        SELECT min(id) AS lowest, count(*) AS acts, sum(outcome != 'accepted') AS failed,
               coalesce(min(CASE outcome WHEN 'accepted' THEN id END), min(id)) AS first,
               max(number) AS last_number, {distinct} {among}''', values)
    shown = render_act(found.database, found.viewer, act_of(found, of['first']), 0)
    other = {name: None for name in SAME[1:]
             if of[name] > 1 or of[f'{name}_there'] not in (0, of['acts'])}
    ranges = fetch_ranges(found, ids, values)
    return {**shown, **other, 'count': sum(span['count'] for span in ranges),
            'ranges': ranges[:RANGES], 'ranges_in_all': len(ranges), 'acts': of['acts'],
            'failed': of['failed'], 'last_number': of['last_number'], 'lowest': of['lowest']}


def act_of(found: Question, number: int) -> Row:
    return rows_of(found.database, 'SELECT act.* FROM act WHERE act.id = ?', (number,))[0]


def fetch_ranges(found: Question, ids: str, values: tuple[Any, ...]) -> list[Row]:
    """What the acts moved, as far as the viewer held or received it: the longest ranges of numbers
    that went the same way. `lot` is that of the first certificate."""
    own_from, from_values = found.viewer.of_accounts('moved.from_account')
    own_to, to_values = found.viewer.of_accounts('moved.account')
    spans = rows_of(found.database, f'''
        SELECT moved.first, moved.last, moved.last - moved.first + 1 AS count, moved.lot,
               moved.account, moved.from_account, PLACE(moved.kind) AS place
        FROM moved WHERE moved.act IN ({ids}) AND ({own_from} OR {own_to})
        ORDER BY moved.first''', (*values, *from_values, *to_values))
    return join_ranges(spans, ('account', 'from_account', 'place'))
