"""Pages of a list that go on behind the last row of the page before, whatever came in between.

A list is sorted by a column of a row that never changes, and by the row's own key behind it. The
`next` of a page names both of its last row, so no row is skipped and none comes twice while acts
come in.
"""
import base64
import binascii
import json
import sqlite3
from collections.abc import Iterator
from collections.abc import Mapping
from dataclasses import dataclass
from dataclasses import field

from goo_service.records.questions import BadQuestion
from goo_service.records.questions import Conditions
from goo_service.records.questions import Given
from goo_service.records.questions import Listed
from goo_service.records.questions import Row
from goo_service.records.questions import limit_of
from goo_service.records.questions import read

MOST_LETTERS = 4000
"""Of an `after`: a name of 200 letters, each of which JSON and base64 make long."""
Value = str | int


@dataclass(frozen=True)
class Query:
    """What a list is read by: its columns and tables, its key, and how it may be sorted."""

    columns: str
    source: str
    key: str
    """The column that no two rows share."""
    sort: str
    """What it is sorted by where nothing else is asked."""
    sorts: Mapping[str, str] = field(default_factory=dict)
    """The column of each word that it can be sorted by."""
    group: str = ''


@dataclass(frozen=True)
class Order:
    """By what a list is sorted, and which way."""

    name: str
    column: str
    is_falling: bool

    def text(self, key: str) -> str:
        way = ' DESC' if self.is_falling else ''
        return f'{self.column}{way}' if self.column == key else f'{self.column}{way}, {key}{way}'


def order_of(query: Query, given: Given) -> Order:
    """The order that is asked for; `-` in front turns it round."""
    name = given.get('sort') or query.sort
    column = query.sorts.get(name.removeprefix('-'))
    if column is None:
        raise BadQuestion(f'sort is {name!r}, and not one of {", ".join(query.sorts)}')
    return Order(name, column, name.startswith('-'))


def after_of(order: Order, last: tuple[Value, Value]) -> str:
    """The place behind a row, as the next page is asked for by it."""
    text = json.dumps([order.name, *last], ensure_ascii=False, separators=(',', ':'))
    return base64.urlsafe_b64encode(text.encode()).decode().rstrip('=')


def place_of(order: Order, text: str) -> tuple[Value, Value]:
    """The place that the next page is asked for by. BadQuestion where it is not one of a list in
    this order."""
    wrong = BadQuestion(f'after is {text[:40]!r}, and not the next of a page in this order')
    if len(text) > MOST_LETTERS:
        raise wrong
    try:
        found = json.loads(base64.b64decode(text + '=' * (-len(text) % 4), b'-_', validate=True))
        name, *last = found
    except (ValueError, TypeError, RecursionError, binascii.Error) as fault:
        raise wrong from fault
    is_place = len(last) == 2 and all(type(value) in (int, str) for value in last)
    if name != order.name or not is_place or any(too_large(value) for value in last):
        raise wrong
    return last[0], last[1]


def too_large(value: Value) -> bool:
    """Whether SQLite has no such number."""
    return isinstance(value, int) and abs(value) >= 2 ** 63


def read_page(query: Query, database: sqlite3.Connection, conditions: Conditions,
              given: Given) -> Listed:
    """A page of a list, and the place behind its last row."""
    order, limit = order_of(query, given), limit_of(given)
    if text := given.get('after'):
        sign = '<' if order.is_falling else '>'
        conditions.add(f'({order.column}, {query.key}) {sign} (?, ?)', place_of(order, text))
    found = read(database, f'''
        SELECT {query.columns}, {order.column} AS place_value, {query.key} AS place_key
        FROM {query.source} WHERE {conditions.where} {query.group}
        ORDER BY {order.text(query.key)} LIMIT ?''', (*conditions.values, limit))
    places: list[tuple[Value, Value]] = []

    def beside(shown: list[Row]) -> Row:
        return {'next': after_of(order, places[-1]) if len(shown) == limit else None}

    return Listed(found.columns[:-2], strip_places(found.rows, places), beside)


def strip_places(rows: Iterator[Row], places: list[tuple[Value, Value]]) -> Iterator[Row]:
    """The rows without their places; that of the last one is kept."""
    for row in rows:
        places[:] = [(row.pop('place_value'), row.pop('place_key'))]
        yield row
