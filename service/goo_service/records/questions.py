"""What all lists of the book of acts share: who looks, the parameters, conditions, pages.

Each list shows a viewer what the registry would show him, and no more.
"""
import datetime
import sqlite3
from collections.abc import Callable
from collections.abc import Iterable
from collections.abc import Iterator
from collections.abc import Mapping
from collections.abc import Sequence
from dataclasses import dataclass
from typing import Any

from goo_service.records.book import KINDS
from goo_service.records.schema import fold_text
from goo_service.rules.commands import ISSUER

Row = dict[str, Any]
Given = Mapping[str, str]
"""The parameters of a question, each by its name."""
Condition = tuple[str, Sequence[Any]]
"""A condition as SQL, and its values."""
MOST, USUAL = 1000, 100
"""Rows of one answer."""
FILES = {'csv': 100_000, 'csv-bom': 100_000, 'xlsx': 50_000}
"""The kinds of files, and the most rows of each."""
DAYS = ('from', 'to', 'expires_before', 'commissioned_from', 'commissioned_to')
"""Parameters that are days."""
WHOLE = ('account', 'peer', 'number', 'origin', 'bundle', 'capacity_from', 'capacity_to')
"""Filters that are whole numbers."""
WORDS = {'kind': (*KINDS.values(), 'expiry', 'unreadable'),
         'outcome': ('accepted', 'refused', 'unreadable', 'set aside')}
"""Filters that are one of these words."""
IS_SET = {'1': True, 'yes': True, 'true': True, '0': False, 'no': False, 'false': False}
"""The values of a parameter that is set or not."""
ALL: Condition = ('TRUE', ())
MOST_LETTERS = 200
"""Letters of a text that is looked for."""


class NotFound(Exception):
    """There is no such thing, or the viewer may not see it."""


class BadQuestion(Exception):
    """A parameter that can't be read. The text names it."""


class TooFew(Exception):
    """Fewer certificates than were asked for. The text says how many there are."""


class NotShown(Exception):
    """A user who may read only some accounts asks for what is not kept by account."""


class Busy(Exception):
    """As many files as may be are being written, or tables looked at. The text says it."""


@dataclass(frozen=True)
class Viewer:
    """Who looks, as the front door names him: a holder's code, or ISSUER."""

    caller: str
    only: frozenset[int] | None = None
    """Where he may read only these accounts of the holder."""

    @property
    def sees_all(self) -> bool:
        return self.caller == ISSUER and self.only is None

    @property
    def own(self) -> Condition:
        """The numbers of the holder's accounts that he may see, as a query."""
        query = 'SELECT number FROM account WHERE holder = ?'
        if self.only is not None:
            query = f'{query} AND number IN ({", ".join(map(str, sorted(self.only)))})'
        return query, (self.caller,)

    def accounts(self, database: sqlite3.Connection) -> set[int] | None:
        """The accounts that he may see; None: all."""
        if self.sees_all:
            return None
        return {number for number, in database.execute(*self.own)}

    def of_accounts(self, column: str) -> Condition:
        """The account in this column is one that he may see."""
        if self.sees_all:
            return ALL
        query, values = self.own
        return f'{column} IN ({query})', values

    def may_all_of_holder(self) -> None:
        """Raises NotShown where he may not read all accounts of his holder."""
        if self.only is not None:
            raise NotShown('this is not kept by account, and this user may read only some')

    def of_acts(self) -> Condition:
        """The act is of his holder, or touched one of his accounts. Where he may read only some
        accounts, it touched one of these, or was to take something from one."""
        if self.sees_all:
            return ALL
        if self.only is not None:
            query, values = self.own
            return (f'(act.caller = ? AND act.giver IN ({query}) OR EXISTS (SELECT 1 FROM touched '
                    f'WHERE touched.account IN ({query}) AND touched.act = act.id))',
                    (self.caller, *values, *values))
        return ('EXISTS (SELECT 1 FROM seen WHERE viewer = ? AND seen.act = act.id)',
                (self.caller,))


class Conditions:
    """The conditions of a query, each with its values."""

    def __init__(self, *pairs: Condition) -> None:
        self.texts: list[str] = ['TRUE']
        self.values: list[Any] = []
        for pair in pairs:
            self.add(*pair)

    def add(self, text: str, values: Iterable[Any] = ()) -> None:
        self.texts.append(text)
        self.values.extend(values)

    def add_given(self, filters: Mapping[str, str], given: Given) -> None:
        """Those filters that are given."""
        for name, text in filters.items():
            if (value := value_of(given, name)) is not None:
                self.add(text, (value,))

    @property
    def where(self) -> str:
        return ' AND '.join(f'({text})' for text in self.texts)


def nothing_beside(_: list[Row]) -> Row:
    return {'next': None}


@dataclass(frozen=True)
class Listed:
    """The rows of a list, each read when it is wanted, and the names of their columns."""

    columns: tuple[str, ...]
    rows: Iterator[Row]
    beside: Callable[[list[Row]], Row] = nothing_beside
    """What stands beside the rows, once they are read."""


# -------------------------------------------------------------------- parameters

def value_of(given: Given, name: str) -> str | int | None:
    """The value of a filter; None where it is not given."""
    if name in DAYS:
        return day_of(given, name)
    if name in WHOLE:
        return number_of(given, name)
    if given.get(name) and given[name] not in WORDS.get(name, (given[name],)):
        raise BadQuestion(f'{name} is {given[name]!r}, and not one of {", ".join(WORDS[name])}')
    return given.get(name) or None


def is_set(given: Given, name: str) -> bool:
    """Whether a parameter that is yes or no is yes."""
    text = given.get(name) or 'no'
    if text not in IS_SET:
        raise BadQuestion(f'{name} is {text!r}, and not one of {", ".join(IS_SET)}')
    return IS_SET[text]


def number_of(given: Given, name: str, most: int = 10 ** 15, least: int = 0) -> int | None:
    """A parameter that is a whole number; None where it is not given."""
    text = given.get(name)
    if not text:
        return None
    digits = text.replace(',', '').replace(' ', '').replace('\u202f', '')
    is_number = digits.isascii() and digits.isdigit() and len(digits) <= 16
    if not is_number or not least <= int(digits) <= most:
        raise BadQuestion(f'{name} is {text!r}, and not a whole number from {least} to {most:,}')
    return int(digits)


def number_or(default: int, given: Given, name: str, most: int = 10 ** 15, least: int = 0) -> int:
    """The same with a number that counts where none is given."""
    number = number_of(given, name, most, least)
    return default if number is None else number


def day_of(given: Given, name: str) -> str | None:
    """A parameter that is a day."""
    text = given.get(name)
    if not text:
        return None
    try:
        if datetime.date.fromisoformat(text).isoformat() == text:
            return text
    except ValueError:
        pass
    raise BadQuestion(f'{name} is {text!r}, and not a day as 2025-03-31')


def text_of(given: Given) -> str:
    """The text that is looked for, folded; nothing where none is given."""
    text = given.get('q') or ''
    if len(text) > MOST_LETTERS:
        raise BadQuestion(f'q is of {len(text)} letters, and of {MOST_LETTERS} at most')
    return fold_text(text)


def threes_in(text: str) -> str:
    """The threes of letters that all of a text is made of, in the language of FTS5."""
    places = {*range(0, len(text) - 2, 3), len(text) - 3}
    return ' '.join(quote(text[at:at + 3]) for at in sorted(places))


def quote(three: str) -> str:
    """Three letters in the language of FTS5, whatever they are."""
    return '"{}"'.format(three.replace('"', '""'))


def plant_filters(table: str) -> dict[str, str]:
    """Filters by the age and the capacity of a device."""
    return {f'{name}_{end}': f'{table}.{column} {sign} ?'
            for name, column in (('commissioned', 'commissioned'), ('capacity', 'capacity_w'))
            for end, sign in (('from', '>='), ('to', '<='))}


# -------------------------------------------------------------------- rows

def rows_of(database: sqlite3.Connection, text: str, values: Iterable[Any] = ()) -> list[Row]:
    """All rows of a query."""
    return [dict(row) for row in database.execute(text, tuple(values))]


def read(database: sqlite3.Connection, text: str, values: Iterable[Any] = ()) -> Listed:
    """The rows of a query as they are read."""
    cursor = database.execute(text, tuple(values))
    return Listed(tuple(name for name, *_ in cursor.description), map(dict, cursor))


def limit_of(given: Given) -> int:
    """The most rows of an answer."""
    of_file = FILES.get(given.get('format') or '')
    usual, most = (of_file, of_file) if of_file else (USUAL, MOST)
    return min(number_or(usual, given, 'limit', least=1), most)


def fetch_page(given: Given, database: sqlite3.Connection, text: str,
               values: Iterable[Any]) -> Listed:
    """A page of a query."""
    limit, offset = limit_of(given), number_or(0, given, 'offset')
    found = read(database, f'{text} LIMIT ? OFFSET ?', (*values, limit, offset))

    def beside(shown: list[Row]) -> Row:
        return {'next': offset + limit if len(shown) == limit else None}

    return Listed(found.columns, found.rows, beside)


def order_of(given: Given, columns: Sequence[str], default: str) -> str:
    """An ORDER BY of the column that is given; `-column` turns it round."""
    name = given.get('sort') or default
    column = name.removeprefix('-')
    if column not in columns:
        raise BadQuestion(f'sort is {name!r}, and not one of {", ".join(columns)}')
    return f'{column} {"DESC" if name.startswith("-") else "ASC"}'


def standing(database: sqlite3.Connection) -> Row:
    """By which entry the answers stand."""
    return dict(database.execute('SELECT code, today, entry, time FROM meta').fetchone())
