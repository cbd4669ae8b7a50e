"""All rows of all tables of a registry's file: where two files differ, and one digest over a file.

The files are copies that nobody has open, with their log folded in. docs/TABLES.md says what the
tables hold. Rows are compared inside SQLite, by the key of their table, so a large file takes no
memory here.
"""
import hashlib
import itertools
import json
import sqlite3
from collections.abc import Iterator
from contextlib import closing
from dataclasses import dataclass
from pathlib import Path

SHOWN = 20
"""Rows at most that are told of one table."""
CACHE = -65536
"""KiB of a file that SQLite keeps in memory, as its own sign has it."""
SCHEMA = 'SELECT type, name, tbl_name, sql FROM {}.sqlite_schema ORDER BY type, name'


@dataclass(frozen=True)
class Table:
    """A table by the names of its columns."""
    name: str
    key: tuple[str, ...]
    columns: tuple[str, ...]


@dataclass(frozen=True)
class Difference:
    """A row that is in one of two files alone, or in both with other values."""
    table: str
    key: str
    here: str
    there: str

    def in_words(self) -> str:
        return f'{self.table} {self.key}: {self.here}; {self.there}'


def open_file(database: Path) -> sqlite3.Connection:
    """A file that is read, and never written."""
    connection = sqlite3.connect(f'file:{database}?mode=ro&immutable=1', uri=True)
    connection.execute(f'PRAGMA cache_size = {CACHE}')
    connection.text_factory = text_in
    return connection


def text_in(stored: bytes) -> str:
    """A text whatever its bytes: in a file that somebody changed it may be no UTF-8."""
    return stored.decode(errors='surrogateescape')


def quote_name(name: str) -> str:
    """A name as it stands in SQL."""
    return '"' + name.replace('"', '""') + '"'


def tables_of(connection: sqlite3.Connection) -> list[Table]:
    """The tables of a file, by name.

    One without a key of its own is ordered by all of its columns.
    """
    names = [name for name, in connection.execute(
        "SELECT name FROM main.sqlite_schema WHERE type = 'table' ORDER BY name")]
    return [table_of(connection, name) for name in names]


def table_of(connection: sqlite3.Connection, name: str) -> Table:
    rows = connection.execute(f'PRAGMA main.table_info({quote_name(name)})').fetchall()
    columns = tuple(column for _, column, *_ in rows)
    key = tuple(column for _, column, in sorted(
        (place, column) for _, column, _, _, _, place in rows if place))
    return Table(name, key or columns, columns)


# ------------------------------------------------------------------ two files

def differences(one: Path, other: Path, names: tuple[str, str]) -> Iterator[Difference]:
    """Where the tables of two files differ, the first rows of each.

    `names` are what the two are called.
    """
    with closing(open_file(one)) as connection:
        connection.execute('ATTACH ? AS other', (f'file:{other}?mode=ro&immutable=1',))
        schemas = [connection.execute(SCHEMA.format(file)).fetchall() for file in ('main', 'other')]
        if schemas[0] != schemas[1]:
            yield Difference('the tables', 'as they were made', f'{names[0]} has others',
                             f'than {names[1]}')
            return
        for table in tables_of(connection):
            yield from itertools.islice(differing(connection, table, names), SHOWN)


def differing(connection: sqlite3.Connection, table: Table,
              names: tuple[str, str]) -> Iterator[Difference]:
    """The rows of a table in which the two files differ."""
    for here, there, (first, second) in (('main', 'other', names), ('other', 'main', names[::-1])):
        for row in unlike(connection, table, here, there, both=here == 'main'):
            values, others = row[:len(table.columns)], row[len(table.columns):]
            key = ', '.join(f'{column} {value!r}' for column, value
                            in zip(table.columns, values) if column in table.key)
            if others and others[-1]:
                changed = [three for three in zip(table.columns, values, others)
                           if three[1] != three[2]]
                mine = ', '.join(f'{column} {value!r}' for column, value, _ in changed)
                its = ', '.join(f'{column} {value!r}' for column, _, value in changed)
                yield Difference(table.name, key, f'{first} has {mine}', f'{second} has {its}')
            else:
                yield Difference(table.name, key, f'only in {first}', f'not in {second}')


def unlike(connection: sqlite3.Connection, table: Table, here: str, there: str,
           both: bool) -> Iterator[tuple[object, ...]]:
    """The rows that one file lacks.

    With `both` also those that it has with other values, which follow.
    """
    columns = list(map(quote_name, table.columns))
    mine = ', '.join(f'a.{column}' for column in columns)
    its = ', '.join(f'b.{column}' for column in columns)
    same = ' AND '.join(f'a.{column} IS b.{column}' for column in columns)
    at = ' AND '.join(f'a.{column} = b.{column}' for column in map(quote_name, table.key))
    first = quote_name(table.key[0])
    unequal = f'NOT ({same})' if both else 'FALSE'
    return connection.execute(
        f'SELECT {mine}, {its}, b.{first} IS NOT NULL FROM {here}.{quote_name(table.name)} AS a '
        f'LEFT JOIN {there}.{quote_name(table.name)} AS b ON {at} '
        f'WHERE b.{first} IS NULL OR {unequal}')


# ------------------------------------------------------------------ one file

def digest(database: Path) -> str:
    """One hash over all rows of all tables, wherever SQLite has put the rows."""
    made = hashlib.sha256()
    with closing(open_file(database)) as connection:
        for table in tables_of(connection):
            made.update(f'{table.name} {", ".join(table.columns)}\n'.encode())
            for text in texts_of(connection, table):
                made.update(text)
    return made.hexdigest()


def texts_of(connection: sqlite3.Connection, table: Table) -> Iterator[bytes]:
    """The rows of a table in the order of its key, each as one line."""
    columns, key = (', '.join(map(quote_name, some)) for some in (table.columns, table.key))
    rows = connection.execute(f'SELECT {columns} FROM {quote_name(table.name)} ORDER BY {key}')
    line = json.JSONEncoder(default=bytes.hex).encode
    for row in rows:
        yield line(row).encode() + b'\n'
