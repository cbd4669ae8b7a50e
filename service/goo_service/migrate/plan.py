"""The plan of a migration: the requests that bring the old registry over, in their order.

The file plan.jsonl has a line for each request: the holder to which it belongs, the body that is
sent, and the reply that has to come. A key is made of what its row is about, so a request that is
sent again is answered `repeated`. The old registry is a peer, and its certificates come in by
notices of it, of one account and 100 parts at most. Certificates of a third registry keep its lots
and numbers. All of a holder stands together.
"""
import hashlib
import json
import sqlite3
from collections.abc import Iterator
from dataclasses import dataclass
from pathlib import Path
from typing import Any

from goo_service.migrate import work
from goo_service.migrate.numbers import MOST_COUNT
from goo_service.migrate.numbers import SERIALS
from goo_service.migrate.numbers import text_of
from goo_service.migrate.settings import Settings
from goo_service.migrate.tables import hash_of
from goo_service.migrate.tables import hashes
from goo_service.migrate.tables import write_table
from goo_service.rules.lots import LOT
from goo_service.rules.lots import Lot
from goo_service.rules.notices import MOST_PARTS
from goo_service.rules.notices import notice_text

NAME, NUMBERS, CARRIED = 'plan.jsonl', 'numbers.csv', 'carried.csv'
ACCOUNTS = 'new-accounts.csv'
NUMBER_COLUMNS = ('old_first', 'old_last', 'first', 'last', 'device', 'first_day', 'account')
ACCOUNT_COLUMNS = ('holder', 'name', 'account', 'old_holder', 'old_account')
CARRIED_COLUMNS = ('device', 'old_carry_wh', 'choice', 'added_to_first_declaration_wh')
DEVICE = ('site', 'country', 'tech', 'source', 'carrier', 'capacity_w', 'commissioned', 'support')
ACCOUNT_NUMBERS = '''
UPDATE account SET number = n FROM (
    SELECT a.row AS its, ? - 1 + row_number() OVER (ORDER BY h.row, a.row) AS n
    FROM kept_account AS a JOIN kept_holder AS h ON h.old = a.holder)
WHERE its = account.row
'''
SERIAL_NUMBERS = '''
UPDATE stock SET first = ? + n FROM (
    SELECT row AS its, coalesce(sum(count) OVER (ORDER BY series, counted, row
           ROWS BETWEEN UNBOUNDED PRECEDING AND 1 PRECEDING), 0) AS n FROM kept_stock
    WHERE other IS NULL)
WHERE its = stock.row
'''
PARTS = f'SELECT first, last, {", ".join(LOT)} FROM stated WHERE account = ? ORDER BY first'
Body = dict[str, Any]
Part = tuple[int, int, Lot]


class NotPlanned(Exception):
    """Why there is no plan."""


@dataclass(frozen=True)
class Step:
    """A request of the plan: its holder, its body, and the reply that has to come."""

    holder: str
    body: Body
    reply: Body

    @property
    def line(self) -> str:
        return json.dumps({'holder': self.holder, 'body': self.body, 'reply': self.reply},
                          ensure_ascii=False, separators=(',', ':'))


def step_of(line: str) -> Step:
    """The request in a line of the plan."""
    read = json.loads(line)
    return Step(read['holder'], read['body'], read['reply'])


def key_of(*about: object) -> str:
    """The key of a request, by what it is about."""
    text = json.dumps(about, ensure_ascii=False)
    return f'migrate:{hashlib.sha256(text.encode()).hexdigest()[:24]}'


def write(folder: Path, settings: Settings) -> int:
    """Writes the plan and the lists that go with it; how many requests it has."""
    with work.opened(folder, writes=True) as database:
        if work.noted(database, 'open') != '0':
            raise NotPlanned(f'{work.noted(database, "open")} faults stand that nobody waived: '
                             'see report.txt')
        for name, found in hashes(folder).items():
            if work.noted(database, f'hash {name}') != found:
                raise NotPlanned(f'{name} is another one than was checked: goo-migrate check '
                                 f'{folder}')
        database.execute('BEGIN')
        database.execute('UPDATE account SET number = NULL')
        database.execute(ACCOUNT_NUMBERS, (settings.first_account,))
        assign_serials(database, settings)
        count = write_lines(folder / NAME, (step.line for step in steps(database, settings)))
        write_table(folder / NUMBERS, NUMBER_COLUMNS, number_rows(database))
        write_table(folder / CARRIED, CARRIED_COLUMNS, carried_rows(database, settings))
        write_table(folder / ACCOUNTS, ACCOUNT_COLUMNS, database.execute(
            'SELECT h.code, h.name, a.number, h.old, a.old FROM kept_account AS a '
            'JOIN kept_holder AS h ON h.old = a.holder ORDER BY a.number'))
        work.note(database, 'plan', hash_of(folder / NAME))
        work.note(database, 'requests', str(count))
        database.execute('COMMIT')
    return count


def write_lines(path: Path, lines: Iterator[str]) -> int:
    """Writes a file of lines in place of the one of before; how many there are."""
    part, count = path.with_suffix('.part'), 0
    with part.open('w', encoding='utf-8') as file:
        for line in lines:
            file.write(f'{line}\n')
            count += 1
    part.replace(path)
    return count


def assign_serials(database: sqlite3.Connection, settings: Settings) -> None:
    """New serials in the order of the old numbers, where those have another form."""
    if settings.numbers != 'assigned':
        return
    database.execute('UPDATE stock SET first = NULL WHERE other IS NULL')
    database.execute(SERIAL_NUMBERS, (settings.old_code * SERIALS + 1,))
    total, = database.execute('SELECT coalesce(sum(count), 0) FROM kept_stock '
                              'WHERE other IS NULL').fetchone()
    if total > MOST_COUNT:
        raise NotPlanned(f'{total:,} certificates are more than there are serials')


# the requests

def steps(database: sqlite3.Connection, settings: Settings) -> Iterator[Step]:
    """The requests, in their order."""
    yield Step('', {'command': 'add_peer', 'key': key_of('peer', settings.old_code),
                    'peer': settings.old_code}, {})
    notice = 0
    for old, code, name in database.execute(
            'SELECT old, code, name FROM kept_holder ORDER BY row').fetchall():
        yield Step(code, {'command': 'open_holder', 'key': key_of('holder', old), 'holder': code,
                          'name': name}, {})
        accounts = accounts_of(database, old)
        yield from members(database, code, accounts)
        for account, parts in notices_of(database, accounts):
            notice += 1
            yield import_step(settings, code, notice, account, parts)


def accounts_of(database: sqlite3.Connection, holder: str) -> list[tuple[int, str]]:
    """New and old number of a holder's accounts."""
    return database.execute('SELECT number, old FROM kept_account WHERE holder = ? ORDER BY row',
                            (holder,)).fetchall()


def members(database: sqlite3.Connection, code: str,
            accounts: list[tuple[int, str]]) -> Iterator[Step]:
    """A holder's accounts, and then the devices whose certificates go there."""
    for number, old in accounts:
        yield Step(code, {'command': 'open_account', 'key': key_of('account', old), 'holder': code},
                   {'account': number})
    devices = ((number, *row) for number, old in accounts for row in database.execute(
        f'SELECT gsrn, {", ".join(DEVICE)} FROM kept_device WHERE account = ? ORDER BY row',
        (old,)))
    for number, gsrn, *values in devices:
        yield Step(code, {'command': 'register_device', 'key': key_of('device', gsrn),
                          'device': gsrn, 'account': number, **dict(zip(DEVICE, values))}, {})


def notices_of(database: sqlite3.Connection,
               accounts: list[tuple[int, str]]) -> Iterator[tuple[int, list[Part]]]:
    """The certificates of accounts, so many parts at a time."""
    for number, old in accounts:
        parts: list[Part] = []
        for part in joined_parts(database, old):
            if len(parts) == MOST_PARTS:
                yield number, parts
                parts = []
            parts.append(part)
        if parts:
            yield number, parts


def joined_parts(database: sqlite3.Connection, account: str) -> Iterator[Part]:
    """The ranges of an account. Those of one lot that follow each other are one."""
    before: Part | None = None
    for first, last, *stated in database.execute(PARTS, (account,)):
        lot = Lot(*stated)
        if before and before[1] == first - 1 and before[2] == lot:
            before = (before[0], last, lot)
            continue
        if before:
            yield before
        before = (first, last, lot)
    if before:
        yield before


def import_step(settings: Settings, holder: str, number: int, account: int,
                parts: list[Part]) -> Step:
    """The import of a notice of the old registry."""
    notice = json.loads(notice_text(settings.old_code, settings.new_code, number, account,
                                    parts))
    body = {'command': 'import', 'key': key_of('notice', notice), 'notice': notice}
    return Step(holder, body, {'count': sum(last - first + 1 for first, last, _ in parts)})


# the lists

def number_rows(database: sqlite3.Connection) -> Iterator[tuple[object, ...]]:
    """Old and new numbers of all ranges."""
    for old_first, old_last, first, count, *rest in database.execute(
            'SELECT s.old_first, s.old_last, s.first, s.count, s.device, s.first_day, a.number '
            'FROM kept_stock AS s JOIN kept_account AS a ON a.old = s.account ORDER BY s.row'):
        yield old_first, old_last, text_of(first), text_of(first + count - 1), *rest


def carried_rows(database: sqlite3.Connection,
                 settings: Settings) -> Iterator[tuple[object, ...]]:
    """What becomes of the energy that each device carried. A carry can't be brought in."""
    for device, energy in database.execute(
            'SELECT device, energy_wh FROM kept_carried ORDER BY device'):
        yield device, energy, settings.choice, energy if settings.choice == 'added' else 0
