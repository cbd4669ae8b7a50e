"""What tables and texts have to hold, by a registry that was recounted (goo_service.rules)."""
import collections
import csv
import io
from collections.abc import Iterable
from collections.abc import Iterator
from typing import Any

from goo_service.rules.certificates import CANCELLED
from goo_service.rules.certificates import HELD
from goo_service.rules.certificates import PLACES
from goo_service.rules.certificates import Run
from goo_service.rules.lots import LOT
from goo_service.rules.lots import PLANT
from goo_service.rules.lots import Lot
from goo_service.rules.registry import Registry

Rows = list[tuple[Any, ...]]
HOLDINGS = LOT[1:]
ROWS = {
    'meta': 'SELECT code, today, next_serial, next_account, next_cancellation, next_withdrawal, '
            'next_notice FROM meta',
    'holder': 'SELECT code, name FROM holder',
    'account': 'SELECT number, holder, closed FROM account',
    'device': f"SELECT d.gsrn, d.account, {', '.join(f'd.{member}' for member in PLANT)}, "
              "d.last_day, d.carry, coalesce(c.carrier, 'electricity') "
              'FROM device d LEFT JOIN device_carrier c ON c.gsrn = d.gsrn',
    'declaration': 'SELECT device, first_day, last_day, gross, aux FROM declaration ORDER BY id',
    'correction': 'SELECT device, first_day, less, withdrawal FROM correction ORDER BY id',
    'lot': f"SELECT {', '.join(f'l.{member}' for member in LOT[:-1])}, "
           "coalesce(c.carrier, 'electricity'), l.expires_on "
           'FROM lot l LEFT JOIN lot_carrier c ON c.lot = l.id',
    'piece': 'SELECT p.first, p.last, l.origin, l.device, l.first_day, p.kind, p.account, p.act '
             'FROM piece p LEFT JOIN lot l ON l.id = p.lot ORDER BY p.first',
    'peer': 'SELECT code FROM peer',
    'cancellation': 'SELECT number, account, first, last, beneficiary, use_first, use_last, day '
                    'FROM cancellation',
    'withdrawal': 'SELECT number, first, last, reason, day FROM withdrawal',
    'notice_out': 'SELECT number, account, body FROM notice_out',
    'notice_in': 'SELECT sender, number, body FROM notice_in',
}
"""What the tables keep besides the requests themselves.

A device and a lot are with their carrier, a piece with what its lot is known by.
"""
IN_ORDER = ('declaration', 'correction')
OBJECTS = {*(('table', name) for name in (*ROWS, 'receipt', 'device_carrier', 'lot_carrier')),
           ('index', 'piece_by_account'), ('index', 'piece_by_kind')}
"""What is in the file, by docs/TABLES.md, besides the indexes that SQLite makes of keys."""


# ------------------------------------------------------------------ tables

def rows_of(registry: Registry) -> dict[str, Rows]:
    """The rows that the tables have to have."""
    return {
        'meta': [(registry.code, registry.today, *registry.next.values())],
        'holder': list(registry.holders.items()),
        'account': [(number, *account) for number, account in registry.accounts.items()],
        'device': [(gsrn, of['account'], *(of[member] for member in PLANT), of['last_day'],
                    of['carry'], of['carrier']) for gsrn, of in registry.devices.items()],
        'declaration': registry.declarations,
        'correction': registry.corrections,
        'lot': [(*lot, lot.expires_on) for lot in registry.lots.values()],
        'piece': [(first, last, *lot.key, *place)
                  for first, last, lot, place in registry.certificates.longest_runs()],
        'peer': [(peer,) for peer in registry.peers],
        'cancellation': [(number, *act) for number, act in registry.cancellations.items()],
        'withdrawal': [(number, *act) for number, act in registry.withdrawals.items()],
        'notice_out': [(number, *notice) for number, notice in registry.sent.items()],
        'notice_in': [(*source, body) for source, body in registry.taken.items()],
    }


def differences(one: str, rows: Iterable[object], other: str,
                others: Iterable[object]) -> list[str]:
    """The rows of the one that the other lacks, and the other way round, each with where it is.

    They are compared as texts, since a damaged value may be of any kind.
    """
    here, there = collections.Counter(map(str, rows)), collections.Counter(map(str, others))
    return [f'{one}: {row}' for row in here - there] + [f'{other}: {row}' for row in there - here]


def table_faults(name: str, wanted: Rows, found: Rows) -> list[str]:
    """Where the rows of a table are not those that the requests leave."""
    if (name in IN_ORDER and wanted != found
            and sorted(wanted, key=str) == sorted(found, key=str)):
        return ['the rows are those of the requests, in another order']
    return differences('by the requests', wanted, 'in the table', found)


# ------------------------------------------------------------------ texts

def audit_text(registry: Registry) -> str:
    return ''.join(f'{gsrn} {of["declared"]} {of["less"]} {of["issued"]} {of["corrected"]} '
                   f'{of["carry"]}\n' for gsrn, of in sorted(registry.devices.items()))


def line_of(first: int, last: int, lot: Lot) -> str:
    return (f'{first:014} {last:014} {last - first + 1:12} {lot.device} {lot.first_day} '
            f'{lot.last_day} {lot.tech} {lot.source}')


def statement_text(registry: Registry, account: int, runs: Iterable[Run]) -> str:
    """The statement of an account of these runs, as the registry prints it."""
    holder, closed = registry.accounts[account]
    sums: collections.Counter[int] = collections.Counter()
    lines = ['STATEMENT', f'registry {registry.code:02}', f'date {registry.today}',
             f'account {account}', f'holder {holder}', f'status {"closed" if closed else "open"}']
    for first, last, lot, place in runs:
        sums[place.kind] += last - first + 1
        act = f':{place.act}' if place.act else ''
        lines.append(f'{line_of(first, last, lot)} {PLACES[place.kind]}{act}')
    lines += [f'{word} {sums[kind]}' for kind, word in PLACES.items()]
    return '\n'.join([*lines, 'END', ''])


def document_text(registry: Registry, number: int, runs: Iterable[tuple[Any, ...]]) -> str:
    """The document of a cancellation of these runs, as the registry prints it."""
    account, first, last, beneficiary, use_first, use_last, day = registry.cancellations[number]
    return '\n'.join([
        f'CANCELLATION {number}', f'registry {registry.code:02}', f'date {day}',
        f'account {account}', f'holder {registry.holder_of(account)}',
        f'beneficiary {beneficiary}', f'period {use_first} {use_last}',
        *(line_of(*run[:3]) for run in runs), f'certificates {last - first + 1}', 'END', ''])


def holdings_text(runs: Iterable[Run]) -> str:
    """The runs that an account holds as CSV, each with its whole lot (docs/FORMATS.md)."""
    text = io.StringIO()
    rows = csv.writer(text, lineterminator='\n')
    rows.writerow(('first', 'last', 'count', *HOLDINGS))
    rows.writerows((f'{first:014}', f'{last:014}', last - first + 1,
                    *(getattr(lot, member) for member in HOLDINGS))
                   for first, last, lot, place in runs if place.kind == HELD)
    return text.getvalue()


def texts_of(registry: Registry) -> Iterator[tuple[str, str]]:
    """Each text of the registry's, by the name of its file."""
    by_account: dict[int, list[Run]] = collections.defaultdict(list)
    by_act: dict[int, list[Run]] = collections.defaultdict(list)
    for run in registry.certificates.longest_runs():
        by_account[run[3].account].append(run)
        if run[3].kind == CANCELLED:
            by_act[run[3].act].append(run)
    yield 'audit.txt', audit_text(registry)
    for account in registry.accounts:
        yield f'statement-{account}.txt', statement_text(registry, account, by_account[account])
        yield f'holdings-{account}.csv', holdings_text(by_account[account])
    for number in registry.cancellations:
        yield f'cancellation-{number}.txt', document_text(registry, number, by_act[number])
