"""Holds the book of acts against the newest copy of the registry, and so against the program.

The copy has the rows that the program wrote, as of one entry. The book goes on: it may be some
entries further. So the entries since the copy are carried out over the copy's rows, in memory, and
then both are of the book's entry. What the rules make of those few entries is in the next copy, by
the program itself.

Root reads the copy, which nobody else may. All else is read by the user whose folder the book is
in.
"""
import argparse
import itertools
import os
import sqlite3
import sys
from collections.abc import Iterator
from contextlib import closing
from dataclasses import dataclass
from dataclasses import field
from pathlib import Path

from goo_service.common.owner import owner_of
from goo_service.copies import contents
from goo_service.copies.expected import ROWS
from goo_service.log import bundles
from goo_service.log import reader
from goo_service.log import entries
from goo_service.log import roles
from goo_service.records import table_rows
from goo_service.records.beginning import place_in
from goo_service.records.book import REQUEST_ROUTE
from goo_service.records.book import TABLE_ROUTE
from goo_service.records.commands import Command
from goo_service.records.commands import command_of
from goo_service.records.commands import command_of_row
from goo_service.records.facts import Comparison
from goo_service.records.facts import facts_of_book
from goo_service.records.facts import facts_of_registry
from goo_service.records.registry import WatchedRegistry
from goo_service.records.schema import Mismatch
from goo_service.records.schema import read_moment
from goo_service.rules.certificates import Place
from goo_service.rules.commands import plain_of
from goo_service.rules.lots import Lot
from goo_service.rules.lots import LOT
from goo_service.rules.lots import PLANT
from goo_service.rules.refusals import Again
from goo_service.rules.registry import Registry

SHOWN = 20
"""Differences that are told one by one."""


@dataclass(frozen=True)
class Copy:
    """A copy of a registry that tells the entry at which it was made."""

    path: Path
    entry: int
    hash: str | None


def newest_copy(folder: Path) -> Copy:
    """The newest copy that tells its entry. ValueError where it is not as it was made."""
    for path in reversed(contents.copies_in(folder)):
        if place := place_in(path):
            faults = contents.faults_of(path) if contents.has_list(path) else ['it has no list']
            if faults:
                raise ValueError(f'{path} is not the copy that was made: {"; ".join(faults)}')
            return Copy(path, place.entry, place.hash)
    raise ValueError(f'{folder} has no copy with place.json in it')


# -------------------------------------------------------------------- the copy's rows in memory

def registry_of_copy(database: sqlite3.Connection, audit: str) -> Registry:
    """The registry by whose rows a copy stands. What devices add up to is as the program's own
    audit has it."""
    rows = {name: database.execute(query) for name, query in ROWS.items() if name != 'piece'}
    code, today, *following = rows['meta'].fetchone()
    registry = WatchedRegistry(code, today, 1)
    registry.next = dict(zip(registry.next, following))
    registry.holders = dict(rows['holder'])
    registry.accounts = {number: (holder, closed) for number, holder, closed in rows['account']}
    sums = {line.split()[0]: [int(word) for word in line.split()[1:]]
            for line in audit.splitlines()}
    for gsrn, account, *plant, last_day, carry, carrier in rows['device']:
        declared, less, issued, corrected, _ = sums[gsrn]
        registry.devices[gsrn] = {
            'device': gsrn, 'account': account, **dict(zip(PLANT, plant)), 'carrier': carrier,
            'last_day': last_day, 'carry': carry, 'declared': declared, 'less': less,
            'issued': issued, 'corrected': corrected}
    registry.declarations = list(rows['declaration'])
    registry.left = {(gsrn, first_day): gross - aux
                     for gsrn, first_day, _, gross, aux in registry.declarations}
    registry.corrections = list(rows['correction'])
    for gsrn, first_day, less, _ in registry.corrections:
        registry.left[gsrn, first_day] -= less
    registry.peers = {code for code, in rows['peer']}
    registry.cancellations = {number: tuple(of) for number, *of in rows['cancellation']}
    registry.withdrawals = {number: tuple(of) for number, *of in rows['withdrawal']}
    registry.sent = {number: (account, text) for number, account, text in rows['notice_out']}
    registry.taken = {(sender, number): text for sender, number, text in rows['notice_in']}
    lots = (Lot(**dict(zip(LOT, of))) for *of, _ in rows['lot'])
    registry.lots = {lot.key: lot for lot in lots}
    restore_pieces(registry, database)
    return registry


def restore_pieces(registry: WatchedRegistry, database: sqlite3.Connection) -> None:
    """Where each certificate is. What is held waits for its deadline."""
    for first, last, origin, gsrn, first_day, *place in database.execute(ROWS['piece']):
        registry.restore(first, last, registry.lots[origin, gsrn, first_day], Place(*place))


# -------------------------------------------------------------------- the entries since

@dataclass(frozen=True)
class Accepted:
    """A command that the registry accepted, or that it had accepted before."""

    caller: str
    key: object
    command: Command
    is_repeated: bool


def read_accepted(record: entries.Record) -> Iterator[Accepted]:
    """The accepted commands of an entry. None of them was written by a role that may not."""
    entry, outcome = record.entry, record.outcome
    if outcome.status != 200 or not roles.allows(entry.role, entry.method, entry.route, entry.body):
        return
    if entry.route == REQUEST_ROUTE:
        members = command_of(outcome.body)
        if members['outcome'] in ('accepted', 'repeated'):
            command = command_of(entry.body)
            yield parse_accepted(entry.caller, command, members['outcome'])
    elif entry.route in bundles.ROUTES:
        for line, answer in bundles.read_outcomes(entry.body, outcome.body):
            if answer['outcome'] in ('accepted', 'repeated'):
                yield parse_accepted(entry.caller, command_of(line.body), answer['outcome'])
    elif entry.route == TABLE_ROUTE:
        for row in table_rows.rows_of_table(entry.body, outcome.body):
            if row.outcome in ('accepted', 'repeated'):
                yield parse_accepted(entry.caller, command_of_row(row.fields), row.outcome)


def parse_accepted(caller: str, command: Command, outcome: str) -> Accepted:
    return Accepted(caller, command.get('key'), plain_of(command), outcome == 'repeated')


@dataclass
class Since:
    """Carries out the entries since a copy, over its rows."""

    registry: Registry
    database: sqlite3.Connection
    """The copy, which knows what was accepted before."""
    keys: set[tuple[str, object]] = field(default_factory=set)

    def apply(self, record: entries.Record) -> None:
        for of in read_accepted(record):
            if of.is_repeated and self.is_known(of.caller, of.key):
                continue
            self.keys.add((of.caller, of.key))
            try:
                self.registry.apply(of.caller, of.command)
            except Again:           # a notice that was imported before, under another key
                continue
            except Exception as fault:      # whatever the reason, rules and registry differ
                raise Mismatch(f'entry {record.entry.n}: the registry accepted it, over the copy '
                               f'the rules say {fault!r}') from fault

    def is_known(self, caller: str, key: object) -> bool:
        found = self.database.execute('SELECT 1 FROM receipt WHERE caller = ? AND key = ?',
                                      (caller, key))
        return (caller, key) in self.keys or found.fetchone() is not None


def records_between(archive: Path, copy: Copy, last: int) -> Iterator[entries.Record]:
    """The records after a copy, up to an entry. The first one has to follow the copy's."""
    for record in reader.read_archive(archive, after=copy.entry):
        if record.entry.n == copy.entry + 1 and copy.hash not in (None, record.entry.prev):
            raise Mismatch(f'entry {record.entry.n} does not follow the entry at which {copy.path} '
                           'was made: the copy is of another log')
        if record.entry.n > last:
            return
        yield record


# -------------------------------------------------------------------- the comparison

def become_reader(book: Path, archive: Path) -> None:
    """Root goes on as the user of the book, who reads the archive by the group of the log."""
    if owner := owner_of(book):
        os.setgroups([archive.parent.stat().st_gid])    # only its group sees into that folder
        os.setresgid(owner.group, owner.group, owner.group)
        os.setresuid(owner.user, owner.user, owner.user)


@dataclass(frozen=True)
class Result:
    """What a comparison came to."""

    copy: Copy
    entry: int
    """That of the book."""
    count: int
    """Facts that are the same."""
    differences: list[str]


def compare(given: argparse.Namespace) -> Result:
    """Holds the present book against the newest copy."""
    folder, archive = Path(given.into), Path(given.archive)
    copy = newest_copy(Path(given.copies))
    path = f'{(copy.path / "registry.db").resolve().as_uri()}?mode=ro&immutable=1'
    with closing(sqlite3.connect(path, uri=True)) as database:
        audit = (copy.path / 'audit.txt').read_text(encoding='ascii')
        registry = registry_of_copy(database, audit)
        become_reader(folder, archive)
        with closing(read_moment(folder / 'current')) as book:
            entry, = book.execute('SELECT entry FROM meta').fetchone()
            if entry < copy.entry:
                raise Mismatch(f'the book stands at entry {entry}, and {copy.path} is of entry '
                               f'{copy.entry}: goo-records is behind')
            since = Since(registry, database)
            for record in records_between(archive, copy, entry):
                since.apply(record)
            comparison = Comparison()
            found = comparison.differences(facts_of_registry(registry), facts_of_book(book))
            differences = list(itertools.islice(found, SHOWN))
            return Result(copy, entry, comparison.count, differences)


def check(given: argparse.Namespace) -> int:
    """Tells whether the book and the newest copy agree; the exit status."""
    result = compare(given)
    for line in result.differences:
        print(f'records: {line}', file=sys.stderr)
    told = 'differ' if result.differences else f'agree in {result.count:,} facts'
    print(f'entry {result.entry:,}: the book and {result.copy.path} of entry '
          f'{result.copy.entry:,}, with the entries since, {told}')
    return 1 if result.differences else 0
