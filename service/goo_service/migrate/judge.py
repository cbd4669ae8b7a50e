"""Judges the tables of an old registry row by row, and then with each other.

Every row is read, and every fault is told by its table, row and field. A row that points at a row
with a fault has none of its own by that.
"""
import sqlite3
from collections import Counter
from collections.abc import Callable
from collections.abc import Container
from collections.abc import Iterator
from dataclasses import dataclass
from dataclasses import field
from pathlib import Path

from goo_service.migrate import documents
from goo_service.migrate import forms
from goo_service.migrate import lots
from goo_service.migrate import numbers
from goo_service.migrate import tables
from goo_service.migrate import work
from goo_service.migrate.faults import Fault
from goo_service.migrate.forms import Unfit
from goo_service.migrate.settings import COLUMNS
from goo_service.migrate.settings import Settings
from goo_service.migrate.settings import must
from goo_service.migrate.tables import Row


@dataclass
class Known:
    """What the tables that were read before state: holders, accounts, devices, lots."""

    holders: set[str] = field(default_factory=set)
    codes: dict[str, int] = field(default_factory=dict)
    accounts: set[str] = field(default_factory=set)
    devices: dict[str, str] = field(default_factory=dict)
    """The day on which each was commissioned; '' where that can't be read."""
    lots: set[tuple[int, str, str]] = field(default_factory=set)
    """Registry, device, and first day."""
    carried: set[str] = field(default_factory=set)
    documents: set[str] = field(default_factory=set)

    def __post_init__(self) -> None:
        self.by_table: dict[str, Container[str]] = {
            'holders': self.holders, 'accounts': self.accounts, 'devices': self.devices}


class Judge:
    """Judges rows, and keeps those that can be read, with all faults, in the working file."""

    def __init__(self, folder: Path, settings: Settings, database: sqlite3.Connection) -> None:
        self.folder, self.settings, self.database = folder, settings, database
        self.known, self.rows = Known(), Counter[str]()
        self.faults, self.open, self.used = Counter[str](), 0, set[str]()
        self.unread = set[str]()
        """Tables that can't be read to their end: what other tables say of them is not judged."""
        self.day = forms.day_reader(settings.days)
        self.number = numbers.Reader(settings)

    def tell(self, fault: Fault) -> None:
        """Keeps a fault."""
        is_waived = fault.is_waived(self.settings.waivers)
        self.used |= self.settings.waivers & fault.waivers
        self.faults[fault.kind] += 1
        self.open += not is_waived
        self.database.execute('INSERT INTO fault VALUES (?, ?, ?, ?, ?, ?, ?)', (
            fault.kind, fault.table, fault.row, fault.field, fault.reason, is_waived,
            fault.leaves_out()))

    def read(self) -> None:
        """Reads all tables, and judges them by row, and then with each other."""
        must(self.settings.choice or not tables.path_of(self.folder, 'carried').exists(),
             '[carry] lacks choice: what becomes of the energy in carried.csv')
        judged: dict[str, Callable[[Row], Iterator[Fault]]] = {
            'holders': self.holder, 'accounts': self.account, 'devices': self.device,
            'lots': self.lot, 'stock': self.stock, 'carried': self.carried,
            'documents': self.document}
        for table in COLUMNS:
            if tables.is_there(self.folder, table):
                self.read_table(table, judged[table])
        for index in work.INDEXES:
            self.database.execute(index)
        for fault in lots.faults(self.database):
            self.tell(fault)

    def read_table(self, table: str, judged: Callable[[Row], Iterator[Fault]]) -> None:
        try:
            for row in tables.rows_in(self.folder, table, self.settings):
                self.rows[table] += 1
                for fault in [row] if isinstance(row, Fault) else list(judged(row)):
                    self.tell(fault)
        except tables.Refused as refused:
            self.unread.add(table)
            self.tell(refused.fault)

    def is_in(self, table: str, value: str) -> bool:
        """Whether a row of a table has this holder, account or device."""
        return table in self.unread or value in self.known.by_table[table]

    def keep(self, table: str, *values: object) -> None:
        self.database.execute(f'INSERT INTO {table} VALUES ({", ".join("?" * len(values))})',
                              values)

    def fit(self, row: Row, kind: str, column: str, read: Callable[[], str],
            faults: list[Fault]) -> str:
        """What a field is read as; '' with a fault where it can't be."""
        if not row.fields[column]:
            faults.append(row.fault('empty', column, 'it is empty'))
            return ''
        try:
            return read()
        except Unfit as reason:
            faults.append(row.fault(kind, column, str(reason)))
            return ''

    def name(self, row: Row, column: str, faults: list[Fault]) -> str:
        """A name as it is kept, by [names] where the old one is too long."""
        given = self.settings.word('names', row.fields[column])
        is_long = len(given.encode()) > forms.MOST_NAME and not forms.has_control(given)
        return self.fit(row, 'name-long' if is_long else 'name', column,
                        lambda: forms.name(given), faults)

    # the tables

    def holder(self, row: Row) -> Iterator[Fault]:
        old, faults = row.fields['holder'], list[Fault]()
        code = self.word(row, 'holder-code', 'holder', 'holders', forms.holder_code, faults)
        name = self.name(row, 'name', faults)
        if code == 'ISSUER':
            faults.append(row.fault('holder-code', 'holder', 'ISSUER is the issuing body itself'))
        if old in self.known.holders:
            faults.append(row.fault('holder-twice', 'holder', f'{old!r} is in a row before'))
        elif code and self.known.codes.setdefault(code, row.number) != row.number:
            faults.append(row.fault('holder-code-twice', 'holder',
                                    f'row {self.known.codes[code]} comes to {code!r} too'))
        yield from faults
        if old and old not in self.known.holders:
            self.known.holders.add(old)
            self.keep('holder', row.number, old, code, name)

    def account(self, row: Row) -> Iterator[Fault]:
        old, holder = row.fields['account'], row.fields['holder']
        for column in ('account', 'holder'):
            if not row.fields[column]:
                yield row.fault('empty', column, 'it is empty')
        if holder and not self.is_in('holders', holder):
            yield row.fault('account-without-holder', 'holder', f'no row has holder {holder!r}')
        if old in self.known.accounts:
            yield row.fault('account-twice', 'account', f'{old!r} is in a row before')
        elif old:
            self.known.accounts.add(old)
            self.keep('account', row.number, old, holder, None)

    def device(self, row: Row) -> Iterator[Fault]:
        given, faults = row.fields, list[Fault]()
        stated = self.plant(row, faults)
        if not self.is_in('accounts', given['account']):
            faults.append(row.fault('device-without-account', 'account',
                                    f'no row has account {given["account"]!r}'))
        if given['device'] in self.known.devices:
            faults.append(row.fault('device-twice', 'device', 'the device is in a row before'))
        elif given['device']:
            self.known.devices[given['device']] = stated.commissioned
            self.keep('device', row.number, given['device'], given['account'], *stated)
        yield from faults

    def lot(self, row: Row) -> Iterator[Fault]:
        """A lot of another registry."""
        given, faults = row.fields, list[Fault]()
        stated, registry = self.plant(row, faults), self.registry(row, faults)
        first_day = self.fit(row, 'day', 'first_day', lambda: self.day(given['first_day']), faults)
        if registry in (self.settings.old_code, self.settings.new_code):
            faults.append(row.fault('registry', 'registry', f'{registry:02} is the old registry or '
                                    'the new one, and no other'))
        if first_day and first_day < stated.commissioned:
            faults.append(row.fault('before-commissioning', 'first_day', 'the device was '
                                    f'commissioned on {stated.commissioned}'))
        key = registry, given['device'], first_day
        if key in self.known.lots:
            faults.append(row.fault('lot-twice', 'device', 'the lot is in a row before'))
        elif registry and first_day:
            self.known.lots.add(key)
            self.keep('lot', row.number, *key, *stated)
        yield from faults

    def plant(self, row: Row, faults: list[Fault]) -> work.Plant:
        """What a row states of its device."""
        given = row.fields
        self.fit(row, 'device-number', 'device', lambda: forms.device(given['device']), faults)
        site = self.name(row, 'site', faults)
        words = [self.word(row, column, column, *of, faults) for column, of in WORDS.items()]
        watts = self.fit(row, 'capacity', 'capacity', lambda: str(forms.watts(
            given['capacity'], self.settings.capacity)), faults)
        begun = self.fit(row, 'day', 'commissioned', lambda: self.day(given['commissioned']),
                         faults)
        country, technology, source, carrier, support = words
        return work.Plant(site, country, technology, source, carrier, int(watts or 0), begun,
                          support)

    def registry(self, row: Row, faults: list[Fault]) -> int:
        """The code of a registry; 0 where that can't be read."""
        return int(self.word(row, 'registry', 'registry', 'registries', forms.registry, faults)
                   or 0)

    def word(self, row: Row, kind: str, column: str, section: str, read: forms.Reader,
             faults: list[Fault]) -> str:
        """A word of the old registry as we write it, by its section of the settings."""
        def read_word() -> str:
            try:
                return read(self.settings.word(section, row.fields[column]))
            except Unfit as reason:
                raise Unfit(f'{reason}; say under [{section}] what it is here') from reason
        return self.fit(row, kind, column, read_word, faults)

    def stock(self, row: Row) -> Iterator[Fault]:
        given, faults = row.fields, list[Fault]()
        days = {column: self.fit(row, 'day', column, lambda: self.day(given[column]), faults)
                for column in ('first_day', 'last_day', 'issued_on')}
        if not self.is_in('accounts', given['account']):
            faults.append(row.fault('stock-without-account', 'account',
                                    f'no row has account {given["account"]!r}'))
        faults += lots.row_faults(row, days, self.settings)
        range_ = self.range(row, faults)
        if 'registry' not in {fault.kind for fault in faults}:
            faults += self.lot_faults(row, range_.other if range_ else None, days['first_day'])
        if range_:
            self.keep('stock', row.number, range_.series, given['first'], given['last'],
                      range_.counted, range_.count, range_.first, range_.other, given['device'],
                      days['first_day'], days['last_day'], days['issued_on'], given['account'])
        yield from faults

    def range(self, row: Row, faults: list[Fault]) -> numbers.Range | None:
        """The range of a row; None with a fault where it has none."""
        given, registry = row.fields, None
        if given['registry'] and not (registry := self.registry(row, faults)):
            return None
        try:
            return self.number.range(given['first'], given['last'], registry)
        except numbers.NoRange as reason:
            faults.append(row.fault(reason.kind, 'first', str(reason)))
        return None

    def lot_faults(self, row: Row, other: int | None, first_day: str) -> Iterator[Fault]:
        """What is wrong with the device of a range, or with the lot of another registry's one."""
        device = row.fields['device']
        begun = self.known.devices.get(device, '')
        if other is None:
            if not self.is_in('devices', device):
                yield row.fault('stock-without-device', 'device', f'no row has device {device!r}')
            if first_day and first_day < begun:
                yield row.fault('before-commissioning', 'first_day',
                                f'the device was commissioned on {begun}')
        elif other == self.settings.new_code:
            yield row.fault('own-registry', 'first', f'it is of registry {other:02}, the new one')
        elif (other, device, first_day) not in self.known.lots and 'lots' not in self.unread:
            yield row.fault('other-registry', 'first', f'it is of registry {other:02}, and no row '
                            f'of lots.csv has device {device!r} from {first_day or "that day"}')

    def carried(self, row: Row) -> Iterator[Fault]:
        device, faults = row.fields['device'], list[Fault]()
        energy = self.fit(row, 'carry', 'energy_wh', lambda: str(forms.carried_energy(
            row.fields['energy_wh'])), faults)
        if not self.is_in('devices', device):
            faults.append(row.fault('carry', 'device', f'no row has device {device!r}'))
        if device in self.known.carried:
            faults.append(row.fault('carry-twice', 'device', 'the device is in a row before'))
        else:
            self.known.carried.add(device)
            self.keep('carried', row.number, device, int(energy or 0))
        yield from faults

    def document(self, row: Row) -> Iterator[Fault]:
        given, faults = row.fields, list[Fault]()
        if not self.is_in('holders', given['holder']):
            faults.append(row.fault('account-without-holder', 'holder',
                                    f'no row has holder {given["holder"]!r}'))
        if given['file'] in self.known.documents:
            faults.append(row.fault('document', 'file', 'the file is in a row before'))
        else:
            self.known.documents.add(given['file'])
            try:
                found = documents.found(self.folder, given['file'])
                self.keep('document', row.number, given['file'], given['holder'], given['about'],
                          found.size, found.hash)
            except documents.NoDocument as reason:
                faults.append(row.fault('document', 'file', str(reason)))
        yield from faults


WORDS: dict[str, tuple[str, forms.Reader]] = {
    'country': ('countries', forms.country), 'technology': ('technologies', forms.technology),
    'source': ('sources', forms.source), 'carrier': ('carriers', forms.carrier),
    'support': ('supports', forms.support)}
"""The words of a device: the section of the settings that says what they become, and the reader."""
