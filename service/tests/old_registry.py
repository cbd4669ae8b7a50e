"""An old registry as its tables show it, made by a seed: holders, accounts, devices, stock.

    python3 service/tests/old_registry.py FOLDER [--seed N] [--times N] [--others N]

writes the tables of a country (10,000 devices, 2,000 holders, three million certificates in 400,000
ranges), or so many times as much. Tests make small ones, and plant a fault of each kind.
"""
import argparse
import calendar
import csv
import random
import sys
from collections.abc import Callable
from collections.abc import Iterator
from dataclasses import dataclass
from dataclasses import replace
from itertools import chain
from pathlib import Path

TOP = Path(__file__).resolve().parents[2]
if __name__ == '__main__':          # tests have their own way to these
    sys.path[:0] = [str(TOP / 'tools/lib'), str(TOP / 'service')]

from mutations import gsrn

CODE, NEW_CODE, DATE, CLOSED_ON = 8, 7, '2025-03-01', '2025-02-27'
OTHERS = (9, 34)
"""Registries of which the old one had imported certificates."""
FIRST_MONTH = (2024, 2)
TECHS = (('T010000', 'F01040100', 'electricity'), ('T020001', 'F01050100', 'electricity'),
         ('T030000', 'F01050200', 'hydrogen'), ('T050000', 'F01030400', 'gas'))
COUNTRIES = ('DE', 'AT', 'PL', 'GR')
SUPPORT = ('none', 'investment', 'production', 'both')
NAMES = ('Stadtwerke Nürnberg', 'Żółw Energia', 'Ηλιακό Πάρκο', 'Solarpark Nordfeld', 'Aurora')
HEADERS = {
    'holders': ('holder', 'name'),
    'accounts': ('account', 'holder'),
    'devices': ('device', 'account', 'site', 'country', 'technology', 'source', 'carrier',
                'capacity', 'commissioned', 'support'),
    'stock': ('first', 'last', 'device', 'first_day', 'last_day', 'issued_on', 'account'),
    'carried': ('device', 'energy_wh'),
    'lots': ('registry', 'device', 'first_day', 'site', 'country', 'technology', 'source',
             'carrier', 'capacity', 'commissioned', 'support'),
}
SETTINGS = f'''
[old]
code = {CODE}
name = "Registry of before"
closed_on = "{CLOSED_ON}"
[new]
code = {NEW_CODE}
date = "{DATE}"
[carry]
choice = "added"
'''
Row = list[str]
Tables = dict[str, list[Row]]


@dataclass(frozen=True)
class Size:
    """How large an old registry is."""

    holders: int = 6
    devices: int = 8
    months: int = 3
    ranges: int = 4
    """Of a lot."""
    certificates: int = 15
    """Of a range, at most."""
    others: int = 0
    """Lots of third registries, each with two ranges."""


COUNTRY = Size(holders=2000, devices=10_000, months=10, ranges=4, certificates=14)


def number(serial: int, code: int = CODE) -> str:
    return f'{code:02}{serial:012}'


def month(begin: tuple[int, int], count: int) -> tuple[str, str, str]:
    """First and last day of a month, and the day on which its certificates are issued."""
    years, of = divmod(begin[1] - 1 + count, 12)
    year = begin[0] + years
    last = calendar.monthrange(year, of + 1)[1]
    after = (year + (of + 1) // 12, (of + 1) % 12 + 1)
    return f'{year}-{of + 1:02}-01', f'{year}-{of + 1:02}-{last}', f'{after[0]}-{after[1]:02}-10'


class Maker:
    """Makes the rows of each table, one after another."""

    def __init__(self, seed: int, size: Size, begin: tuple[int, int] = FIRST_MONTH) -> None:
        self.chance, self.size, self.begin = random.Random(seed), size, begin
        self.accounts = size.holders + size.holders // 3

    def holders(self) -> Iterator[Row]:
        for at in range(self.size.holders):
            yield [f'H{at:05}', f'{NAMES[at % len(NAMES)]} {at}']

    def account_rows(self) -> Iterator[Row]:
        for at in range(self.accounts):
            yield [f'A-{at}', f'H{at % self.size.holders:05}']

    def devices(self) -> Iterator[Row]:
        for at in range(self.size.devices):
            tech, source, carrier = TECHS[at % len(TECHS)]
            yield [gsrn(at + 1), f'A-{at % self.accounts}', f'{NAMES[at % len(NAMES)]} site {at}',
                   COUNTRIES[at % len(COUNTRIES)], tech, source, carrier, str(2_000_000 + at),
                   f'20{10 + at % 10}-0{1 + at % 9}-15', SUPPORT[at % len(SUPPORT)]]

    def stock(self) -> Iterator[Row]:
        """Ranges of each lot in several accounts; what lies between was cancelled there."""
        serial = 1
        for count in range(self.size.months):
            first_day, last_day, issued_on = month(self.begin, count)
            for at in range(self.size.devices):
                for _ in range(self.size.ranges):
                    width = self.chance.randint(1, self.size.certificates)
                    account = f'A-{self.chance.randrange(self.accounts)}'
                    yield [number(serial), number(serial + width - 1), gsrn(at + 1), first_day,
                           last_day, issued_on, account]
                    serial += width + self.chance.choice((0, 0, 3))

    def lots(self) -> Iterator[Row]:
        """Lots of third registries. Each has a device of its own."""
        for at in range(self.size.others):
            tech, source, carrier = TECHS[at % len(TECHS)]
            yield [str(OTHERS[at % len(OTHERS)]), gsrn(900_000 + at), month(self.begin, 0)[0],
                   f'Parque eólico {at}', 'ES', tech, source, carrier, str(3_000_000 + at),
                   '2012-05-15', SUPPORT[at % len(SUPPORT)]]

    def others(self) -> Iterator[Row]:
        """Ranges of third registries, with a gap between the two of a lot."""
        for at, (code, device, first_day, *_) in enumerate(self.lots()):
            for part in range(2):
                first = 1000 * at + 20 * part + 1
                yield [number(first, int(code)), number(first + 9 + part, int(code)), device,
                       *month(self.begin, 0), f'A-{(at + part) % self.accounts}']

    def carried(self) -> Iterator[Row]:
        for at in range(self.size.devices):
            yield [gsrn(at + 1), str(self.chance.randrange(1_000_000))]

    def tables(self) -> dict[str, Iterator[Row]]:
        return {'holders': self.holders(), 'accounts': self.account_rows(),
                'devices': self.devices(), 'stock': chain(self.stock(), self.others()),
                'carried': self.carried(), 'lots': self.lots()}


def write(folder: Path, seed: int, size: Size = Size(), settings: str = SETTINGS,
          begin: tuple[int, int] = FIRST_MONTH) -> None:
    """Writes the tables and the settings of a migration, whose first period is in a month."""
    (folder / 'tables').mkdir(parents=True, exist_ok=True)
    (folder / 'migration.toml').write_text(settings, encoding='utf-8')
    for table, rows in Maker(seed, size, begin).tables().items():
        if table != 'lots' or size.others:
            write_table(folder, table, rows)


def write_table(folder: Path, table: str, rows: Iterator[Row] | list[Row],
                header: tuple[str, ...] | None = None) -> None:
    path = folder / 'tables' / f'{table}.csv'
    with path.open('w', encoding='utf-8', newline='') as file:
        writer = csv.writer(file)
        writer.writerow(HEADERS[table] if header is None else header)
        writer.writerows(rows)


def read_tables(folder: Path) -> Tables:
    """All tables that are there, without their headers."""
    tables = {}
    for table in HEADERS:
        path = folder / 'tables' / f'{table}.csv'
        if path.exists():
            with path.open(encoding='utf-8', newline='') as file:
                tables[table] = list(csv.reader(file))[1:]
    return tables


# a fault of each kind

@dataclass(frozen=True)
class Planted:
    """A fault: what makes it, and the name by which the check has to tell it."""

    name: str
    plant: Callable[[Tables], object]


def put(table: str, row: int, column: str, value: str) -> Callable[[Tables], object]:
    """Puts a value into a field; row 1 is the first."""
    at = HEADERS[table].index(column)
    return lambda tables: tables[table][row - 1].__setitem__(at, value)


def again(table: str, row: int, **changed: str) -> Callable[[Tables], object]:
    """A row once more at the end of its table, with some fields changed."""
    def plant(tables: Tables) -> None:
        fields = dict(zip(HEADERS[table], tables[table][row - 1])) | changed
        tables[table].append(list(fields.values()))
    return plant


def take(table: str, row: int) -> Callable[[Tables], object]:
    return lambda tables: tables[table][row - 1].pop()


PLANTED = (
    Planted('fields stock 5', take('stock', 5)),
    Planted('empty holders 2', put('holders', 2, 'name', '')),
    Planted('holder-twice holders 7', again('holders', 1, name='Another name')),
    Planted('holder-code holders 3', put('holders', 3, 'holder', 'h3')),
    Planted('name holders 4', put('holders', 4, 'name', 'Tab\there')),
    Planted('name-long devices 2', put('devices', 2, 'site', 'ż' * 33)),
    Planted('account-twice accounts 9', again('accounts', 1, holder='H00002')),
    Planted('account-without-holder accounts 8', put('accounts', 8, 'holder', 'H99999')),
    Planted('device-twice devices 9', again('devices', 1)),
    Planted('device-number devices 8', put('devices', 8, 'device', '500000000000000011')),
    Planted('device-without-account devices 6', put('devices', 6, 'account', 'A-99')),
    Planted('country devices 1', put('devices', 1, 'country', 'Germany')),
    Planted('technology devices 1', put('devices', 1, 'technology', 'Solar')),
    Planted('source devices 1', put('devices', 1, 'source', 'F0104')),
    Planted('carrier devices 1', put('devices', 1, 'carrier', 'wind')),
    Planted('support devices 1', put('devices', 1, 'support', 'yes')),
    Planted('capacity devices 1', put('devices', 1, 'capacity', '2,000,000')),
    Planted('day stock 1', put('stock', 1, 'issued_on', '10.03.2024')),
    Planted('number stock 1', put('stock', 1, 'first', '7E+13')),
    Planted('range stock 1', put('stock', 1, 'first', number(99))),
    Planted('overlap stock 97', lambda tables: tables['stock'].append(
        [tables['stock'][0][1], tables['stock'][0][1], *tables['stock'][0][2:]])),
    Planted('stock-without-device stock 2', put('stock', 2, 'device', gsrn(77))),
    Planted('stock-without-account stock 2', put('stock', 2, 'account', 'A-77')),
    Planted('period stock 33', lambda tables: [
        row.__setitem__(4, '2024-04-01') for row in tables['stock'][32:36]]),
    Planted('before-commissioning stock 1', put('devices', 1, 'commissioned', '2024-02-02')),
    Planted('issued stock 96', lambda tables: [
        row.__setitem__(5, '2025-02-28') for row in tables['stock'][92:]]),
    Planted('lot-differs stock 2', put('stock', 2, 'issued_on', '2024-03-11')),
    Planted('periods-overlap stock 97', again('stock', 1, first=number(5000), last=number(5000),
                                              first_day='2024-02-20')),
    Planted('deadline stock 97', again('stock', 1, first=number(5000), last=number(5000),
                                       first_day='2023-08-01', last_day='2023-08-31',
                                       issued_on='2023-09-10')),
    Planted('more-than-made stock 1', put('devices', 1, 'capacity', '1000')),
    Planted('carry carried 1', put('carried', 1, 'energy_wh', '1000000')),
    Planted('carry-twice carried 9', again('carried', 1)),
)
WITH_OTHERS = Size(others=3)
"""Rows 97 to 102 of the stock are of third registries."""
PLANTED_OTHERS = (
    Planted('other-registry stock 97', lambda tables: tables['lots'].pop(0)),
    Planted('other-registry stock 98', put('stock', 98, 'device', gsrn(1))),
    Planted('own-registry stock 97', lambda tables: tables['stock'][96].__setitem__(
        slice(2), [number(1, NEW_CODE), number(9, NEW_CODE)])),
    Planted('range stock 97', put('stock', 97, 'last', number(10, 34))),
    Planted('overlap stock 103', again('stock', 98)),
    Planted('lot-differs stock 98', put('stock', 98, 'issued_on', '2024-03-11')),
    Planted('lot-twice lots 4', again('lots', 1, site='Elsewhere')),
    Planted('registry lots 1', put('lots', 1, 'registry', '08')),
    Planted('registry lots 2', put('lots', 2, 'registry', '100')),
    Planted('day lots 1', put('lots', 1, 'first_day', '01.02.2024')),
    Planted('device-number lots 1', put('lots', 1, 'device', '500000000000000011')),
    Planted('name-long lots 2', put('lots', 2, 'site', 'ż' * 33)),
    Planted('country lots 1', put('lots', 1, 'country', 'Spain')),
    Planted('capacity lots 1', put('lots', 1, 'capacity', 'much')),
    Planted('before-commissioning lots 1', put('lots', 1, 'commissioned', '2024-02-02')),
    Planted('more-than-made stock 97', put('lots', 1, 'capacity', '10')),
)
"""Faults in the tables of an old registry that has certificates of third registries."""


def main() -> int:
    parser = argparse.ArgumentParser(description=__doc__,
                                     formatter_class=argparse.RawDescriptionHelpFormatter)
    parser.add_argument('folder', type=Path)
    parser.add_argument('--seed', type=int, default=1)
    parser.add_argument('--times', type=int, default=1)
    parser.add_argument('--others', type=int, default=0, help='lots of third registries')
    given = parser.parse_args()
    size = replace(COUNTRY, holders=COUNTRY.holders * given.times,
                   devices=COUNTRY.devices * given.times, others=given.others)
    write(given.folder, given.seed, size)
    return 0


if __name__ == '__main__':
    sys.exit(main())
