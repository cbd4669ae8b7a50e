"""What the issuing body decides for a migration: the file migration.toml.

    # faults of the check that are waived, in front of all sections
    waive = ["deadline stock", "name holders 12"]

    [old]
    code = 8                        # of the old registry, as a peer of the new one
    name = "Registry of before"
    closed_on = "2026-11-27"        # the last day of which the tables tell

    [new]
    code = 7
    date = "2026-11-28"             # the registry's date when the certificates come in
    first_account = 1               # the number of the first account that is opened

    [tables]
    delimiter = ","                 # or ";" or a tab
    encoding = "utf-8"              # or "cp1252", "iso-8859-15"
    days = "YYYY-MM-DD"             # or "DD.MM.YYYY", "DD/MM/YYYY", "MM/DD/YYYY"
    capacity = "W"                  # or "kW", "MW"

    [columns.stock]                 # where a column has another name in the old table
    first = "GO_FROM"

    [numbers]                       # not there: 14 digits, the old registry's code in front
    form = "serial"                 # `pattern` finds the serial in an old number; or "assigned":
                                    # serials are given anew, in the order of the old numbers
    pattern = "AT-([0-9]+)"         # the one group is what is counted

    [holders]                       # the new code of a holder; without a line the old one is kept
    "4711" = "SUN"
    [names]                         # how a name that is too long is shortened
    "A very long name .." = "A shorter one"
    [countries]                     # likewise [technologies], [sources], [carriers], [supports]
    "Germany" = "DE"
    [registries]                    # the code of a third registry, in the column `registry`
    "ES" = "34"

    [carry]                         # where carried.csv is there
    choice = "added"                # or "left out": what is told to the auditor for each device
"""
import json
import re
import tomllib
from dataclasses import dataclass
from pathlib import Path
from typing import Any

from goo_service.migrate import forms
from goo_service.migrate.faults import waiver_fault
from goo_service.people.declarations import is_day

NAME = 'migration.toml'
MOST_BYTES = 16 << 20
ENCODINGS = ('utf-8', 'cp1252', 'iso-8859-1', 'iso-8859-15')
DELIMITERS = (',', ';', '\t')
NUMBERS = ('own', 'serial', 'assigned')
CHOICES = ('added', 'left out')
WORDS: dict[str, forms.Reader] = {
    'holders': forms.holder_code, 'names': forms.name, 'countries': forms.country,
    'technologies': forms.technology, 'sources': forms.source, 'carriers': forms.carrier,
    'supports': forms.support, 'registries': forms.registry}
"""The sections that say what a word of the old tables becomes, and the form that it has to have."""
COLUMNS: dict[str, tuple[str, ...]] = {
    'holders': ('holder', 'name'),
    'accounts': ('account', 'holder'),
    'devices': ('device', 'account', 'site', 'country', 'technology', 'source', 'carrier',
                'capacity', 'commissioned', 'support'),
    'lots': ('registry', 'device', 'first_day', 'site', 'country', 'technology', 'source',
             'carrier', 'capacity', 'commissioned', 'support'),
    'stock': ('first', 'last', 'registry', 'device', 'first_day', 'last_day', 'issued_on',
              'account'),
    'carried': ('device', 'energy_wh'),
    'documents': ('file', 'holder', 'about'),
}
"""The tables with their columns."""
OPTIONAL_TABLES = ('lots', 'carried', 'documents')
OPTIONAL_COLUMNS = {'stock': ('registry',)}
"""The columns that a table may lack: the field is empty then."""


class WrongSettings(ValueError):
    """What is wrong with migration.toml."""


@dataclass(frozen=True)
class Settings:
    """What migration.toml says."""

    old_code: int
    old_name: str
    closed_on: str
    new_code: int
    date: str
    first_account: int
    delimiter: str
    encoding: str
    days: str
    capacity: str
    numbers: str
    pattern: str
    choice: str
    columns: dict[str, dict[str, str]]
    words: dict[str, dict[str, str]]
    waivers: frozenset[str]

    def word(self, section: str, text: str) -> str:
        """What a word of the old tables becomes; itself where no line says."""
        return self.words[section].get(text, text)

    def column(self, table: str, name: str) -> str:
        """What a column is called in the old table."""
        return self.columns.get(table, {}).get(name, name)


def must(holds: object, reason: str) -> None:
    if not holds:
        raise WrongSettings(f'{NAME}: {reason}')


class Section:
    """A section of the file, of which each value is taken once; what is left over is a fault."""

    def __init__(self, whole: dict[str, Any], name: str) -> None:
        self.name, self.left = name, whole.pop(name, {})
        must(isinstance(self.left, dict), f'[{name}] is no section')

    def take(self, key: str, kind: type, default: Any = None) -> Any:
        """A value of a kind, or its default."""
        value = self.left.pop(key, default)
        must(value is not None, f'[{self.name}] lacks {key}')
        must(type(value) is kind, f'[{self.name}] {key} is not of the kind {kind.__name__}')
        return value

    def choose(self, key: str, choices: tuple[str, ...]) -> str:
        """One of a few words, the first where none is given."""
        value = self.take(key, str, choices[0])
        must(value in choices, f'[{self.name}] {key} is {value!r}, and not one of '
                               f'{", ".join(map(repr, choices))}')
        return str(value)

    def day(self, key: str) -> str:
        value = str(self.take(key, str))
        must(is_day(value), f'[{self.name}] {key} is not a day such as "2026-11-27"')
        return value

    def number(self, key: str, most: int, default: int | None = None) -> int:
        value = int(self.take(key, int, default))
        must(1 <= value <= most, f'[{self.name}] {key} is not a number from 1 to {most}')
        return value

    def end(self) -> None:
        must(not self.left, f'[{self.name}] has no {", ".join(self.left)}')


def read(folder: Path) -> Settings:
    """The settings of a migration. WrongSettings where they can't be read."""
    path = folder / NAME
    try:
        must(path.stat().st_size <= MOST_BYTES, f'it has more than {MOST_BYTES} bytes')
        whole = tomllib.loads(path.read_text(encoding='utf-8'))
    except OSError as fault:
        raise WrongSettings(f'{path}: {fault.strerror}; goo-migrate settings prints one to begin '
                            'with') from fault
    except (UnicodeDecodeError, tomllib.TOMLDecodeError) as fault:
        raise WrongSettings(f'{path}: {fault}') from fault
    return settings_of(whole)


def settings_of(whole: dict[str, Any]) -> Settings:
    """The settings that the file states."""
    old, new = Section(whole, 'old'), Section(whole, 'new')
    tables, numbers, carry = (Section(whole, name) for name in ('tables', 'numbers', 'carry'))
    settings = Settings(
        old_code=old.number('code', 99), old_name=str(old.take('name', str)),
        closed_on=old.day('closed_on'), new_code=new.number('code', 99), date=new.day('date'),
        first_account=new.number('first_account', 999_999_999, 1),
        delimiter=tables.choose('delimiter', DELIMITERS),
        encoding=tables.choose('encoding', ENCODINGS),
        days=tables.choose('days', tuple(forms.DAYS)),
        capacity=tables.choose('capacity', tuple(forms.WATTS)),
        numbers=numbers.choose('form', NUMBERS), pattern=str(numbers.take('pattern', str, '')),
        choice=carry.choose('choice', CHOICES) if carry.left else '', columns=columns_of(whole),
        words={name: words_of(whole, name) for name in WORDS}, waivers=waivers_of(whole))
    for section in (old, new, tables, numbers, carry):
        section.end()
    must(not whole, f'there is no section or value {", ".join(map(str, whole))}')
    must(settings.old_code != settings.new_code, 'both registries have one code')
    must((settings.numbers == 'own') == (settings.pattern == ''),
         '[numbers] pattern goes with the forms "serial" and "assigned", and with no other')
    if settings.pattern:
        pattern_of(settings)
    return settings


def pattern_of(settings: Settings) -> re.Pattern[str]:
    """The pattern of an old number, with its one group: the digits that are counted."""
    try:
        pattern = re.compile(settings.pattern, re.ASCII)
    except re.error as fault:
        raise WrongSettings(f'{NAME}: [numbers] pattern: {fault}') from fault
    must(pattern.groups == 1, '[numbers] pattern has not one group, the digits that are counted')
    return pattern


def columns_of(whole: dict[str, Any]) -> dict[str, dict[str, str]]:
    """The other names of columns, by table."""
    given = whole.pop('columns', {})
    must(isinstance(given, dict) and given.keys() <= COLUMNS.keys(),
         f'[columns] is for the tables {", ".join(COLUMNS)}')
    for table, names in given.items():
        must(isinstance(names, dict) and names.keys() <= set(COLUMNS[table]),
             f'[columns.{table}] is for {", ".join(COLUMNS[table])}')
        must(all(type(name) is str for name in names.values()),
             f'[columns.{table}] has names that are no text')
    return dict(given)


def words_of(whole: dict[str, Any], name: str) -> dict[str, str]:
    """What words of the old tables become."""
    words = whole.pop(name, {})
    must(isinstance(words, dict) and all(type(word) is str for word in words.values()),
         f'[{name}] has a value that is no text')
    for old, word in words.items():
        try:
            WORDS[name](word)
        except forms.Unfit as reason:
            raise WrongSettings(f'{NAME}: [{name}] {json.dumps(old, ensure_ascii=False)}: '
                                f'{reason}') from reason
    return dict(words)


def waivers_of(whole: dict[str, Any]) -> frozenset[str]:
    waivers = whole.pop('waive', [])
    must(isinstance(waivers, list) and all(type(waiver) is str for waiver in waivers),
         'waive is no list of texts')
    for waiver in waivers:
        must(not waiver_fault(waiver), waiver_fault(waiver))
    return frozenset(waivers)
