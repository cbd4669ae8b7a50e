"""Doubts about the energy of declarations: what a person is asked before they are sent.

The registry takes each row that the capacity of its device allows, and issues for it for good: a
declaration is never raised. So a file in kWh loses a month, and this module asks. It decides alone:
the page and programs ask it by a route of the records (`doubts`), goo-check-declarations calls it.

    row    its load factor (net Wh over capacity in W times the hours of its period) is below a
           thousandth, or above the plausible share of the capacity; or it is below a tenth of the
           mean of the device's last periods, or above three times the highest of them
    file   most of its rows are below a thousandth; or what its devices made an hour is near a
           thousandth, a thousandfold, a millionth or a millionfold of what they made in the period
           before

A doubt never forbids.
"""
import datetime
from collections.abc import Iterable
from collections.abc import Iterator
from collections.abc import Mapping
from collections.abc import Sequence
from dataclasses import dataclass
from fractions import Fraction

LAST = 12
"""Periods of a device that a row is held against, at most: with a year of months each season is
among them."""
LEAST = Fraction(1, 1000)
"""The load factor that a device passes in any period in which it runs."""
SHARES = {'T01': Fraction(1, 2)}
"""The plausible share of the capacity by the first letters of a technology: no sun shines on a
device for more than half of a month's hours. Others may run all the time."""
LOW, HIGH = Fraction(1, 10), 3
"""Below which part of the mean, and above how many times the highest of the last periods."""
UNITS = {'millionth': Fraction(1, 10 ** 6), 'thousandth': Fraction(1, 1000),
         'thousandfold': Fraction(1000), 'millionfold': Fraction(10 ** 6)}
"""What a file comes to that is in kWh or MWh, or was before."""
NEAR = 4
"""How many times more or less than such a number is near it: a month differs from the one before by
less."""


@dataclass(frozen=True)
class Period:
    """What a device made in a period."""

    first_day: str
    last_day: str
    net_wh: int

    @property
    def hours(self) -> int:
        first, last = map(datetime.date.fromisoformat, (self.first_day, self.last_day))
        return 24 * ((last - first).days + 1)

    @property
    def power(self) -> Fraction:
        """Its mean power in W."""
        return Fraction(self.net_wh, self.hours)


@dataclass(frozen=True)
class Device:
    """What is known of a device: its last periods, the newest first."""

    capacity_w: int
    tech: str = ''
    last: tuple[Period, ...] = ()

    def factor(self, period: Period) -> Fraction:
        """The load factor of a period."""
        return period.power / self.capacity_w

    @property
    def share(self) -> Fraction:
        """The plausible share of the capacity."""
        return SHARES.get(self.tech[:3], Fraction(1))


Known = Mapping[str, Device]


@dataclass(frozen=True)
class Row:
    """A row of a file, by its number from 1 on."""

    number: int
    key: str
    device: str
    period: Period


@dataclass(frozen=True)
class Doubt:
    """What is asked, by its kind, and the numbers in it. Row 0 is the file."""

    row: int
    kind: str
    factor: Fraction = Fraction(0)
    """The load factor; of a file how many times as much as before."""
    usual: Fraction = Fraction(0)
    """What it is held against: the plausible share, or the load factor of the last periods."""
    rows: int = 0
    """Of a file: how many rows."""


@dataclass(frozen=True)
class Energy:
    """What a file comes to, and what is asked about it."""

    rows: int
    devices: int
    net_wh: int
    factor: Fraction | None
    """The mean load factor of the rows whose device is known; None where none is."""
    doubts: tuple[Doubt, ...]


TEXTS = {
    'nothing': 'Nothing was produced.',
    'below': 'It is {factor} of the capacity, below a thousandth: is it in Wh?',
    'above': 'It is {factor} of the capacity, and {usual} is plausible at most.',
    'less': 'It is {factor} of the capacity, less than a tenth of the {usual} of the last periods.',
    'more': 'It is {factor} of the capacity, more than three times the {usual} of the last '
            'periods.',
    'mostly': '{rows} rows are below a thousandth of the capacity of their devices: is the file in '
              'kWh or MWh, and not in Wh?',
    'thousandth': 'The file is near a thousandth of what its devices made in the period before: is '
                  'it in kWh, and not in Wh?',
    'millionth': 'The file is near a millionth of what its devices made in the period before: is '
                 'it in MWh, and not in Wh?',
    'thousandfold': 'The file is near a thousandfold of what its devices made in the period '
                    'before: which of the two is in Wh?',
    'millionfold': 'The file is near a millionfold of what its devices made in the period before: '
                   'which of the two is in Wh?',
}
"""Each kind in English. The page has its own words for each kind."""


def percent(value: Fraction) -> str:
    """A load factor as people read it."""
    return f'{float(100 * value):.3g} %'


def text_of(doubt: Doubt) -> str:
    """A doubt in English."""
    return TEXTS[doubt.kind].format(factor=percent(doubt.factor), usual=percent(doubt.usual),
                                    rows=f'{doubt.rows:,}')


def rows_of(records: Iterable[Sequence[str]]) -> list[Row]:
    """The rows of a file in which declarations.py finds no fault."""
    return [Row(number, key, device, Period(first, last, int(gross) - int(aux)))
            for number, (key, device, first, last, gross, aux) in enumerate(records, 1)]


def before(device: Device, row: Row) -> list[Period]:
    """The last periods of a device before a row."""
    return [of for of in device.last if of.last_day < row.period.first_day][:LAST]


def row_doubts(row: Row, device: Device) -> Iterator[Doubt]:
    """What is asked about a row: one thing, the plainest."""
    factor = device.factor(row.period)
    made = [device.factor(of) for of in before(device, row) if of.net_wh]
    mean = sum(made, Fraction(0)) / len(made) if made else Fraction(0)
    if not row.period.net_wh:
        yield Doubt(row.number, 'nothing')
    elif factor < LEAST:
        yield Doubt(row.number, 'below', factor, LEAST)
    elif factor > device.share:
        yield Doubt(row.number, 'above', factor, device.share)
    elif made and factor < LOW * mean:
        yield Doubt(row.number, 'less', factor, mean)
    elif made and factor > HIGH * max(made):
        yield Doubt(row.number, 'more', factor, max(made))


def file_doubts(rows: list[Row], known: Known, found: list[Doubt]) -> Iterator[Doubt]:
    """What is asked about a file as a whole."""
    times = times_of(rows, known)
    unit = next((name for name, of in UNITS.items() if of / NEAR < times < of * NEAR), None)
    small = sum(doubt.kind == 'below' for doubt in found)
    of_known = sum(row.device in known and row.period.net_wh > 0 for row in rows)
    if unit:
        yield Doubt(0, unit, times, rows=len(rows))
    elif small > 1 and 2 * small > of_known:
        yield Doubt(0, 'mostly', rows=small)


def times_of(rows: list[Row], known: Known) -> Fraction:
    """How many times as much the devices of a file made in it as they would have by the period
    before; 0 where none is known."""
    made, would = 0, Fraction(0)
    for row in rows:
        device = known.get(row.device)
        last = before(device, row)[:1] if device else []
        if last:
            made += row.period.net_wh
            would += last[0].power * row.period.hours
    return Fraction(made) / would if would else Fraction(0)


def energy_of(rows: list[Row], known: Known) -> Energy:
    """What a file comes to, and what is asked about it: the file first, then its rows in their
    order."""
    there = [(row, known[row.device]) for row in rows if row.device in known]
    found = [doubt for row, device in there for doubt in row_doubts(row, device)]
    could = sum(device.capacity_w * row.period.hours for row, device in there)
    made = sum(row.period.net_wh for row, _ in there)
    return Energy(len(rows), len({row.device for row in rows}),
                  sum(row.period.net_wh for row in rows), Fraction(made, could) if could else None,
                  (*file_doubts(rows, known, found), *found))
