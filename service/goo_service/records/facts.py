"""What a registry and the book of acts both have, fact by fact, under the same names and in one
order, so that the two are held against each other in one go however large they are."""
import json
import sqlite3
from collections import Counter
from collections.abc import Callable
from collections.abc import Iterable
from collections.abc import Iterator
from dataclasses import dataclass
from typing import Any

from goo_service.records.writer import COUNTERS
from goo_service.rules.certificates import PLACES
from goo_service.rules.lots import LOT
from goo_service.rules.lots import PLANT
from goo_service.rules.registry import Registry

Key = tuple[Any, ...]
SUMS = ('last_day', 'carry', 'declared', 'less', 'issued', 'corrected')
DEVICE = ('account', *PLANT, 'carrier', *SUMS)
"""Members of a device, as the rules name them."""


@dataclass(frozen=True, slots=True)
class Fact:
    """A value with its name. Facts stand in the order of their keys."""

    key: Key
    name: str
    value: str


def words(*values: object) -> str:
    """Values one after another, as they are told."""
    return ' '.join('-' if value is None else str(value) for value in values)


def head(code: int, today: str, following: Iterable[int]) -> Iterator[Fact]:
    yield Fact((0, 0), 'the registry', words('code', code, 'date', today))
    for name, number in zip(COUNTERS, following, strict=True):
        yield Fact((0, 1, name), f'the next {name}', str(number))


def party(code: str, name: str) -> Fact:
    return Fact((1, code), f'holder {code}', name)


def account(number: int, holder: str, closed: int) -> Fact:
    return Fact((2, number), f'account {number}', words(holder, 'closed' if closed else 'open'))


def total(number: int, kind: int, count: int) -> Fact:
    return Fact((3, number, kind), f'account {number}, {PLACES[kind]}', f'{count:,}')


def device(gsrn: str, values: Iterable[object]) -> Fact:
    return Fact((4, gsrn), f'device {gsrn}', words(*values))


def declaration(gsrn: str, first_day: str, *values: object) -> Fact:
    return Fact((5, gsrn, first_day), f'declaration of {gsrn} from {first_day} on', words(*values))


def correction(at: int, *values: object) -> Fact:
    return Fact((6, at), f'correction {at}', words(*values))


def peer(code: int) -> Fact:
    return Fact((7, code), f'peer {code}', 'known')


def cancellation(number: int, *values: object) -> Fact:
    return Fact((8, number), f'cancellation {number}', words(*values))


def withdrawal(number: int, *values: object) -> Fact:
    return Fact((9, number), f'withdrawal {number}', words(*values))


def notice(sent: int, code: int, number: int, *values: object) -> Fact:
    way = 'to' if sent else 'from'
    return Fact((10, sent, code, number), f'notice {number} {way} registry {code}', words(*values))


def lot(values: Iterable[Any]) -> Fact:
    of = dict(zip(LOT, values, strict=True))
    key = of['origin'], of['device'], of['first_day']
    return Fact((11, *key), f'lot {words(*key)}', words(*of.values()))


def run(first: int, last: int, key: Key, kind: int, number: int, act: int) -> Fact:
    place = f'{PLACES[kind]}{f":{act}" if act else ""}'
    return Fact((12, first), f'certificates from {first:014} on',
                f'to {last:014}, account {number}, {place}, lot {words(*key)}')


def facts_of_registry(registry: Registry) -> Iterator[Fact]:
    """The facts of a registry in memory."""
    yield from head(registry.code, registry.today, (registry.next[name] for name in COUNTERS))
    yield from (party(*of) for of in sorted(registry.holders.items()))
    yield from (account(number, *of) for number, of in sorted(registry.accounts.items()))
    counts: Counter[tuple[int, int]] = Counter()
    for place, count in registry.certificates.counts.items():
        counts[place.account, place.kind] += count
    yield from (total(*of, count) for of, count in sorted(counts.items()) if count)
    for gsrn, of in sorted(registry.devices.items()):
        yield device(gsrn, (of[member] for member in DEVICE))
    for gsrn, first_day, last_day, gross, aux in sorted(registry.declarations):
        yield declaration(gsrn, first_day, last_day, gross, aux, registry.left[gsrn, first_day])
    yield from (correction(at, *of[:3], of[3] or None)
                for at, of in enumerate(registry.corrections, 1))
    yield from map(peer, sorted(registry.peers))
    yield from (cancellation(number, *of) for number, of in sorted(registry.cancellations.items()))
    yield from (withdrawal(number, *of) for number, of in sorted(registry.withdrawals.items()))
    yield from sorted(notices_of_registry(registry), key=lambda fact: fact.key)
    yield from (lot(of) for _, of in sorted(registry.lots.items()))
    for first, last, its_lot, place in registry.certificates.longest_runs():
        yield run(first, last, its_lot.key, place.kind, place.account, place.act)


def notices_of_registry(registry: Registry) -> Iterator[Fact]:
    for number, (giver, text) in registry.sent.items():
        of = json.loads(text)
        yield notice(1, of['addressee'], number, giver, of['account'], count_of(of['parts']))
    for (sender, number), text in registry.taken.items():
        of = json.loads(text)
        yield notice(0, sender, number, of['account'], None, count_of(of['parts']))


def count_of(parts: list[dict[str, Any]]) -> int:
    """The certificates of a notice."""
    return sum(int(part['last']) - int(part['first']) + 1 for part in parts)


def facts_of_book(book: sqlite3.Connection) -> Iterator[Fact]:
    """The facts of a book."""
    code, today, *following = book.execute(
        f'SELECT code, today, {", ".join(COUNTERS)} FROM meta').fetchone()
    yield from head(code, today, following)
    for kind, query in QUERIES:
        yield from (kind(*row) for row in book.execute(query))


QUERIES: tuple[tuple[Callable[..., Fact], str], ...] = (
    (party, 'SELECT code, name FROM holder ORDER BY code'),
    (account, 'SELECT number, holder, closed FROM account ORDER BY number'),
    (total, '''SELECT account, kind, sum(last - first + 1) FROM run GROUP BY account, kind
               ORDER BY account, kind'''),
    (lambda gsrn, *of: device(gsrn, of),
     f'''SELECT gsrn, account, {", ".join(PLANT)}, carrier, last_day, carry_wh, declared_wh,
         corrected_wh, issued, withdrawn FROM device ORDER BY gsrn'''),
    (declaration, '''SELECT device, first_day, last_day, gross_wh, aux_wh,
                     gross_wh - aux_wh - corrected_wh FROM declaration
                     ORDER BY device, first_day'''),
    (correction, '''SELECT row_number() OVER (ORDER BY act), device, first_day, less_wh, withdrawal
                    FROM correction ORDER BY act'''),
    (peer, 'SELECT code FROM peer ORDER BY code'),
    (cancellation, '''SELECT number, account, first, last, beneficiary, use_first, use_last, day
                      FROM cancellation ORDER BY number'''),
    (withdrawal, 'SELECT number, first, last, reason, day FROM withdrawal ORDER BY number'),
    (notice, '''SELECT sent, peer, number, account, far_account, count FROM notice
                ORDER BY sent, peer, number'''),
    (lambda *of: lot(of), f'SELECT {", ".join(LOT)} FROM lot ORDER BY origin, device, first_day'),
    (lambda first, last, origin, gsrn, day, *place: run(first, last, (origin, gsrn, day), *place),
     '''SELECT run.first, run.last, lot.origin, lot.device, lot.first_day, run.kind, run.account,
        run.number FROM run LEFT JOIN lot ON lot.id = run.lot ORDER BY run.first'''),
)
"""What makes a fact of a row, and the query for the rows."""


@dataclass
class Comparison:
    """Facts of two sides, held against each other in one go."""

    count: int = 0
    """Facts that are the same."""

    def differences(self, theirs: Iterator[Fact], ours: Iterator[Fact]) -> Iterator[str]:
        """A line for each fact that one side has alone, or with another value."""
        there, here = next(theirs, None), next(ours, None)
        while there or here:
            if here is None or there and there.key < here.key:
                assert there
                yield line_of(there.name, there.value, 'nothing')
                there = next(theirs, None)
            elif there is None or here.key < there.key:
                yield line_of(here.name, 'nothing', here.value)
                here = next(ours, None)
            else:
                self.count += there.value == here.value
                if there.value != here.value:
                    yield line_of(there.name, there.value, here.value)
                there, here = next(theirs, None), next(ours, None)


def line_of(name: str, theirs: str, ours: str) -> str:
    return f'{name}: {theirs} in the copy, {ours} in the book'
