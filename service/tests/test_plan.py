"""Which certificates the rows of a table take. What is expected is worked out by another way: sets
of single numbers, and for what is short the least cut over all choices of rows."""
import itertools
import time
from collections.abc import Iterator

import pytest
from goo_service.records import plan
from goo_service.records.plan import Fault
from goo_service.records.plan import Run
from goo_service.records.plan import Want
from hypothesis import given
from hypothesis import settings
from hypothesis import strategies

DAYS = ('2025-01-31', '2025-02-28', '2025-03-31')


def numbers(spans: list[plan.Span] | tuple[plan.Span, ...]) -> list[int]:
    return [number for first, last in spans for number in range(first, last + 1)]


@strategies.composite
def tables(draw: strategies.DrawFn) -> tuple[list[Run], list[Want]]:
    """A few runs of small lots, and rows with quantities and ranges."""
    runs, begin = [], 1
    for _ in range(draw(strategies.integers(0, 6))):
        begin += draw(strategies.integers(0, 2))
        last = begin + draw(strategies.integers(0, 5))
        runs.append(Run(begin, last, draw(strategies.sampled_from(DAYS)),
                        tech=draw(strategies.sampled_from(['T01', 'T0102', 'T02'])),
                        country=draw(strategies.sampled_from(['DE', 'AT']))))
        begin = last + 1
    wants = []
    for row in range(1, draw(strategies.integers(0, 5)) + 1):
        tech = draw(strategies.sampled_from(['', 'T01', 'T01*', 'T02', 'T03']))
        country = draw(strategies.sampled_from(['', 'DE']))
        if draw(strategies.integers(0, 4)):
            count = draw(strategies.integers(1, 9))
            wants.append(Want(row, count, tech=tech, country=country))
        else:
            first = draw(strategies.integers(1, 20))
            span = first, first + draw(strategies.integers(0, 3))
            wants.append(Want(row, ranges=(span,), tech=tech, country=country))
    return draw(strategies.permutations(runs)), wants


def fitting(runs: list[Run], want: Want) -> set[int]:
    """The numbers that fit a row, one by one."""
    return {number for run in runs for number in range(run.first, run.last + 1)
            if all(not text or value == text or text[-1] == '*' and value.startswith(text[:-1])
                   for value, text in ((run.tech, want.tech), (run.country, want.country)))}


def most(runs: list[Run], wants: list[Want], taken: set[int]) -> int:
    """The most that rows with quantities can get together: the least, over all sets of rows, of
    what the others want and what fits one of the set (Ford and Fulkerson)."""
    fit = {want.row: fitting(runs, want) - taken for want in wants}
    return min(sum(want.count for want in wants if want not in some)
               + len(set().union(*(fit[want.row] for want in some)))
               for size in range(len(wants) + 1)
               for some in itertools.combinations(wants, size))


@given(tables())
def test_each_row_gets_its_quantity_of_what_fits_and_nothing_twice(
        table: tuple[list[Run], list[Want]]) -> None:
    runs, wants = table
    found = plan.make_plan(runs, wants)
    at_fault = {fault.row for fault in found.faults}
    given_out: list[int] = []
    for want in wants:
        got = numbers(found.ranges.get(want.row, []))
        if want.ranges:
            assert got == numbers(want.ranges)
        else:
            assert len(got) == want.count or want.row in at_fault
            assert len(got) <= want.count
        if want.row not in at_fault or not want.ranges:
            assert set(got) <= fitting(runs, want)
            given_out += got
    assert len(given_out) == len(set(given_out))


def taken_by_name(wants: list[Want]) -> set[int]:
    """The numbers that rows name. A range that meets one of before is told, and takes nothing."""
    taken: set[int] = set()
    for span in (span for want in wants for span in want.ranges):
        if taken.isdisjoint(numbers([span])):
            taken.update(numbers([span]))
    return taken


@settings(max_examples=500)
@given(tables())
def test_a_row_is_short_only_where_no_choice_serves_all(
        table: tuple[list[Run], list[Want]]) -> None:
    runs, wants = table
    found = plan.make_plan(runs, wants)
    named = taken_by_name(wants)
    by_quantity = [want for want in wants if not want.ranges]
    got = sum(plan.size(found.ranges.get(want.row, [])) for want in by_quantity)
    assert got == most(runs, by_quantity, named)
    told = {fault.row: fault for fault in found.faults}
    for want in by_quantity:
        lacks = want.count - plan.size(found.ranges.get(want.row, []))
        assert (lacks > 0) == (want.row in told)
        if lacks:
            assert (told[want.row].there, told[want.row].wanted) == (want.count - lacks, want.count)


@given(tables())
def test_the_oldest_deadline_goes_first(table: tuple[list[Run], list[Want]]) -> None:
    """What is left over and fits a row has no older deadline than what the row got."""
    runs, wants = table
    found = plan.make_plan(runs, wants)
    day = {number: run.deadline for run in runs for number in range(run.first, run.last + 1)}
    used = {number for spans in found.ranges.values() for number in numbers(spans)}
    for want in wants:
        if not want.ranges:
            got = [day[number] for number in numbers(found.ranges.get(want.row, []))]
            left = [day[number] for number in fitting(runs, want) - used]
            assert not got or not left or max(got) <= min(left)


def faults_of(runs: list[Run], wants: list[Want]) -> list[tuple[int, str, str]]:
    return [(of.row, of.field, of.kind) for of in plan.make_plan(runs, wants).faults]


def test_ranges_are_held_against_what_is_there_and_each_other() -> None:
    runs = [Run(1, 10, DAYS[0], tech='T01'), Run(11, 20, DAYS[0], tech='T02')]
    assert faults_of(runs, [Want(1, ranges=((8, 13),))]) == []
    assert faults_of(runs, [Want(1, ranges=((18, 22),))]) == [(1, 'ranges', 'not_held')]
    assert faults_of(runs, [Want(1, ranges=((8, 13),), tech='T01')]) == [(1, 'tech', 'unfit')]
    assert faults_of(runs, [Want(1, 5, ranges=((8, 13),))]) == [(1, 'quantity', 'differs')]
    twice = [Want(1, ranges=((1, 5),)), Want(2, ranges=((5, 6),)), Want(3, ranges=((1, 1),))]
    assert plan.make_plan(runs, twice).faults == [Fault(2, 'ranges', 'twice', other=1),
                                                  Fault(3, 'ranges', 'twice', other=1)]
    assert faults_of(runs, [Want(1, ranges=((1, 3), (2, 4)))]) == [(1, 'ranges', 'twice')]


def test_what_is_short_is_told_by_its_field() -> None:
    runs = [Run(1, 10, DAYS[0], tech='T01', country='DE')]
    assert plan.make_plan(runs, [Want(1, 20)]).faults == [Fault(1, 'quantity', 'short', 10, 20)]
    assert faults_of(runs, [Want(1, 1, country='FR', tech='T01')]) == [(1, 'country', 'none')]
    assert faults_of(runs, [Want(1, 6), Want(2, 6, tech='T01')]) == [(2, 'quantity', 'short')]


def test_a_row_gives_up_what_another_one_needs() -> None:
    """Filters that cross: the first row takes the oldest, which the second one needs as well."""
    runs = [Run(1, 10, DAYS[0], tech='T01', country='DE'),
            Run(11, 20, DAYS[1], tech='T01', country='AT'),
            Run(21, 30, DAYS[2], tech='T02', country='DE')]
    found = plan.make_plan(runs, [Want(1, 10, tech='T01'), Want(2, 20, country='DE')])
    assert found.faults == []
    assert found.ranges == {1: [(11, 20)], 2: [(1, 10), (21, 30)]}


def many() -> Iterator[Run]:
    """5,015 runs of 295 lots, no two of which follow each other."""
    for at in range(5015):
        lot = at % 295
        yield Run(100 * at, 100 * at + 20, f'2025-{lot % 12 + 1:02}-28', f'T0{lot % 5}0000',
                  f'F0{lot % 7}000000', ('DE', 'AT', 'FR')[lot % 3], f'{lot:018}',
                  f'2024-{lot % 12 + 1:02}')


@pytest.mark.parametrize('count', [200, 351, 1000])
def test_hundreds_of_rows_over_thousands_of_runs_are_planned_soon(count: int) -> None:
    """A minute is far more than it takes, on a machine with much else to do. 105,315 are there, so
    300 rows of 351 are served, where each row takes any or what three quarters are."""
    wants = [Want(row, count, tech=('', 'T0*')[row % 2]) for row in range(1, 301)]
    begun = time.monotonic()
    found = plan.make_plan(many(), wants)
    assert time.monotonic() - begun < 60
    assert (not found.faults) == (count < 1000)
    assert sum(map(plan.size, found.ranges.values())) == min(300 * count, 5015 * 21)


def test_many_rows_that_stand_in_each_others_way_are_planned_soon() -> None:
    wants = [Want(row, 340, tech=('', f'T0{row % 5}0000', 'T0*')[row % 3],
                  country=('', 'DE', 'AT', 'FR')[row % 4],
                  month=f'2024-{row % 12 + 1:02}' if row % 2 else '') for row in range(1, 301)]
    begun = time.monotonic()
    assert plan.make_plan(many(), wants).faults
    assert time.monotonic() - begun < 60
