"""Doubts on energy: the rule by itself, the route that asks it, the command, and who has not
declared. Expected values are worked out by hand from capacity, hours and the words of RECORDS.md.
"""
import subprocess
from fractions import Fraction
from pathlib import Path

import pytest
from goo_service.people import doubts
from goo_service.people.doubts import Device
from goo_service.people.doubts import Period
from goo_service.people.doubts import Row
from goo_service.rules.commands import ISSUER
from door import SERVICE
from house import House
from hypothesis import given
from hypothesis import strategies
from made_book import DEVICE
from made_book import HEADER
from made_book import Made
from service_commands import command

MEGAWATT = 10 ** 6
HOURS = 31 * 24
"""Of January."""
HALF = MEGAWATT * HOURS // 2
"""What a device of 1 MW makes in January at half of its capacity, in Wh."""


def row(net_wh: int, number: int = 1, device: str = DEVICE) -> Row:
    return Row(number, f'k{number}', device, Period('2026-01-01', '2026-01-31', net_wh))


def kinds(rows: list[Row], device: Device) -> list[tuple[int, str]]:
    found = doubts.energy_of(rows, {DEVICE: device})
    return [(doubt.row, doubt.kind) for doubt in found.doubts]


def earlier(*halves: float) -> tuple[Period, ...]:
    """Months of 31 days before January, the newest first, by their part of half the capacity."""
    months = ('2025-12', '2025-10', '2025-08', '2025-07')
    return tuple(Period(f'{month}-01', f'{month}-31', int(HALF * part))
                 for month, part in zip(months, halves))


@pytest.mark.parametrize(('net_wh', 'told'), [
    (0, ['nothing']), (1, ['below']), (744_000 - 1, ['below']), (744_000, []), (HALF, []),
    (MEGAWATT * HOURS, []), (MEGAWATT * HOURS + 1, ['above'])])
def test_a_load_factor_of_a_thousandth_and_of_all(net_wh: int, told: list[str]) -> None:
    assert kinds([row(net_wh)], Device(MEGAWATT, 'T030000')) == [(1, kind) for kind in told]


def test_no_sun_shines_all_day() -> None:
    assert kinds([row(HALF)], Device(MEGAWATT, 'T010101')) == []
    assert kinds([row(HALF + 1)], Device(MEGAWATT, 'T010101')) == [(1, 'above')]
    assert kinds([row(HALF + 1)], Device(MEGAWATT, 'T020000')) == []


@pytest.mark.parametrize(('part', 'told'), [
    (0.0999, ['less']), (0.1001, []), (1.0, []), (1.4999, []), (1.5001, ['more'])])
def test_a_row_against_the_last_periods(part: float, told: list[str]) -> None:
    """The mean of the last periods is 1, and the highest of them 1.5, in parts of a tenth of the
    half: a tenth of the mean, and three times the highest."""
    device = Device(MEGAWATT, 'T030000', earlier(0.15, 0.1, 0.05))
    net_wh = int(HALF * (part if part < 0.5 else part * 0.3) * (0.1 if part < 0.5 else 1))
    assert kinds([row(net_wh)], device) == [(1, kind) for kind in told]


def test_a_period_without_production_and_a_later_one_are_no_measure() -> None:
    later = Period('2026-02-01', '2026-02-28', 1)
    device = Device(MEGAWATT, 'T030000', (later, *earlier(0, 0.5)))
    assert kinds([row(int(HALF * 0.06))], device) == []
    assert kinds([row(int(HALF * 0.04))], device) == [(1, 'less')]


@pytest.mark.parametrize(('times', 'kind'), [
    (Fraction(1, 1000), 'thousandth'), (Fraction(1, 3000), 'thousandth'),
    (Fraction(1, 10 ** 6), 'millionth'), (Fraction(1000), 'thousandfold'),
    (Fraction(10 ** 6), 'millionfold'), (Fraction(1, 100), ''), (Fraction(100), ''),
    (Fraction(1), ''), (Fraction(3), '')])
def test_a_file_against_the_month_before(times: Fraction, kind: str) -> None:
    """Nine devices of one size, and so are their months before: 31 days each."""
    made = 10 ** 12
    devices = {f'd{at}': Device(2 * made // HOURS, last=(Period('2025-12-01', '2025-12-31', made),))
               for at in range(9)}
    rows = [row(int(made * times), at + 1, f'd{at}') for at in range(9)]
    found = [doubt.kind for doubt in doubts.energy_of(rows, devices).doubts if doubt.row == 0]
    assert found == ([kind] if kind else [])


def test_the_first_file_in_kwh_is_asked_about() -> None:
    """Nothing was declared before: most of its rows are below a thousandth."""
    device = Device(MEGAWATT, 'T030000')
    rows = [row(HALF // 1000, at + 1) for at in range(4)]
    assert kinds(rows, device) == [(0, 'mostly'), *((at + 1, 'below') for at in range(4))]
    assert kinds([row(HALF), *rows[1:2]], device) == [(2, 'below')]


def test_sum_and_mean_load_factor() -> None:
    rows = [row(HALF), row(HALF // 2, 2, 'small'), row(HALF, 3, 'nobody knows it')]
    known = {DEVICE: Device(MEGAWATT), 'small': Device(MEGAWATT // 2)}
    found = doubts.energy_of(rows, known)
    assert (found.rows, found.devices, found.net_wh) == (3, 3, 2 * HALF + HALF // 2)
    assert found.factor == Fraction(1, 2)
    assert doubts.energy_of(rows[2:], known).factor is None


@given(strategies.lists(strategies.integers(0, 10 ** 15), max_size=6),
       strategies.lists(strategies.integers(0, 10 ** 15), max_size=14),
       strategies.integers(1, 10 ** 11))
def test_each_row_has_one_doubt_at_most_in_order(made: list[int], before: list[int],
                                                 capacity: int) -> None:
    last = tuple(Period(f'{2025 - at // 12}-{12 - at % 12:02}-01', f'{2025 - at // 12}-'
                        f'{12 - at % 12:02}-28', net) for at, net in enumerate(before))
    rows = [row(net, at + 1) for at, net in enumerate(made)]
    found = doubts.energy_of(rows, {DEVICE: Device(capacity, 'T020000', last)})
    numbers = [doubt.row for doubt in found.doubts]
    assert numbers == sorted(set(numbers))
    assert all(doubts.text_of(doubt) for doubt in found.doubts)


# ------------------------------------------------------------ the route

@pytest.fixture
def made(tmp_path: Path) -> Made:
    """SUN with a device of 1 GW that made 400 GWh in January, June and December of 2025."""
    begun = Made(tmp_path, '2026-02-10')
    begun.country(400_000)
    return begun


def table(*rows: str) -> bytes:
    return HEADER + ''.join(f'{line}\n' for line in rows).encode()


def asked(made: Made, body: bytes, caller: str = ISSUER) -> tuple[int, dict[str, object]]:
    client = made.client()
    answer = client.post('/records/v1/doubts', data=body, headers={'GOO-Caller': caller})
    return answer.status_code, answer.get_json()


def told_kinds(answer: dict[str, object]) -> list[tuple[int, str]]:
    found = answer['doubts']
    assert isinstance(found, list)
    return [(doubt['row'], doubt['kind']) for doubt in found]


def test_a_file_in_kwh_is_asked_about(made: Made) -> None:
    """A device of 1 GW made 400 GWh in December (28 days). In Wh 350 GWh are 350,000,000,000."""
    status, answer = asked(made, table(f'k1,{DEVICE},2026-01-01,2026-01-31,350000000000,0'))
    assert (status, told_kinds(answer), answer['net_wh']) == (200, [], 350_000_000_000)
    factor = answer['load_factor']
    assert isinstance(factor, float) and abs(factor - 350 / 744) < 1e-12
    status, answer = asked(made, table(f'k1,{DEVICE},2026-01-01,2026-01-31,350000000,0'))
    assert told_kinds(answer) == [(0, 'thousandth'), (1, 'below')]


def test_what_a_correction_took_off_counts_no_more(made: Made) -> None:
    """December is corrected to a hundredth: 35 GWh are then ten times as much and more."""
    body = table(f'k1,{DEVICE},2026-01-01,2026-01-31,35000000000,0')
    assert told_kinds(asked(made, body)[1]) == [(1, 'less')]
    for at, month in enumerate(('01', '06', '12')):
        made.must(ISSUER, 'correct', device=DEVICE, first_day=f'2025-{month}-01', reason='kWh',
                  less_wh=396_000 * MEGAWATT, first=f'{7 * 10 ** 12 + 400_000 * at + 1:014}',
                  last=f'{7 * 10 ** 12 + 400_000 * at + 396_000:014}')
    assert told_kinds(asked(made, body)[1]) == [(1, 'more')]


def test_a_holder_is_told_of_his_own_devices_alone(made: Made) -> None:
    body = table(f'k1,{DEVICE},2026-01-01,2026-01-31,350,0')
    assert told_kinds(asked(made, body, 'SUN')[1]) == [(1, 'below')]
    status, answer = asked(made, body, 'VOLT')
    assert (status, answer['doubts'], answer['load_factor']) == (200, [], None)


def test_a_table_with_a_fault_and_one_that_is_too_large(made: Made) -> None:
    status, answer = asked(made, table(f'k1,{DEVICE},2026-01-01,2026-01-31,five,0'))
    assert status == 400 and 'row 1, gross_wh' in str(answer['error'])
    assert asked(made, b'x' * (2 ** 20 + 1))[0] == 413
    assert asked(made, b'\xff\xfe')[0] == 400
    assert made.client().post('/records/v1/doubts').status_code == 403
    assert made.client().post('/records/v1/acts',
                              headers={'GOO-Caller': ISSUER}).status_code == 405


def test_doubts_of_a_large_table_are_told_up_to_a_bound(made: Made) -> None:
    rows = [f'k{day},{DEVICE},2026-{month:02}-{day:02},2026-{month:02}-{day:02},1,0'
            for month in range(1, 13) for day in range(1, 29)]
    rows += [row.replace('2026', '2027').replace('k', 'l', 1) for row in rows]
    body = table(*(f'{at}-{line}' for at, line in enumerate(rows)))
    answer = asked(made, body)[1]
    found = answer['doubts']
    assert isinstance(found, list)
    assert (len(found), answer['more']) == (500, 672 + 1 - 500)


def test_who_may_ask_at_the_front_door(house: House) -> None:
    """Who declares may ask, and read nothing; an auditor reads, and has no table."""
    country = house.make_country()
    house.wait_for_book()
    body = table(f'k1,{country.device},2025-02-01,2025-02-28,5,0')
    told = {user: house.ask(user, 'POST', '/records/v1/doubts', body).status
            for user in ('office', 'meter', 'anna', 'audit')}
    assert told == {'office': 200, 'meter': 200, 'anna': 200, 'audit': 403}
    assert house.ask(None, 'POST', '/records/v1/doubts', body).status == 401
    assert house.ask('meter', 'POST', '/records/v1/acts', body).status == 403
    assert house.ask('meter', 'GET', '/records/v1/undeclared').status == 403
    assert house.ask('office', 'POST', '/records/v1/acts', body).status == 403
    assert house.ask('office', 'GET', '/records/v1/doubts').status == 403
    found = house.ask('meter', 'POST', '/records/v1/doubts', body).json
    assert [(of['row'], of['kind']) for of in found['doubts']][-1] == (1, 'below')


# ------------------------------------------------------------ who has not declared

def test_who_has_not_declared_a_month(made: Made) -> None:
    """December is declared to the 28th; November not at all, and no more."""
    second = '500000000000000029'
    made.must(ISSUER, 'register_device', device=second, account=2, country='DE', site='East',
              tech='T010000', source='F01010100', capacity_w=10 ** 9, support='none',
              commissioned='2025-12-30')
    found = made.items(ISSUER, 'undeclared', month='2025-12')
    assert [(of['gsrn'], of['days'], of['declared'], of['shut_out']) for of in found] == [
        (DEVICE, 31, 28, 0), (second, 2, 0, None)]
    assert [(of['gsrn'], of['shut_out']) for of in made.items(ISSUER, 'undeclared',
                                                              month='2025-11')] == [(DEVICE, 1)]
    assert [of['gsrn'] for of in made.items('VOLT', 'undeclared', month='2025-12')] == [second]
    assert [of['month'] for of in made.items(ISSUER, 'undeclared')] == ['2026-01', '2026-01']
    made.must(ISSUER, 'declare', device=DEVICE, first_day='2025-12-29', last_day='2025-12-31',
              gross_wh=1, aux_wh=0)
    assert [of['gsrn'] for of in made.items(ISSUER, 'undeclared', month='2025-12')] == [second]


@pytest.mark.parametrize('month', ['2025', '2025-13', '2025-1', 'now', '2025-01-01'])
def test_a_month_that_is_none(made: Made, month: str) -> None:
    status, answer = made.asked(ISSUER, '/records/v1/undeclared', month=month)
    assert status == 400 and answer['error'].startswith('month is ')


# ------------------------------------------------------------ the command

def checked(folder: Path, *words: str) -> subprocess.CompletedProcess[str]:
    return subprocess.run([*command('goo-check-declarations', SERVICE), *words], check=False,
                          capture_output=True, text=True, cwd=folder)


def test_the_command_asks_by_saved_lists(made: Made, tmp_path: Path) -> None:
    client = made.client()
    for name in ('devices', 'declarations'):
        answer = client.get(f'/records/v1/{name}?format=csv', headers={'GOO-Caller': ISSUER})
        (tmp_path / f'{name}.csv').write_bytes(answer.get_data())
    (tmp_path / 'kwh.csv').write_bytes(table(f'k1,{DEVICE},2026-01-01,2026-01-31,350000000,0'))
    lists = '--devices', 'devices.csv', '--declared', 'declarations.csv'
    done = checked(tmp_path, *lists, 'kwh.csv')
    assert done.returncode == 0, done.stderr
    assert done.stdout.splitlines() == [
        '1 row, none at fault, 350.000000 MWh, mean load factor 0.047 %',
        'is it meant? file: The file is near a thousandth of what its devices made in the period '
        'before: is it in kWh, and not in Wh?',
        "is it meant? row 1, key 'k1': It is 0.047 % of the capacity, below a thousandth: is it "
        'in Wh?']
    assert checked(tmp_path, 'kwh.csv').stdout == '1 row, none at fault, 350.000000 MWh\n'
    assert checked(tmp_path, '--devices', 'none.csv', 'kwh.csv').returncode == 3
    assert checked(tmp_path, '--devices', 'kwh.csv', 'kwh.csv').returncode == 3
