"""What tests of the page have made before they look: accounts and certificates of their own."""
import calendar
import json
import uuid
from dataclasses import dataclass
from typing import Any

from calls import ISSUER
from house import House
from mutations import gsrn

NAMES = {'SUN': 'Sun Power GmbH', 'VOLT': 'Volt Handel AG', 'BIG': 'Viele Läufe'}
"""Holders; anna is signed in for SUN, and bela for VOLT."""
HEADER = 'key,device,first_day,last_day,gross_wh,aux_wh'
USERS = {ISSUER: 'office', 'SUN': 'anna', 'VOLT': 'bela'}
PLACES = ('held', 'cancelled', 'expired', 'withdrawn', 'exported')


@dataclass(frozen=True)
class Lot:
    """Certificates of one declaration in a fresh account, all held there."""

    account: int
    device: str
    first: int
    count: int

    def number(self, at: int) -> str:
        """A certificate's number, from 0; from -1 backwards."""
        return f'{self.first + at % self.count:014}'


def enter(house: House, command: str, caller: str = ISSUER, **members: Any) -> Any:
    """The reply to a request under a key of its own, which has to be accepted."""
    answer = post(house, caller, command=command, **members)
    assert answer['outcome'] == 'accepted', (command, members, answer)
    return answer['reply']


def open_holder(house: House, holder: str, name: str = '') -> None:
    """A holder, unless he is there already."""
    name = name or NAMES[holder]
    house.enter(ISSUER, 'open_holder', f'browser-{holder}', holder=holder, name=name)


def open_account(house: House, holder: str = 'SUN') -> int:
    if holder in NAMES:
        open_holder(house, holder)
    return int(enter(house, 'open_account', holder=holder)['account'])


def register(house: House, account: int, **members: Any) -> str:
    """A device of its own, of electricity unless something else is said: its GSRN."""
    house.keys += 1
    device = gsrn(10**6 + house.keys)
    usual: dict[str, Any] = {'country': 'DE', 'site': 'North field', 'tech': 'T010000',
                             'source': 'F01040100', 'capacity_w': 2_000_000,
                             'commissioned': '2020-06-15', 'support': 'none'}
    enter(house, 'register_device', device=device, account=account, **{**usual, **members})
    return str(device)


def declare(house: House, device: str, first_day: str, last_day: str, mwh: int) -> int:
    """The first certificate of so many."""
    reply = enter(house, 'declare', device=device, first_day=first_day, last_day=last_day,
                  gross_wh=mwh * 10**6, aux_wh=0)
    return int(reply['first'])


def issue(house: House, holder: str = 'SUN', count: int = 300, account: int | None = None,
          first_day: str = '2024-10-01', last_day: str = '2024-10-31', **members: Any) -> Lot:
    """Certificates of a new device, in a new account unless one is given."""
    account = account or open_account(house, holder)
    device = register(house, account, **members)
    return Lot(account, device, declare(house, device, first_day, last_day, count), count)


def cancel(house: House, lot: Lot, first: int, last: int, caller: str = 'SUN',
           beneficiary: str = 'Stadtwerke Nordheim', use_first: str = '2024-10-01',
           use_last: str = '2024-12-31') -> Any:
    """The reply to a cancellation of a part of a lot."""
    return enter(house, 'cancel', caller, account=lot.account, first=lot.number(first),
                 last=lot.number(last), beneficiary=beneficiary, use_first=use_first,
                 use_last=use_last)


def add_peer(house: House) -> None:
    """Registry 9, unless it is there already."""
    house.enter(ISSUER, 'add_peer', 'browser-peer-9', peer=9)


def table_of(*rows: str) -> str:
    """A table of declarations."""
    return '\n'.join([HEADER, *rows]) + '\n'


def post_table(house: House, *rows: str) -> list[str]:
    """The lines of the report on a table of declarations."""
    answer = house.ask_log(ISSUER, 'POST', '/v1/declarations', table_of(*rows), user='office')
    assert answer.status == 200, answer
    return answer.text.splitlines()


def post(house: House, caller: str, **members: Any) -> Any:
    """The answer to a request, accepted or refused."""
    body = json.dumps({'key': f'b-{uuid.uuid4().hex[:20]}', **members})
    return house.ask_log(caller, 'POST', '/v1/requests', body, user=USERS[caller]).json


# -------------------------------------------------------------------- the registry's own statements

def statement(house: House, account: int) -> tuple[list[list[str]], dict[str, int]]:
    """The words of the lines of what an account holds, and its sums by place."""
    lines = house.ask('office', 'GET', f'/v1/accounts/{account}/statement').text.splitlines()
    named = [line.split() for line in lines]
    sums = {words[0]: int(words[1]) for words in named if words[0] in PLACES}
    return [words for words in named if words[-1] == 'held' and words[0].isdigit()], sums


def held(house: House, account: int) -> int:
    return statement(house, account)[1]['held']


def total(lines: list[list[str]]) -> int:
    """How many certificates are in lines of a statement."""
    return sum(int(line[2]) for line in lines)


# -------------------------------------------------------------------- a world

PLANTS: list[dict[str, str]] = [
    {'tech': 'T010000', 'source': 'F01040100', 'country': 'DE', 'site': 'Solarpark Nordfeld',
     'support': 'none'},
    {'tech': 'T020001', 'source': 'F01050100', 'country': 'AT', 'site': 'Windpark Parndorf',
     'support': 'investment'},
    {'tech': 'T030000', 'source': 'F01050200', 'country': 'DE', 'support': 'production',
     'carrier': 'hydrogen', 'site': 'Electrolyser by the mill'},
    {'tech': 'T050000', 'source': 'F01030400', 'country': 'FR', 'support': 'both',
     'carrier': 'gas', 'site': 'Biogaz de la Loire'}]
MONTHS = ('2023-09', '2024-03', '2024-09', '2024-10', '2024-11', '2024-12')
"""Of production. On 2025-03-01 the first expires in 60 days; the trade of the second closes."""


@dataclass(frozen=True)
class World:
    """Plants with certificates of six months each; one of them is of an account of its own."""

    account: int
    apart: int
    other: int
    """VOLT's."""
    devices: tuple[str, ...]


def world(house: House, count: int = 300) -> World:
    """Made anew each time it is asked for; of each plant and month there is another count."""
    account, apart, other = open_account(house), open_account(house), open_account(house, 'VOLT')
    devices, rows = [], []
    for at, plant in enumerate(PLANTS):
        of = apart if plant.get('carrier') == 'gas' else account
        device = register(house, of, capacity_w=2_000_000 + at * 1_000_000, **plant)
        devices.append(device)
        for month, name in enumerate(MONTHS):
            year, number = (int(part) for part in name.split('-'))
            last = f'{name}-{calendar.monthrange(year, number)[1]}'
            wh = (count + at * 37 + month * 11) * 10**6
            rows.append(f'{device}-{name},{device},{name}-01,{last},{wh},0')
    assert all(line.endswith(' accepted') for line in post_table(house, *rows))
    return World(account, apart, other, tuple(devices))


def day_of(line: list[str]) -> str:
    """The last day of production of a statement's line."""
    return line[5]
