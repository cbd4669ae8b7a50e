"""Requests by chance, the book that is made of them, and the service over it, without a socket."""
import datetime
import json
import random
import subprocess
from collections.abc import Callable
from collections.abc import Iterator
from pathlib import Path
from typing import Any

from goo_service.records import web
from goo_service.rules.commands import ISSUER
from goo_service.rules.days import months_after
from goo_service.rules.refusals import Wrong
from goo_service.rules.registry import Registry
from door import SERVICE
from made_book import page_parameter
from made_book import routes_of
from mutations import gsrn
from mutations import lot
from mutations import part
from service_commands import command

HOLDERS = ('SUN', 'VOLT', 'WIND', 'RHEIN', 'NORD')
ACCOUNTS = {number: HOLDERS[(number - 1) % len(HOLDERS)] for number in range(1, 11)}
TODAY, CODE = '2026-01-15', 7
OWN = CODE * 10 ** 12
PLANTS = [('T010000', 'F01010100', None, 'DE'), ('T020001', 'F01010500', 'electricity', 'FR'),
          ('T030000', 'F01020100', 'gas', 'DE'), ('T010000', 'F01010100', None, 'AT')]
DEVICES = [gsrn(number) for number in range(1, 13)]
HEAD = 'key,device,first_day,last_day,gross_wh,aux_wh\n'
SPAN = f'"first":"{OWN + 1:014}","last":"{OWN + 5:014}"'.encode()
REQUESTS, DECLARATIONS = '/v1/requests', '/v1/declarations'
Sent = tuple[str, str, str, bytes]
"""User, caller, route and body."""
Tried = tuple[str, str, str, bytes, str]
"""The same, and the role of the user."""
BEYOND: tuple[tuple[Tried, str], ...] = (
    (('auditor', ISSUER, REQUESTS, b'{"command":"withdraw","key":"beyond-1",'
      b'"reason":"a text that nobody else writes",' + SPAN + b'}', 'reads'), 'withdrawal'),
    (('auditor', ISSUER, DECLARATIONS,
      f'{HEAD}b1,{DEVICES[0]},2026-01-01,2026-01-31,5000000,0\n'.encode(), 'reads'), 'issue'),
    (('meters', ISSUER, REQUESTS, b'{"command":"advance","key":"beyond-2","day":"2030-01-01"}',
      'declares'), 'date'),
    (('trainee', 'SUN', REQUESTS, b'{"command":"transfer","key":"beyond-3","giver":1,"taker":2,'
      + SPAN + b'}', 'reads'), 'transfer'),
    (('guest', 'NORD', REQUESTS, b'{"command":"close_account","key":"beyond-4","account":5}',
      'looks'), 'closing'),
    (('trainee', 'SUN', REQUESTS, b'{"command":["cancel"],"key":{"a":1},"account":1e99,"giver":'
      + b'9' * 40 + b'}', 'reads'), 'unreadable'),
    (('auditor', ISSUER, REQUESTS, b'{"command":"correct","key":"\\ud800","device":"x\\u0000y",'
      b'"less_wh":' + b'9' * 40 + b',"reason":"before\\u0000after it"}', 'reads'), 'correction'),
    (('auditor', ISSUER, REQUESTS, b'{"command":"import","key":"beyond-5",'
      b'"notice":{"account":true,"sender":' + b'9' * 40 + b'}}', 'reads'), 'import'),
    (('auditor', ISSUER, REQUESTS, b'[' * 2000, 'reads'), 'unreadable'),
    (('meters', ISSUER, REQUESTS, b'\xff\xfe', 'declares'), 'unreadable'),
)
"""Writes that the role of their user does not allow, and the kind of act that each is."""


def month_at(first: str, months: int) -> str:
    """The first day of so many months later."""
    day = months_after(first, months)
    assert day, first
    return day


def month_end(first: str) -> str:
    """The last day of the month that begins then."""
    return str(datetime.date.fromisoformat(month_at(first, 1)) - datetime.timedelta(days=1))


class Requests:
    """Requests by chance: most of them are accepted, as they go by a model of who holds what."""

    def __init__(self, seed: int) -> None:
        self.chance, self.count = random.Random(seed), 0
        self.model = Registry(CODE, TODAY, 1)

    def applied(self, caller: str, command: dict[str, Any]) -> None:
        """The model has it too, unless the rules refuse it."""
        try:
            self.model.apply(caller, command)
        except (Wrong, KeyError):
            pass

    def made(self, caller: str, **command: Any) -> Sent:
        self.count += 1
        self.applied(caller, command)
        body = {**command, 'key': f'k{self.count}'}
        text = json.dumps(body, ensure_ascii=False).encode()
        return f'user-{caller.lower()}', caller, REQUESTS, text

    def begin(self) -> Iterator[Sent]:
        for code in HOLDERS:
            yield self.made(ISSUER, command='open_holder', holder=code,
                            name=f'{code.title()} "Energie" & Söhne')
        for holder in ACCOUNTS.values():
            yield self.made(ISSUER, command='open_account', holder=holder)
        for at, device in enumerate(DEVICES):
            tech, source, carrier, country = PLANTS[at % len(PLANTS)]
            more = {'carrier': carrier} if carrier else {}
            yield self.made(ISSUER, command='register_device', device=device,
                            account=at % len(ACCOUNTS) + 1, country=country, site=f'Field {at}',
                            tech=tech, source=source, capacity_w=5_000_000,
                            commissioned='2020-01-01', support='none', **more)
        yield self.made(ISSUER, command='add_peer', peer=9)
        imported = lot(9, gsrn(99), '2025-06-01', '2025-06-30', issued_on='2025-07-02')
        notice = {'sender': 9, 'addressee': CODE, 'number': 1, 'account': 3, 'version': 1,
                  'parts': [part(9 * 10 ** 12 + 1, 40, imported)]}
        yield self.made(ISSUER, command='import', notice=notice)
        yield self.made(ISSUER, command='import', notice=notice)        # by another key: repeated

    def table(self, first: str, last: str) -> Sent:
        """A month's declarations of all devices, and rows that are refused or unreadable."""
        rows = [(f'm{first}-{device}', device, first, last, self.chance.randint(0, 60_000_000),
                 self.chance.choice([0, 0, 1000])) for device in DEVICES]
        for _, device, *_, gross, aux in rows:
            self.applied(ISSUER, {'command': 'declare', 'device': device, 'first_day': first,
                                  'last_day': last, 'gross_wh': gross, 'aux_wh': aux})
        rows += [(f'again-{first}', DEVICES[0], first, last, 0, 0),
                 (f'unknown-{first}', gsrn(999), first, last, 0, 0)]
        lines = ''.join(','.join(map(str, row)) + '\n' for row in rows)
        return 'meters', ISSUER, DECLARATIONS, f'{HEAD}{lines}bad,1,2,3,4,5\n'.encode()

    def span(self) -> tuple[str, int, dict[str, str]]:
        """A holder, an account of his, and a range that it holds."""
        runs = self.model.certificates.runs
        held = [(first, runs[first][0], runs[first][2].account)
                for first in self.model.certificates.firsts if runs[first][2].kind == 1]
        if not held:
            return 'SUN', 1, {'first': f'{OWN + 1:014}', 'last': f'{OWN + 1:014}'}
        first, last, account = self.chance.choice(held)
        low = self.chance.randint(first, last)
        high = self.chance.choice([low, min(last, low + 4), last])
        return ACCOUNTS[account], account, {'first': f'{low:014}', 'last': f'{high:014}'}

    def correction(self) -> Sent:
        """Less of a declaration; certificates in excess are held ones of its device, in one run."""
        device, first_day, *_ = self.chance.choice(self.model.declarations)
        less = self.chance.choice([1, 400_000, 1_000_000, 2_000_000])
        excess = -((self.model.devices[device]['carry'] - less) // 1_000_000)
        runs = self.model.certificates.runs.items()
        first = next((first for first, (last, lot, place) in runs
                      if lot.device == device and place.kind == 1 and last - first + 1 >= excess),
                     0)
        span = {'first': f'{first:014}', 'last': f'{first + excess - 1:014}'} if excess else {
            'first': '', 'last': ''}
        return self.made(ISSUER, command='correct', device=device, first_day=first_day,
                         less_wh=less, reason='meter read twice', **span)

    def transfer(self, most: int = 10) -> Sent:
        holder, account, span = self.span()
        return self.made(holder, command='transfer', giver=account,
                         taker=self.chance.randint(1, most), **span)

    def cancellation(self, by_anybody: bool) -> Sent:
        holder, account, span = self.span()
        by = self.chance.choice(HOLDERS) if by_anybody else holder
        whom = self.chance.choice(['Rathaus', 'Bäckerei Müller', '=SUM(A1)'])
        return self.made(by, command='cancel', account=account, **span, beneficiary=whom,
                         use_first='2025-01-01', use_last='2025-12-31')

    def export(self) -> Sent:
        holder, account, span = self.span()
        return self.made(holder, command='export', giver=account,
                         peer=self.chance.choice([9, 9, 10]), account=5, **span)

    def withdrawal(self) -> Sent:
        return self.made(ISSUER, command='withdraw', reason='meter read twice', **self.span()[2])

    def nonsense(self) -> Sent:
        bodies = [b'{"nonsense', b'[]', b'{"command":"cancel","key":"x"}', b'\xff\xfe']
        return 'user-nord', 'NORD', REQUESTS, self.chance.choice(bodies)

    def one(self) -> Sent | Tried:
        ways: list[Callable[[], Sent | Tried]] = [
            self.transfer, self.transfer, lambda: self.transfer(11),
            lambda: self.cancellation(False), lambda: self.cancellation(True), self.export,
            self.withdrawal, self.correction, lambda: self.chance.choice(BEYOND)[0],
            self.nonsense]
        return self.chance.choice(ways)()

    def all(self, count: int) -> Iterator[Sent | Tried]:
        """Two years, month by month."""
        yield from self.begin()
        for month in range(24):
            first = month_at('2025-01-01', month)
            last = month_end(first)
            if last >= self.model.today:
                later = datetime.timedelta(days=self.chance.randint(2, 9))
                yield self.made(ISSUER, command='advance',
                                day=str(datetime.date.fromisoformat(last) + later))
            yield self.table(first, last)
            yield from (tried for tried, _ in BEYOND if first == '2025-01-01')
            for _ in range(count // 24):
                yield self.one()


class Service:
    """The service over a book, asked without a socket."""

    def __init__(self, folder: Path) -> None:
        self.own = routes_of(folder)
        self.client = web.application(folder, folder / 'state.json').test_client()

    def ask(self, caller: str | None, path: str, /, **parameters: Any) -> tuple[int, Any]:
        answer = self.client.get(path, query_string=parameters or None,
                                 headers={'GOO-Caller': caller} if caller else {})
        return answer.status_code, answer.get_json()

    def answer(self, caller: str, name: str, /, **parameters: Any) -> Any:
        """What a route answers that has to answer."""
        status, answer = self.ask(caller, f'/records/v1/{name}', **parameters)
        assert status == 200, answer
        return answer

    def text(self, caller: str, name: str, /, **parameters: Any) -> str:
        """A list as it comes."""
        return self.client.get(f'/records/v1/{name}', query_string=parameters,
                               headers={'GOO-Caller': caller}).get_data(as_text=True)

    def items(self, caller: str, name: str, /, **parameters: Any) -> list[dict[str, Any]]:
        """All items of a list, page by page."""
        found: list[dict[str, Any]] = []
        more: dict[str, Any] = {}
        while True:
            answer = self.answer(caller, name, **{'limit': 1000, **parameters, **more})
            found += answer['items']
            if not answer.get('next'):
                return found
            more = {page_parameter(name): answer['next']}


def follow(archive: Path, into: Path) -> None:
    """Makes the book of an archive."""
    done = subprocess.run([*command('goo-records', SERVICE), 'follow', '--begun', str(CODE), TODAY,
                           '1', '--archive', archive, '--into', into, '--once'],
                          capture_output=True, text=True, timeout=1800, check=False)
    assert done.returncode == 0, done
