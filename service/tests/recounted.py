"""Registries in files for recounts: one in which each command was accepted, and some by chance."""
import json
import random
import sqlite3
import subprocess
from collections.abc import Iterable
from contextlib import closing
from pathlib import Path
from typing import Any

import client
from cases import NEW
from programs import find_registry
from service_commands import command

RECOUNT = command('goo-copies recount')
SERIALS = 10 ** 12
LIMIT = 1200
"""Seconds that one run may take, on a machine that does much else."""
SUNNY, GASSY, WINDY = '500000000000000012', '500000000000000029', '500000000000000036'
PLANT = {'capacity_w': 2_000_000, 'commissioned': '2020-06-15', 'country': 'DE',
         'site': 'North field', 'source': 'F01010100', 'support': 'none', 'tech': 'T010000'}
JANUARY = {**PLANT, 'device': SUNNY, 'origin': 7, 'first_day': '2025-01-01',
           'last_day': '2025-01-31', 'issued_on': '2025-03-01'}
FOREIGN = {**JANUARY, 'origin': 9, 'first_day': '2025-03-01', 'last_day': '2025-03-31',
           'issued_on': '2025-04-02', 'carrier': 'hydrogen'}
ISSUER = 'ISSUER'
Request = tuple[str, dict[str, Any]]
"""A caller and a command, but for its key."""


# -------------------------------------------------------------------- requests

def own(serial: int, code: int = 7) -> str:
    return f'{code * SERIALS + serial:014}'


def numbers(first: int, last: int, code: int = 7) -> dict[str, str]:
    return {'first': own(first, code), 'last': own(last, code)}


def notice(number: int, account: int, span: dict[str, str], lot: dict[str, Any],
           version: int = 1) -> dict[str, Any]:
    return {'account': account, 'addressee': 7, 'number': number,
            'parts': [{**span, 'lot': lot}], 'sender': 9, 'version': version}


def device(gsrn: str, account: int, **more: object) -> Request:
    return ISSUER, {'command': 'register_device', 'device': gsrn, 'account': account, **PLANT,
                    **more}


def declared(gsrn: str, first_day: str, last_day: str, gross: int, aux: int = 0) -> Request:
    return ISSUER, {'command': 'declare', 'device': gsrn, 'first_day': first_day,
                    'last_day': last_day, 'gross_wh': gross, 'aux_wh': aux}


def corrected(gsrn: str, first_day: str, less: int, **span: str) -> Request:
    return ISSUER, {'command': 'correct', 'device': gsrn, 'first_day': first_day,
                    'less_wh': less, 'first': '', 'last': '', 'reason': 'meter read twice', **span}


def advanced(day: str) -> Request:
    return ISSUER, {'command': 'advance', 'day': day}


def opened(holder: str) -> Request:
    return ISSUER, {'command': 'open_account', 'holder': holder}


def exported(caller: str, giver: int, span: dict[str, str]) -> Request:
    return caller, {'command': 'export', 'giver': giver, 'peer': 9, 'account': 5, **span}


def transferred(caller: str, giver: int, taker: int, span: dict[str, str]) -> Request:
    return caller, {'command': 'transfer', 'giver': giver, 'taker': taker, **span}


def imported(text: dict[str, Any]) -> Request:
    return ISSUER, {'command': 'import', 'notice': text}


HOLDERS: list[Request] = [
    (ISSUER, {'command': 'open_holder', 'holder': code, 'name': name})
    for code, name in (('SUN', 'Sun "Power", Böhm & Söhne'), ('VOLT', 'Volt'))]
PEER: Request = (ISSUER, {'command': 'add_peer', 'peer': 9})
EACH_COMMAND: list[Request] = [
    *HOLDERS, opened('SUN'), opened('VOLT'), opened('SUN'),
    device(SUNNY, 1), device(GASSY, 2, carrier='gas', site='Farm'),
    device(WINDY, 2, support='both'),
    declared(SUNNY, '2025-01-01', '2025-01-31', 1_234_567_890, 34_567_890),
    declared(SUNNY, '2025-02-01', '2025-02-28', 999_999),
    declared(GASSY, '2025-01-01', '2025-01-31', 5_400_000),
    declared(WINDY, '2025-01-01', '2025-01-31', 5_000_000),
    declared(WINDY, '2025-02-01', '2025-02-28', 5_000_000),
    advanced('2025-04-05'), declared(SUNNY, '2025-03-01', '2025-03-31', 1),
    transferred('SUN', 1, 2, numbers(100, 199)),
    ('SUN', {'command': 'cancel', 'account': 1, **numbers(1, 10),
             'beneficiary': 'Bäckerei Müller', 'use_first': '2025-01-01',
             'use_last': '2025-03-31'}),
    (ISSUER, {'command': 'withdraw', **numbers(11, 12), 'reason': 'meter read twice'}),
    corrected(SUNNY, '2025-01-01', 2_500_000, **numbers(300, 302)),
    corrected(GASSY, '2025-01-01', 100_000),
    ('SUN', {'command': 'close_account', 'account': 3}), PEER,
    exported('SUN', 1, numbers(20, 29)), exported('VOLT', 2, numbers(1201, 1202)),
    imported(notice(1, 2, numbers(20, 24), JANUARY)),
    imported(notice(2, 1, numbers(1, 3, 9), FOREIGN, version=2)),
    transferred('VOLT', 2, 1, numbers(20, 21)),
    advanced('2026-08-01'), declared(SUNNY, '2026-07-01', '2026-07-31', 7_000_000),
    declared(WINDY, '2026-07-01', '2026-07-31', 7_500_000),
    transferred('SUN', 1, 2, numbers(1217, 1218))]
"""Each command, accepted."""


def lines_of(requests: Iterable[Request], keys: str = 'k') -> str:
    return ''.join(f'{caller} {json.dumps({**of, "key": f"{keys}{at}"}, ensure_ascii=False)}\n'
                   for at, (caller, of) in enumerate(requests))


# -------------------------------------------------------------------- files

class Files:
    """A folder for registries and their copies, and the program."""

    def __init__(self, folder: Path) -> None:
        self.goo, self.folder, self.made = str(find_registry()), folder, 0

    def fresh(self) -> Path:
        self.made += 1
        made = self.folder / str(self.made)
        made.mkdir()
        return made

    def run(self, *words: object, given: str = '') -> subprocess.CompletedProcess[str]:
        return subprocess.run([self.goo, *map(str, words)], input=given, capture_output=True,
                              text=True, timeout=LIMIT, check=False)

    def begun(self, *more: object) -> Path:
        """A new registry's file."""
        db = self.fresh() / 'registry.db'
        self.run('init', '--db', db, *NEW, *more)
        return db

    def of(self, requests: Iterable[Request]) -> Path:
        """The file of a registry that has accepted these requests."""
        db = self.begun()
        outcomes = self.outcomes(db, lines_of(requests))
        assert set(outcomes) == {'accepted'}, outcomes
        return db

    def outcomes(self, db: Path, lines: str) -> list[str]:
        out = self.run('run', '--db', db, given=lines).stdout
        return [json.loads(line)['outcome'] for line in out.splitlines()]

    def serve(self, db: Path, count: int) -> tuple[int, subprocess.Popen[bytes]]:
        """A server of the file for so many connections, and its port."""
        port, server, _ = client.listening(lambda port: subprocess.Popen(
            [self.goo, 'serve', '--db', db, '--port', str(port), '--count', str(count)],
            stdout=subprocess.PIPE))
        return port, server

    def changed(self, db: Path, sql: str) -> Path:
        """A copy on which a statement of SQL was carried out."""
        copy = self.fresh() / 'registry.db'
        copy.write_bytes(db.read_bytes())
        with closing(sqlite3.connect(copy)) as database:
            database.executescript(sql)
        return copy


def rows_of(db: Path, sql: str) -> list[tuple[Any, ...]]:
    with closing(sqlite3.connect(db)) as database:
        return database.execute(sql).fetchall()


# -------------------------------------------------------------------- by chance

OWNERS = {1: 'SUN', 2: 'VOLT', 3: 'SUN', 4: 'VOLT'}
BEGINNING = [*HOLDERS, *map(opened, OWNERS.values()), device(SUNNY, 1),
             device(GASSY, 2, carrier='gas'), device(WINDY, 3), PEER]


def request_by_chance(chance: random.Random, held: list[tuple[Any, ...]]) -> Request:
    """A request that the registry may accept, mostly of certificates that are held: account, first
    and last number."""
    account, low, high = (chance.choice(held) if held and chance.random() < 0.9 else
                          (chance.randint(1, 4), 7 * SERIALS + 1, 7 * SERIALS + 20))
    first = chance.randint(low, high)
    last = chance.choice([first, min(high, first + 3), high])
    span = {'first': f'{first:014}', 'last': f'{last:014}'}
    holder, gsrn = OWNERS[account], chance.choice([SUNNY, GASSY, WINDY])
    month = f'{chance.choice([2024, 2025])}-{chance.randint(1, 12):02}'
    gross, aux, taker = chance.randint(0, 30_000_000), chance.choice([0, 999]), chance.randint(1, 4)
    less = chance.choice([1, 400_000, 1_000_000])
    alone: list[dict[str, str]] = [{}, {**span, 'last': span['first']}]
    later = advanced(f'{month}-28') if chance.random() < 0.1 else (
        holder, {'command': 'close_account', 'account': account})
    return chance.choice([
        declared(gsrn, f'{month}-01', f'{month}-14', gross, aux),
        declared(gsrn, f'{month}-15', f'{month}-28', gross, aux),
        transferred(holder, account, taker, span), transferred(holder, account, taker, span),
        (holder, {'command': 'cancel', 'account': account, **span, 'beneficiary': 'Rathaus',
                  'use_first': f'{month}-01', 'use_last': f'{month}-28'}),
        exported(holder, account, span),
        (ISSUER, {'command': 'withdraw', **span, 'reason': 'wrong meter'}),
        corrected(gsrn, f'{month}-{chance.choice(["01", "15"])}', less,
                  **chance.choice(alone)),
        later])


def history(files: Files, chance: random.Random) -> tuple[Path, int]:
    """A registry by chance: some three hundred requests, and some notices that come back. How many
    were accepted."""
    db = files.begun()
    outcomes = files.outcomes(db, lines_of(BEGINNING, 's'))
    for part in range(10):
        held = rows_of(db, 'SELECT account, first, last FROM piece WHERE kind = 1')
        sent = [json.loads(body) for body, in rows_of(db, 'SELECT body FROM notice_out')]
        back = [{**text, 'sender': 9, 'addressee': 7, 'account': chance.randint(1, 4)}
                for text in sent if chance.random() < 0.2]
        requests = [request_by_chance(chance, held) for _ in range(30)]
        outcomes += files.outcomes(db, lines_of([*requests, *map(imported, back)], f'{part}.'))
    return db, outcomes.count('accepted')
