"""A book of acts over an old registry that was brought over, for tools/trials/records --moved.

The tables are made (service/tests/old_registry.py). The archive is what goo-migrate run leaves: a
bundle of the issuing body for each holder, answered as planned. Told are the time and the memory
that the book takes, and the time of what one holder and the issuing body ask.
"""
import argparse
import json
import secrets
import time
from collections.abc import Callable
from collections.abc import Iterator
from dataclasses import replace
from pathlib import Path
from typing import Any

import old_registry
import service_commands
from acts_by_chance import Service
from archives import KEY
from records_large import measured
from records_large import times
from tally import Tally
from goo_service.log import bundles
from goo_service.log import entries
from goo_service.log.archive import Archive
from goo_service.migrate import check
from goo_service.migrate import plan
from goo_service.migrate import sending
from goo_service.migrate import settings
from goo_service.rules.commands import ISSUER

HOLDER = 'H00007'
LINES = 1000
"""Of a list, at most: what a page asks for at once."""
QUESTIONS: tuple[tuple[str, dict[str, Any]], ...] = (
    ('acts', {}), ('acts', {'kind': 'import'}), ('acts', {'q': 'site 7'}), ('holdings', {}),
    ('holdings', {'by': 'run'}), ('holdings', {'by': 'run', 'q': 'Solar', 'sort': '-count'}),
    ('holdings', {'by': 'month'}), ('deadlines', {}), ('accounts', {}), ('devices', {}),
    ('statistics', {'by': 'month,tech'}), ('certificates/{held}', {}))


def planned(folder: Path, size: old_registry.Size) -> int:
    """Tables that are checked and planned; how many requests the plan has."""
    old_registry.write(folder, 1, size)
    read = settings.read(folder)
    check.check(folder, read)
    return plan.write(folder, read)


def write_archive(folder: Path, into: Path) -> int:
    """The archive that a run of the plan leaves; how many entries it has."""
    archive, before, chain, count = Archive(into), secrets.token_hex(32), entries.NO_CHAIN, 0
    for count, bundle in enumerate(sending.bundles_of(sending.steps_in(folder)), 1):
        entry = entries.Entry(n=count, prev=before, time='2025-03-01T00:00:00.000000Z', host='h',
                              user='goo-migrate', address='', role='full', caller=ISSUER,
                              method='POST', route=bundles.ROUTE, version='trial', id=f'{count:x}',
                              body=bundle.body)
        answer = ''.join(json.dumps({'outcome': 'accepted', 'reply': step.reply}) + '\n'
                         for step in bundle.steps)
        line = entries.entry_line(entry, KEY)
        outcome = entries.outcome_after(entry.route, 200, answer.encode(), chain)
        archive.add(line, entry, outcome)
        before, chain = entries.hash_of(line), outcome.chain
    archive.sync()
    return count


OF_ACCOUNT = ('acts', 'holdings', 'deadlines')
TOO_LONG = 503
"""The status where an answer takes too long: whoever asks is told to ask for less."""


def asked(service: Any, caller: str, **of: object) -> Iterator[tuple[str, Callable[[], Any]]]:
    """What a caller asks: a name, and the question. Some lists are of one account, where it is
    given."""
    held = service.answer(HOLDER, 'holdings', by='run', limit=1)['items'][0]['first']
    for path, parameters in QUESTIONS:
        chosen = {**parameters, **(of if path in OF_ACCOUNT else {})}
        route = f'/records/v1/{path.format(held=held)}'
        more = chosen if '/' in path else {'limit': LINES, **chosen}
        yield (f'{caller}, {path} {chosen or ""}',
               lambda route=route, more=more: service.ask(caller, route, **more))


def moved(tally: Tally, folder: Path, count: int) -> None:
    """Brings over so many times the trial's registry, and asks its book."""
    size = replace(old_registry.COUNTRY, holders=old_registry.COUNTRY.holders * count,
                   devices=old_registry.COUNTRY.devices * count)
    requests = planned(folder / 'migration', size)
    number = write_archive(folder / 'migration', folder / 'archive')
    print(f'{requests:,} requests in {number:,} entries', flush=True)
    begun, into = time.monotonic(), folder / 'book'
    status, seconds, most = measured([
        *service_commands.command('goo-records'), 'follow', '--begun', str(old_registry.NEW_CODE),
        old_registry.DATE, '1', '--archive', folder / 'archive', '--into', into, '--once'])
    took = time.monotonic() - begun
    stored = (into / 'current').stat().st_size / 1e6 if status == 0 else 0
    tally.check(f'the book is made: {seconds:.1f} s of the processor, {took:.1f} s by the clock, '
                f'{most:,.0f} MB of memory, a file of {stored:,.0f} MB', status == 0, status)
    if status == 0:
        service = Service(into)
        account = service.answer(HOLDER, 'accounts')['items'][0]['number']
        for name, ask in (*asked(service, HOLDER), *asked(service, ISSUER, account=account)):
            (status, answer), told = times(ask)
            tally.check(f'{name}: {told}', status == 200, answer)
        for name, ask in asked(service, ISSUER):
            (status, answer), told = times(ask)
            tally.check(f'of all accounts, {name}: {told}', status in (200, TOO_LONG), answer)


def words(given: list[str]) -> int:
    """How many times the trial's size, by the words behind --moved."""
    parser = argparse.ArgumentParser(prog='tools/trials/records --moved')
    parser.add_argument('times', type=int, nargs='?', default=1)
    return int(parser.parse_args(given).times)
