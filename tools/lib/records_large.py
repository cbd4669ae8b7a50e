"""A book of many acts, for tools/trials/records --large: the time and the memory that it takes to make, and the time of its answers, beside the registry's own statement.

Two holders trade single certificates by chance, until the acts are so many as were asked for; the archive says that each was accepted, and the book fails where the rules say otherwise.
Two others hold every second certificate of a stretch in turn. The registry gets the requests of these two, so that its statement of their account is the same as in the book.
"""
import itertools
import json
import os
import random
import secrets
import subprocess
import time

from goo_service.log import entries
from goo_service.log.archive import Archive
from archives import KEY
from client import answered, free_port, request
from acts_by_chance import ACCOUNTS, CODE, DEVICES, OWN, TODAY, Requests, Service
from goo_service.rules.commands import ISSUER
import service_commands

ALTERNATE, TRADED = 1_000, 30_000
"""Certificates that change hands one by one: every second of a stretch, and those of two who trade by chance."""
ASKED, MINUTE = 100, 60
"""How often each question is asked, for so many seconds at most."""
YEAR = range(1, 13)
EACH = 2 * ALTERNATE // len(YEAR) + 1
"""Certificates of each declaration of the alternating ones."""


def declared(device, mwh):
    """A year of declarations of a device."""
    return [(ISSUER, {'command': 'declare', 'key': f'{device}-{month}', 'device': device, 'first_day': f'2025-{month:02}-01', 'last_day': f'2025-{month:02}-28', 'gross_wh': mwh * 1_000_000,
                      'aux_wh': 0}) for month in YEAR]


def transferred(key, giver, taker, number):
    return ACCOUNTS[giver], {'command': 'transfer', 'key': key, 'giver': giver, 'taker': taker, 'first': f'{number:014}', 'last': f'{number:014}'}


def shared():
    """What the registry gets too: holders, accounts and devices, and what accounts 3 and 4 do."""
    yield from [(caller, json.loads(body)) for _, caller, _, body in Requests(5).begin()][:-1]      # the last one is a repeated one
    yield from declared(DEVICES[2], EACH)
    yield from (transferred(f'a{at}', 3, 4, OWN + 1 + 2 * at) for at in range(ALTERNATE))


def traded(count):
    """What accounts 1 and 2 do: single certificates back and forth, by chance."""
    chance, first, holder = random.Random(5), OWN + 1 + EACH * len(YEAR), {}
    yield from declared(DEVICES[0], TRADED // len(YEAR))
    for at in range(count - len(YEAR)):
        number = first + chance.randrange(TRADED)
        giver = holder.get(number, 1)
        holder[number] = 3 - giver
        yield transferred(f't{at}', giver, 3 - giver, number)


def write_archive(folder, requests):
    """An archive of requests that were all accepted; how many they are."""
    archive, before, chain, count = Archive(folder), secrets.token_hex(32), entries.NO_CHAIN, 0
    for count, (caller, command) in enumerate(requests, 1):
        entry = entries.Entry(n=count, prev=before, time='2026-02-01T00:00:00.000000Z', host='h', user=f'user-{caller.lower()}', address='', role='full', caller=caller, method='POST',
                              route='/v1/requests', version='trial', id=f'{count:x}', body=json.dumps(command, ensure_ascii=False).encode())
        line = entries.entry_line(entry, KEY)
        outcome = entries.outcome_after(entry.route, 200, b'{"outcome":"accepted"}', chain)
        archive.add(line, entry, outcome)
        before, chain = entries.hash_of(line), outcome.chain
    archive.sync()
    return count


def measured(words):
    """Runs a program to its end: its exit status, its processor seconds, and the most memory that it had, in MB."""
    process = subprocess.Popen(words, stdout=subprocess.DEVNULL)
    _, status, used = os.wait4(process.pid, 0)
    process.returncode = os.waitstatus_to_exitcode(status)
    return process.returncode, used.ru_utime + used.ru_stime, used.ru_maxrss / 1024


def times(ask):
    """A hundred answers, or as many as come in a minute: the last of them; the median and the 99th of a hundred in milliseconds by the clock, and processor milliseconds of one."""
    took, begun, until = [], time.process_time(), time.monotonic() + MINUTE
    while len(took) < ASKED and (not took or time.monotonic() < until):
        start = time.perf_counter()
        answer = ask()
        took.append((time.perf_counter() - start) * 1000)
    took.sort()
    each = (time.process_time() - begun) / len(took) * 1000
    return answer, f'median of {len(took)} {took[len(took) // 2]:,.1f} ms, 99 in 100 within {took[(99 * len(took) - 1) // 100]:,.1f} ms, processor {each:,.1f} ms'


class OwnStatement:
    """`with OwnStatement(..) as ask`: the registry itself over the requests of two accounts, asked for a statement."""

    def __init__(self, goo, folder, requests):
        db, self.port = folder / 'alternate.db', free_port()
        lines = ''.join(f'{caller} {json.dumps(command, ensure_ascii=False)}\n' for caller, command in requests)
        subprocess.run([goo, 'init', '--db', db, '--code', str(CODE), '--today', TODAY], check=True, stdout=subprocess.DEVNULL)
        subprocess.run([goo, 'run', '--db', db], input=lines.encode(), check=True, stdout=subprocess.DEVNULL)
        self.process = subprocess.Popen([goo, 'serve', '--db', db, '--port', str(self.port), '--count', '1000000'], stdout=subprocess.PIPE)
        self.process.stdout.readline()

    def __enter__(self):
        return self.ask

    def __exit__(self, *_):
        self.process.terminate()
        self.process.wait(60)
        self.process.stdout.close()

    def ask(self, account=3):
        return answered(self.port, request(target=f'/v1/accounts/{account}/statement'), patience=600).body.decode()


def statement_lines(runs, place='held'):
    """Runs of a list of holdings as lines of a statement."""
    return [f'{run["first"]} {run["last"]} {run["count"]:12} {run["device"]} {run["first_day"]} {run["last_day"]} {run["tech"]} {run["source"]} {place}' for run in runs]


QUESTIONS = (('acts', {}), ('acts', {'account': 1}), ('acts', {'account': 1, 'q': 't77'}), ('acts', {'q': 't4321'}), ('acts', {'q': 'nowhere at all'}), ('acts', {'q': 'zz'}),
             ('acts', {'q': 'T-9', 'kind': 'transfer'}), ('acts', {'key': 't77'}), ('acts/5000', {}), ('holdings', {'account': 1}), ('holdings', {'account': 1, 'by': 'run'}),
             ('holdings', {'account': 1, 'by': 'run', 'q': 'Field', 'sort': '-count'}), ('holdings', {'by': 'month'}), ('deadlines', {}), ('choice', {'account': 1, 'count': 5000}),
             ('choice', {'account': 1, 'count': 5000, 'order': 'fewest'}), ('certificates/{held}', {}), ('accounts', {}), ('devices', {}), ('declarations', {}), ('statistics', {'by': 'month,tech'}))
"""What the holder of account 1 asks, who has some 15,000 runs and half of the acts."""


def large(tally, goo, folder, count):
    """Makes the archive and its book, asks it everything, and the registry for the statement of an account that both have."""
    both = list(shared())
    acts = write_archive(folder / 'large', itertools.chain(both, traded(count - len(both))))
    print(f'an archive of {acts:,} acts is written; load {os.getloadavg()[0]:.1f}', flush=True)
    begun, into = time.monotonic(), folder / 'of-large'
    status, seconds, most = measured([*service_commands.command('goo-records'), 'follow', '--begun', str(CODE), TODAY, '1', '--archive', folder / 'large', '--into', into, '--once'])
    took, size = time.monotonic() - begun, (into / 'current').stat().st_size / 1e6 if status == 0 else 0
    tally.check(f'a book of {acts:,} acts is made: {seconds:.1f} s of the processor, {took:.1f} s by the clock, {most:,.0f} MB of memory, a file of {size:,.0f} MB', status == 0, status)
    if status == 0:
        answers(tally, Service(into), goo, folder, both)
    print(f'load {os.getloadavg()[0]:.1f}', flush=True)


def answers(tally, service, goo, folder, both):
    """The time of each kind of answer, and of the registry's own statement."""
    held = service.items(ACCOUNTS[1], 'holdings', by='run', account=1)[0]['first']
    for path, parameters in QUESTIONS:
        asked = parameters if '/' in path or path == 'choice' else {'limit': 1000, **parameters}
        (status, answer), told = times(lambda: service.ask(ACCOUNTS[1], f'/records/v1/{path.format(held=held)}', **asked))
        tally.check(f'{path} {parameters or ""}: {told}', status == 200, answer)
    with OwnStatement(goo, folder, both) as ask:
        text, told = times(ask)
        print(f"the registry's own statement of {ALTERNATE:,} runs: {told.rsplit(',', 1)[0]}", flush=True)
        runs, told = times(lambda: service.items(ACCOUNTS[3], 'holdings', by='run', account=3))
        own = [line for line in text.splitlines() if line.endswith(' held')]
        tally.check(f'the same {len(own):,} runs as a list of holdings: {told}', set(statement_lines(runs)) == set(own) and len(own) >= ALTERNATE, len(own))
