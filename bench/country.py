"""A registry of the size of a country after years: made by the program, request by request, and measured at each quarter of its way.

usage: python3 bench/country.py [--devices N] [--years N] [--trades N] [--seed N] [--keep FOLDER]

Each month every device declares the month before; of each lot some certificates are transferred, some of those are cancelled, and the rest expires in its time. What is made depends on the seed alone. At
each quarter of the months it measures, over the file as it is then: the file, opening it, an audit, the statement of the account with the most runs, a copy, and requests to a server, one connection
each (median and 99th of a hundred). Beside them stands what SQLite takes by itself: its check of the file, one query a table that adds up what the audit adds up, and the plain registry in Rust (plain.rs),
which writes the same statement from one ordered query; and beside the opening that of the kit's library alone (`goo: damaged` on standard error is its end).
At the end `goo-copies recount` carries out all requests once more. It prints one table as Markdown. Ten years of 3,000 devices take about an hour and 3 GB below FOLDER (a temporary one by itself).
"""
import argparse
import calendar
import itertools
import json
import math
import os
import random
import shutil
import sqlite3
import statistics
import subprocess
import sys
import time
from contextlib import closing, contextmanager
from pathlib import Path

import measured
from client import ask, free_port, read_answer, request
from measured import PROGRAM, Run, goo, head, machine, ratio, room, row, rust, rust_run, say
from service_commands import command
from workloads import ISSUING_BODY, certificate, device_number, line

PRODUCERS, TRADERS = 40, 20
BEGUN = 2015
QUARTERS = 4
MOST_BYTES = 15_000_000
"""An input for one run of the program: it takes 16 MiB."""
ASKED, READ = 100, 3
COLUMNS = ['Work', *(f'at {quarter}/{QUARTERS}' for quarter in range(1, QUARTERS)), 'whole', 'grows as', 'peak MB', 'SQLite alone', 'ratio']
STATED = 'SELECT first, last, device, first_day, last_day, tech, source FROM piece JOIN lot ON lot.id = piece.lot WHERE account = ? AND kind = 1 ORDER BY first'
ADDED = ('SELECT device, sum(gross - aux), count(*) FROM declaration GROUP BY device', 'SELECT device, sum(less) FROM correction GROUP BY device',
         'SELECT device, sum(last - first + 1) FROM piece JOIN lot ON lot.id = piece.lot GROUP BY device, kind')


class Country:
    """The requests of such a registry, month by month."""

    def __init__(self, devices, trades, seed):
        self.devices, self.trades, self.chance = devices, trades, random.Random(seed)
        self.carries, self.serial, self.number = [0] * devices, 1, 0

    def key(self):
        self.number += 1
        return f'k{self.number}'

    def beginning(self):
        for number in range(1, PRODUCERS + TRADERS + 1):
            yield line(ISSUING_BODY, command='open_holder', holder=f'H{number}', key=self.key(), name=f'Holder {number}')
            yield line(ISSUING_BODY, command='open_account', holder=f'H{number}', key=self.key())
        for device in range(self.devices):
            yield line(ISSUING_BODY, command='register_device', key=self.key(), device=device_number(device + 1), account=device % PRODUCERS + 1, capacity_w=20_000_000,
                       commissioned='2010-06-15', country='DE', site=f'Site {device}', source='F01010100', support='none', tech='T010000')

    def month(self, year, month):
        """The requests on the first day of the next month."""
        last_day = f'{year}-{month:02d}-{calendar.monthrange(year, month)[1]}'
        day = f'{year + month // 12}-{month % 12 + 1:02d}-01'
        yield line(ISSUING_BODY, command='advance', day=day, key=self.key())
        lots = []
        for device in range(self.devices):
            net_wh = self.chance.randrange(10_000_000, 900_000_000)
            yield line(ISSUING_BODY, command='declare', key=self.key(), device=device_number(device + 1), first_day=f'{year}-{month:02d}-01', last_day=last_day, gross_wh=net_wh, aux_wh=0)
            count, self.carries[device] = divmod(net_wh + self.carries[device], 1_000_000)
            lots.append((device % PRODUCERS + 1, self.serial, count))
            self.serial += count
        for giver, first, count in lots:
            yield from self.trade(giver, first, count, day)

    def trade(self, giver, first, count, day):
        """Of a lot some ranges go to traders, one behind another with gaps between, and each second one is cancelled."""
        share = count // (2 * self.trades) if self.trades else 0
        for number in range(self.trades if share else 0):
            begin, trader = first + 2 * number * share, PRODUCERS + 1 + self.chance.randrange(TRADERS)
            end = begin + self.chance.randrange(share)
            yield line(f'H{giver}', command='transfer', key=self.key(), giver=giver, taker=trader, first=certificate(begin), last=certificate(end))
            if number % 2:
                yield line(f'H{trader}', command='cancel', key=self.key(), account=trader, first=certificate(begin), last=certificate(end), beneficiary='Town hall', use_first=day, use_last=day)


class File:
    """The registry's file, and what is measured of it."""

    def __init__(self, folder):
        self.folder, self.path = folder, folder / 'registry.db'
        goo('init', '--db', self.path, '--code', '7', '--today', f'{BEGUN}-01-01')

    def take(self, lines):
        """Has the program answer these requests: all of them are accepted."""
        lines, given, to = iter(lines), self.folder / 'lines', self.folder / 'outcomes'
        for first in lines:
            size = 0
            with open(given, 'w', encoding='ascii') as part:
                for text in itertools.chain([first], lines):
                    size += part.write(text + '\n')
                    if size > MOST_BYTES:
                        break
            goo('run', '--db', self.path, given=given, to=to)

    def query(self, *texts, of=()):
        """The processor seconds of queries in Python's sqlite3, every row read."""
        begun = time.process_time()
        with closing(sqlite3.connect(self.path)) as database:
            for text in texts:
                for _ in database.execute(text, of):
                    pass
        return time.process_time() - begun

    def library_alone(self):
        """An opening that ends once the library has checked the file: with one more table it is no registry, and the program says so before it reads a row."""
        other = self.folder / 'other'
        shutil.copyfile(self.path, other)
        with closing(sqlite3.connect(other)) as database:
            database.execute('CREATE TABLE other (a INTEGER)')
        return goo('run', '--db', other, fine=(3,))

    def plainly_stated(self, account):
        """The processor seconds in which the plain registry in Rust writes the same statement from a copy; without it, those of a query whose rows are read only."""
        if not rust():
            return min(self.query(STATED, of=(account,)) for _ in range(READ))
        other, text = self.folder / 'other', self.folder / 'plain'
        shutil.copyfile(self.path, other)
        seconds = min(rust_run(other, '--statement', str(account), to=text).seconds for _ in range(READ))
        if text.read_bytes() != (self.folder / 'text').read_bytes():
            sys.exit('the two statements differ')
        return seconds

    def longest(self):
        with closing(sqlite3.connect(self.path)) as database:
            return database.execute('SELECT account FROM piece WHERE kind = 1 GROUP BY account ORDER BY count(*) DESC LIMIT 1').fetchone()

    def counts(self):
        with closing(sqlite3.connect(self.path)) as database:
            return [database.execute(f'SELECT count(*) FROM {table}').fetchone()[0] for table in ('declaration', 'piece', 'receipt')]

    def copied(self):
        """The seconds by the clock of a copy that is on the disk."""
        begun = time.monotonic()
        subprocess.run(['cp', self.path, self.folder / 'copy'], check=True)
        subprocess.run(['sync', self.folder / 'copy'], check=True)
        return time.monotonic() - begun

    @contextmanager
    def served(self):
        """The program serves the file; its port and its process."""
        port = free_port()
        with subprocess.Popen([PROGRAM, 'serve', '--db', self.path, '--port', str(port), '--count', str(2 * ASKED)], stdout=subprocess.PIPE, text=True) as server:
            try:
                if not server.stdout.readline().startswith('listening'):
                    sys.exit(f'{PROGRAM} serve does not listen')
                yield port, server.pid
            finally:
                server.terminate()

    def asked(self, account):
        """Milliseconds by the clock of reads of one certificate and of requests: median and 99th of each."""
        (serial,) = next(self.rows('SELECT first FROM piece WHERE account = ? AND kind = 1 ORDER BY first DESC LIMIT 1', account))
        other = PRODUCERS + 1 if account[0] != PRODUCERS + 1 else PRODUCERS + 2
        with self.served() as (port, _):
            reads = [milliseconds(port, 'GET', f'/v1/certificates/{serial:014d}') for _ in range(ASKED)]
            span = {'first': f'{serial:014d}', 'last': f'{serial:014d}'}
            writes = [milliseconds(port, 'POST', '/v1/requests', f'H{giver}', {'command': 'transfer', 'key': f'w{serial}.{number}', 'giver': giver, 'taker': taker, **span})
                      for number, (giver, taker) in zip(range(ASKED), itertools.cycle([(account[0], other), (other, account[0])]))]
        return [(statistics.median(times), sorted(times)[-1 - len(times) // 100]) for times in (reads, writes)]

    def answered(self, target):
        """The processor seconds of a server for this read, the least of some."""
        with self.served() as (port, server):
            return min(seconds_for(port, server, target) for _ in range(READ))

    def rows(self, text, of=()):
        with closing(sqlite3.connect(self.path)) as database:
            yield from database.execute(text, of).fetchall()


def processor_seconds(process):
    """What a process has taken until now, by itself and for it in the kernel."""
    fields = Path(f'/proc/{process}/stat').read_text(encoding='ascii').rpartition(')')[2].split()
    return (int(fields[11]) + int(fields[12])) / os.sysconf('SC_CLK_TCK')


def seconds_for(port, server, target):
    """The processor seconds of a server for one read that is answered."""
    before = processor_seconds(server)
    answer = read_answer(ask(port, request('GET', target, ISSUING_BODY), patience=measured.SECONDS))
    if answer.status != 200:
        sys.exit(f'GET {target}: {answer.status}')
    return processor_seconds(server) - before


def milliseconds(port, method, path, caller=ISSUING_BODY, body=None):
    """The milliseconds of one connection with one request that is accepted."""
    sent, begun = request(method, path, caller, body=json.dumps(body).encode() if body else b''), time.monotonic()
    came = ask(port, sent, patience=measured.SECONDS)
    took = 1000 * (time.monotonic() - begun)
    status, _, text = read_answer(came)
    if status != 200 or body and b'"accepted"' not in text:
        sys.exit(f'{method} {path}: {status} {text[:200]}')
    return took


def look(file):
    """What is measured at one time: each work with its figure, its peak of memory, and SQLite's figure."""
    account = file.longest()
    declared, pieces, receipts = file.counts()
    opening, library = goo('run', '--db', file.path), file.library_alone()
    audit, stated = goo('audit', '--db', file.path, to=file.folder / 'audit'), goo('statement', str(account[0]), '--db', file.path, to=file.folder / 'text')
    (read, slow_read), (write, slow_write) = file.asked(account)
    return {
        'declarations': (declared, None, None), 'rows of `piece`': (pieces, None, None), 'receipts': (receipts, None, None),
        'MB of the file': (file.path.stat().st_size / 1e6, None, None),
        'opening, processor seconds': (opening.seconds, opening.memory, file.query('PRAGMA integrity_check')),
        "the library's own opening, processor seconds": (library.seconds, library.memory, None),
        'audit of a server, processor seconds': (file.answered('/v1/audit'), audit.memory, min(file.query(*ADDED) for _ in range(READ))),
        'the longest statement of a server, processor seconds': (file.answered(f'/v1/accounts/{account[0]}/statement'), stated.memory, file.plainly_stated(account[0])),
        'a copy, seconds by the clock': (file.copied(), None, None),
        'a certificate over HTTP, ms at the median': (read, None, None), 'a certificate over HTTP, ms of the 99th': (slow_read, None, None),
        'a transfer over HTTP, ms at the median': (write, None, None), 'a transfer over HTTP, ms of the 99th': (slow_write, None, None)}


def shown(figure):
    return f'{figure:,.0f}' if figure >= 1000 or isinstance(figure, int) else f'{figure:.2f}'


def table(looks):
    """A row for each work: its figures, how it grows from the first quarter to the whole, and SQLite's beside it."""
    head(COLUMNS)
    for work, (whole, memory, alone) in looks[-1].items():
        figures = [looked[work][0] for looked in looks]
        grows = f'n^{math.log(whole / figures[0]) / math.log(QUARTERS):.2f}' if figures[0] > 0 and whole > 0 and 'HTTP' not in work else ''
        row([work, *map(shown, figures), grows, f'{memory:.0f}' if memory else '', f'{alone:.2f}' if alone else '', ratio(whole, alone) if alone else ''])


def arguments():
    parser = argparse.ArgumentParser(description=__doc__, formatter_class=argparse.RawDescriptionHelpFormatter)
    for name, most in (('devices', 3_000), ('years', 10), ('trades', 2), ('seed', 1)):
        parser.add_argument(f'--{name}', type=int, default=most, metavar='N')
    parser.add_argument('--keep', type=Path, metavar='FOLDER', help='where the files are made, and stay')
    return parser.parse_args()


def main(chosen, folder):
    country, file = Country(chosen.devices, chosen.trades, chosen.seed), File(folder)
    months, looks, begun = 12 * chosen.years, [], time.monotonic()
    file.take(country.beginning())
    for quarter in range(QUARTERS):
        part = range(months * quarter // QUARTERS, months * (quarter + 1) // QUARTERS)
        file.take(itertools.chain.from_iterable(country.month(BEGUN + month // 12, month % 12 + 1) for month in part))
        say(f'{(time.monotonic() - begun) / 60:.1f} min: {quarter + 1}/{QUARTERS} of the months are there')
        looks.append(look(file))
    print(f'{chosen.devices:,} devices, {chosen.years} years, {chosen.trades} transfers a lot, seed {chosen.seed}; {machine()}.\n')
    table(looks)
    recounted = Run([*command('goo-copies recount'), file.path], to=folder / 'recount')
    print(f'\n`goo-copies recount` of the whole: {recounted.seconds:.0f} processor seconds, {recounted.memory:.0f} MB.')


if __name__ == '__main__':
    CHOSEN = arguments()
    measured.SECONDS = 3600
    if CHOSEN.keep:
        shutil.rmtree(CHOSEN.keep, ignore_errors=True)
        CHOSEN.keep.mkdir(parents=True)
        main(CHOSEN, CHOSEN.keep)
    else:
        with room(measured.fast()) as PLACE:
            main(CHOSEN, PLACE)
