"""The same rows as the registry's, written with Python's sqlite3 module: what a plain registry over the C library of SQLite costs.

usage: python3 bench/plain.py LINES [DATABASE]

LINES are request lines of bench/workloads.py, each accepted. Each is one transaction over the registry's own tables (the texts of
crates/goo_tables/src/create.rt), in memory unless a DATABASE is given: there in a file with a log, synced at each commit, as the
registry does. It writes just the rows that the registry writes (bench/same.py compares them), and checks nothing that the registry
checks. Prints the processor seconds and the seconds of these transactions, without those of reading the lines.
"""
import calendar
import json
import re
import sqlite3
import sys
import time
from pathlib import Path

CREATE = Path(__file__).resolve().parent.parent / 'crates/goo_tables/src/create.rt'
TODAY = '2025-03-01'
CODE = 7
MWH = 1_000_000
PLANT = ('country', 'site', 'tech', 'source', 'capacity_w', 'commissioned', 'support')


def months_after(day, months):
    """The same day of the month so many months on, or the last of that month."""
    year, month, date = (int(part) for part in day.split('-'))
    year, month = year + (month - 1 + months) // 12, (month - 1 + months) % 12 + 1
    return f'{year:04d}-{month:02d}-{min(date, calendar.monthrange(year, month)[1]):02d}'


def number(serial):
    return CODE * 10**12 + serial


class Plain:
    """A registry without checks. Each command is a method that answers the kind and the numbers of its reply."""

    def __init__(self, path):
        self.database = sqlite3.connect(path, isolation_level=None)
        if path != ':memory:':
            self.ask('PRAGMA journal_mode=WAL')
            self.ask('PRAGMA synchronous=FULL')
        if self.ask('SELECT 1 FROM sqlite_master').fetchone() is None:
            for text in re.findall(r'"(CREATE [^"]*)"', CREATE.read_text(encoding='utf-8')):
                self.ask(text)
            self.ask('INSERT INTO meta VALUES (1, 2, ?, ?, 1, 1, 1, 1, 1)', CODE, TODAY)

    def ask(self, text, *values):
        return self.database.execute(text, values)

    def take(self, column, count):
        """The next number of a kind, which moves on."""
        (taken,) = self.ask(f'SELECT {column} FROM meta WHERE id = 1').fetchone()
        self.ask(f'UPDATE meta SET {column} = ? WHERE id = 1', taken + count)
        return taken

    def apply(self, caller, of, text):
        """One request, in one transaction."""
        self.ask('BEGIN')
        kept = self.ask('SELECT command FROM receipt WHERE caller = ? AND key = ?', caller, of['key']).fetchone()
        if kept is None:
            reply = getattr(self, of['command'])(of)
            self.ask('INSERT INTO receipt VALUES (?, ?, ?, ?, ?, ?, ?)', caller, of['key'], text, *reply)
        self.ask('COMMIT')

    def open_holder(self, of):
        self.ask('INSERT INTO holder VALUES (?, ?)', of['holder'], of['name'])
        return 1, 0, 0, 0

    def open_account(self, of):
        account = self.take('next_account', 1)
        self.ask('INSERT INTO account VALUES (?, ?, 0)', account, of['holder'])
        return 2, account, 0, 0

    def register_device(self, of):
        self.ask('INSERT INTO device VALUES (?, ?, ?, ?, ?, ?, ?, ?, ?, NULL, 0)', of['device'], of['account'], *(of[column] for column in PLANT))
        return 1, 0, 0, 0

    def declare(self, of):
        account, carry, *plant = self.ask(f'SELECT account, carry, {", ".join(PLANT)} FROM device WHERE gsrn = ?', of['device']).fetchone()
        due, carry = divmod(carry + of['gross_wh'] - of['aux_wh'], MWH)
        self.ask('INSERT INTO declaration VALUES (NULL, ?, ?, ?, ?, ?)', of['device'], of['first_day'], of['last_day'], of['gross_wh'], of['aux_wh'])
        self.ask('UPDATE device SET last_day = ?, carry = ? WHERE gsrn = ?', of['last_day'], carry, of['device'])
        if due == 0:
            return 3, carry, 0, 0
        lot = self.ask('INSERT INTO lot VALUES (NULL, ?, ?, ?, ?, ?, ?, ?, ?, ?, ?, ?, ?, ?)', CODE, of['device'], *plant, of['first_day'], of['last_day'],
                       months_after(of['last_day'], 18), TODAY).lastrowid
        serial = self.take('next_serial', due)
        first, last = number(serial), number(serial + due - 1)
        self.ask('INSERT INTO piece VALUES (?, ?, ?, 1, ?, 0)', first, last, lot, account)
        return 3, carry, first, last

    def place(self, of, place):
        """Gives the range another place, and keeps the rows as few as can be."""
        first, last = int(of['first']), int(of['last'])
        row = self.ask('SELECT first, last, lot, kind, account, act FROM piece WHERE first <= ? ORDER BY first DESC LIMIT 1', first).fetchone()
        lot = row[2]
        new = [(first, last, *place)]
        if row[0] < first:
            new.insert(0, (row[0], first - 1, *row[3:]))
        else:
            before = self.ask('SELECT first, last, lot, kind, account, act FROM piece WHERE first < ? ORDER BY first DESC LIMIT 1', first).fetchone()
            if before and before[1:] == (first - 1, lot, *place):
                self.ask('DELETE FROM piece WHERE first = ?', before[0])
                new[0] = (before[0], *new[0][1:])
        if last < row[1]:
            new.append((last + 1, row[1], *row[3:]))
        else:
            after = self.ask('SELECT first, last, lot, kind, account, act FROM piece WHERE first = ?', last + 1).fetchone()
            if after and after[2:] == (lot, *place):
                self.ask('DELETE FROM piece WHERE first = ?', after[0])
                new[-1] = (new[-1][0], after[1], *new[-1][2:])
        self.ask('DELETE FROM piece WHERE first = ?', row[0])
        for low, high, *where in new:
            self.ask('INSERT INTO piece VALUES (?, ?, ?, ?, ?, ?)', low, high, lot, *where)
        return last - first + 1

    def transfer(self, of):
        return 4, self.place(of, (1, of['taker'], 0)), 0, 0

    def cancel(self, of):
        act = self.take('next_cancellation', 1)
        self.ask('INSERT INTO cancellation VALUES (?, ?, ?, ?, ?, ?, ?, ?)', act, of['account'], int(of['first']), int(of['last']), of['beneficiary'],
                 of['use_first'], of['use_last'], TODAY)
        return 5, act, self.place(of, (2, of['account'], act)), 0


def command_text(of):
    """The one text of a command."""
    command = {name: value for name, value in of.items() if name != 'key'}
    return json.dumps(command, sort_keys=True, separators=(',', ':'), ensure_ascii=False).encode()


def read(lines):
    """Each line's caller, the members of its body, and the command's one text."""
    for line in lines:
        caller, body = line.rstrip('\n').split(' ', 1)
        of = json.loads(body)
        yield caller, of, command_text(of)


def spent(registry, requests):
    """The processor seconds and the seconds of these requests."""
    start, clock = time.process_time(), time.monotonic()
    for caller, of, text in requests:
        registry.apply(caller, of, text)
    return time.process_time() - start, time.monotonic() - clock


def main(file, path=':memory:'):
    with open(file, encoding='utf-8') as lines:
        requests = list(read(lines))
    print(*spent(Plain(path), requests))


if __name__ == '__main__':
    if len(sys.argv) not in (2, 3):
        sys.exit(__doc__)
    main(*sys.argv[1:])
