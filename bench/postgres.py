"""The same requests in PostgreSQL, by pgbench: what a user could pick in place of the registry.

usage: python3 bench/postgres.py [tmpfs|disk ..]

A cluster of its own, with the settings that PostgreSQL comes with, gets the tables and functions of postgres.sql: each request is one call of a function that looks up the receipt, makes
checks and writes the rows in one transaction, synced. pgbench sends the calls of a workload one after another over a socket. In the end the rows of `piece` have to be those
that the registry leaves. The registry answers the same lines by `goo run`. The two take turns, three times; of each the best counts. Processor seconds are those of the whole cluster beyond
one that is only started and stopped.
"""
import json
import os
import pwd
import shutil
import sqlite3
import subprocess
import sys
import time
from contextlib import closing
from pathlib import Path

from measured import HERE, NEW, PLACES, Run, goo, head, least, machine, ratio, room, row, say, usable, workload

HEAD = ['Work', 'Where', 'n', 'goo: processor seconds', 'n a second by the clock', 'PostgreSQL: processor seconds', 'Ratio', 'n a second by the clock', 'Ratio']
WORKS = [('declarations', 4_000), ('trades', 4_000)]
TURNS = 3
PIECES = 'SELECT first, last, lot, kind, account, act FROM piece ORDER BY first'


def binaries():
    """The folder of PostgreSQL's programs, or None."""
    return max(Path('/usr/lib/postgresql').glob('*/bin'), default=None, key=lambda path: int(path.parent.name))


def as_postgres():
    """The words that start a program as a user whom PostgreSQL accepts: it doesn't run as root."""
    return ['setpriv', '--reuid=postgres', '--regid=postgres', '--clear-groups'] if os.geteuid() == 0 else []


class Cluster:
    """A cluster in a folder, reached by a socket in it."""

    def __init__(self, folder):
        self.folder, self.data = folder, folder / 'data'
        if os.geteuid() == 0:
            os.chown(folder, pwd.getpwnam('postgres').pw_uid, -1)
        self.done('initdb', '--auth=trust', '--no-instructions', '-D', self.data)

    def done(self, name, *words):
        """What a program of PostgreSQL prints."""
        whole = [*as_postgres(), binaries() / name, *words]
        return subprocess.run(list(map(str, whole)), check=True, capture_output=True, text=True, timeout=600, cwd=self.folder).stdout

    def start(self):
        words = [*as_postgres(), binaries() / 'postgres', '-D', self.data, '-k', self.folder, '-c', 'listen_addresses=']
        self.server = subprocess.Popen(list(map(str, words)), cwd=self.folder, stderr=subprocess.DEVNULL)
        while subprocess.run([binaries() / 'pg_isready', '-q', '-h', self.folder], check=False).returncode != 0:
            time.sleep(0.05)

    def stop(self):
        """Ends the cluster; the processor seconds that it took."""
        self.server.terminate()
        _, status, used = os.wait4(self.server.pid, 0)
        self.server.returncode = os.waitstatus_to_exitcode(status)
        return used.ru_utime + used.ru_stime

    def asked(self, *words):
        return self.done('psql', '-h', self.folder, '-d', 'postgres', '-v', 'ON_ERROR_STOP=1', '-q', '-A', '-t', '-F', ' ', *words)


def calls(lines):
    """The request lines as calls."""
    for line in lines:
        caller, body = line.rstrip('\n').split(' ', 1)
        command = json.loads(body)
        key = command.pop('key')
        yield f"SELECT apply('{caller}', '{key}', '{json.dumps(command)}');\n"


def of_postgres(folder, given):
    """Seconds by the clock and processor seconds of the calls, and the rows of `piece` in the end."""
    script = folder / 'calls.sql'
    with open(given, encoding='utf-8') as lines:
        script.write_text(''.join(calls(lines)), encoding='utf-8')
    cluster = Cluster(folder)
    cluster.start()
    idle = cluster.stop()
    cluster.start()
    try:
        cluster.asked('-f', HERE / 'postgres.sql')
        begun = time.monotonic()
        told = cluster.done('pgbench', '-h', folder, '-n', '-c', '1', '-t', '1', '-f', script, 'postgres')
        clock = time.monotonic() - begun
        pieces = [tuple(map(int, line.split())) for line in cluster.asked('-c', PIECES).splitlines()]
    finally:
        spent = cluster.stop()
    if 'processed: 1/1' not in told:
        sys.exit(f'pgbench told {told}')
    return clock, spent - idle, pieces


def of_goo(folder, given):
    """A run of the registry over a new file, and the rows of `piece`."""
    path = folder / 'registry'
    goo('init', '--db', path, *NEW)
    run: Run = goo('run', '--db', path, given=given)
    with closing(sqlite3.connect(path)) as database:
        return run, database.execute(PIECES).fetchall()


def measure(name, size, place):
    ours, theirs = [], []
    for _ in range(TURNS):
        with room(place) as folder:
            count = workload(name, size, folder / 'given')
            run, rows = of_goo(folder, folder / 'given')
            clock, spent, pieces = of_postgres(folder, folder / 'given')
        if rows != pieces:
            sys.exit(f'{name}: the rows of `piece` differ')
        ours.append(run)
        theirs.append((clock, spent))
    best = least(ours)
    clock, spent = (min(column) for column in zip(*theirs))
    fastest = min(run.clock for run in ours)
    row([f'`run`, {name}', place, f'{count:,}', f'{best.seconds:.2f}', f'{count / fastest:,.0f}', f'{spent:.2f}', ratio(best.seconds, spent), f'{count / clock:,.0f}', ratio(clock, fastest)])


def main(places):
    if not binaries() or not shutil.which('pgbench'):
        say('no PostgreSQL (postgresql): it is left out')
        return
    for name, size in WORKS:
        for place in places:
            if place != 'memory':
                measure(name, size, place)


if __name__ == '__main__':
    if not set(sys.argv[1:]) <= PLACES.keys():
        sys.exit(__doc__)
    print(f'{machine()}\n')
    head(HEAD)
    main([place for place in sys.argv[1:] or PLACES if usable(place)])
