"""Runs the whole bench, in about half an hour, and prints the tables of README.md as Markdown.

usage: python3 bench/all.py            prints them
       python3 bench/all.py --page     puts them into bench/README.md instead, between its two marks

It compares the rows of program and baselines first (same.py). What it lacks (no cargo, no valgrind, no tmpfs) it says on standard error, and leaves the cells empty.
"""
import contextlib
import datetime
import io
import os
import re
import sqlite3
import subprocess
import sys
import time

import connections
import instructions
import postgres
import requests
import same
import statement
from measured import HEAD, HERE, PLACES, PROGRAM, head, rust, say, usable

KINDS = ('declare', 'transfer', 'cancel', 'repeat')
BEGIN, END = '<!-- all.py begins -->\n', '<!-- all.py ends -->\n'


def words_of(*command):
    """The first line that a command prints, if it is there."""
    try:
        return subprocess.run(command, capture_output=True, text=True, timeout=60, check=True).stdout.splitlines()[0]
    except (OSError, IndexError, subprocess.SubprocessError):
        return ''


def machine():
    with open('/proc/cpuinfo', encoding='utf-8') as lines:
        model = next((line.split(':')[1].strip() for line in lines if line.startswith('model name')), 'a processor')
    beside = f', {words_of("rustc", "--version")}' if rust() else ''
    where = f'{os.cpu_count()} processors ({model}), load {os.getloadavg()[0]:.1f} at the beginning'
    return f'{datetime.date.today()}, {where}, Python {sys.version.split()[0]} with SQLite {sqlite3.sqlite_version}{beside}.'


def tables():
    """Prints the tables, and says how far they are."""
    begun = time.monotonic()

    def told(what):
        say(f'{(time.monotonic() - begun) / 60:.1f} min: {what}')

    print(f'{machine()}\n')
    told('requests')
    head(HEAD)
    requests.main([place for place in PLACES if usable(place)])
    told('opening and statements')
    below = statement.main()
    told('connections')
    print(f'\n{below}\n' if below else '')
    head(connections.HEAD)
    connections.main()
    told('PostgreSQL')
    print()
    head(postgres.HEAD)
    postgres.main([place for place in PLACES if usable(place)])
    if instructions.is_there():
        told('instructions')
        print()
        head(instructions.HEAD)
        instructions.statements(KINDS)
        told('instructions by size')
        print()
        head(instructions.OF_FILES)
        instructions.growth()
        instructions.opening()
        told('shares')
        print()
        head(instructions.OF_SHARES)
        instructions.shares()
    told('done')


def to_page():
    """Puts the tables between the marks of the page."""
    text = io.StringIO()
    with contextlib.redirect_stdout(text):
        tables()
    page = HERE / 'README.md'
    filled = re.sub(f'(?<={BEGIN}).*(?={END})', lambda _: text.getvalue(), page.read_text(encoding='utf-8'), flags=re.DOTALL)
    page.write_text(filled, encoding='utf-8')


def main(words):
    say(f'measures {PROGRAM}')
    with contextlib.redirect_stdout(sys.stderr):
        wrong = same.main()
    if wrong:
        return wrong
    if words:
        to_page()
    else:
        tables()
    return 0


if __name__ == '__main__':
    if sys.argv[1:] not in ([], ['--page']):
        sys.exit(__doc__)
    sys.exit(main(sys.argv[1:]))
