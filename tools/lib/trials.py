"""What tools with tables of trials share: the program, and a table that is run and counted, over the worked cases where it asks for them.

A trial is a name and a function without arguments. It returns where all is well, and raises Differs with what was wanted and what came, or Missing with
what this machine lacks for it. Each stands alone, so that `--only NAME` repeats it. What is missing fails the trial, unless the variable GOO_WITHOUT names it.
"""
import argparse
import difflib
import os
import re
import shlex
import shutil
import signal
import sqlite3
import subprocess
import sys
import tempfile
from contextlib import closing, contextmanager
from pathlib import Path

from cases import CASES, cases_in
from client import PATIENCE, comes
from program import TOP
from tally import Tally, is_left_out


class Differs(Exception):
    """Something else came than was wanted."""


class Missing(Exception):
    """What a trial needs and this machine lacks, by the name that `./check --without` knows, and why."""

    def __init__(self, name, why):
        super().__init__(f'{name} is missing: {why}')
        self.name = name

    @property
    def is_left_out(self):
        """Whether it is left out on purpose."""
        return is_left_out(self.name)


def expect(what, given, wanted):
    """Ends the trial where `given` isn't `wanted`."""
    if given != wanted:
        raise Differs(f'{what}\n{difference(given, wanted)}')


def difference(given, wanted):
    """What differs: of two lists of lines the lines that do, of anything else all of it."""
    if all(isinstance(value, list) and all(isinstance(line, str) for line in value) for value in (given, wanted)):
        return '\n'.join(f'    {line}' for line in difflib.unified_diff(wanted, given, 'wanted', 'came', n=0, lineterm=''))
    return f'    wanted {shown(wanted)}\n    came   {shown(given)}'


def shown(value):
    """A value on one line of bearable length; of a longer one its beginning, its end and how long it is."""
    text = repr(value)
    return text if len(text) <= 900 else f'{text[:600]} .. {text[-200:]} ({len(text)} characters)'


# A text by hand

STATEMENT = '''STATEMENT
registry 07
date 2025-04-05
account 1
holder SUN
status open
07000000000001 07000000001200         1200 500000000000000012 2025-01-01 2025-01-31 T010000 F01010100 held
07000000001201 07000000001201            1 500000000000000012 2025-03-01 2025-03-31 T010000 F01010100 held
held 1201
cancelled 0
expired 0
withdrawn 0
exported 0
END
'''


# The program

class Program:
    """The program under trial."""

    def __init__(self, path):
        self.path = path

    def run(self, *words, given=b'', **options):
        """Runs it to its end: exit status, standard output, standard error."""
        ended = subprocess.run([self.path, *map(str, words)], input=given, capture_output=True, timeout=PATIENCE, check=False, **options)
        return ended.returncode, ended.stdout, ended.stderr

    def start(self, *words, **options):
        """Starts it with pipes; the caller ends it."""
        return subprocess.Popen([self.path, *map(str, words)], stdout=subprocess.PIPE, stderr=subprocess.PIPE, **options)


def rows(file, query):
    """What a query of the file gives."""
    with closing(sqlite3.connect(file)) as database:
        return database.execute(query).fetchall()


@contextmanager
def folder():
    """A folder of its own for one trial."""
    with tempfile.TemporaryDirectory(prefix='goo-') as name:
        yield Path(name)


def wait_for(what, test, seconds=PATIENCE):
    """Waits until the test holds."""
    if not comes(test, seconds, 0.01):
        raise Differs(f'{what}: not within {seconds} seconds')


FILE_FAULT = rb'goo: store fault\ngoo: .+\n'
"""What tells a fault of a file: the word, and a line that names the file, with the reason where the system named one."""


def file_fault(file, reason=''):
    """What tells a fault of this file, for this reason."""
    return f'goo: store fault\ngoo: {file}{": " if reason else ""}{reason}\n'.encode()


# Pages

def command_lines(page):
    """The command lines of a page with what each prints, in order; a command goes on until its quotes are closed."""
    for block in re.findall(r'^```console\n(.*?)^```', page.read_text(encoding='utf-8'), re.S | re.M):
        for part in re.split(r'^\$ ', block, flags=re.M)[1:]:
            lines = part.splitlines()
            last = next(number for number in range(1, len(lines) + 1) if '\n'.join(lines[:number]).count("'") % 2 == 0)
            yield '\n'.join(lines[:last]), lines[last:]


# Small disks

def mount(*words):
    """Mounts, or tells that it isn't allowed."""
    try:
        done = subprocess.run(['mount', *map(str, words)], capture_output=True, check=False)
    except OSError as fault:
        raise Missing('mounts', fault) from None
    if done.returncode != 0:
        raise Missing('mounts', done.stderr.decode().strip())


@contextmanager
def small_disk(size):
    """A disk of this many bytes, rounded up to a page."""
    with folder() as place:
        mount('-t', 'tmpfs', '-o', f'size={size}', 'goo-trial', place)
        try:
            yield place
        finally:
            subprocess.run(['umount', str(place)], check=True)


def larger(place):
    """Makes the disk large enough."""
    mount('-o', 'remount,size=256m', place)


# Libraries that are loaded ahead of the C library's

def loaded_ahead(place, text):
    """A library of this C text in a folder, for the variable LD_PRELOAD."""
    if not shutil.which('cc'):
        raise Missing('gcc', 'no cc on this machine')
    (place / 'shim.c').write_text(text, encoding='utf-8')
    subprocess.run(['cc', '-O1', '-shared', '-fPIC', '-w', '-o', str(place / 'shim.so'), str(place / 'shim.c'), '-ldl'], check=True)
    return place / 'shim.so'


# The table of trials

def add_program(parser):
    """The word that names the program."""
    parser.add_argument('program', nargs='?', default=os.environ.get('GOO', str(TOP / 'crates/goo/out/goo')), help='the built program (else the variable GOO, else crates/goo/out/goo)')


def program_in(parser, chosen):
    """The program that was named, if it is one."""
    if not os.access(chosen.program, os.X_OK):
        parser.error(f'{chosen.program} is no program; ./goo --help builds crates/goo/out/goo')
    return Program(str(Path(chosen.program).resolve()))


def arguments(text, more=()):
    """The command line that both tools have."""
    parser = argparse.ArgumentParser(description=text, formatter_class=argparse.RawDescriptionHelpFormatter)
    add_program(parser)
    parser.add_argument('--cases', type=Path, default=CASES, help='a folder with NAME.case at any depth (cases/)')
    parser.add_argument('--only', action='append', default=[], metavar='TEXT', help='only trials whose name has this text')
    parser.add_argument('--without', action='append', default=[], metavar='TEXT', help='no trial whose name has this text')
    parser.add_argument('--quick', action='store_true', help='the part that ./check tries')
    parser.add_argument('--list', action='store_true', help='only the names of the trials')
    for words, options in more:
        parser.add_argument(*words, **options)
    chosen = parser.parse_args()
    chosen.cases_folder = chosen.cases
    chosen.cases = cases_in(chosen.cases)
    if not chosen.cases:
        parser.error('no worked cases there')
    chosen.program = Program(chosen.program) if chosen.list else program_in(parser, chosen)
    return chosen


def has_one_of(name, texts):
    """Whether a trial's name has one of these texts."""
    return any(text in name for text in texts)


def verdict(trial):
    """How one trial ends: a word, and what there is to say."""
    try:
        trial()
    except Differs as told:
        return 'FAILED', str(told)
    except Missing as lack:
        return 'skipped' if lack.is_left_out else 'FAILED', str(lack)
    except Exception as fault:  # whatever else breaks a trial is told, and the next one is tried
        return 'FAILED', f'{type(fault).__name__}: {fault}'
    return 'passed', ''


def again(chosen, name):
    """The command line that repeats one trial."""
    return shlex.join([sys.argv[0], chosen.program.path, '--cases', str(chosen.cases_folder), '--only', name])


def run_all(chosen, table, slow=()):
    """Runs the table of trials, tells each that isn't passed with the command that repeats it, and ends with the counts. `--quick` is without those that are slow."""
    signal.signal(signal.SIGTERM, lambda *_: sys.exit(143))  # so that a tool that is ended ends what it has started
    tally = Tally()
    for name, trial in table:
        if chosen.only and not has_one_of(name, chosen.only) or chosen.quick and has_one_of(name, slow):
            continue
        if chosen.list:
            print(name)
            continue
        word, text = ('skipped', '') if has_one_of(name, chosen.without) else verdict(trial)
        if word == 'skipped':
            tally.skipped += 1
        else:
            tally.count(word == 'passed')
        if text:
            print(f'{word} {name}: {text}', flush=True)
        if word == 'FAILED':
            print('    again: ' + again(chosen, name), flush=True)
    return 0 if chosen.list else tally.ended()
