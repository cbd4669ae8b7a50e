"""Counts the statements and the instructions of a request of `goo run`, by callgrind, beside the instructions of plain.rs.

usage: python3 bench/instructions.py statements             by kind of request, in memory and on a file
       python3 bench/instructions.py opening                opening a file and a statement, by size, beside SQLite's own check of the file
       python3 bench/instructions.py growth                 whole runs of requests, by how many there are
       python3 bench/instructions.py shares                 where the instructions of requests go: by crate, and by function of the library and of ours
       python3 bench/instructions.py reads                  where the instructions of an audit and of a statement go, beside those of SQLite for queries that add up or list the same
       python3 bench/instructions.py costly WORKLOAD N      the costliest functions of N requests more in memory, and the shares of the crates
       python3 bench/instructions.py costly WORKLOAD N file the same on a file

Each count of requests is the difference of two runs, one with the requests and one without them, so that making the tables is left out. A statement is a call of the
function by which the library looks a text up among those it has compiled, `Entry::fetch`. What is counted is the same in any hour. It needs valgrind, and `opening` sqlite3.
"""
import collections
import json
import math
import os
import re
import shutil
import subprocess
import sys

import kinds
import requests
import workloads
from country import ADDED, STATED
from measured import NEW, PROGRAM, SECONDS, fast, goo, head, ratio, room, row, rust, say, workload

STATEMENT = re.compile(r'Entry.*fetch')
CONNECT = re.compile(r'^sqlite::file::connect')
OPENED = (8_000, 32_000)
BEYOND = {'declarations': ('audit',), 'runs': ('statement', '1')}
"""What reads a file of each workload once it is open."""
ANSWERED = {'table': (2_000, 8_000), 'declarations': (2_000, 8_000), 'trades': (3_000, 12_000)}
OF_FILES = ['Work', 'n', 'Statements', 'Instructions', 'of them in the library\'s check', 'Grows as', 'The rest grows as', 'Ours grows as', '`integrity_check`', 'Ratio', 'Grows as']
SHARED = [('trades', False), ('trades', True), ('declarations', False), ('declarations', True)]
OF_READS = ['Share of the instructions beyond opening', 'Audit, 8,000 declarations', 'Statement, 8,000 runs']
OF_SHARES = ['Share of the instructions', 'Trades in memory', 'Trades on a file', 'Declarations in memory', 'Declarations on a file']
HEAD = ['Request', 'Statements', 'Instructions in memory', 'Rust', 'Ratio', 'Instructions on a file', 'Rust', 'Ratio']


class Profile:
    """What callgrind found of one run: by function its own instructions, and the calls of it with all that they took."""

    def __init__(self, text):
        self.own = collections.Counter()
        self.calls = collections.Counter()
        self.whole = collections.Counter()
        self.callers = collections.defaultdict(collections.Counter)
        names, function, callee = {}, None, None
        for line in text.splitlines():
            if match := re.match(r'(c?)fn=\((\d+)\)(?: (.*))?', line):
                called, number, name = match.groups()
                if name:
                    names[number] = name
                if called:
                    callee = names[number]
                else:
                    function = names[number]
            elif match := re.match(r'calls=(\d+) ', line):
                self.calls[callee] += int(match[1])
                is_call = True
                continue
            elif match := re.match(r'[+\-*\d]\S* (\d+)$', line):
                if callee is not None and is_call:
                    if callee != function:
                        self.whole[callee] += int(match[1])
                        self.callers[callee][function] += int(match[1])
                elif function is not None:
                    self.own[function] += int(match[1])
            is_call = False

    def minus(self, other):
        for mine, theirs in ((self.own, other.own), (self.calls, other.calls), (self.whole, other.whole)):
            mine.subtract(theirs)
        for callee, callers in other.callers.items():
            self.callers[callee].subtract(callers)
        return self


def program(path=None):
    """The words that start the registry, on a new file where a path is given."""
    if path is None:
        return [PROGRAM, 'run', '--memory', *NEW]
    goo('init', '--db', path, *NEW)
    return [PROGRAM, 'run', '--db', str(path)]


def plain(path=None):
    return [*rust(), *([str(path)] if path else [])]


def profiled(folder, words, given=os.devnull):
    """What callgrind finds of a run."""
    out = folder / 'out'
    command = ['valgrind', '--tool=callgrind', f'--callgrind-out-file={out}', *map(str, words)]
    with open(given, 'rb') as source:
        done = subprocess.run(command, stdin=source, stdout=subprocess.DEVNULL, stderr=subprocess.DEVNULL, timeout=SECONDS, check=False)
    if done.returncode > 1:
        sys.exit(f'{" ".join(command)} ended with status {done.returncode}')
    return Profile(out.read_text(encoding='utf-8', errors='replace'))


def profile(lines, words=program, on_file=False):
    with room(fast()) as folder:
        source = folder / 'lines'
        source.write_text('\n'.join(lines) + '\n', encoding='utf-8')
        return profiled(folder, words(folder / 'file' if on_file else None), source)


def outcomes(lines, words):
    """How often each word of an outcome comes."""
    done = subprocess.run(words(), input='\n'.join(lines) + '\n', capture_output=True, text=True, timeout=SECONDS, check=False)
    return collections.Counter(json.loads(line)['outcome'] for line in done.stdout.splitlines())


def are_answered(kind, words):
    """Whether ten requests of a kind are answered as they should be."""
    wanted = {'repeat': 'repeated', 'refuse': 'refused'}.get(kind, 'accepted')
    return outcomes(kinds.lines(kind, 12), words)[wanted] - outcomes(kinds.lines(kind, 2), words)[wanted] == 10


def ten(kind, words, on_file):
    """The first request of a kind compiles its statements, so what counts is the ten after the first two."""
    return profile(kinds.lines(kind, 12), words, on_file).minus(profile(kinds.lines(kind, 2), words, on_file))


def matching(counter, pattern):
    return sum(count for name, count in counter.items() if pattern.search(name))


def asked(found):
    """How often each function of goo_tables and goo_tables_accounts was called, in words."""
    counts = collections.Counter()
    for name, count in found.calls.items():
        if match := re.match(r'goo_(?:tables|tables_accounts)::\w+::(\w+)', name):
            counts[match[1]] += count
    return ', '.join(name if count == 10 else f'{name} {count / 10:.3g}' for name, count in counts.most_common() if count)


def statements(chosen, by_function=False):
    """Prints the rows of these kinds."""
    for kind in chosen:
        if not are_answered(kind, program):
            sys.exit(f'{kind}: not all are answered as they should be')
        found = ten(kind, program, False)
        cells = [kind, f'{matching(found.calls, STATEMENT) / 10:.1f}']
        for on_file in (False, True):
            ours = sum((ten(kind, program, True) if on_file else found).own.values()) / 10
            theirs = sum(ten(kind, plain, on_file).own.values()) / 10 if rust() and are_answered(kind, plain) else 0
            cells += [f'{ours:,.0f}', f'{theirs:,.0f}' if theirs else '', ratio(ours, theirs)]
        row(cells + ([asked(found)] if by_function else []))


def of_file(name, size):
    """What opening a file of a workload takes, what the reading of it (BEYOND) does besides, and SQLite's own check of it."""
    with room(fast()) as folder:
        path = folder / 'registry'
        workload(name, size, folder / 'lines')
        goo('init', '--db', path, *NEW)
        goo('run', '--db', path, given=folder / 'lines')
        opening = profiled(folder, [PROGRAM, 'run', '--db', path])
        beyond = profiled(folder, [PROGRAM, *BEYOND[name], '--db', path]).minus(opening)
        check = profiled(folder, ['sqlite3', path, 'PRAGMA integrity_check']) if shutil.which('sqlite3') else None
        return opening, beyond, check


def all_of(found):
    return sum(found.own.values()) if found else 0


def of_check(found):
    """What the library's check of the file took, with all that it calls."""
    return sum(whole for function, whole in found.whole.items() if CONNECT.search(function))


def of_us(found):
    """What our crates took, without what they call."""
    return sum(own for function, own in found.own.items() if crate_of(function).startswith('goo'))


def grown(less, more):
    """The exponent by which the instructions grow with the size."""
    return f'n^{math.log(more / less, OPENED[1] / OPENED[0]):.3f}' if less else ''


def importing(rows):
    """The words that import a table into a registry on a file, which has been told of the devices of so many rows."""
    def words(path):
        workload('devices', rows, f'{path}-devices')
        goo('init', '--db', path, *NEW)
        goo('run', '--db', path, given=f'{path}-devices')
        return [PROGRAM, 'declare', '--db', path]
    return words


def answered(name, times, count, on_file):
    """How many requests a workload of this size has, each sent so many times, and what callgrind finds of the whole run that answers them."""
    lines = list(workloads.WORKLOADS[name](count)) * times
    is_table = name == 'table'
    return len(lines) - is_table, profile(lines, importing(count) if is_table else program, on_file)


def growth():
    """Prints the rows of whole runs of requests, in memory and on a file, at the greater number."""
    for name, times in requests.WORKS:
        for on_file in (True,) if name == 'table' else (False, True):
            (few, less), (many, found) = (answered(name, times, count, on_file) for count in ANSWERED[name])
            exponent = math.log(all_of(found) / all_of(less), many / few)
            of_each = matching(found.calls, STATEMENT) / many
            title = f'{requests.title_of(name, times)}, {"on a file" if on_file else "in memory"}'
            row([title, f'{many:,}', f'{of_each:.1f} a request', f'{all_of(found):,}', '', f'n^{exponent:.3f}', *[''] * 5])


def opening():
    """Prints the rows of opening, of an audit and of a statement, at the greater size."""
    size = OPENED[-1]
    for name, (word, *_) in BEYOND.items():
        few, many = (of_file(name, n) for n in OPENED)
        ours, theirs = all_of(many[0]), all_of(many[2])
        rest = ours - of_check(many[0])
        beside = [f'{theirs:,}', ratio(ours, theirs), grown(all_of(few[2]), theirs)] if theirs else [''] * 3
        grows = [grown(all_of(few[0]), ours), grown(all_of(few[0]) - of_check(few[0]), rest), grown(of_us(few[0]), of_us(many[0]))]
        row([f'opening a file, {name}', f'{size:,}', '', f'{ours:,}', f'{1 - rest / ours:.0%}', *grows, *beside])
        of_each = matching(many[1].calls, STATEMENT) / size
        row([f'`{word}` beyond opening, {name}', f'{size:,}', f'{of_each:.1f} a {name[:-1]}', f'{all_of(many[1]):,}', '', grown(all_of(few[1]), all_of(many[1])), '',
             grown(of_us(few[1]), of_us(many[1])), *[''] * 3])


def crate_of(name):
    match = re.search(r'(?:^|[<\s(&:])((?:goo|sqlite|json|serde|std|core|alloc|arrayvec|jiff)[a-z_]*)::', name)
    return match[1] if match else 'other'


def beyond(name, count, on_file):
    """What as many requests take again after the first ones, and how many that are."""
    few, many = (list(workloads.WORKLOADS[name](n)) for n in (count, 2 * count))
    return profile(many, program, on_file).minus(profile(few, program, on_file)), len(many) - len(few)


def by_crate(found):
    """The instructions of each crate, all of ours as one."""
    crates = collections.Counter()
    for name, own in found.own.items():
        crate = crate_of(name)
        crates['ours (goo_*)' if crate.startswith('goo') else crate] += own
    return crates


def shares(count=400, crates=9, functions=16):
    """Prints where the instructions go: by crate, ours first, and then by function; the costliest of trades on a file."""
    found = [beyond(name, count, on_file)[0] for name, on_file in SHARED]
    totals = [sum(each.own.values()) for each in found]
    of_crates = [by_crate(each) for each in found]

    def line(name, own, word):
        row([word] + [f'{each[name] / total:.1%}' for each, total in zip(own, totals)])

    named = [crate for crate, _ in of_crates[1].most_common() if not crate.startswith('ours')]
    for crate in ['ours (goo_*)', *named[:crates]]:
        line(crate, of_crates, crate)
    for function, _ in found[1].own.most_common(functions):
        line(function, [each.own for each in found], f'`{function}`')


def read_of(folder, path, words, queries):
    """What a command takes beyond opening the file, and what sqlite3 takes for these queries beyond its start."""
    ours = profiled(folder, [PROGRAM, *words, '--db', path]).minus(profiled(folder, [PROGRAM, 'run', '--db', path]))
    if not shutil.which('sqlite3'):
        return ours, None
    return ours, profiled(folder, ['sqlite3', path, *queries]).minus(profiled(folder, ['sqlite3', path, 'SELECT 1']))


def reads(size=8_000, crates=9, functions=12):
    """Prints where the instructions of an audit of so many declarations and of a statement of so many runs go."""
    with room(fast()) as folder:
        found = []
        for name, words, queries in (('declarations', ['audit'], ADDED), ('runs', ['statement', '1'], [STATED.replace('?', '1')])):
            path = folder / name
            workload(name, size, folder / 'lines')
            goo('init', '--db', path, *NEW)
            goo('run', '--db', path, given=folder / 'lines')
            found.append(read_of(folder, path, words, queries))
    head(OF_READS)
    row(['instructions', *(f'{all_of(ours):,}' for ours, _ in found)])
    row(['of them beside those of SQLite', *(ratio(all_of(ours), all_of(theirs)) if theirs else '' for ours, theirs in found)])
    own = [by_crate(ours) for ours, _ in found]
    totals = [all_of(ours) for ours, _ in found]
    for crate in ['ours (goo_*)', *[crate for crate, _ in own[0].most_common() if not crate.startswith('ours')][:crates]]:
        row([crate, *(f'{each[crate] / total:.1%}' for each, total in zip(own, totals))])
    for function, _ in found[0][0].own.most_common(functions):
        row([f'`{function}`', *(f'{ours.own[function] / total:.1%}' for (ours, _), total in zip(found, totals))])


def costly(name, count, on_file):
    found, more = beyond(name, count, on_file)
    total = sum(found.own.values())
    print(f'{more:,} {name} more: {total / more:,.0f} instructions each')
    print('| Function | Own share | With what it calls | Calls a request | Called most by |\n|---|---|---|---|---|')
    for name, own in found.own.most_common(int(os.environ.get('MOST', '12'))):
        callers = ', '.join(f'{caller} {whole / total:.1%}' for caller, whole in found.callers[name].most_common(4))
        print(f'| `{name}` | {own / total:.1%} | {found.whole[name] / total:.1%} | {found.calls[name] / more:,.1f} | {callers} |')
    print('| Crate | Share |\n|---|---|')
    for crate, own in by_crate(found).most_common(15):
        print(f'| {crate} | {own / total:.1%} |')
    if os.environ.get('WHOLE'):
        print('with what they call:')
        for name, whole in found.whole.most_common(int(os.environ['WHOLE'])):
            print(f'  {whole / total:7.1%} {found.calls[name] / more:10,.1f}  {name}')


def is_there():
    """Whether there is a valgrind; says so where there is none."""
    if not shutil.which('valgrind'):
        say('no valgrind: instructions are not counted')
    return bool(shutil.which('valgrind'))


if __name__ == '__main__':
    if sys.argv[1:] == ['statements']:
        if is_there():
            head([*HEAD, 'By function'])
            statements(kinds.KINDS, True)
    elif sys.argv[1:] == ['opening']:
        if is_there():
            head(OF_FILES)
            opening()
    elif sys.argv[1:] == ['growth']:
        if is_there():
            head(OF_FILES)
            growth()
    elif sys.argv[1:] == ['shares']:
        if is_there():
            head(OF_SHARES)
            shares()
    elif sys.argv[1:] == ['reads']:
        if is_there():
            reads()
    elif len(sys.argv) in (4, 5) and sys.argv[1] == 'costly' and sys.argv[2] in ('declarations', 'trades') and sys.argv[4:] in ([], ['file']):
        if is_there():
            costly(sys.argv[2], int(sys.argv[3]), len(sys.argv) == 5)
    else:
        sys.exit(__doc__)
