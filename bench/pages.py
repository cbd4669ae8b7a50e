"""What the size of a file's pages costs, over files of few and of many certificates' rows.

usage: python3 bench/pages.py [ROWS ..]      10,000 and 1,000,000 where nothing is said

A new file has pages of 1,024 bytes (crates/goo_cli_registry, `make_first_page`), and the program keeps a file in the pages that it has. For each count of rows plain.rs makes one
file, whose rows SQLite then puts into files with pages of each size. Over each of these the program opens and checks the whole, which is measured by a run that asks for nothing, moves single
certificates between two accounts, declares months of new devices, and writes a statement. The processor seconds of these three are those beyond opening; of each the least of
some turns counts. A million rows take minutes and half a gigabyte of memory. The files lie on tmpfs where there is one.
"""
import random
import shutil
import sqlite3
import sys
from contextlib import closing
from pathlib import Path

import workloads
from measured import fast, goo, head, least, machine, room, row, rust, rust_run, workload

PAGES = (512, 1024, 2048, 4096)
ROWS = (10_000, 1_000_000)
SHORT = 100_000
"""Up to so many rows a run is short, and taken in turns."""
TURNS = 5
HEAD = ['Rows', 'Page', 'File MB', 'Opening', 'Peak MB', 'Transfers', 'Declarations', 'Statement', 'In all']


def transfers(rows, count):
    """Single certificates of account 1, which holds every second one, go to account 2, in an order by chance."""
    for index in random.Random(7).sample(range(workloads.TEN, rows // 2), count):
        number = workloads.certificate(2 * index + 1)
        yield workloads.line('H1', command='transfer', first=number, giver=1, key=f'x{index}', last=number, taker=2)


def declarations(count):
    """New devices, each with the months of a year."""
    for index in range(2, count // 13 + 2):
        device = workloads.device_number(index)
        yield workloads.registration(device, f'r{index}', 2_000_000)
        yield from workloads.months(device, index)


def made(folder, rows):
    """A file of so many certificates' rows, half of them in account 1, and the requests that are sent to it."""
    workload('runs', rows // 2, folder / 'lines')
    rust_run(folder / 'made', given=folder / 'lines')
    count = min(rows // 4, 60_000)
    for name, lines in (('transfers', transfers(rows, count)), ('declarations', declarations(count))):
        (folder / name).write_text(''.join(f'{line}\n' for line in lines), encoding='utf-8')
    return count


def rewritten(folder, page):
    """The same tables, indexes and rows in their order, in pages of this size. (What VACUUM leaves has its indexes elsewhere, and is no registry's file.)"""
    path = folder / 'paged'
    path.unlink(missing_ok=True)
    with closing(sqlite3.connect(path, isolation_level=None)) as database:
        database.execute(f'PRAGMA page_size = {page}')
        database.execute('ATTACH ? AS made', (str(folder / 'made'),))
        database.execute('BEGIN')
        made = database.execute('SELECT type, name, sql FROM made.sqlite_schema WHERE sql IS NOT NULL ORDER BY rowid').fetchall()
        for _, _, text in made:
            database.execute(text)
        for name in (name for kind, name, _ in made if kind == 'table'):
            database.execute(f'INSERT INTO main.{name} SELECT * FROM made.{name} ORDER BY rowid')
        database.execute('COMMIT')
        if database.execute('PRAGMA main.page_size').fetchone() != (page,):
            sys.exit(f'{path} has no pages of {page} bytes')
    return path


def on_a_copy(folder, name, turns):
    """The least run of these requests over copies of the file."""
    path = folder / 'copy'

    def once():
        for ending in ('', '-wal'):
            Path(f'{path}{ending}').unlink(missing_ok=True)
        shutil.copyfile(folder / 'paged', path)
        return goo('run', '--db', path, given=folder / name)

    return least(once() for _ in range(turns))


def measure(folder, rows, page, count):
    """Prints the row of one size of pages."""
    turns = TURNS if rows <= SHORT else 1
    path = rewritten(folder, page)
    size = path.stat().st_size / 2**20
    opening = least(goo('run', '--db', path) for _ in range(turns))
    runs = [on_a_copy(folder, name, turns) for name in ('transfers', 'declarations')]
    runs.append(least(goo('statement', '1', '--db', path) for _ in range(turns)))
    own = [max(run.seconds - opening.seconds, 0.001) for run in runs]
    rates = [f'{seconds:.2f} ({done / seconds:,.0f} a second)' for seconds, done in zip(own, (count, count, rows // 2))]
    row([f'{rows:,}', f'{page:,}', f'{size:.1f}', f'{opening.seconds:.2f}', f'{opening.memory:.0f}', *rates, f'{opening.seconds + sum(own):.2f}'])


def main(counts):
    for rows in counts:
        with room(fast()) as folder:
            count = made(folder, rows)
            for page in PAGES:
                measure(folder, rows, page, count)


if __name__ == '__main__':
    if not all(word.isdigit() and int(word) >= 1_000 for word in sys.argv[1:]):
        sys.exit(__doc__)
    if not rust():
        sys.exit('this needs the plain registry in Rust')
    print(f'{machine()}\n')
    head(HEAD)
    main([int(word) for word in sys.argv[1:]] or ROWS)
