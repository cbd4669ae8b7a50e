"""Opening a file, and `goo statement` of an account of many runs, beside the plain registry in Rust and Python's sqlite3 module, which print the same text by one ordered query.

usage: python3 bench/statement.py

Opening reads and judges all tables, whatever is asked then: it is measured by a run over the same file that asks for nothing, beside SQLite's own `integrity_check`. The seconds of
a statement are those from the first write of its text to the last (writing.c), so that opening is not in them; its peak of memory is that of the whole run, opening too.
All texts are compared, byte for byte. What a statement holds while it is written is measured apart (live.c): the most bytes that are live between its first and its last
write, and beside it those of a statement of ten runs, of another account of the same file. The files lie on tmpfs where there is one.
"""
import shutil
import sqlite3
import sys
import time
from contextlib import closing

from measured import HEAD, NEW, compiles, fast, goo, head, least, live, machine, measured_row, room, rust_run, workload, writing

TURNS = 6
SIZE = 32_000
QUERY = '''SELECT first, last, device, first_day, last_day, tech, source FROM piece JOIN lot ON lot.id = piece.lot WHERE account = 1 AND kind = 1 ORDER BY first'''


def plain(path, to):
    """Writes the statement of account 1, all of it held; the processor seconds."""
    start, held = time.process_time(), 0
    with closing(sqlite3.connect(path)) as database, open(to, 'w', encoding='utf-8') as text:
        code, today = database.execute('SELECT code, today FROM meta').fetchone()
        (holder,) = database.execute('SELECT holder FROM account WHERE number = 1').fetchone()
        text.write(f'STATEMENT\nregistry {code:02}\ndate {today}\naccount 1\nholder {holder}\nstatus open\n')
        for first, last, *lot in database.execute(QUERY):
            text.write(f'{first:014} {last:014} {last - first + 1:12} {" ".join(lot)} held\n')
            held += last - first + 1
        text.write(f'held {held}\ncancelled 0\nexpired 0\nwithdrawn 0\nexported 0\nEND\n')
    return time.process_time() - start


def checked(path):
    """SQLite's own check of a file; the processor seconds."""
    start = time.process_time()
    with closing(sqlite3.connect(path)) as database:
        if database.execute('PRAGMA integrity_check').fetchall() != [('ok',)]:
            sys.exit(f'{path} is not sound')
    return time.process_time() - start


def made(folder, name):
    """A file of a workload, in this folder."""
    workload(name, SIZE, folder / 'lines')
    goo('init', '--db', folder / 'registry', *NEW)
    goo('run', '--db', folder / 'registry', given=folder / 'lines')
    return folder


def checked_run(folder):
    """A run that opens the file and asks for nothing, SQLite's check, and nothing in Rust."""
    return goo('run', '--db', folder / 'registry'), checked(folder / 'registry'), None


def stated(folder):
    """The statement of account 1, the query in Python that writes the same, and the one in Rust."""
    ours, theirs, copy = folder / 'ours', folder / 'theirs', folder / 'copy'
    found = writing(goo, folder, 'statement', '1', '--db', folder / 'registry', to=ours), plain(folder / 'registry', theirs)
    shutil.copyfile(folder / 'registry', copy)
    of_rust = writing(rust_run, folder, copy, '--statement', '1', to=folder / 'plain')
    texts = {ours.read_bytes(), theirs.read_bytes(), *([(folder / 'plain').read_bytes()] if of_rust else [])}
    if len(texts) != 1:
        sys.exit('the statements differ')
    return *found, of_rust


def in_turns(*works):
    """Each work, a call and a folder, in turns: of each the best run, the least seconds of what stands beside it in Python, and the best run in Rust."""
    turns = [[call(folder) for call, folder in works] for _ in range(TURNS)]
    return [(least(own), min(seconds), least(of_rust)) for own, seconds, of_rust in (zip(*of_work) for of_work in zip(*turns))]


def show(work, place, own, of_python, of_rust):
    """Prints the row of a work."""
    measured_row(work, place, SIZE, own, of_rust=of_rust, of_python=of_python)


def main():
    """Prints the rows, and gives back what is to be said below the table."""
    place = fast()
    with room(place) as of_declarations, room(place) as of_runs:
        declarations, runs = made(of_declarations, 'declarations'), made(of_runs, 'runs')
        opening, of_holdings, *of_texts = in_turns((checked_run, declarations), (checked_run, runs), *([(stated, runs)] if compiles() else []))
        whole, ten = [live(of_runs, 'statement', account, '--db', runs / 'registry') for account in (1, 3)]
    show('opening a file, declarations', place, *opening)
    show('opening a file, runs', place, *of_holdings)
    for figures in of_texts:
        show('`statement` beyond opening, runs', place, *figures)
    if not whole or not ten:
        return ''
    return f'While the statement of {SIZE:,} runs is written {whole[2]:,} bytes are live at most, and {ten[2]:,} while one of ten runs of the same file is.'


if __name__ == '__main__':
    if len(sys.argv) != 1:
        sys.exit(__doc__)
    print(f'{machine()}\n')
    head(HEAD)
    print(f'\n{main()}')
