"""Whether the baselines write the very rows that the registry writes, in all tables, rowids too, and plain.rs its very outcome lines.

usage: python3 bench/same.py

Of some 1,000 trades, as many declarations, a table of as many rows, and for plain.rs of each kind of request (kinds.py) that it knows.
"""
import sqlite3
import sys
from contextlib import closing

import kinds
from measured import NEW, fast, goo, python, room, rust, rust_run, workload

SIZES = {'trades': 817, 'declarations': 1_001, 'table': 1_000}


def rows(path):
    """Every row of every table, with its rowid."""
    with closing(sqlite3.connect(path)) as database:
        tables = [name for (name,) in database.execute("SELECT name FROM sqlite_master WHERE type = 'table' ORDER BY name")]
        return {table: database.execute(f'SELECT rowid, * FROM {table} ORDER BY rowid').fetchall() for table in tables}


def compare(title, folder, others):
    """Tells in which tables the others differ from the registry; True where they do."""
    ours, wrong = rows(folder / 'registry'), False
    for name in others:
        theirs = rows(folder / name)
        unlike = [table for table in ours.keys() | theirs.keys() if ours.get(table) != theirs.get(table)]
        count = sum(map(len, ours.values()))
        print(f'{title}, {name}: {count:,} rows in {len(ours)} tables, {f"unlike in {sorted(unlike)}" if unlike else "the same in both"}', flush=True)
        wrong |= bool(unlike)
    return wrong


def outcomes_differ(title, folder):
    differ = (folder / 'outcomes').read_bytes() != (folder / 'outcomes-rust').read_bytes()
    if differ:
        print(f'{title}, rust: other outcome lines')
    return differ


def workloads(name, size):
    """A workload sent twice, by all three."""
    is_table = name == 'table'
    with room(fast()) as folder:
        workload(name, size, folder / 'given', 1 if is_table else 2)
        workload('rows' if is_table else name, size, folder / 'lines')
        workload('devices', size if is_table else 0, folder / 'before')
        goo('init', '--db', folder / 'registry', *NEW)
        if is_table:
            goo('run', '--db', folder / 'registry', given=folder / 'before')
            rust_run(folder / 'rust', given=folder / 'before')
            python(folder / 'before', folder / 'python')
        goo('declare' if is_table else 'run', '--db', folder / 'registry', given=folder / 'given', to=folder / 'outcomes')
        rust_run(folder / 'rust', given=folder / 'lines' if is_table else folder / 'given', to=folder / 'outcomes-rust')
        python(folder / 'lines', folder / 'python')
        wrong = compare(name, folder, ['python', *(['rust'] if rust() else [])])
        return wrong | bool(rust() and not is_table and outcomes_differ(name, folder))


def kind(name):
    """Twelve requests of one kind, by the registry and by plain.rs, if it knows them."""
    with room(fast()) as folder:
        (folder / 'given').write_text('\n'.join(kinds.lines(name, 12)) + '\n', encoding='utf-8')
        rust_run(folder / 'rust', given=folder / 'given', to=folder / 'outcomes-rust', fine=(0, 1))
        if b'unreadable' in (folder / 'outcomes-rust').read_bytes():
            return False
        goo('init', '--db', folder / 'registry', *NEW)
        goo('run', '--db', folder / 'registry', given=folder / 'given', to=folder / 'outcomes', fine=(0, 1))
        return compare(name, folder, ['rust']) | outcomes_differ(name, folder)


def main():
    wrong = [workloads(name, size) for name, size in SIZES.items()]
    if rust():
        wrong += [kind(name) for name in kinds.KINDS]
    return int(any(wrong))


if __name__ == '__main__':
    if len(sys.argv) != 1:
        sys.exit(__doc__)
    sys.exit(main())
