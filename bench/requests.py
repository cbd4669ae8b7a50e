"""`goo declare` of a table and `goo run` of lines (declarations, trades, trades sent twice), beside the same requests by plain.rs and plain.py.

usage: python3 bench/requests.py [memory|tmpfs|disk ..]

Each row: the processor seconds, requests a second, and peak memory, beside the same of both baselines; of plain.rs also the peak where it reads its input as it comes and
not whole. All rows are gone over turn by turn, so that minutes in which the machine is slow meet all of them alike; of each the least of some runs counts, and the rows are
printed at the end. The processor seconds of program and plain.rs are those of the whole process, those of plain.py of its
transactions alone. On the disk there are fewer requests. A table needs a file; the baselines are given its rows as lines.
"""
import sys
from contextlib import ExitStack
from pathlib import Path

from measured import HEAD, NEW, PLACES, goo, head, least, machine, measured_row, python, room, rust_run, usable, workload

TURNS = 6
SIZES = {'table': 16_000, 'declarations': 16_000, 'trades': 12_000}
ON_DISK = 1_500
WORKS = [('table', 1), ('declarations', 1), ('trades', 1), ('trades', 2)]
TITLES = {'table': '`declare`, rows', 'declarations': '`run`, declarations', 'trades': '`run`, trades'}


def title_of(name, times):
    return f'{TITLES[name]}{" sent twice" if times > 1 else ""}'


class Work:
    """One workload of one size, in one place; its files lie in a folder of its own below this one."""

    def __init__(self, place, name, times, size, below):
        self.place, self.folder, self.is_table = place, below / str(size), name == 'table'
        self.folder.mkdir()
        self.given = self.lines = self.folder / 'given'
        self.count = workload(name, size, self.given, times)
        if self.is_table:
            self.lines, self.before = self.folder / 'lines', self.folder / 'before'
            self.count = workload('rows', size, self.lines)
            workload('devices', size, self.before)

    def fresh(self, name):
        """The path of a file that is not there yet."""
        path = self.folder / name
        for ending in ('', '-wal', '-shm'):
            Path(f'{path}{ending}').unlink(missing_ok=True)
        return path

    def ours(self):
        if self.place == 'memory':
            return goo('run', '--memory', *NEW, given=self.given)
        path = self.fresh('registry')
        goo('init', '--db', path, *NEW)
        if self.is_table:
            goo('run', '--db', path, given=self.before)
        return goo('declare' if self.is_table else 'run', '--db', path, given=self.given)

    def of_rust(self, *words):
        path = None if self.place == 'memory' else self.fresh('rust')
        if self.is_table:
            rust_run(path, given=self.before)
        return rust_run(path, *words, given=self.lines)

    def of_python(self):
        path = ':memory:' if self.place == 'memory' else self.fresh('python')
        if self.is_table:
            python(self.before, path)
        return python(self.lines, path)


class Measurement:
    """One workload in one place, and the baselines."""

    def __init__(self, place, name, times, folder):
        self.title, self.work = title_of(name, times), Work(place, name, times, ON_DISK if place == 'disk' else SIZES[name], folder)
        self.ours, self.of_rust, self.as_it_comes, self.of_python = [], [], [], []

    def take_a_turn(self):
        self.ours.append(self.work.ours())
        self.of_rust.append(self.work.of_rust())
        self.as_it_comes.append(self.work.of_rust('--as-it-comes'))
        self.of_python.append(self.work.of_python())

    def show(self):
        """Prints the row."""
        runs = [least(of) for of in (self.ours, self.of_rust, self.as_it_comes)]
        measured_row(self.title, self.work.place, self.work.count, *runs, min(self.of_python))


def main(places):
    wanted = [(place, *work) for work in WORKS for place in places if (place, work[0]) != ('memory', 'table')]
    with ExitStack() as rooms:
        measurements = [Measurement(place, name, times, rooms.enter_context(room(place))) for place, name, times in wanted]
        for _ in range(TURNS):
            for measurement in measurements:
                measurement.take_a_turn()
    for measurement in measurements:
        measurement.show()


if __name__ == '__main__':
    if not set(sys.argv[1:]) <= PLACES.keys():
        sys.exit(__doc__)
    print(f'{machine()}\n')
    head(HEAD)
    main([place for place in sys.argv[1:] or PLACES if usable(place)])
