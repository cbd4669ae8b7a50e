"""What the measurements share: the program and the baselines, a run that is timed, the places of files, and the rows of the tables.

The program is crates/goo/out/goo, else what the variable GOO names. The plain registry in Rust (plain.rs) is built in a temporary folder, from the crates that Debian
keeps in /usr/share/cargo/registry, or is the one that the variable PLAIN names.
"""
import functools
import os
import shutil
import signal
import subprocess
import sys
import tempfile
import time
from contextlib import contextmanager
from pathlib import Path

HERE = Path(__file__).resolve().parent
sys.path.append(str(HERE.parent / 'tools/lib'))
PROGRAM = os.environ.get('GOO', str(HERE.parent / 'crates/goo/out/goo'))
CREATE = HERE.parent / 'crates/goo_tables/src/create.rt'
CRATES = Path('/usr/share/cargo/registry')
PLACES = {'memory': None, 'tmpfs': '/dev/shm', 'disk': os.environ.get('FOLDER', tempfile.gettempdir())}
"""Where the registry is kept: nowhere, or in files below such a folder."""
NEW = ['--code', '7', '--today', '2025-03-01']
SECONDS = 600
HEAD = ['Work', 'Where', 'n', 'Processor seconds', 'n a second', 'by the clock', 'Peak MB', 'Rust seconds', 'Ratio', 'Rust peak MB', 'as it comes', 'Python seconds', 'Ratio']
MANIFEST = '''[package]
name = "plain"
version = "0.0.0"
edition = "2021"
[dependencies]
rusqlite = "0"
serde = "1"
serde_json = "1"
'''
CONFIGURATION = f'''[source.crates-io]
replace-with = "debian"
[source.debian]
directory = "{CRATES}"
'''


def say(text):
    print(f'bench: {text}', file=sys.stderr, flush=True)


def end(*_):
    """A measurement that is told to end leaves no file behind."""
    sys.exit(143)


signal.signal(signal.SIGTERM, end)
if not os.access(PROGRAM, os.X_OK):
    say(f'no program {PROGRAM}: ./goo --help builds it, or set the variable GOO')
    sys.exit(1)


def row(cells):
    """A row of a table in Markdown."""
    print(f'| {" | ".join(cells)} |', flush=True)


def head(cells):
    row(cells)
    print('|---' * len(cells) + '|', flush=True)


def ratio(one, other):
    return f'{one / other:.2f}' if other else ''


def megabytes(run):
    """The peak of a run, if there was one; of a short one it was not seen."""
    return f'{run.memory:.0f}' if run and run.is_seen else ''


def measured_row(work, place, count, run, of_rust=None, as_it_comes=None, of_python=None):
    """A row of the table that HEAD heads."""
    rates = [f'{run.seconds:.2f}', f'{count / run.seconds:,.0f}', f'{count / run.clock:,.0f}', megabytes(run)]
    beside = [f'{of_rust.seconds:.2f}', ratio(run.seconds, of_rust.seconds), megabytes(of_rust), megabytes(as_it_comes)] if of_rust else [''] * 4
    row([work, place, f'{count:,}', *rates, *beside, *([f'{of_python:.2f}', ratio(run.seconds, of_python)] if of_python else [''] * 2)])


@functools.cache
def usable(place):
    """Whether there is such a place; says so where there isn't."""
    folder = PLACES[place]
    if folder is None or os.path.isdir(folder) and os.access(folder, os.W_OK):
        return True
    say(f'no folder {folder}: nothing is measured on {place}')
    return False


def fast():
    """The folder of files whose disk is not what is measured."""
    return 'tmpfs' if usable('tmpfs') else 'disk'


@contextmanager
def room(place='disk'):
    """A folder for the files of one measurement."""
    with tempfile.TemporaryDirectory(prefix='goo-bench-', dir=PLACES[place]) as folder:
        yield Path(folder)


def workload(name, size, to, times=1):
    """Writes a workload, so many times, and tells how many lines it has."""
    with open(to, 'wb') as target:
        for _ in range(times):
            subprocess.run([sys.executable, HERE / 'workloads.py', name, str(size)], stdout=target, check=True)
    with open(to, 'rb') as written:
        return sum(1 for _ in written)


def peak(process):
    """The peak memory of a running process so far, in MB. What the system tells of one that has ended begins at the size of the parent."""
    with open(f'/proc/{process}/status', encoding='utf-8') as lines:
        return next((int(line.split()[1]) / 1024 for line in lines if line.startswith('VmHWM')), 0)


class Run:
    """A run of a command to its end: processor seconds, seconds by the clock, peak memory in MB, and whether the run was long enough for that to be seen."""

    def __init__(self, words, given=os.devnull, to=os.devnull, fine=(0,), around=None):
        self.memory, begun = 0, time.monotonic()
        with open(given, 'rb') as source, open(to, 'wb') as target:
            child = subprocess.Popen([str(word) for word in words], stdin=source, stdout=target, env=around)
        try:
            status, used = self.watch(child.pid, begun + SECONDS)
        except BaseException:
            child.kill()
            raise
        child.returncode = os.waitstatus_to_exitcode(status)
        if child.returncode not in fine:
            sys.exit(f'{" ".join(map(str, words))} ended with status {child.returncode}')
        self.clock = time.monotonic() - begun
        self.is_seen = self.clock > 0.1
        self.seconds = used.ru_utime + used.ru_stime

    def watch(self, process, until):
        """Waits for the end, and looks at the memory until then."""
        pause = 0.0005
        while time.monotonic() < until:
            self.memory = peak(process) or self.memory
            ended, status, used = os.wait4(process, os.WNOHANG)
            if ended:
                return status, used
            time.sleep(pause)
            pause = min(2 * pause, 0.01)
        sys.exit(f'a run took more than {SECONDS} seconds')


def goo(*words, **streams):
    """A run of the program."""
    return Run([PROGRAM, *words], **streams)


@functools.cache
def compiles():
    """Whether there is a C compiler; says so where there isn't."""
    if shutil.which('cc'):
        return True
    say('no cc: what is measured while a statement is written is left out')
    return False


def ahead(name, folder, told):
    """The surroundings of a run, with NAME.c loaded ahead of the C library; what it tells goes to a file."""
    library = folder / f'{name}.so'
    if not library.exists():
        subprocess.run(['cc', '-O2', '-shared', '-fPIC', '-o', library, HERE / f'{name}.c'], check=True)
    return {**os.environ, 'LD_PRELOAD': str(library), name.upper(): str(told)}


def numbers(told):
    """The numbers that such a library told."""
    return tuple(map(int, told.read_text(encoding='utf-8').split()))


def live(folder, *words):
    """How often a run of the program writes to standard output, and the least and the most bytes live from the first to the last of it; None without a C compiler."""
    if not compiles():
        return None
    told = folder / 'live'
    subprocess.run([PROGRAM, *map(str, words)], env=ahead('live', folder, told), stdout=subprocess.DEVNULL, check=True, timeout=SECONDS)
    return numbers(told)


def writing(run, folder, *words, **streams):
    """What `goo` or `rust_run` gives, with the seconds from the first write of standard output to the last in place of those of the whole run."""
    told = folder / 'writing'
    made = run(*words, around=ahead('writing', folder, told), **streams)
    if made:
        made.seconds, made.clock = (nanoseconds / 1e9 for nanoseconds in numbers(told))
    return made


def python(lines, path=':memory:'):
    """The processor seconds of the transactions of the baseline in Python."""
    done = subprocess.run([sys.executable, HERE / 'plain.py', lines, path], check=True, capture_output=True, text=True, timeout=SECONDS)
    return float(done.stdout.split()[0])


@functools.cache
def rust():
    """The words that start the baseline in Rust, built once; None, and why, where it can't be."""
    if 'PLAIN' in os.environ:
        return [os.environ['PLAIN'], str(CREATE)]
    lacking = [name for name in ('rusqlite', 'serde', 'serde_json') if not any(CRATES.glob(f'{name}-[0-9]*'))]
    if lacking or not shutil.which('cargo'):
        what = 'no cargo' if not lacking else f'no {" and no ".join(lacking)} in {CRATES} (librust-rusqlite-dev, librust-serde-dev, librust-serde-json-dev)'
        say(f'{what}: the plain registry in Rust is left out')
        return None
    say('building plain.rs')
    folder = Path(kept().name)
    (folder / '.cargo').mkdir()
    (folder / '.cargo/config.toml').write_text(CONFIGURATION, encoding='utf-8')
    (folder / 'Cargo.toml').write_text(MANIFEST + f'[[bin]]\nname = "plain"\npath = "{HERE}/plain.rs"\n', encoding='utf-8')
    around = {**os.environ, 'CARGO_HOME': str(folder / 'home'), 'CARGO_TARGET_DIR': str(folder / 'target')}
    done = subprocess.run(['cargo', 'build', '--release', '--offline', '--quiet'], cwd=folder, env=around, capture_output=True, text=True, timeout=SECONDS, check=False)
    if done.returncode != 0:
        say(f'cargo builds no plain.rs, so it is left out: {done.stderr[-2000:]}')
        return None
    return [str(folder / 'target/release/plain'), str(CREATE)]


@functools.cache
def kept():
    """A folder that stays until the measurement ends."""
    return tempfile.TemporaryDirectory(prefix='goo-bench-plain-')


def rust_run(path=None, *words, **streams):
    """A run of the baseline in Rust, or None."""
    return Run([*rust(), *([path] if path else []), *words], **streams) if rust() else None


def least(runs):
    """The run of the fewest processor seconds, of those that there are."""
    return min((run for run in runs if run), key=lambda it: it.seconds, default=None)


def machine():
    return f'load {os.getloadavg()[0]:.1f} on {os.cpu_count()} processors, {PROGRAM}'
