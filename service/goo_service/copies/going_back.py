"""The steps by which a copy takes the registry's place: verified, staged, put in place.

Root opens the copy, and nothing below a folder that a service owns: that service's user does it.
"""
import contextlib
import json
import os
import pathlib
import shutil
import sqlite3
import subprocess
import time

from goo_service.common.files import write_whole
from goo_service.common.owner import as_owner
from goo_service.common.owner import work_as_owner
from goo_service.common.owner import remove
from goo_service.common.programs import words_of
from goo_service.copies import contents
from goo_service.copies import host
from goo_service.copies.host import run
from goo_service.copies.host import show
from goo_service.copies.places import placed_copies
from goo_service.copies.places import read_place

FILES = ('registry.db', 'registry.db-wal', 'registry.db-journal')
LAST = 'last'


# ------------------------------------------------------------------ the copy

def newest_copy(before: int | None) -> pathlib.Path:
    """The newest copy; with an entry, the newest that is of an earlier one."""
    for folder in reversed(placed_copies(host.COPIES)):
        if before is None or read_place(folder).n < before:
            return folder
    raise contents.Unfit(f'{host.COPIES}: no copy with a place in the log'
                         f'{f" before entry {before}" if before else ""}')


def folder_of(word: str, before: int | None = None) -> pathlib.Path:
    """The folder of a copy: by its name or its path, or the last one that serves."""
    if word == LAST:
        return newest_copy(before)
    folder = pathlib.Path(word) if '/' in word else host.COPIES / word
    if not (folder / FILES[0]).is_file():
        raise contents.Unfit(f'{folder}: no copy of a registry')
    return folder


def verify_list(folder: pathlib.Path, without_list: bool) -> None:
    """A copy has to be what it was when it was made."""
    if not contents.has_list(folder):
        if not without_list:
            raise contents.Unfit(f'{folder} has no {contents.LIST}, so nothing tells whether it '
                                 'lacks its log. If it is whole: --without-list')
        return
    faults = contents.faults_of(folder)
    if faults:
        raise contents.Unfit(f'{folder} is not the copy that was made: {"; ".join(faults)}')


def stage(folder: pathlib.Path) -> pathlib.Path:
    """Puts the copied database beside the registry's, as the registry's user."""
    staged = host.REGISTRY / 'restoring'
    host.REGISTRY.mkdir(mode=0o700, exist_ok=True)
    shutil.chown(host.REGISTRY, 'goo', 'goo')
    need = 2 * contents.size_of(folder)
    if contents.room_on(host.REGISTRY) < need:
        raise contents.Unfit(f'{host.REGISTRY}: no space for the copy: '
                             f'{contents.in_words(need)} are needed')
    with contextlib.ExitStack() as opened:
        files = {name: opened.enter_context(contents.open_regular(folder / name)).fileno()
                 for name in FILES if os.path.lexists(folder / name)}
        work_as_owner(host.REGISTRY, lambda: write_staged(staged, files))
    return staged / FILES[0]


def write_staged(staged: pathlib.Path, files: dict[str, int]) -> None:
    """As the registry's user, from the numbers of files that root has opened."""
    remove(staged)
    staged.mkdir(mode=0o700)
    for name, number in files.items():
        with open(number, 'rb', closefd=False) as file, open(staged / name, 'xb') as new:
            shutil.copyfileobj(file, new, 1 << 20)


def version_of(database: pathlib.Path) -> int | None:
    """The version of a copy's tables; the connection reads and writes nothing else."""
    connection = sqlite3.connect(f'file:{database}?mode=ro&immutable=1', uri=True)
    try:
        return int(connection.execute('SELECT version FROM meta').fetchone()[0])
    except (sqlite3.Error, TypeError, ValueError):
        return None
    finally:
        connection.close()


def verify_audit(staged: pathlib.Path, folder: pathlib.Path) -> None:
    """The program reads it whole, and finds in it what it found when the copy was made."""
    [version] = as_owner(host.REGISTRY, lambda: iter([str(version_of(staged)).encode()]))
    text = run('runuser', '-u', 'goo', '--', '/usr/bin/goo', 'audit', '--db', staged)
    wanted = folder / 'audit.txt'
    if not wanted.is_file():
        show(f'{folder} has no audit.txt; its audit has {len(text.splitlines())} devices')
    elif text != wanted.read_text(encoding='utf-8') and version != b'1':
        raise contents.Unfit(f'the audit of {folder} is not the one in its audit.txt')


def recount(staged: pathlib.Path, although_broken: bool) -> str:
    """The last line of a recount of the copy, apart from the program."""
    words = ['runuser', '-u', 'goo', '--', *words_of('copies.recount'), str(staged)]
    done = subprocess.run(words, capture_output=True, text=True, check=False,
                          env={**os.environ, 'TMPDIR': str(staged.parent)})
    if done.returncode and not although_broken:
        broken = [line.strip() for line in done.stdout.splitlines() if 'BROKEN' in line]
        raise contents.Unfit(f'recount of the copy: {"; ".join(broken) or done.stderr.strip()}. '
                             'If it is the best copy that there is: --although-broken')
    return done.stdout.splitlines()[-1] if done.stdout else 'not recounted'


def verify_copy(folder: pathlib.Path, although_broken: bool) -> pathlib.Path:
    """The staged database of a copy, audited and recounted."""
    staged = stage(folder)
    verify_audit(staged, folder)
    show(f'the copy is in order: {recount(staged, although_broken)}')
    return staged


# ------------------------------------------------------------------ the registry's files

def aside() -> pathlib.Path:
    """A new folder for what there was; the one of before, where a run was cut off that had put the
    database there."""
    there = sorted(host.REGISTRY.glob('before-*'))
    if there and not (host.REGISTRY / FILES[0]).exists():
        return there[-1]
    folder = host.REGISTRY / f'before-{contents.name_now()}'
    folder.mkdir(mode=0o700)
    return folder


def change_files(staged: pathlib.Path) -> str:
    """The copied files take the place of the registry's; where those are now."""
    [old] = as_owner(host.REGISTRY, lambda: iter([str(put_in_place(staged)).encode()]))
    return old.decode()


def put_in_place(staged: pathlib.Path) -> pathlib.Path:
    """As the registry's user: its files go aside, the database first.

    A registry without a database doesn't start, where one without its log would.
    """
    old = aside()
    for name in FILES:
        if (host.REGISTRY / name).exists():
            (host.REGISTRY / name).rename(old / name)
    contents.sync(host.REGISTRY)
    for name in reversed(FILES):
        if (staged.parent / name).exists():
            (staged.parent / name).rename(host.REGISTRY / name)
    shutil.rmtree(staged.parent)
    contents.sync(host.REGISTRY)
    return old


# ------------------------------------------------------------------ the exchange

def put_exchange_back(folder: pathlib.Path) -> None:
    """The exchange's folder of the copy, where there is none."""
    archive, exchange = folder / 'exchange.tar', host.EXCHANGE
    if exchange.is_dir() and any(exchange.iterdir()):
        show(f'{exchange} stays as it is: it knows all that was published since the copy')
    elif archive.is_file():
        exchange.mkdir(mode=0o750, exist_ok=True)
        shutil.chown(exchange, 'goo-agent', 'www-data')
        contents.unpack(archive, exchange)
        show(f'{exchange} is that of the copy')


def number_in(path: pathlib.Path) -> int:
    """The generation in a file of the exchange's, 0 where there is none."""
    try:
        with contents.open_regular(path) as file:
            number = json.load(file)['generation']
        return number if type(number) is int else 0
    except (OSError, contents.Unfit, ValueError, TypeError, KeyError):
        return 0


def begin_generation(folder: pathlib.Path) -> int | None:
    """The new generation, written for the exchange; none where there is no exchange.

    The number is above each that was, so that no peer takes this registry for the one before.
    """
    if not host.EXCHANGE.is_dir():
        return None
    [number] = as_owner(host.EXCHANGE, lambda: iter([write_generation(folder)]))
    return int(number)


def write_generation(folder: pathlib.Path) -> bytes:
    """As the agent, who owns the exchange's folder."""
    known = ('generation.json', 'restored.json')
    number = max(1, *(number_in(host.EXCHANGE / name) for name in known)) + 1
    now = time.strftime('%Y-%m-%dT%H:%M:%SZ', time.gmtime())
    text = json.dumps({'generation': number, 'copy': folder.name, 'time': now})
    write_whole(host.EXCHANGE / 'restored.json', text)
    return str(number).encode()


# ------------------------------------------------------------------ the configuration

def configuration_of(folder: pathlib.Path) -> pathlib.Path:
    """The copied configuration, in a folder that goes with the next call."""
    copied = host.COPIES / 'part-configuration'
    shutil.rmtree(copied, ignore_errors=True)
    copied.mkdir(mode=0o700, parents=True)
    if (folder / 'configuration.tar').is_file():
        contents.unpack(folder / 'configuration.tar', copied)
    return copied


def differing(copied: pathlib.Path, present: pathlib.Path) -> list[pathlib.Path]:
    """The copied files that the present configuration has in another form, or not at all."""
    files = [path.relative_to(copied) for path in sorted(copied.rglob('*')) if path.is_file()]
    return [name for name in files if not (present / name).is_file()
            or (present / name).read_bytes() != (copied / name).read_bytes()]


def put_configuration_back(copied: pathlib.Path, names: list[pathlib.Path]) -> pathlib.Path:
    """The copied files in place of those that differ; the folder in which all of it is as it was.
    """
    present = host.CONFIGURATION
    kept = present.with_name(f'{present.name}.before-{contents.name_now()}')
    if present.is_dir():
        run('cp', '--archive', present, kept)
    for name in names:
        (present / name).parent.mkdir(parents=True, exist_ok=True)
        run('cp', '--archive', '--remove-destination', copied / name, present / name)
    return kept


def compare_configuration(folder: pathlib.Path, put_back: bool) -> list[str]:
    """Shows where the present configuration differs from the copied one; what is left to the
    operator."""
    copied, present = configuration_of(folder), host.CONFIGURATION
    names = differing(copied, present)
    in_words = ', '.join(map(str, names))
    if names and put_back:
        kept = put_configuration_back(copied, names)
        show(f'of {present} these are those of the copy again: {in_words}; '
             f'all as it was is in {kept}')
    elif names:
        show(f'{present} differs from the copy in: {in_words}; '
             '--with-configuration puts these back')
    shutil.rmtree(copied)
    left_out = folder / 'left-out.txt'
    lines = left_out.read_text(encoding='utf-8').splitlines() if left_out.is_file() else []
    return [f'put {present / name} in place: it is in no copy'
            for name in lines if not (present / name).exists()]
