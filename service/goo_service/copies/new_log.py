"""A new log after one that was lost or damaged: for `goo-copies restore COPY --new-log`.

The copy is brought up by each entry of the archive that can still be read, or by none of them where
it is wanted as it was copied. The new log begins there. What there was of log, archive and place
stays whole in a folder `lost-TIME` of the replica's state: a file `done` in it says that the new
log runs. Cut off, the same command reads the archive there.
"""
import pathlib

from goo_service.common.owner import as_owner
from goo_service.common.owner import work_as_owner
from goo_service.common.owner import remove
from goo_service.copies import contents
from goo_service.copies import host
from goo_service.copies import undo
from goo_service.copies.host import run_log
from goo_service.copies.host import show
from goo_service.copies.places import FILE
from goo_service.copies.places import read_place
from goo_service.copies.places import write_place
from goo_service.copies.replay import bring_up
from goo_service.copies.replay import records_of
from goo_service.log import entries

MOVED = ('place', 'log', 'archive')


def verify() -> None:
    if host.is_one_of_three():
        raise contents.Unfit('--new-log: the log is over etcd: THREE-HOSTS.md, '
                             '"When a host is lost"')


def lost_folder(state: pathlib.Path) -> pathlib.Path | None:
    """As the owner of the log: the folder of a call that was cut off."""
    left = [path for path in sorted(state.glob('lost-*')) if not (path / 'done').exists()]
    return left[-1] if left else None


def archive_path() -> bytes:
    """As the owner of the log: the archive as it was found."""
    folder = lost_folder(host.STATE)
    moved = folder / 'archive' if folder else host.STATE / 'archive'
    there = moved if moved.is_dir() else host.STATE / 'archive'
    return str(there).encode() if there.is_dir() else b''


def readable_end(archive: pathlib.Path, n: int, head: str, key: bytes | None) -> tuple[int, str]:
    """The last entry behind entry n, of this hash, that an archive has whole; why it is the last
    one."""
    last, before = n, head
    try:
        for record in records_of(archive, n, key, host.STATE):
            if record.entry.n != last + 1 or record.entry.prev != before:
                return last, f'entry {record.entry.n} of the archive does not follow'
            last, before = record.entry.n, record.hash
    except entries.Broken as fault:
        return last, str(fault)
    return last, 'the archive ends there'


def brought_up(staged: pathlib.Path, folder: pathlib.Path,
               as_copied: bool) -> pathlib.Path | None:
    """Applies what the archive still has to the staged copy, unless it stays as it was copied; a
    folder with the place that it has then."""
    if not (folder / FILE).is_file():
        show(f'{folder} has no place in a log: nothing is applied to it')
        return None
    place, key = read_place(folder), entries.read_key(host.KEY)
    [found] = as_owner(host.STATE, lambda: iter([archive_path()]))
    if as_copied:
        show(f'the copy stays as it is, at entry {place.n}: what came later is undone')
    elif found:
        archive = pathlib.Path(found.decode())
        last, why = readable_end(archive, place.n, place.hash, key)
        place = bring_up(undo.PROGRAM, staged, archive, place, key, last)
        show(f'the copy is brought up to entry {last}: {why}')
    else:
        show(f'there is no archive: the registry is that of the copy, at entry {place.n}')
    placed = host.COPIES / 'part-place'
    remove(placed)
    placed.mkdir(mode=0o700)
    write_place(placed, place)
    return placed


def set_log_aside() -> bytes:
    """As the owner of the log: log, archive and place leave for a folder of their own; its path."""
    state = host.STATE
    folder = lost_folder(state) or state / f'lost-{contents.name_now()}'
    folder.mkdir(mode=0o750, exist_ok=True)
    for name in MOVED:
        if (folder / name).exists():
            remove(state / name)                # of the call that was cut off
        elif (state / name).exists():
            (state / name).rename(folder / name)
    contents.sync(state)
    return str(folder).encode()


def begin(placed: pathlib.Path | None) -> None:
    """Begins the log behind the place of the registry, and makes the first copy of it.

    The records of acts are made anew from that copy. Nothing runs meanwhile.
    """
    [kept] = as_owner(host.STATE, lambda: iter([set_log_aside()]))
    show(f'what there was of the log is in {kept.decode()}')
    n = 0
    if placed:
        n = read_place(placed).n
        run_log('place', placed)
        remove(placed)
    undo.set_later_copies_aside(n + 1)
    for words in ('found', 'first-copy'):
        show(run_log(words).strip())
    host.systemctl('start', host.REGISTRY_UNIT, host.DOOR, host.REPLICA)
    show(f'the registry runs with a new log, {host.wait_for_log()}')
    work_as_owner(host.STATE, lambda: (pathlib.Path(kept.decode()) / 'done').touch())
