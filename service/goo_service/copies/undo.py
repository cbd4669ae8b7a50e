"""An entry of the log is undone: for `goo-copies restore COPY --before N`."""
import json
import pathlib

from goo_service.common.owner import as_owner
from goo_service.common.owner import work_as_owner
from goo_service.copies import contents
from goo_service.copies import host
from goo_service.copies.host import run_log
from goo_service.copies.host import show
from goo_service.copies.places import placed_copies
from goo_service.copies.places import read_place
from goo_service.copies.replay import bring_up
from goo_service.log import entries
from goo_service.log import reversal

PROGRAM = ('runuser', '-u', 'goo', '--', '/usr/bin/goo')


def verify(folder: pathlib.Path, n: int) -> None:
    """Entry n can be undone by this copy: found before anything is changed."""
    if host.is_one_of_three():
        raise contents.Unfit('--before: the log is over etcd, where no entry is undone. '
                             'Go back to one host first (THREE-HOSTS.md, "Back to one host")')
    try:
        place = read_place(folder)
        if place.n >= n:
            raise contents.Unfit(f'{folder} has entry {n} in it, as it is of entry {place.n}: '
                                 'take an earlier copy')
        [there] = as_owner(host.STATE, lambda: iter([under_way()]))
        if undone := json.loads(there):
            if int(undone[0]) != n:
                raise contents.Unfit(f'{undone[1]}: entry {undone[0]} is being undone: '
                                     f'restore COPY --before {undone[0]} ends that')
        else:
            work_as_owner(host.STATE, lambda: read_point(n))
    except entries.Broken as fault:
        raise contents.Unfit(f'--before {n}: {fault}') from fault


def under_way() -> bytes:
    """As the owner of the log: entry and folder of an earlier call that was cut off, as JSON."""
    return json.dumps([str(part) for part in reversal.under_way(host.STATE) or ()]).encode()


def read_point(n: int) -> None:
    """As the owner of the log: the archive has entry n, and the one before."""
    reversal.point_before(host.STATE / 'archive', n)


def bring_to(staged: pathlib.Path, folder: pathlib.Path, n: int) -> None:
    """Applies the entries up to n to the staged copy, by the program, run as the registry's user.
    """
    try:
        key, place = entries.read_key(host.KEY), read_place(folder)
        bring_up(PROGRAM, staged, host.STATE / 'archive', place, key, n)
    except entries.Broken as fault:
        raise contents.Unfit(str(fault)) from fault


def set_later_copies_aside(n: int) -> None:
    """A copy of entry n or later is of a registry that is no more."""
    for copy in placed_copies(host.COPIES):
        if read_place(copy).n >= n:
            copy.rename(copy.with_name(f'undone-{copy.name}'))
            show(f'{copy} is named undone-{copy.name} now, as it has entry {n} in it')


def begin_before(n: int) -> None:
    """The log ends at entry n - 1 and begins anew; what came after entry n is sent again.

    Registry and log run for nobody but the agent and root.
    """
    show(run_log('undo', n).strip())
    set_later_copies_aside(n)
    host.systemctl('start', host.REGISTRY_UNIT, host.DOOR, host.REPLICA)
    host.wait_for_log()
    report = host.COPIES / f'undone-{n}-{contents.name_now()}.txt'
    text = run_log('again', n)
    report.write_text(text, encoding='utf-8')
    show(f'{text.strip()}\n(in {report} too)')
