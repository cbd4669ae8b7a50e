"""How `goo-setup` begins a new version of the program, and what happens where that fails.

What runs is stopped, the log notes from which entry on the new version applies, and all is started
again. The file is opened once, by the new program as it starts. Whatever fails, what ran runs
again: with the program of before, which the package has kept. The exit status is then 1: apt says
that the package is not configured, and `dpkg --configure goo` tries it again. On one of three hosts
`goo-setup renew` does so.
"""
import contextlib
import os
import pathlib
import re
import subprocess
import sys
import time
from collections.abc import Iterator

from goo_service.setup import cluster
from goo_service.setup.common import DATABASE
from goo_service.setup.common import ETC
from goo_service.setup.common import LED
from goo_service.setup.common import LOG
from goo_service.setup.common import NEWER
from goo_service.setup.common import REPLICA
from goo_service.setup.common import Refused
from goo_service.setup.common import as_user
from goo_service.setup.common import goo
from goo_service.setup.common import is_active
from goo_service.setup.common import meta_of
from goo_service.setup.common import output_of
from goo_service.setup.common import run
from goo_service.setup.common import units
from goo_service.setup.common import words_of_log
from goo_service.setup.health import health
from goo_service.setup.health import wait_for_registry
from goo_service.setup.people_way import place_way

PROGRAM, BEFORE, REFUSED = map(pathlib.Path, ('/usr/bin/goo', '/usr/lib/goo/goo.before',
                                              '/usr/lib/goo/goo.refused'))
"""The program; the one of before, kept by the package's preinst; a new one that did not take over.
"""
RAN = pathlib.Path('/run/goo-upgrade')
"""Which units ran, from before the first one is stopped until all run again."""
OPENS_AGAIN = pathlib.Path('/run/goo/begins-again')
"""While this is there, a stop of the registry does not open the file: the next start does."""
LOGS = pathlib.Path('/var/log/goo')
OTHERS = ('goo-records.service', 'goo-records-web.service', 'goo-records-verify.service',
          'goo-ship.service', 'goo-people-who.service', 'goo-people-web.service',
          'goo-people-gate.service', 'goo-people-post.service')
PATIENCE, STARTS = 900, 3
"""Seconds for the registry to read its file, and starts after which it is no use waiting."""
MADE = '''
folder=$(mktemp -d)
trap 'rm -rf "$folder"' EXIT
goo init --db "$folder/made.db" --code 1 --today 2025-01-01 > /dev/null
sqlite3 -init /dev/null -batch "$folder/made.db" 'SELECT version FROM meta'
'''
"""Prints the version of the tables that the program makes, by a registry that goes at once."""


def upgrade() -> int:
    """After a new version was installed. Of three hosts the others may not have it yet."""
    if not DATABASE.exists():
        return 0
    if words_of_log():
        print('goo: one of three hosts, which runs on with the old version. Once all three have '
              'the new package: goo-setup renew, on one after another')
        return 0
    take_over((LOG / 'place').exists(), 'dpkg --configure goo tries the new one again; or install '
                                        'the package of before')
    return 0


def renew() -> int:
    """On one of three hosts, the first of which has the log go over to the new version."""
    if not words_of_log():
        raise Refused('this host is alone: apt has begun the new version')
    if REFUSED.exists():
        REFUSED.replace(PROGRAM)
    if cluster.log_version() == run(REPLICA, 'program').strip():
        # The others apply entries by the new version already: this host waits for it, and cannot
        # go back alone.
        begin_version(True, True)
        forget_before()
        begin_others()
    else:
        take_over(True, 'The log is at the version of before, and the two others go on. '
                        'goo-setup renew tries the new one again')
    print('goo: this host takes requests with the new version; the next one: goo-setup renew')
    return 0


def take_over(has_log: bool, again: str) -> None:
    """Begins the new version; where that fails, the program of before runs again."""
    if REFUSED.exists():        # an earlier try went back to the program of before
        REFUSED.replace(PROGRAM)
    waits = was_well()
    try:
        begin_version(has_log, waits)
    except BaseException as fault:
        if not go_back(has_log, waits):
            raise
        raise Refused(f'{fault}\ngoo: the new version does not take over, and the program of '
                      f'before runs again. {again}') from fault
    forget_before()
    begin_others()


def forget_before() -> None:
    for path in (BEFORE, REFUSED):
        path.unlink(missing_ok=True)


# ------------------------------------------------------------------ one version and the next

def was_well() -> bool:
    """Whether the registry took requests, or was stopped by a call that was cut off."""
    return RAN.exists() or not health().why


def begin_version(has_log: bool, waits: bool) -> None:
    """From here on the log's entries are applied by this program, and what runs is started anew.

    A registry that was not well before need not be now: then it is not waited for.
    """
    with stop_services():
        check_tables()
        if has_log:
            move_log()
    if waits:
        wait_for_program()


def begin_others() -> None:
    """What stands around the registry goes over to the new version."""
    run('systemctl', 'try-restart', *OTHERS)
    for path in (*(ETC / name for name in ('callers', 'callers.map')), *LOGS.glob('*')):
        if path.exists():           # an earlier version has shown them to every user of the host
            path.chmod(path.stat().st_mode & 0o640)
    for unit in NEWER if is_active('goo.service') else ():      # one that is masked stays so
        if output_of('systemctl', 'is-enabled', unit) == 'disabled':
            run('systemctl', 'enable', '--now', unit)
    place_way()
    if is_active('nginx'):
        run('nginx', '-t', '-q')
        run('systemctl', 'reload', 'nginx')


def running() -> list[str]:
    """What runs, and what ran as an earlier call began that was cut off."""
    noted = RAN.read_text(encoding='ascii').split() if RAN.exists() else []
    active = [unit for unit in units() if output_of('systemctl', 'is-active', unit) in
              ('active', 'activating', 'reloading')]
    return list(dict.fromkeys([*noted, *active]))


@contextlib.contextmanager
def stop_services() -> Iterator[None]:
    """The registry and its log do not run meanwhile. What ran runs again, however this ends."""
    ran = running()
    RAN.write_text(' '.join(ran) + '\n', encoding='ascii')
    try:
        OPENS_AGAIN.parent.mkdir(exist_ok=True)
        OPENS_AGAIN.touch()
        run('systemctl', 'daemon-reload')
        run('systemctl', 'stop', *LED)
        yield
    finally:
        OPENS_AGAIN.unlink(missing_ok=True)
        if ran:
            run('systemctl', 'start', *ran)
        RAN.unlink()


def check_tables() -> None:
    """The program reads this file. Where its tables are of another version, only opening tells."""
    done = as_user('goo', 'sh', '-ec', MADE, text=True, timeout=PATIENCE)
    if done.returncode or not done.stdout.strip().isdigit():
        why = done.stderr.strip() or f'status {done.returncode}'
        raise Refused(f'{PROGRAM} does not run: {why}')
    try:
        if int(done.stdout) == meta_of(DATABASE, 'version'):
            return
    except Refused:                     # the program says why as it starts
        return
    fault = goo('run')
    if re.search(r'goo: version \d', fault):
        raise Refused(f'this program does not read {DATABASE} ({fault}), and left it as it was: '
                      'install the version that wrote it')


def move_log() -> None:
    """An entry of the log moves the version, unless the log is at it already."""
    words, version = words_of_log(), run(REPLICA, 'program').strip()
    before = cluster.log_version() if words else cluster.log_end().version
    if before != version:
        print(f'goo: {run(REPLICA, "version", version, *words).strip()}')


def wait_for_program() -> None:
    """The registry takes requests. A program that ends again and again is not waited for."""
    end = time.monotonic() + PATIENCE
    while time.monotonic() < end:
        why = health().why
        if not why:
            return
        for unit in ('goo.service', 'goo-replica.service'):
            count = output_of('systemctl', 'show', '--property=NRestarts', '--value', unit)
            if count.isdigit() and int(count) >= STARTS:
                raise Refused(f'{unit} has ended {count} times: journalctl -u {unit} -n 20')
        time.sleep(0.5)
    raise Refused(f'the registry takes no requests: {why}')


# ------------------------------------------------------------------ back to the program of before

def go_back(has_log: bool, waits: bool) -> bool:
    """Puts the program of before in place again, and the log back to its version."""
    if not BEFORE.exists() or os.path.samefile(BEFORE, PROGRAM):
        return False
    part = PROGRAM.with_name('goo.part')
    for path, kept in ((REFUSED, PROGRAM), (part, BEFORE)):
        path.unlink(missing_ok=True)
        os.link(kept, path)
    part.replace(PROGRAM)
    try:
        with stop_services():
            if has_log:
                move_log()
        if waits:
            wait_for_registry()
    except (Refused, OSError, subprocess.SubprocessError) as fault:
        print(f'goo: the program of before: {fault}', file=sys.stderr)
    return True
