"""A plan of a migration is rehearsed: by the program, in a network of its own, up to its end."""
import json
import os
import socket
import sqlite3
import subprocess
import threading
from concurrent.futures import ThreadPoolExecutor
from contextlib import closing
from pathlib import Path

import old_registry
import pytest
from goo_service.migrate import own_network
from goo_service.migrate import rehearsal
from goo_service.migrate import sending
from goo_service.migrate.sending import Progress
from goo_service.migrate.sums import compare
from migrating import GOO
from migrating import planned

HAS_ROOT = pytest.mark.skipif(os.geteuid() != 0, reason='only root has a network of its own')


def network() -> int:
    """The network in which this thread is."""
    return os.stat('/proc/thread-self/ns/net').st_ino


@HAS_ROOT
def test_what_listens_in_a_network_of_its_own_is_reached_there_alone() -> None:
    with ThreadPoolExecutor(1) as alone:
        assert alone.submit(own_network.enter).result()
        with alone.submit(socket.create_server, ('127.0.0.1', 0)).result() as listener:
            address = listener.getsockname()
            alone.submit(socket.create_connection, address, 5).result().close()
            with pytest.raises(ConnectionRefusedError):
                socket.create_connection(address, 5)


@HAS_ROOT
def test_a_rehearsal_is_in_a_network_of_its_own_and_tells_how_far_it_is(tmp_path: Path) -> None:
    read, seen = planned(tmp_path, 2), dict[int, Progress]()
    done = rehearsal.rehearse(tmp_path, read, GOO, lambda told: seen.update({network(): told}))
    assert seen.keys().isdisjoint({network()}) and len(seen) == 1
    progress, = seen.values()
    assert progress.done == progress.of == done.requests == len(list(sending.steps_in(tmp_path)))
    assert done.comparison.count == 0 and done.size > 0 and 0 < done.memory < 64 << 20
    assert 0 < done.opening.memory < 64 << 20 and 'MemoryMax=' in done.text


def test_an_answer_that_was_not_planned_ends_a_rehearsal(tmp_path: Path) -> None:
    """Accounts are planned from 5 on, and a new registry begins with 1."""
    text = old_registry.SETTINGS.replace('[carry]', 'first_account = 5\n[carry]')
    read = planned(tmp_path, 2, text=text)
    with pytest.raises(sending.Stopped, match='planned was {"account": 5}'):
        rehearsal.rehearse(tmp_path, read, GOO, print)


def test_a_registry_that_has_accounts_is_rehearsed_by_a_copy(tmp_path: Path) -> None:
    """Four accounts of another holder are there before. They are no difference, and stay."""
    text = old_registry.SETTINGS.replace('[carry]', 'first_account = 5\n[carry]')
    read, before = planned(tmp_path, 2, text=text), tmp_path / 'before.db'
    rehearsal.called([GOO, 'init', '--db', str(before), '--code', '7', '--today',
                      old_registry.DATE])
    lines = [{'command': 'open_holder', 'key': 'h', 'holder': 'SUN', 'name': 'Sun'}, *(
        {'command': 'open_account', 'key': f'a{at}', 'holder': 'SUN'} for at in range(4))]
    subprocess.run([GOO, 'run', '--db', before], check=True, capture_output=True, text=True,
                   input=''.join(f'ISSUER {json.dumps(line)}\n' for line in lines))
    done = rehearsal.rehearse(tmp_path, read, GOO, print, before)
    assert done.comparison.differences == []
    with closing(sqlite3.connect(tmp_path / 'rehearsal/registry.db')) as database, database:
        assert database.execute("SELECT count(*) FROM account WHERE holder = 'SUN'"
                                ).fetchone() == (4,)
        database.execute("UPDATE account SET holder = 'H00001' WHERE number = 5")
    found = compare(tmp_path, read, tmp_path / 'rehearsal/registry.db')
    assert [text for text in found.differences if text.startswith('accounts 5')]


@pytest.mark.parametrize(('text', 'told'), [
    ('echo broken >&2; exit 3', 'broken'),
    ('[ $1 = serve ] || exec {goo} "$@"; echo damaged >&2; exit 3', 'serve: damaged'),
    ('[ $1 = serve ] || exec {goo} "$@"; echo listening; exit 0', 'serve: ')])
def test_a_program_that_fails_is_told(tmp_path: Path, text: str, told: str) -> None:
    read, program = planned(tmp_path, 2), tmp_path / 'program'
    program.write_text(f'#!/bin/sh\n{text.format(goo=GOO)}\n')
    program.chmod(0o755)
    with pytest.raises(sending.Stopped, match=told):
        rehearsal.rehearse(tmp_path, read, str(program), print)


def test_a_rehearsal_that_is_stopped_ends_its_program(tmp_path: Path) -> None:
    """As by Ctrl-C in the main thread: no program is left that has the database."""
    planned(tmp_path, 2)
    place, stop = tmp_path / 'rehearsal', threading.Event()
    place.mkdir()
    registry = place / 'registry.db'
    rehearsal.called([GOO, 'init', '--db', str(registry), '--code', '7', '--today',
                      old_registry.DATE])
    stop.set()
    with ThreadPoolExecutor(1) as alone, pytest.raises(sending.Stopped, match='stopped'):
        alone.submit(rehearsal.carry_out, tmp_path, rehearsal.Served(GOO, registry, 9), print,
                     stop).result()
    with rehearsal.Served(GOO, registry, 0).standing():
        pass                    # another program has it
