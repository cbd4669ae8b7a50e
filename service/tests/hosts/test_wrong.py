"""docs/WRONG.md played: each row is broken, named by the doctor, and mended by its commands.

First a registry that was installed by hand, without a log, is brought under the package by
`goo-setup` alone, its users, requests and copies kept. Then, row by row: the fault is made,
`goo-setup doctor` has to name the row, the commands of the row's section are carried out, and the
doctor has to be silent about it.
"""
import contextlib
import datetime
import re
import shutil
import subprocess
from pathlib import Path

import pytest
from by_hand import BY_HAND
from by_hand import ENABLED
from by_hand import STARTED
from host import COPIES
from host import ETC
from host import LOG
from host import OLD
from host import REGISTRY
from host import TODAY
from host import at_door
from host import comes
from host import install
from host import is_well
from host import journal
from host import outcome_inside
from host import password
from host import play
from host import run
from host import shell
from host import shown
from host import start

SYSTEMD, ASIDE = Path('/etc/systemd/system'), Path('/var/backups/goo-by-hand')
RECORDS = Path('/var/lib/goo-records')
OLD_COPY = COPIES / '2025-04-05T020000Z'
DOOR = ('goo-door.socket', 'goo-replica', 'goo')
STOOD = {name: ETC / name for name in ('users', 'callers', 'exchange.key', 'host.conf',
                                       'tls/cert.pem')}


def door(path: str = '/', user: str = 'office', word: str = '') -> str:
    """The status of a request through the front door."""
    status, _ = at_door(user, path, word=word)
    return status


# ------------------------------------------------------------------ by hand

@pytest.fixture(scope='module')
def before() -> dict[str, bytes]:
    """What the registry of before had in its files."""
    return {}


def test_a_registry_of_before_runs_by_hand(before: dict[str, bytes]) -> None:
    """Without a log, its units in /etc, programs that no package has."""
    for name, text in BY_HAND.items():
        (SYSTEMD / name).write_text(text, encoding='utf-8')
    done = shell(STARTED.format(package=OLD, password=password('office')))
    assert done.returncode == 0, done
    for name in ('backup', 'advance', 'exchange', 'replica_file.py'):
        Path('/usr/lib/goo', name).write_text('#!/bin/sh\n# of before\n', encoding='utf-8')
    run('systemctl', 'daemon-reload')
    started = run('systemctl', 'enable', '--now', *ENABLED, 'nginx')
    run('systemctl', 'restart', 'nginx')
    assert started.returncode == 0, (started, journal('goo'), journal('nginx'))
    assert comes(lambda: outcome_inside('sun') in ('accepted', 'repeated')), journal('goo')
    assert comes(lambda: door() == '200'), door()
    shutil.copy(REGISTRY / 'registry.db', OLD_COPY)
    before.update({name: path.read_bytes() for name, path in STOOD.items()})


def test_one_command_brings_it_under_the_package(before: dict[str, bytes]) -> None:
    package = install(OLD)
    assert package.returncode == 0, package
    done = run('goo-setup', stdin=subprocess.DEVNULL)
    assert done.returncode == 0 and 'https://localhost/' in done.stdout, done
    assert before == {name: path.read_bytes() for name, path in STOOD.items()}


def test_what_was_accepted_is_there_and_each_new_request_has_its_entry() -> None:
    assert outcome_inside('sun') == 'repeated' and outcome_inside('moon') == 'accepted'
    assert any(LOG.glob('archive/*.jsonl')), journal('goo-replica')


def test_the_old_copy_is_there_and_a_first_one_with_a_place_in_the_log() -> None:
    assert (OLD_COPY / 'registry.db').exists() and any(COPIES.glob('2*/place.json'))


def test_units_and_programs_of_before_are_kept_aside() -> None:
    assert not [path for path in SYSTEMD.glob('goo*') if path.is_file() and not path.is_symlink()]
    assert not [name for name in BY_HAND if not (ASIDE / 'etc/systemd/system' / name).exists()]
    assert not Path('/usr/lib/goo/replica_file.py').exists()
    assert (ASIDE / 'usr/lib/goo/backup').exists()


def test_what_an_operator_has_added_is_in_force() -> None:
    assert shown('goo', 'MemoryMax') == str(1 << 30), 'what systemctl edit has added'
    assert run('systemctl', 'is-enabled', 'goo-exchange.timer').stdout == 'enabled\n'
    assert '/usr/bin/goo-exchange' in run('systemctl', 'cat', 'goo-exchange').stdout


def test_the_front_door_answers_by_the_file_that_is_linked() -> None:
    assert door() == '200' and Path('/etc/nginx/sites-enabled/goo.conf').is_symlink()


def test_the_records_of_acts_begin_with_the_registry_as_it_was() -> None:
    begun = (ETC / 'records.conf').read_text(encoding='utf-8')
    assert '--copy /var/lib/goo-records/first' in begun


def test_given_again_it_changes_nothing() -> None:
    again = run('goo-setup', stdin=subprocess.DEVNULL)
    assert again.returncode == 0 and not re.search(r'(?m)^done', again.stdout), again


# ------------------------------------------------------------------ the rows

def rows_told() -> list[str]:
    return re.findall(r'(?m)^    WRONG\.md, "(.*)"$', run('goo-setup', 'doctor').stdout)


def assert_named(row: str) -> None:
    """The doctor names the row."""
    assert comes(lambda: row in rows_told()), run('goo-setup', 'doctor').stdout


def assert_mended(row: str) -> None:
    """The doctor is silent about it, and requests are taken."""
    assert comes(lambda: row not in rows_told(), 60), run('goo-setup', 'doctor').stdout
    assert is_well()


def test_a_certificate_ends() -> None:
    row = 'A certificate ends'
    assert_named(row)
    run('openssl', 'req', '-x509', '-newkey', 'ec', '-pkeyopt', 'ec_paramgen_curve:P-256',
        '-nodes', '-days', '400', '-subj', '/CN=localhost', '-addext',
        'subjectAltName=DNS:localhost', '-keyout', '/root/key.pem', '-out', '/root/chain.pem')
    play(row)
    assert_mended(row)


def test_a_password_is_lost() -> None:
    done = run('goo-setup', 'user', 'add', 'anna', 'SUN', input='of-anna-first\n')
    assert done.returncode == 0, done
    assert comes(lambda: door('/', 'anna', 'of-anna-first') == '200')
    play('A password is lost', 0, stdin='of-anna-second\n')
    assert comes(lambda: [door('/', 'anna', word) for word in ('of-anna-second', 'of-anna-first')]
                 == ['200', '401'])


def test_no_requests_are_taken() -> None:
    row = 'No requests are taken'
    run('systemctl', 'stop', *DOOR)
    assert_named(row)
    play(row)
    assert_mended(row)


def test_the_database_is_damaged() -> None:
    row = 'The database is damaged'
    assert start('goo-backup'), journal('goo-backup')
    assert outcome_inside('after') == 'accepted'
    run('systemctl', 'stop', *DOOR)
    with open(REGISTRY / 'registry.db', 'r+b') as file:
        file.write(b'no database' * 400)
    run('systemctl', 'start', '--no-block', *DOOR)
    assert_named(row)
    start('goo-doctor')
    told = run('journalctl', '-u', 'goo-doctor', '-o', 'cat', '--no-pager').stdout
    assert f'WRONG.md, "{row}"' in told, 'under its unit, shut in as it is'
    assert 'nothing has to be sent again' in play(row)
    assert_mended(row)
    assert outcome_inside('after') == 'repeated' and door() == '200', 'nothing is lost'


def test_the_log_is_damaged() -> None:
    """What follows a new log: the door is closed until the exchange is settled."""
    row, restore = 'The log is damaged', 'A restore is not ended'
    assert outcome_inside('early') == 'accepted'
    run('systemctl', 'stop', 'goo-door.socket', 'goo-replica')
    path = sorted(LOG.glob('log/*.jsonl'))[-1]
    text = path.read_bytes()
    path.write_bytes(text[:-40] + b'#' + text[-39:])
    run('systemctl', 'start', '--no-block', 'goo-door.socket', 'goo-replica')
    assert_named(row)
    printed = play(row, 0)
    assert outcome_inside('early') == 'repeated' and 'the archive ends there' in printed, printed
    assert door('/v1/audit') == '502'
    assert_named(restore)
    play(restore)
    assert_mended(restore)
    assert_mended(row)
    assert door('/v1/audit') == '200' and outcome_inside('late') == 'accepted'
    found = re.search(r'the log begins after entry (\d+)', printed)
    assert found, printed
    verified = run('goo-replica-log', 'verify', '--from', int(found[1]) + 1)
    assert verified.returncode == 0, verified
    assert start('goo-backup'), journal('goo-backup')
    assert all(any(LOG.glob(f'lost-*/{name}')) for name in ('log', 'archive', 'done'))


def test_a_host_is_lost_but_for_log_archive_and_the_last_copy() -> None:
    """The beginning of the records is in the copy."""
    assert outcome_inside('lost') == 'accepted'
    run('systemctl', 'stop', *DOOR, 'goo-records')
    for path in (REGISTRY, RECORDS, LOG / 'place', LOG / 'sent'):
        shutil.rmtree(path) if path.is_dir() else path.unlink(missing_ok=True)
    done, again = shell('goo-copies restore last'), run('goo-setup', stdin=subprocess.DEVNULL)
    assert [done.returncode, again.returncode] == [0, 0], (done, again)
    assert is_well() and outcome_inside('lost') == 'repeated'
    assert comes(lambda: 'The records are behind' not in rows_told(), 60), journal('goo-records')


def test_the_date_is_wrong() -> None:
    row = 'The date is wrong'
    assert run('goo-advance', '2031-01-01', '--confirm', '2031-01-01').returncode == 0
    assert outcome_inside('since') == 'accepted'
    assert_named(row)
    found = re.findall(r'"n":(\d+),.*?"day.*?(\d{4}-\d\d-\d\d)', play(row, 0))
    number, = [n for n, day in found if day == '2031-01-01']
    printed = play(row, 1, N=number)
    assert f'1 entries after entry {number} were sent again, and 0 of them' in printed, printed
    play(row, 2)
    assert_mended(row)
    assert outcome_inside('since') == 'repeated' and door('/v1/audit') == '200'


def test_a_key_is_missing_or_open() -> None:
    row = 'A key is missing or open'
    (ETC / 'replica.key').chmod(0o644)
    assert_named(row)
    play(row)
    assert_mended(row)


def test_a_list_of_users_has_a_fault() -> None:
    row, callers = 'A list of users has a fault', ETC / 'callers'
    text = callers.read_text(encoding='utf-8')
    callers.write_text(text + 'bert\n', encoding='utf-8')
    assert_named(row)
    callers.write_text(text, encoding='utf-8')
    play(row)
    assert_mended(row)


def test_nginx_does_not_answer() -> None:
    row, conf = 'nginx does not answer', Path('/etc/nginx/sites-available/goo.conf')
    text = conf.read_text(encoding='utf-8')
    conf.write_text(text + 'no such word;\n', encoding='utf-8')
    assert_named(row)
    conf.write_text(text, encoding='utf-8')
    run('systemctl', 'kill', '--signal=KILL', 'nginx')
    play(row)
    assert_mended(row)
    assert comes(lambda: door() == '200'), journal('nginx')


def test_the_last_copy_is_old() -> None:
    row, old = 'The last copy is old', (TODAY - datetime.timedelta(5)).isoformat()
    for number, path in enumerate(sorted(COPIES.glob('2*T*'))):
        path.rename(COPIES / f'{old}T00000{number}Z')
    assert_named(row)
    play(row)
    assert_mended(row)


def test_the_records_are_behind() -> None:
    row = 'The records are behind'
    run('systemctl', 'stop', 'goo-records')
    for path in RECORDS.iterdir():
        if path.name not in ('first', 'exchange.json', 'code.key'):
            shutil.rmtree(path) if path.is_dir() and not path.is_symlink() else path.unlink()
    run('systemctl', 'restart', 'goo-records-web')
    assert_named(row)
    play(row)
    assert_mended(row)


def test_a_unit_has_failed() -> None:
    row = 'A unit has failed'
    run('systemctl', 'stop', 'goo-records-check.timer')
    assert_named(row)
    play(row)
    run('systemctl', 'start', 'goo-records-check.timer')
    run('systemctl', 'reset-failed')
    assert_mended(row)


def test_the_disk_is_full() -> None:
    row, left = 'The disk is full', REGISTRY / 'before-2025-01-01T000000Z'
    left.mkdir(exist_ok=True)
    with contextlib.suppress(OSError), open(left / 'registry.db', 'wb') as file:
        while True:
            file.write(bytes(1 << 22))
            file.flush()
    shutil.chown(left, 'goo', 'goo')
    run('systemctl', 'restart', '--no-block', 'goo')
    assert_named(row)
    assert comes(lambda: 'no space left on' in journal('goo')), journal('goo')
    play(row)
    assert_mended(row)
    assert comes(lambda: outcome_inside('room') in ('accepted', 'repeated')), journal('goo')
