"""The package on a new host: set-up, units that are stopped, killed and fail, copies, back to a
copy, a wrong date, removal.
"""
import contextlib
import datetime
import json
import os
import random
import re
import shutil
import signal
import subprocess
import time
from collections.abc import Callable
from collections.abc import Iterator
from pathlib import Path

import pytest
from host import ARCHIVE
from host import COPIES
from host import ETC
from host import NEW
from host import REGISTRY
from host import TODAY
from host import active
from host import add_user
from host import at_door
from host import become
from host import blocks
from host import by_socket
from host import comes
from host import copies
from host import failed
from host import files_of_package
from host import holder
from host import install
from host import is_well
from host import journal
from host import last_entry
from host import outcome
from host import run
from host import set_up
from host import shell
from host import shown
from host import start
from host import states

EXPOSED = {'goo-alarm@trial.service': 24, 'goo-doctor.service': 24, 'goo-backup.service': 19}
"""Tenths of the exposure that systemd finds at most; all other services have 15 at most."""
MAILS = Path('/var/lib/mails')
"""What the host has sent to its operator."""
OFTEN = 3
"""Starts between two looks from which on goo-units tells of a unit."""
MAIL = f'#!/bin/sh\necho "$@" >> {MAILS}\ncat >> {MAILS}\n'
OPTION = re.compile(r'(?<![\w-])--[a-z][a-z-]+')
ROWS = ('import socket; s = socket.socket(socket.AF_UNIX); s.connect("/run/goo/rows.sock"); '
        'print(s.makefile().read())')


# ------------------------------------------------------------------ the package as it is installed

def test_dpkg_installs_the_package_and_nothing_runs_yet() -> None:
    done = install(NEW)
    assert done.returncode == 0 and 'goo-setup begins' in done.stdout, done
    assert not active() and not failed()


def test_the_files_are_those_of_the_list() -> None:
    done = run('sha256sum', '--check', '--quiet', '/usr/share/doc/goo/SHA256SUMS', cwd='/')
    assert done.returncode == 0, done


def test_systemd_verifies_the_units_without_a_word_and_each_service_is_shut_in() -> None:
    units = [path for path in Path('/lib/systemd/system').glob('goo*.*[et]') if path.is_file()]
    done = run('systemd-analyze', 'verify', *units)
    assert units and not done.stdout + done.stderr, done
    services = {unit.name.replace('@', '@trial') for unit in units if unit.suffix == '.service'}
    exposed = [unit for unit in sorted(services) if run(
        'systemd-analyze', 'security', f'--threshold={EXPOSED.get(unit, 15)}', unit).returncode]
    assert len(services) > 15 and not exposed


def options_of_page(name: str) -> set[str]:
    """The options on a program's man page."""
    page = run('man', '--local-file', *Path('/usr/share/man').glob(f'man[18]/{name}.[18].gz'),
               env={'MANWIDTH': '250', 'LC_ALL': 'C', 'PATH': os.environ['PATH']}).stdout
    assert 'DESCRIPTION' in page, name
    return set(OPTION.findall(page))


def test_each_program_has_a_man_page_with_each_of_its_options() -> None:
    lacking = []
    for path in (*Path('/usr/bin').glob('goo*'), *Path('/usr/lib/goo').iterdir()):
        name = path.name if path.name.startswith('goo') else f'goo-{path.name}'
        is_script = path.read_bytes().startswith((b'#!/bin', b'\x7fELF'))
        told = '' if is_script else run(path, '--help').stdout
        lacking += [(name, word) for word in set(OPTION.findall(told)) - options_of_page(name)]
    assert not lacking


@pytest.mark.parametrize('name', ('goo', 'goo-setup'))
def test_completion_has_the_same_options(name: str) -> None:
    text = Path('/usr/share/bash-completion/completions', name).read_text(encoding='utf-8')
    always = {'--help', '--version'}
    assert {*OPTION.findall(text), *always} == options_of_page(name) | always


def test_setup_begins_a_registry() -> None:
    mail = Path('/usr/local/bin/mail')
    mail.write_text(MAIL, encoding='ascii')
    mail.chmod(0o755)
    done = set_up()
    assert done.returncode == 0 and is_well(), done
    assert done.stdout.endswith('the registry answers at https://localhost/\n')
    assert not failed()


def test_set_up_again_all_stands() -> None:
    done = set_up()
    assert done.returncode == 0, done
    assert {line.split()[0] for line in done.stdout.splitlines()[:-1]} == {'stands'}


def test_a_request_at_the_front_door_is_an_entry_with_its_user_address_and_outcome() -> None:
    assert outcome(holder('sun')) == 'accepted'
    assert outcome({'command': 'open_account', 'key': 'b', 'holder': 'SUN'}) == 'accepted'
    words = ('"user":"office"', '"address":"127.0.0.1"', '"role":"full"', '"status":200')
    assert all(word in last_entry() for word in words), last_entry()
    assert at_door('office', '/')[0] == '200'


def test_who_reaches_which_socket() -> None:
    users = ('nobody', 'www-data', 'goo-agent', 'goo-door')
    seen = [bool(by_socket(user, '/v1/notices/1')) for user in users]
    assert seen == [False, True, True, True], 'nginx, the agent and the door reach the log'
    past = [by_socket(user, '/v1/audit', socket='registry') for user in users]
    assert not any(past), 'nobody but the log reaches the registry past it'
    port = run('curl', '-s', '--max-time', '5', '-H', 'GOO-Caller: ISSUER',
               'http://127.0.0.1:8470/v1/audit')
    assert port.returncode == 7, "root reaches the registry's port"
    desk = run('runuser', '-u', 'nobody', '--', 'curl', '-s', '--unix-socket',
               '/run/goo-front/desk.sock', 'http://localhost/v1/audit')
    assert desk.returncode == 7, "a local user reaches nginx's inner socket"


def test_the_log_and_the_lists_of_users_are_for_root_and_a_group_alone() -> None:
    modes = [oct(Path(path).stat().st_mode & 0o777) for path in (
        '/var/log/goo', '/var/log/goo/front-door.log', '/etc/goo/callers', '/etc/goo/callers.map')]
    assert modes == ['0o751', '0o640', '0o640', '0o640']


def test_the_agent_moves_the_date_by_the_log() -> None:
    assert start('goo-advance') and 'advance' in last_entry(), journal('goo-advance')


def test_a_day_after_the_hosts_is_confirmed_by_root_alone() -> None:
    day = (TODAY + datetime.timedelta(1)).isoformat()
    done = [run('runuser', '-u', user, '--', 'goo-advance', day, '--confirm', day)
            for user in ('www-data', 'goo-agent', 'root')]
    assert [one.returncode for one in done] == [1, 1, 0] and 'error' in done[1].stdout, done


# ------------------------------------------------------------------ the exchange

def test_a_peer_and_its_user_are_added_and_the_exchange_runs_to_it() -> None:
    pair = run('openssl', 'genpkey', '-algorithm', 'ed25519').stdout
    key = run('openssl', 'pkey', '-pubout', input=pair).stdout.splitlines()[1]
    Path('/root/peer').write_text('a-secret\n', encoding='ascii')
    done = run('goo-setup', 'peer', 'add', '9', 'https://127.0.0.1:1', 'registry07', key,
               '--password-file', '/root/peer')
    user = add_user('registry09', 'peer', '09')
    assert done.returncode == 0 and user.returncode == 0, (done, user)
    assert outcome({'command': 'add_peer', 'key': 'p9', 'peer': 9}) == 'accepted'
    start('goo-exchange')
    assert 'registry 9: no answer' in journal('goo-exchange')


def test_the_peer_sees_the_outbox_for_it() -> None:
    assert comes(lambda: at_door('registry09', '/notices/state')[0] == '200')
    told = json.loads(at_door('registry09', '/notices/state')[1])
    assert (told['sender'], told['addressee']) == (7, 9)


def test_the_records_have_a_copy_of_the_state_and_nothing_by_a_link() -> None:
    state = Path('/var/lib/goo-exchange/state.json')
    copy = Path('/var/lib/goo-records/exchange.json')
    assert copy.owner() == 'goo-records' and copy.stat().st_mode & 0o777 == 0o440
    assert copy.read_bytes() == state.read_bytes()
    state.unlink()
    state.symlink_to('/etc/shadow')
    run('/usr/lib/goo/hand-over')
    assert copy.read_bytes() == b''
    state.unlink()


def test_own_lists_of_the_page_by_the_handbook() -> None:
    """The issuing body's own lists, in a file that no new version replaces."""
    shipped, done = at_door('office', '/lists.js')[1], shell('\n'.join(blocks("The page's lists")))
    with open(ETC / 'lists.js', 'a', encoding='utf-8') as lists:
        lists.write('// our own\n')
    assert done.returncode == 0, done
    assert at_door('office', '/lists.js') == ('200', f'{shipped}// our own\n')


# ------------------------------------------------------------------ units that end

def test_a_stop_leaves_the_database_alone_without_a_log_of_its_own() -> None:
    assert (REGISTRY / 'registry.db-wal').exists()
    run('systemctl', 'stop', 'goo')
    left = sorted(path.name for path in REGISTRY.iterdir())
    assert left == ['registry.db', 'reserve'], journal('goo')
    assert states('goo') == ['inactive'], journal('goo')


def test_it_starts_again_and_answers() -> None:
    start('goo')
    assert is_well() and outcome(holder('sun')) == 'repeated', journal('goo')


def hurried(unit: str) -> Path:
    """A file that has a unit started again at once."""
    path = Path(f'/run/systemd/system/{unit}.service.d/trial.conf')
    path.parent.mkdir(parents=True)
    path.write_text('[Service]\nRestartSec=100ms\n', encoding='ascii')
    run('systemctl', 'daemon-reload')
    return path


def restarts(unit: str) -> int:
    return int(shown(unit, 'NRestarts'))


def test_killed_twelve_times_in_a_row_it_runs() -> None:
    """More often than any limit of starts would let it."""
    hurried('goo')
    for _ in range(12):
        run('systemctl', 'kill', '--signal=KILL', '--kill-who=main', 'goo')
        time.sleep(0.3)
        become('active', 'goo')
    assert is_well() and restarts('goo') >= 12, journal('goo')


def test_a_question_while_the_log_is_killed_waits_for_it() -> None:
    run('systemctl', 'kill', '--signal=KILL', '--kill-who=main', 'goo-replica')
    assert at_door('office', '/v1/audit')[0] == '200' and is_well(), journal('goo-replica')


@contextlib.contextmanager
def starts_that_fail(unit: str) -> Iterator[None]:
    """The log without its key."""
    key, conf = ETC / 'replica.key', hurried(unit)
    key.rename(key.with_name('away'))
    run('systemctl', 'kill', '--signal=KILL', unit)
    try:
        yield
    finally:
        key.with_name('away').rename(key)
        conf.unlink()
        run('systemctl', 'daemon-reload')


def is_told_of_starts(name: str) -> bool:
    """Whether the operator is told of a unit that does not stay up. The timer's own look may come
    just before this one, and between two looks too few starts lie then: so there are some."""
    def is_told() -> bool:
        return MAILS.exists() and f'{name}.service' in MAILS.read_text()

    for _ in range(4):
        seen = restarts(name)
        start('goo-units')
        if comes(is_told, 5):
            return True
        comes(lambda: restarts(name) > seen + OFTEN, 60)
    return is_told()


def test_starts_that_fail_go_on_and_are_told() -> None:
    """More often than systemd's own limit of starts; who waits meanwhile is answered."""
    with starts_that_fail('goo-replica'):
        waiting = subprocess.Popen(['curl', '-s', '--max-time', '500', '--unix-socket',
                                    '/run/goo/door.sock',
                                    'http://goo/healthz'], stdout=subprocess.DEVNULL)
        assert comes(lambda: restarts('goo-replica') > 12, 200), restarts('goo-replica')
        assert states('goo-door.socket') == ['active']
        assert is_told_of_starts('goo-replica'), (
            journal('goo-units'), journal('goo-alarm@goo-units.service.service'))
    assert is_well() and waiting.wait(200) == 0
    start('goo-units')
    run('systemctl', 'reset-failed')                    # the starts of this trial count for a limit
    assert start('goo-units'), journal('goo-units')
    MAILS.unlink()


def test_nginx_that_is_killed_is_started_again_and_told() -> None:
    kept = Path('/run/goo-front/signed-in')
    at_door('office', '/v1/audit')
    assert kept.owner() == 'www-data' and kept.stat().st_mode & 0o777 == 0o700
    assert any(kept.glob('*/*')), 'a sign-in is kept'
    run('systemctl', 'kill', '--signal=KILL', 'nginx')
    assert comes(lambda: at_door('office', '/v1/audit')[0] == '200'), journal('nginx')
    assert comes(lambda: MAILS.exists() and 'nginx.service failed' in MAILS.read_text()), (
        journal('goo-alarm@nginx.service'))
    assert start('goo-health'), journal('goo-health')


def test_without_nginx_the_health_check_fails_and_says_why() -> None:
    run('systemctl', 'stop', 'nginx')
    assert not Path('/run/goo-front/signed-in').exists(), 'a stop takes the sign-ins away'
    assert not start('goo-health') and "Couldn't connect" in journal('goo-health')
    start('nginx')
    assert start('goo-health') and at_door('office', '/v1/audit')[0] == '200'


def test_the_doctor_looks_at_all_of_it_though_it_is_shut_in() -> None:
    start('goo-doctor')
    text = run('journalctl', '-u', 'goo-doctor', '--no-pager', '-o', 'cat').stdout
    own = ('Traceback', 'goo-setup:', 'refuses its configuration', 'cannot be read',
           'goo-doctor.service has failed', 'takes no requests')
    assert ' to look at' in text and not [word for word in own if word in text], text


@pytest.mark.parametrize('unit', ('goo-watch', 'goo-prune', 'goo-records-check'))
def test_a_unit_ends_well_shut_in_as_it_is(unit: str) -> None:
    assert start(unit), journal(unit)
    run('systemctl', 'reset-failed')


# ------------------------------------------------------------------ copies

def test_a_copy_is_made_and_the_registry_is_not_stopped_for_it() -> None:
    before = shown('goo', 'ExecMainStartTimestampMonotonic')
    assert start('goo-backup'), journal('goo-backup')
    assert shown('goo', 'ExecMainStartTimestampMonotonic') == before


def test_a_copy_is_whole_by_its_list_and_its_recount_finds_nothing() -> None:
    copy = copies()[-1]
    done = run('sha256sum', '--check', '--quiet', 'SHA256SUMS', cwd=copy)
    assert done.returncode == 0, done
    assert ' hold, 0 broken' in (copy / 'recount.txt').read_text(encoding='utf-8')


def test_keys_and_passwords_are_in_no_copy_and_root_alone_reads_it() -> None:
    copy = copies()[-1]
    names = set(run('tar', '--list', '--file', copy / 'configuration.tar').stdout.split())
    assert {'./users', './lists.js'} <= names
    assert not names & {'./tls/key.pem', './peers/09', './exchange.key', './replica.key'}
    assert not (copy.stat().st_mode | COPIES.stat().st_mode) & 0o077


def test_the_archive_is_verified_from_the_copy() -> None:
    done = run('goo-replica-log', 'verify', '--from', copies()[-1])
    assert done.returncode == 0, done


def test_above_the_number_that_is_kept_the_oldest_copy_goes() -> None:
    before, done = copies(), run('goo-replica-log', 'copy', '--keep', len(copies()))
    assert done.returncode == 0, done
    assert copies()[:-1] == before[1:] and len(copies()) == len(before)


def add_log(copy: Path) -> None:
    (copy / 'registry.db-wal').write_bytes(b'log')


def replace_database(copy: Path) -> None:
    (copy / 'registry.db').write_bytes(b'other')


def remove_list(copy: Path) -> None:
    (copy / 'SHA256SUMS').unlink()


@pytest.mark.parametrize('spoil', (add_log, replace_database, remove_list))
def test_a_copy_that_is_not_the_one_that_was_made_is_refused(
        spoil: Callable[[Path], None]) -> None:
    copy = Path('/root/spoilt')
    shutil.rmtree(copy, ignore_errors=True)
    shutil.copytree(copies()[-1], copy)
    spoil(copy)
    done = run('goo-copies', 'restore', copy)
    assert done.returncode == 1 and 'Traceback' not in done.stderr, done
    assert is_well() and outcome(holder('sun')) == 'repeated'


def test_a_copy_that_is_killed_leaves_none_and_the_next_one_is_made() -> None:
    slow, before = Path('/usr/local/bin/tar'), copies()
    slow.write_text('#!/bin/sh\nsleep 5\nexec /usr/bin/tar "$@"\n', encoding='ascii')
    slow.chmod(0o755)
    run('systemctl', 'start', '--no-block', 'goo-backup')
    begun = comes(lambda: list(COPIES.glob('part-*')), 60)
    run('systemctl', 'kill', '--signal=KILL', 'goo-backup')
    slow.unlink()
    assert begun and become('failed', 'goo-backup') and copies() == before
    assert start('goo-backup'), journal('goo-backup')
    assert len(copies()) == len(before) + 1 and not list(COPIES.glob('part-*'))


def test_the_replica_alone_is_told_a_hash_over_all_rows() -> None:
    """What three hosts compare."""
    start('goo-rows.socket')
    told = [run('runuser', '-u', user, '--', '/usr/bin/python3', '-c', ROWS)
            for user in ('goo-replica', 'goo-replica', 'goo-agent', 'www-data')]
    assert re.fullmatch('copied\n[0-9a-f]{64}', told[0].stdout.strip()), journal('goo-rows@*')
    assert told[0].stdout == told[1].stdout
    assert all('PermissionError' in one.stderr for one in told[2:]), told


def test_back_to_a_copy_nothing_has_to_be_sent_again() -> None:
    """The log brings what came since."""
    assert outcome(holder('since')) == 'accepted'
    done = run('goo-copies', 'restore', copies()[-1].name)
    assert done.returncode == 0 and 'nothing has to be sent again' in done.stdout, done
    assert is_well() and outcome(holder('since')) == 'repeated'
    assert at_door('office', '/v1/audit')[0] == '200'


@pytest.mark.slow
def test_a_restore_that_is_killed_eight_times_ends_in_the_ninth() -> None:
    """Cut off at any moment and given again, it ends as one that ran through."""
    chance = random.Random(7)
    assert outcome(holder('kept')) == 'accepted'
    for _ in range(8):
        with subprocess.Popen(['goo-copies', 'restore', copies()[-1].name],
                              stdout=subprocess.DEVNULL,
                              stderr=subprocess.DEVNULL, start_new_session=True) as restore:
            time.sleep(chance.uniform(0.1, 4))
            os.killpg(restore.pid, signal.SIGKILL)
    done = run('goo-copies', 'restore', copies()[-1].name)
    assert done.returncode == 0, done
    assert is_well() and outcome(holder('kept')) == 'repeated'


def test_a_wrong_date_is_taken_back_by_the_handbook() -> None:
    """What came after it is sent again, and the door is closed until the exchange is settled."""
    find, undo, _ = blocks('The date is wrong')
    assert run('goo-advance', '2031-01-01', '--confirm', '2031-01-01').returncode == 0
    outcome(holder('after'))
    found = shell(find).stdout
    numbers = [int(n) for n, day in re.findall(r'"n":(\d+),.*?"day.*?(\d{4}-\d\d-\d\d)', found)
               if day == '2031-01-01']
    assert len(numbers) == 1, found
    done = shell(undo.replace(' N', f' {numbers[0]}'))
    assert done.returncode == 0, done
    assert f'1 entries after entry {numbers[0]} were sent again' in done.stdout, done
    assert at_door('office', '/v1/audit')[0] == '502' and is_well()


def test_the_door_opens_once_the_exchange_is_settled() -> None:
    start('goo-exchange')
    run('runuser', '-u', 'goo-agent', '--', 'goo-exchange', '--without', '9')
    done = run('goo-copies', 'restore', '--open')
    assert done.returncode == 0, done
    assert start('goo-advance'), journal('goo-advance')
    assert is_well() and outcome(holder('after')) == 'repeated'
    statement = at_door('office', '/v1/accounts/1/statement')
    assert statement[0] == '200' and '2031' not in statement[1][:200]


def test_the_archive_holds_then_and_the_next_copy_is_made() -> None:
    done = run('goo-replica-log', 'verify')
    assert done.returncode == 0, done
    assert start('goo-backup'), journal('goo-backup')


def test_a_registry_that_is_down_is_told_by_mail() -> None:
    MAILS.unlink(missing_ok=True)
    for stamp in Path('/run/goo-alarm').glob('*.told'):         # one mail an hour of each unit
        stamp.unlink()
    run('systemctl', 'stop', 'goo')
    # the log has to see for a while that nothing answers
    assert comes(lambda: not start('goo-health'))
    assert comes(lambda: MAILS.exists() and 'goo-health.service failed' in MAILS.read_text()), (
        journal('goo-health'))
    start('goo')
    assert is_well()


# ------------------------------------------------------------------ removal

def test_removed_nothing_of_it_runs_and_nginx_goes_on() -> None:
    done = run('dpkg', '--remove', 'goo')
    assert done.returncode == 0 and not active() and states('nginx') == ['active'], done


def test_installed_and_set_up_again_the_registry_goes_on() -> None:
    done = install(NEW), set_up()
    assert [one.returncode for one in done] == [0, 0], done
    assert is_well() and outcome(holder('sun')) == 'repeated'


def test_purged_the_registry_and_its_copies_stay_and_nothing_else() -> None:
    files = files_of_package()
    run('dpkg', '--purge', 'goo')
    assert not [path for path in files if not path.is_dir()
                and (path.exists() or path.is_symlink())]
    assert not list(Path('/etc/systemd/system').rglob('*goo*')), 'no link to a unit'
    assert (REGISTRY / 'registry.db').exists() and copies() and any(ARCHIVE.iterdir())
