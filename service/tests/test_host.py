"""The host around the registry: units, set-up, upgrade, certificates, and what root touches."""
import datetime
import functools
import json
import os
import signal
import subprocess
import time
from collections.abc import Iterator
from importlib import import_module
from pathlib import Path
from types import ModuleType
from types import SimpleNamespace
from typing import Any

import pytest

from goo_service.common.client import Answer
from goo_service.setup import certificates
from goo_service.setup import common
from goo_service.setup import doctor
from goo_service.setup.health import Health
from host_stage import FOLDERS
from host_stage import USERS
from host_stage import Canary
from host_stage import Done
from host_stage import Stage
from service_commands import command

TOP = Path(__file__).resolve().parents[2]
SERVICE = TOP / 'service'


def closed_early(*words: object, **more: Any) -> subprocess.CompletedProcess[str]:
    """A program whose output nobody reads."""
    process = subprocess.Popen([str(word) for word in words], stdout=subprocess.PIPE,
                               stderr=subprocess.PIPE, text=True, **more)
    assert process.stdout and process.stderr
    process.stdout.close()
    said = process.stderr.read()
    return subprocess.CompletedProcess(process.args, process.wait(30), '', said)


def test_the_state_of_the_exchange_may_be_read_in_part(tmp_path: Path) -> None:
    (tmp_path / 'state.json').write_text('{}\n' * 100_000)
    done = closed_early(*command('goo-exchange', SERVICE), '--folder', tmp_path, '--state')
    assert 'Traceback' not in done.stderr and 'Broken' not in done.stderr, done.stderr
    assert done.returncode == 0


# ------------------------------------------------------------------ the stage

@pytest.fixture(scope='module')
def whole_stage() -> Iterator[Stage]:
    if os.geteuid():
        pytest.skip('mounts and users of its own, for which it has to run as root')
    with Stage(TOP) as stage:
        yield stage


PREPARED = '''
rm -rf /var/lib/goo* /etc/goo /run/goo /run/goo-upgrade /run/stage/active /run/stage/restarts*
rm -rf /var/backups/goo /usr/lib/goo/goo.before /usr/lib/goo/goo.refused
rm -rf /etc/systemd/system/goo* /run/stage/refuses* /run/stage/enabled*
mkdir -p /run/goo /run/stage/active /var/backups/goo /etc/goo /etc/nginx
cp -a /usr/share/goo/etc/nginx/goo.conf /etc/nginx/
for pair in goo:goo goo-exchange:goo-agent goo-replica:goo-replica goo-records:goo-records \
    goo-etcd:goo-etcd; do
    install -d -m 750 -o ${pair#*:} -g ${pair#*:} /var/lib/${pair%:*}
done
openssl rand -hex 32 > /etc/goo/replica.key
chown goo-replica /etc/goo/replica.key
chmod 400 /etc/goo/replica.key
: > /run/stage/openings
: > /run/stage/calls
'''
RUNS = ('goo-door.socket', 'goo.service', 'goo-replica.service', 'goo-registry.socket',
        'goo-backup.timer')


@pytest.fixture
def stage(whole_stage: Stage) -> Stage:
    """A host with the users and the empty folders of the package."""
    whole_stage.shell(PREPARED)
    whole_stage.program('1.0.0')
    return whole_stage


# ------------------------------------------------------------------ a new version

@pytest.fixture
def registry(stage: Stage) -> Iterator[Stage]:
    """A registry of version 1.0.0 that runs behind its log."""
    stage.shell('setpriv --reuid=goo --regid=goo --clear-groups '
                'goo init --db /var/lib/goo/registry.db\n'
                'goo-replica-log found\n'
                f'systemctl start {" ".join(RUNS)}\n: > /run/stage/openings')
    door = stage.begin('/usr/bin/python3', '/usr/lib/stage/door.py')
    for _ in range(100):
        if is_well(stage):
            break
        time.sleep(0.05)
    assert is_well(stage)
    yield stage
    stage.shell('kill "$(cat /run/stage/door.pid)"')
    door.wait(10)


def is_well(stage: Stage) -> bool:
    """Whether the registry takes requests."""
    words = ('curl', '-s', '--max-time', '5', '-o', '/dev/null', '-w', '%{http_code}',
             '--unix-socket',
             '/run/goo/door.sock', 'http://localhost/healthz')
    return stage.run(*words).out == '200'


def unpack(stage: Stage, tables: int = 2, more: str = '') -> None:
    """What dpkg does with a new package up to its postinst."""
    for name in ('preinst', 'postinst'):
        text = (SERVICE / f'debian/goo.{name}').read_text(encoding='utf-8')
        stage.put(f'/run/stage/{name}', text, 0o755)
    done = stage.run('/run/stage/preinst', 'upgrade', '1.0.0')
    assert done.status == 0, done
    stage.program('1.1.0', tables, more)


def configure(stage: Stage) -> Done:
    return stage.run('/run/stage/postinst', 'configure', '1.0.0')


def version(stage: Stage) -> str:
    return stage.run('goo', '--version').out.strip()


def test_a_new_version_opens_the_file_once(registry: Stage) -> None:
    unpack(registry)
    done = configure(registry)
    assert done.status == 0, done
    assert registry.lines('/run/stage/openings') == ['serve']
    assert set(RUNS) <= registry.active() and is_well(registry)
    assert version(registry) == 'goo 1.1.0' and 'the version is goo 1.1.0' in done.out
    assert not registry.run('ls', '/usr/lib/goo/goo.before', '/run/goo-upgrade').out
    assert {'goo-units.timer', 'goo-doctor.timer'} <= registry.active(), 'what is new is started'


def test_a_stop_puts_the_log_into_the_database(registry: Stage) -> None:
    registry.shell('systemctl stop goo.service')
    assert registry.lines('/run/stage/openings') == ['run']


@pytest.mark.parametrize(('result', 'code'), [('signal', 'killed'), ('exit-code', 'exited'),
                                              ('success', 'exited'), ('oom-kill', 'killed')])
def test_a_registry_that_is_started_again_is_opened_once(
        registry: Stage, result: str, code: str) -> None:
    registry.shell(f'SERVICE_RESULT={result} EXIT_CODE={code} '
                   '/usr/lib/goo/close-database /var/lib/goo/registry.db')
    assert registry.lines('/run/stage/openings') == []


@pytest.mark.parametrize('fault', ['no key of the log', 'tables of another version',
                                   'a program that does not run', 'a program that crashes'])
def test_a_version_that_does_not_take_over_leaves_the_one_of_before(
        registry: Stage, fault: str) -> None:
    if fault == 'no key of the log':
        registry.shell('mv /etc/goo/replica.key /etc/goo/kept')
    unpack(registry, 3 if fault == 'tables of another version' else 2,
           'exit 3;' if fault == 'a program that does not run' else
           ': CRASHES;' if fault == 'a program that crashes' else '')
    if fault == 'a program that crashes':
        registry.put('/run/stage/restarts-goo.service', '5\n')
    done = configure(registry)
    assert done.status != 0, done
    assert set(RUNS) <= registry.active(), done
    assert version(registry) == 'goo 1.0.0' and is_well(registry), done
    assert 'dpkg --configure goo' in done.err, done
    registry.shell('[ ! -e /etc/goo/kept ] || mv /etc/goo/kept /etc/goo/replica.key')
    registry.shell('rm -f /run/stage/restarts-goo.service')
    if registry.run('ls', '/usr/lib/goo/goo.refused').out:
        registry.shell('sed -i "s/exit 3;//; s/: CRASHES;//; s/VALUES (3,/VALUES (2,/; '
                       's/= 3 /= 2 /" /usr/lib/goo/goo.refused')
    done = configure(registry)
    assert done.status == 0 and version(registry) == 'goo 1.1.0' and is_well(registry), done


@pytest.mark.parametrize('number', [signal.SIGKILL, signal.SIGTERM, signal.SIGHUP])
def test_a_set_up_that_is_ended_half_way_leaves_what_ran(registry: Stage, number: int) -> None:
    unpack(registry, more='[ -e /run/stage/goes-on ] || { touch /tmp/waits; sleep 30; };')
    registry.shell('rm -f /tmp/waits')
    begun = registry.begin('/usr/bin/goo-setup', 'upgraded')
    for _ in range(200):
        if registry.run('ls', '/tmp/waits').out:
            break
        time.sleep(0.05)
    assert 'goo.service' not in registry.active(), 'the registry is stopped by now'
    pid = registry.shell('pgrep -f "goo-setup upgraded"').out.split()[0]
    registry.shell(f'kill -{int(number)} {pid}; touch /run/stage/goes-on')
    begun.wait(60)
    assert begun.returncode != 0
    if number != signal.SIGKILL:
        said = (registry.folder / 'said').read_text()
        assert set(RUNS) <= registry.active() and is_well(registry), said
    done = configure(registry)
    registry.shell('rm /run/stage/goes-on')
    assert done.status == 0 and set(RUNS) <= registry.active() and is_well(registry), done
    assert version(registry) == 'goo 1.1.0'


def test_what_around_the_registry_refuses_the_new_version_is_told(registry: Stage) -> None:
    registry.shell('systemctl start nginx.service')
    registry.put('/etc/nginx/conf.d/broken.conf', 'no such word;\n')
    registry.put('/etc/goo/callers', 'office ISSUER\n')
    unpack(registry)
    done = configure(registry)
    registry.shell('rm /etc/nginx/conf.d/broken.conf')
    assert done.status != 0 and 'nginx -t' in done.err, done
    assert version(registry) == 'goo 1.1.0' and is_well(registry), 'the registry itself went over'
    assert registry.run('stat', '-c', '%a', '/etc/goo/callers').out == '640\n'
    done = configure(registry)
    assert done.status == 0, done


def test_a_registry_that_was_stopped_stays_so(registry: Stage) -> None:
    registry.shell(f'systemctl stop {" ".join(RUNS)}; : > /run/stage/openings')
    unpack(registry)
    done = configure(registry)
    assert done.status == 0 and registry.active() == set(), (done, registry.active())
    assert registry.lines('/run/stage/openings') == []


def test_a_host_of_three_waits_for_its_renewal(registry: Stage) -> None:
    registry.put('/etc/goo/replica.env',
                 'REPLICA_WORDS=--name h1 --code 7 --etcd https://192.0.2.1:2379\n')
    unpack(registry)
    done = configure(registry)
    assert done.status == 0 and 'goo-setup renew' in done.out, done
    assert registry.lines('/run/stage/openings') == []


RENEWED = '''
import sys
from goo_service.setup import cluster
from goo_service.setup import common
from goo_service.setup import upgrade
upgrade.words_of_log = lambda: ['--name', 'h1']
cluster.log_version = lambda: cluster.log_end().version
try:
    upgrade.renew()
except common.Refused as fault:
    sys.exit(str(fault))
'''
"""`goo-setup renew` on a host whose log is in files.

Over etcd it differs by where the version stands.
"""


def test_a_renewal_takes_over(registry: Stage) -> None:
    unpack(registry)
    done = registry.python(RENEWED)
    assert done.status == 0 and version(registry) == 'goo 1.1.0' and is_well(registry), done
    assert not registry.run('ls', '/usr/lib/goo/goo.before').out


def test_a_renewal_that_fails_goes_back_with_the_log(registry: Stage) -> None:
    unpack(registry, more=': CRASHES;')
    registry.put('/run/stage/restarts-goo.service', '5\n')
    done = registry.python(RENEWED)
    assert done.status == 1 and 'goo-setup renew tries the new one again' in done.err, done
    assert version(registry) == 'goo 1.0.0' and is_well(registry), 'the log is at its version again'
    assert set(RUNS) <= registry.active(), done
    registry.shell('rm /run/stage/restarts-goo.service\n'
                   'sed -i "s/: CRASHES;//" /usr/lib/goo/goo.refused')
    done = registry.python(RENEWED)
    assert done.status == 0 and version(registry) == 'goo 1.1.0' and is_well(registry), done


def test_a_host_does_not_go_back_behind_a_log_that_others_have_moved(registry: Stage) -> None:
    unpack(registry, more=': CRASHES;')
    registry.put('/run/stage/restarts-goo.service', '5\n')
    registry.shell('goo-replica-log version "goo 1.1.0"')
    done = registry.python(RENEWED)
    assert done.status == 1 and version(registry) == 'goo 1.1.0', done
    assert 'the version is goo 1.0.0' not in done.out, 'the others apply entries by the new one'


# ------------------------------------------------------------------ the set-up

@pytest.mark.parametrize(('words', 'lacks'), [('', "the host's name"),
                                              ('--name a.example --self-signed', 'the first user')])
def test_a_set_up_that_nobody_answers_says_what_it_lacks(
        stage: Stage, words: str, lacks: str) -> None:
    done = stage.run('sh', '-c', f'exec goo-setup {words} < /dev/null')
    assert done.status == 1 and 'Traceback' not in done.err, done
    assert f'goo-setup: {lacks}' in done.err and 'was not given' in done.err, done


def test_a_provider_is_reached_as_long_as_a_file_names_one(stage: Stage) -> None:
    path, drop_in = '/etc/goo/people-oidc.conf', '/etc/systemd/system/goo-people-web.service.d'
    text = ('[provider]\nissuer = https://login.body.example\nclient = goo\n'
            'secret_file = /etc/goo/people-oidc.secret\nsite = https://registry.example\n')
    for name, what in ((path, text), ('/etc/goo/people-oidc.secret', 'a word')):
        stage.put(name, what)
    done = stage.run('goo-setup', 'people', 'provider')
    assert done.status == 0, done
    assert 'https://registry.example/people/v1/oidc/return' in done.out
    assert 'PrivateNetwork=no' in stage.text(f'{drop_in}/oidc.conf')
    assert stage.lines('/run/stage/calls')[-2:] == ['daemon-reload',
                                                    'try-restart goo-people-web.service']
    stage.put(path, text.replace('issuer', 'isuer'))
    done = stage.run('goo-setup', 'people', 'provider')
    assert done.status == 1 and f'{path}: [provider] has isuer' in done.err, done
    stage.run('rm', path)
    assert stage.run('goo-setup', 'people', 'provider').status == 0
    assert stage.run('test', '-e', f'{drop_in}/oidc.conf').status == 1


def test_a_host_that_joins_has_what_the_first_one_packed(stage: Stage) -> None:
    owners = {'/var/lib/goo': 'goo', '/var/lib/goo-replica': 'goo-replica',
              '/var/lib/goo-records/first': 'goo-records'}
    for folder, user in owners.items():
        stage.shell(f'setpriv --reuid={user} --regid={user} --clear-groups sh -ec '
                    f'"mkdir -p {folder}/archive {folder}/log;'
                    f' echo {user} > {folder}/archive/kept; echo x > {folder}/log/left;'
                    f' chmod 600 {folder}/archive/kept"')
    done = stage.python(PACKED)
    assert done.status == 0, done
    for folder, user in owners.items():
        assert stage.text(f'{folder}/archive/kept') == f'{user}\n'
        said = stage.run('stat', '-c', '%U %G %a', f'{folder}/archive/kept').out
        assert said == f'{user} {user} 600\n'
        assert stage.run('ls', f'{folder}/log').status != 0, 'the log of the first host stays there'


PACKED = '''
import pathlib
from goo_service.setup import common
from goo_service.setup import cluster
root = pathlib.Path('/run/stage/packed')
root.mkdir()
for name, folder in cluster.THEIR_FOLDERS.items():
    cluster.pack_folder(folder, root / name)
common.run('tar', '--create', '--file', root / 'all', '--directory', root, *cluster.THEIR_FOLDERS)
common.run('sh', '-ec', 'rm -rf /var/lib/goo/* /var/lib/goo-replica/* /var/lib/goo-records/*')
for name, folder in cluster.THEIR_FOLDERS.items():
    cluster.unpack_folder(root / 'all', name, folder)
'''
"""Packs the folders of the services on a first host, and unpacks them as on one that joins."""


# ------------------------------------------------------------------ what root must not touch

NAMES = {
    '/var/lib/goo': 'registry.db registry.db-wal registry.db-journal registry.db-shm reserve '
                    'restoring restoring-configuration before-2025',
    '/var/lib/goo-exchange': 'state.json generation.json restored.json outbox inbox refused lock',
    '/var/lib/goo-replica': 'place log archive aside shipped shipped.part place.part .ssh',
    '/var/lib/goo-records':
        'first first.part exchange.json exchange.json.part current .lock code.key',
    '/var/lib/goo-etcd': 'data',
}
"""What stands in the folder of a service, or could."""
PLANTS = {
    'links to a file': 'ln -s /run/canary/file "$1"',
    'links to a folder': 'ln -s /run/canary/folder "$1"',
    'pipes': 'mkfifo "$1"',
    'folders with links': 'mkdir "$1"; ln -s /run/canary/file "$1/2025-01.jsonl"; '
                          'ln -s /run/canary/folder "$1/00000000000000000001.jsonl"; '
                          'ln -s /run/canary/file "$1/place.json"; '
                          'ln -s /run/canary/folder "$1/folder"',
}
AROUND_THE_LOG = (
    'goo-replica-log verify', 'goo-replica-log verify --from {COPY}', 'goo-replica-log compress',
    'goo-replica-log found', 'goo-replica-log version x', 'goo-replica-log first-copy',
    'goo-replica-log place {COPY}', 'goo-replica-log copy',
    'goo-setup upgraded', 'goo-copies restore {COPY} --without-list --although-broken',
    'goo-copies restore {COPY} --without-list --although-broken --new-log',
    'goo-copies restore --open --unsettled', 'goo-setup --self-signed')
"""What root carries out by the programs of the log and of the copies.

The later ones change what runs.
"""
ROOTS_FOLDERS = ('/run', '/run/goo', '/run/goo-front', '/var/lib', '/var/log/goo',
                 '/var/backups/goo', '/etc/goo', '/etc/goo/peers', '/etc/goo/tls',
                 '/usr/lib/goo', '/run/goo-units')
COPY = '/var/backups/goo/2025-01-01T000000Z'
WORK = {
    'goo-setup doctor': 'goo-setup doctor',
    'goo-setup status': 'goo-setup status',
    'watch': '/usr/lib/goo/watch',
    'what a host that joins is given': r'''python3 - <<'END'
import contextlib, pathlib, shutil, subprocess
from goo_service.setup import common
from goo_service.setup import cluster
common.SECONDS = cluster.SECONDS = 1
shutil.rmtree('/run/stage/root', ignore_errors=True)
root = pathlib.Path('/run/stage/root'); root.mkdir()
def attempt(work, *words):
    with contextlib.suppress(common.Refused, subprocess.TimeoutExpired): work(*words)
attempt(cluster.log_end)
attempt(common.code_of_registry)
common.holds_registry()
for name, folder in cluster.THEIR_FOLDERS.items():
    attempt(cluster.pack_folder, folder, root / name)
    (root / 'x').write_text('x')
    common.run('tar', '--create', '--file', root / f'{name}.all', '--directory', root, name, 'x')
    attempt(cluster.unpack_folder, root / f'{name}.all', name, folder)
END''',
    'the copy for the book': rf'''python3 - <<'END'
import pathlib
from goo_service.common import owner
from goo_service.copies import book
from goo_service.setup import registry
registry.place_folders()
etc = pathlib.Path('/etc/goo')
(etc / 'records.conf').unlink(missing_ok=True)
try:
    print(book.place_beginning(pathlib.Path('{COPY}'), 1, etc))
except (owner.NotDone, OSError) as fault:
    print(fault)
END''',
}
"""What root carries out by programs of this package, but for those that change what runs."""


def privileged_lines() -> dict[str, str]:
    """The lines of units that systemd carries out as root, outside of what shuts a unit in."""
    found = {}
    files = ('etc/systemd/*.service', 'etc/systemd/*.d/*', 'etc/drop-ins/*')
    for path in (path for form in files for path in SERVICE.glob(form)):
        for line in path.read_text(encoding='utf-8').splitlines():
            name, _, words = line.partition('=')
            if name.startswith('Exec') and '+' in words[:3]:
                found[f'{path.name} {name}'] = words.lstrip('-+!@:')
    return found


@pytest.fixture
def planted(stage: Stage) -> Iterator[Stage]:
    """A host with a configuration and a copy, on which nothing runs."""
    stage.shell('mkdir -p /etc/goo/tls /etc/goo/peers\n'
                'echo "server_name a.example;" > /etc/goo/host.conf\n'
                'openssl req -x509 -newkey ec -pkeyopt ec_paramgen_curve:P-256 -nodes -days 90 '
                '-subj /CN=a.example -keyout /etc/goo/tls/key.pem -out /etc/goo/tls/cert.pem '
                '2> /dev/null\n'
                'chmod 600 /etc/goo/tls/key.pem; : > /etc/goo/callers; : > /etc/goo/users\n'
                f'mkdir {COPY}; sqlite3 {COPY}/registry.db "CREATE TABLE receipt (x); '
                'INSERT INTO receipt VALUES (1)"\n'
                f'echo "{{\\"n\\": 3}}" > {COPY}/place.json\n')
    yield stage


def plant(stage: Stage, kind: str) -> Canary:
    """Each user puts this into the place of all that stands in its folder, or could."""
    canary = Canary(stage)
    for user_folder, names in NAMES.items():
        user = FOLDERS[user_folder]
        text = f'cd {user_folder}; for name in {names}; do set -- "$name"; {PLANTS[kind]}; done'
        done = stage.run('setpriv', f'--reuid={user}', f'--regid={user}', '--clear-groups', 'sh',
                         '-ec', text)
        assert done.status == 0, done
    assert canary.seen() == [], 'planting itself touches nothing'
    return canary


@pytest.mark.parametrize('kind', PLANTS)
def test_root_follows_nothing_that_a_service_has_planted(planted: Stage, kind: str) -> None:
    canary = plant(planted, kind)
    for what, text in {**privileged_lines(), **WORK}.items():
        done = planted.run('sh', '-c', text, seconds=100)
        said = done.out + done.err
        assert 'Traceback' not in done.err and 'SECRET' not in said, f'{what}: {done}'
        assert canary.seen() == [], f'{what}: {done}'
    secrets = planted.run('grep', '-rlD', 'skip', 'SECRET', '/var/lib', '/var/backups', '/etc/goo',
                          '/run/goo')
    assert secrets.out == '', 'a copy of it is somewhere'
    canary.close()


@pytest.mark.parametrize('kind', [kind for kind in PLANTS if kind != 'pipes'])
def test_root_follows_nothing_around_the_log(planted: Stage, kind: str) -> None:
    planted.shell(f'cd {COPY}; rm registry.db\n'
                  'sqlite3 registry.db "CREATE TABLE meta (version, code)"\n'
                  'echo ok > audit.txt\n'
                  'echo \'{"n": 3, "hash": "a", "chain": "b", "version": "c"}\' > place.json\n'
                  'systemctl start goo.service goo-replica.service')
    canary = plant(planted, kind)
    for words in AROUND_THE_LOG:
        text = f'PATH=/usr/lib/goo:$PATH; exec timeout -k 1 20 {words.replace("{COPY}", COPY)}'
        done = planted.run('sh', '-c', text)
        # for a log that nothing on this host takes up
        waits = '--new-log' in words or '--open' in words
        assert (done.status != 124 or waits) and 'Traceback' not in done.err, f'{words}: {done}'
        assert canary.seen() == [], f'{words}: {done}'
    canary.close()


def test_each_user_writes_into_folders_of_its_own_alone(planted: Stage) -> None:
    planted.shell('systemd-tmpfiles --create goo.conf')
    for user in USERS:
        text = (f'for folder in {" ".join(ROOTS_FOLDERS)}; do '
                '[ ! -w "$folder" ] || echo "$folder"; done')
        done = planted.run('setpriv', f'--reuid={user}', f'--regid={user}', '--init-groups', 'sh',
                           '-c', text)
        assert done.out == '', f'{user}: {done.out}'


def test_the_records_are_handed_what_the_exchange_told(planted: Stage) -> None:
    planted.shell('echo {} > /var/lib/goo-exchange/state.json; /usr/lib/goo/hand-over')
    copied = '/var/lib/goo-records/exchange.json'
    assert planted.run('stat', '-c', '%U %a', copied).out == 'goo-records 440\n'
    assert planted.text(copied) == '{}\n'


# ------------------------------------------------------------------ what the doctor tells

@functools.cache
def signed(days: int) -> str:
    """A certificate that this host signs itself, for so many days from now."""
    words = ['openssl', 'req', '-x509', '-newkey', 'ec', '-pkeyopt', 'ec_paramgen_curve:P-256',
             '-nodes', '-days', str(days), '-subj', '/CN=a.example', '-keyout', '/dev/null']
    return subprocess.run(words, check=True, capture_output=True, text=True).stdout


def certificate(path: Path, days: int) -> None:
    path.parent.mkdir(parents=True, exist_ok=True)
    path.write_text(signed(days), encoding='ascii')


@pytest.fixture
def etc(tmp_path: Path, monkeypatch: pytest.MonkeyPatch) -> Path:
    """The configuration of one of three hosts, whose certificates hold for long."""
    folder = tmp_path / 'etc'
    for name in ('tls/cert', 'etcd/ca', 'etcd/member', 'etcd/replica', 'peers/09'):
        certificate(folder / f'{name}.pem', 100)
    (folder / 'host.conf').write_text('server_name a.example;\n')
    (folder / 'exchange.conf').write_text(f'[peer 9]\nauthority = {folder}/peers/09.pem\n')
    (folder / 'records.conf').write_text('GOO_RECORDS_BEGIN=--begun 7 2025-03-01 1\n')
    monkeypatch.setattr(doctor, 'ETC', folder)
    monkeypatch.setattr(certificates, 'words_of_log', lambda: ['--etcd', 'https://192.0.2.1:2379'])
    return folder


@pytest.mark.parametrize('name', ['tls/cert', 'etcd/ca', 'etcd/member', 'etcd/replica', 'peers/09'])
@pytest.mark.parametrize(('days', 'told'), [
    (32, ''), (30, 'ends in 29 days'), (1, 'ends in 0 days')])
def test_a_certificate_is_told_thirty_days_before_its_end(
        etc: Path, name: str, days: int, told: str) -> None:
    assert list(doctor.of_certificates()) == []
    certificate(etc / f'{name}.pem', days)
    found = [finding.what for finding in doctor.of_certificates()]
    assert len(found) == bool(told), found
    assert all(f'{name}.pem' in what and told in what for what in found), found


def test_a_certificate_that_has_ended_is_told(etc: Path, monkeypatch: pytest.MonkeyPatch) -> None:
    later = certificates.utc_now() + datetime.timedelta(101)
    monkeypatch.setattr(certificates, 'utc_now', lambda: later)
    assert sum('has ended' in finding.what for finding in doctor.of_certificates()) == 5


def test_each_certificate_of_a_chain_is_looked_at(etc: Path) -> None:
    chain = etc / 'tls/cert.pem'
    chain.write_text(signed(100) + signed(10))
    assert len(list(doctor.of_certificates())) == 1
    chain.write_text('no certificate')
    assert ['cannot be read' in finding.what for finding in doctor.of_certificates()] == [True]


@pytest.fixture
def book(etc: Path, monkeypatch: pytest.MonkeyPatch) -> SimpleNamespace:
    """A registry of three accounts, and a book that has the first `accounts` of them."""
    state = SimpleNamespace(accounts=3, code=7)

    def fetch(path: str, route: str) -> Answer:
        number = int(route.partition('account=')[2].partition('&')[0])
        items = [{'account': number}] if number <= state.accounts else []
        return Answer(200, {}, json.dumps({'stands': {}, 'items': items}).encode())

    monkeypatch.setattr(doctor, 'fetch', fetch)
    monkeypatch.setattr(doctor, 'meta_of', lambda *_: 4)
    monkeypatch.setattr(doctor, 'code_of_registry', lambda: state.code)
    return state


def test_a_book_that_fits_its_log_is_well(book: SimpleNamespace) -> None:
    assert list(doctor.of_book(40, 40)) == []
    assert list(doctor.of_book(40, 20)) == [], 'it comes after the log'


@pytest.mark.parametrize(('accounts', 'stands', 'code', 'told'), [
    (0, 40, 7, 'have not account 3'), (2, 40, 7, 'have not account 3'),
    (3, 41, 7, 'are of another log'), (3, 40, 8, 'with registry 7, and this is registry 8')])
def test_a_book_of_another_beginning_is_told(
        book: SimpleNamespace, accounts: int, stands: int, code: int, told: str) -> None:
    book.accounts, book.code = accounts, code
    found = list(doctor.of_book(40, stands))
    assert len(found) == 1 and told in found[0].what and 'records.conf' in found[0].text(), found
    assert found[0].row is doctor.Row.RECORDS


def test_the_book_is_asked_before_the_log(
        monkeypatch: pytest.MonkeyPatch, book: SimpleNamespace) -> None:
    """A request that comes between the two makes no fault of it."""
    state = {'entry': 40}

    def went_on(answer: object) -> object:
        state['entry'] += 1
        return answer

    today = datetime.date.today().isoformat()
    monkeypatch.setattr(doctor, 'book', lambda: went_on({'entry': state['entry'], 'today': today}))
    monkeypatch.setattr(doctor, 'health', lambda: went_on(Health('', state['entry'])))
    assert list(doctor.of_registry()) == []


def test_what_services_wrote_reaches_no_terminal_as_it_is(capsys: pytest.CaptureFixture[str],
                                                          monkeypatch: pytest.MonkeyPatch) -> None:
    finding = doctor.Finding('\x1b[2Ja\r\nb', doctor.Row.UNIT, 'c\x07')
    monkeypatch.setattr(doctor, 'findings', lambda: iter([finding]))
    assert doctor.doctor() == 1
    said = capsys.readouterr().out
    wanted = ['?[2Ja??b', '    WRONG.md, "A unit has failed"', '    c?']
    assert said.splitlines()[:3] == wanted


# ------------------------------------------------------------------ the units

LINKED = [Path(line.split()[1])
          for line in (SERVICE / 'debian/goo.links').read_text().splitlines()]
"""What the package has by a link."""


def drop_ins(unit: Path) -> list[Path]:
    """The files that systemd reads after a unit, in their order."""
    own, shared = unit.with_name(f'{unit.name}.d'), unit.with_name(f'goo-{unit.suffix}.d')
    found = [*own.glob('*.conf'), *(shared.glob('*.conf') if unit.name.startswith('goo-') else ()),
             *(shared / link.name for link in LINKED if link.parent.name == own.name)]
    return sorted(found, key=lambda path: path.name)


def lines_of(unit: Path) -> dict[str, list[str]]:
    """The lines of a unit by their names; an empty value takes back those before it."""
    found: dict[str, list[str]] = {}
    texts = [path.read_text(encoding='utf-8') for path in (unit, *drop_ins(unit))]
    for line in ''.join(texts).splitlines():
        name, equals, value = line.partition('=')
        if equals and not line.startswith('#'):
            found[name] = [*found.get(name, []), value] if value else []
    return found


UNITS = {path.name: lines_of(path) for path in SERVICE.glob('etc/systemd/*') if path.is_file()}
SERVICES = {name: lines for name, lines in UNITS.items() if name.endswith('.service')}
ONE_EACH = {name.replace('.socket', '@.service')
            for name, lines in UNITS.items() if lines.get('Accept') == ['yes']}
"""Services of one connection each: whoever has connected is told of a failure."""
SHUT_IN = ('ProtectSystem', 'ProtectHome', 'PrivateTmp', 'PrivateDevices', 'ProtectClock',
           'ProtectHostname', 'ProtectKernelLogs', 'ProtectKernelModules', 'ProtectKernelTunables',
           'ProtectControlGroups', 'LockPersonality', 'MemoryDenyWriteExecute',
           'RestrictNamespaces', 'RestrictRealtime', 'RestrictSUIDSGID', 'RestrictAddressFamilies',
           'CapabilityBoundingSet', 'SystemCallArchitectures', 'SystemCallFilter', 'UMask')


@pytest.mark.parametrize('name', sorted(SERVICES))
def test_a_service_that_stays_up_is_never_given_up(name: str) -> None:
    lines = SERVICES[name]
    restarts, kind = lines.get('Restart', ['no'])[-1], lines.get('Type', ['simple'])[-1]
    if kind == 'oneshot' or name in ONE_EACH:
        return
    assert restarts in ('always', 'on-failure'), f'{name} stays down'
    assert lines.get('StartLimitIntervalSec') == ['0'] and 'StartLimitBurst' not in lines


@pytest.mark.parametrize('name', sorted(SERVICES))
def test_a_service_that_fails_is_told(name: str) -> None:
    if name != 'goo-alarm@.service' and name not in ONE_EACH:
        assert SERVICES[name]['OnFailure'] == ['goo-alarm@%n.service']


@pytest.mark.parametrize('name', sorted(SERVICES))
def test_a_service_is_shut_in(name: str) -> None:
    lacking = [line for line in SHUT_IN if line not in SERVICES[name]]
    assert not lacking, lacking


def test_all_that_can_be_enabled_is_started_by_set_up_or_by_the_operator() -> None:
    installed = {name for name, lines in UNITS.items() if 'WantedBy' in lines}
    by_operator = {'goo-ship.service', 'goo-exchange.timer', 'goo-etcd.service', common.ON_ONE,
                   *common.OF_PEOPLE}
    by_socket = {'goo-records-web.service', 'goo-records-verify.service', 'goo-people-who.service',
                 'goo-people-web.service', 'goo-people-gate.service'}
    assert installed - by_operator - set(common.EVERYWHERE) <= by_socket
    assert {*common.EVERYWHERE, *common.OF_PEOPLE} <= set(UNITS)
    assert set(common.NEWER) <= set(common.EVERYWHERE)


# ------------------------------------------------------------------ units that do not stay up

def units_program() -> ModuleType:
    return import_module('goo_service.setup.units')


SHOWN = 'Id={}\nType={}\nActiveState={}\nSubState={}\nResult={}\nNRestarts={}\n'
REPLICA, EXEC = 'goo-replica.service', 'exec'
WELL = SHOWN.format('goo.service', 'exec', 'active', 'running', 'success', '7')


@pytest.mark.parametrize(('unit', 'told'), [
    ((REPLICA, EXEC, 'activating', 'auto-restart', 'exit-code', '61'), 'again and again'),
    ((REPLICA, EXEC, 'active', 'running', 'exit-code', '61'), 'started again 11 times'),
    ((REPLICA, EXEC, 'active', 'running', 'success', '52'), ''),
    ((REPLICA, EXEC, 'active', 'running', 'success', '0'), ''),
    ((REPLICA, EXEC, 'failed', 'failed', 'exit-code', '50'), 'has failed (exit-code)'),
    (('goo-door.socket', '', 'failed', 'failed', 'trigger-limit-hit', ''),
     'has failed (trigger-limit-hit)'),
    (('goo-backup.service', 'oneshot', 'failed', 'failed', 'exit-code', '0'), ''),
    (('goo-records.service', 'exec', 'inactive', 'dead', 'success', '0'), '')])
def test_units_that_do_not_stay_up_are_told(unit: tuple[str, ...], told: str) -> None:
    module = units_program()
    found = module.faults(module.units_in(f'{WELL}\n{SHOWN.format(*unit)}'),
                          {'goo.service': 7, 'goo-replica.service': 50})
    assert len(found) == bool(told), found
    assert all(unit[0] in line and told in line for line in found), found
