"""Three hosts with one log over etcd: what the first one makes for the others, and how each of them
joins."""
import json
import pathlib
import re
import shutil
import subprocess
import tempfile
import time
from dataclasses import dataclass

from goo_service.common.programs import words_of
from goo_service.log.options import EtcdOptions
from goo_service.log.store import NoAnswer
from goo_service.setup.common import COPIES
from goo_service.setup.common import ETC
from goo_service.setup.common import FIRST
from goo_service.setup.common import LED
from goo_service.setup.common import LOG
from goo_service.setup.common import REGISTRY
from goo_service.setup.common import REPLICA
from goo_service.setup.common import REPLICA_WORDS
from goo_service.setup.common import SECONDS
from goo_service.setup.common import SHARE
from goo_service.setup.common import Refused
from goo_service.setup.common import as_user
from goo_service.setup.common import code_of_registry
from goo_service.setup.common import holds_registry
from goo_service.setup.common import is_active
from goo_service.setup.common import output_of
from goo_service.setup.common import report
from goo_service.setup.common import run
from goo_service.setup.common import word_of
from goo_service.setup.common import words_of_log
from goo_service.setup.common import write
from goo_service.setup.doctor import GOODS
from goo_service.setup.health import PATIENCE
from goo_service.setup.health import health
from goo_service.setup.health import wait_for_registry
from goo_service.setup.three import NAMES
from goo_service.setup.three import Hosts
from goo_service.setup.three import addresses_of
from goo_service.setup.three import need_etcd

AGAIN = ('goo-door.socket', 'goo.service', 'goo-replica.service')
"""What is started again where the work ends before its end."""
DAYS = 3650
NEW_KEY = ('-newkey', 'ec', '-pkeyopt', 'ec_paramgen_curve:prime256v1', '-nodes')


@dataclass(frozen=True)
class ServiceFolder:
    """A folder of a service in the archive with which a host joins: its user packs and unpacks it.
    """
    path: pathlib.Path
    user: str


THEIR_FOLDERS = {'registry.tar': ServiceFolder(REGISTRY, 'goo'),
                 'log.tar': ServiceFolder(LOG, 'goo-replica'),
                 'book.tar': ServiceFolder(FIRST, 'goo-records')}
"""Of the log there is the place and the archive of entries."""


@dataclass(frozen=True)
class LogEnd:
    """The entry that the registry has applied last, the last one of the log, and the version after
    it."""
    place: int
    last: int
    version: str


@dataclass(frozen=True)
class Joining:
    """What the archive of a host says: the first host's version and entry, and what this host is.
    """
    version: str
    entry: int
    name: str
    words: str

    def text(self) -> str:
        return json.dumps(vars(self))


# -------------------------------------------------------------------- the first host

def log_end() -> LogEnd:
    """The end of the log of this host, read as the user who owns it."""
    done = as_user('goo-replica', *words_of('setup.place'), LOG, text=True, timeout=SECONDS)
    found = re.fullmatch(r'(\d{1,15}) (\d{1,15}) ([ -~]{0,200})\n', done.stdout, re.ASCII)
    if done.returncode or not found:
        raise Refused(f'{LOG}: {done.stderr.strip() or "no place in it"}')
    return LogEnd(int(found[1]), int(found[2]), found[3])


def stop_at_end() -> int:
    """Stops the registry once all of its log is applied; the last entry."""
    last = 0
    for _ in range(5):
        wait_for_registry()
        run('systemctl', 'stop', *LED)
        end = log_end()
        last = end.last
        if end.place == last:
            return last
        run('systemctl', 'start', *AGAIN)
    raise Refused(f'the registry does not come to the end of its log, which is entry {last}')


def make_certificates(place: pathlib.Path, addresses: list[str]) -> None:
    """An authority for these three hosts alone, and what it signs for each: etcd's own, and the
    replica's."""
    ca = place / 'ca.pem', place / 'ca.key'
    run('openssl', 'req', '-x509', *NEW_KEY, '-days', DAYS, '-subj', '/CN=goo etcd',
        '-keyout', ca[1], '-out', ca[0])
    for name, address in zip(NAMES, addresses):
        write(place / 'ext', f'subjectAltName=IP:{address},IP:127.0.0.1\n'
                             'extendedKeyUsage=serverAuth,clientAuth\n')
        for kind in ('member', 'replica'):
            file, request = place / f'{kind}-{name}', place / 'csr'
            run('openssl', 'req', *NEW_KEY, '-subj', f'/O=goo/CN={name}',
                '-keyout', f'{file}.key', '-out', request)
            run('openssl', 'x509', '-req', '-in', request, '-CA', ca[0], '-CAkey', ca[1],
                '-CAcreateserial', '-days', DAYS, '-extfile', place / 'ext', '-out', f'{file}.pem')


def pack_folder(folder: ServiceFolder, target: pathlib.Path) -> None:
    """A folder of a service in an archive, which its user reads.

    What that user has put there reaches nothing else when it is unpacked.
    """
    with open(target, 'xb') as packed:
        done = as_user(folder.user, 'tar', '--create', '--one-file-system', '--exclude=./log',
                       '--directory', folder.path, '.',
                       capture_output=False, stdout=packed, stderr=subprocess.PIPE)
    if done.returncode:
        raise Refused(f'{folder.path}: {done.stderr.decode(errors="replace").strip()}')


def pack(goods: pathlib.Path, at: int, hosts: Hosts, version: str, entry: int) -> None:
    """The archive with which a host joins: configuration, keys, the registry, its place in the log
    and its last copy."""
    root = goods / NAMES[at]
    copy = sorted(COPIES.glob('*/place.json'))[-1].parent
    for path in (ETC, copy):
        target = root / path.relative_to('/')
        target.parent.mkdir(parents=True, exist_ok=True)
        run('cp', '--archive', path, target)
    for name, folder in THEIR_FOLDERS.items():
        if folder.path.exists():
            pack_folder(folder, root / name)
    for file in hosts.files(at, SHARE, goods):
        file.below(root).write()
    write(root / 'JOIN', Joining(version, entry, NAMES[at], hosts.replica_words(at).text).text())
    own = (*(root / 'etc').glob('systemd/system/*/etcd.conf'),
           *(root / 'etc').glob('nginx/*/*.conf'))
    packed = (root / 'JOIN', root / 'etc/goo', *own, root / copy.relative_to('/'),
              *(root / name for name in THEIR_FOLDERS))
    run('tar', '--create', '--file', goods / f'{NAMES[at]}.tar', '--directory', root,
        *(path.relative_to(root) for path in packed if path.exists()))
    shutil.rmtree(root)


def lead(addresses_given: str, balancer: str | None) -> None:
    """Makes a host that runs alone the first of three.

    Until the last line it can be begun anew; then the log is etcd's.
    """
    addresses = addresses_of(addresses_given)
    need_etcd()
    goods = GOODS.with_name(f'{GOODS.name}.part')
    shutil.rmtree(goods, ignore_errors=True)
    goods.mkdir(mode=0o700, parents=True)
    make_certificates(goods, addresses)
    hosts = Hosts(tuple(addresses), code_of_registry(), balancer)
    version, entry = run(REPLICA, 'program').strip(), stop_at_end()
    try:
        for at in (1, 2):
            pack(goods, at, hosts, version, entry)
    except (Refused, OSError):
        run('systemctl', 'start', *AGAIN)
        raise
    for file in hosts.files(0, SHARE, goods):
        file.write()
    for path in goods.iterdir():
        if path.name not in ('ca.key', 'ca.pem', 'h2.tar', 'h3.tar'):
            path.unlink()
    shutil.rmtree(GOODS, ignore_errors=True)
    goods.rename(GOODS)
    report(f'{GOODS}: an authority for the three hosts, and what the two others need', True)
    hosts.replica_words(0).write()
    place_etcd()


def show_next_steps() -> None:
    """Prints what is to be done on the other hosts, while this one waits for them."""
    own, *others = re.findall(r'https://([0-9.]+):2379', word_of(words_of_log(), '--etcd'))
    print('this is the first of three hosts. It takes requests once one of the others has joined. '
          'On each of them, install the same package, and then')
    for name, address in zip(NAMES[1:], others):
        print(f'    scp {own}:{GOODS}/{name}.tar . && goo-setup --join {name}.tar'
              f'         on {address}')
    print(f'The files hold keys: remove them once both have joined, and move {GOODS}/ca.key to '
          'where such things are kept')


# -------------------------------------------------------------------- each of the others

def joining_in(file: str) -> Joining:
    try:
        found = json.loads(run('tar', '--extract', '--to-stdout', '--file', file, 'JOIN'))
        return Joining(str(found['version']), int(found['entry']), str(found['name']),
                       str(found['words']))
    except (ValueError, KeyError, TypeError) as fault:
        raise Refused(f'{file}: {fault}') from fault


def unpack(file: str) -> None:
    """Takes over what the first host has packed, unless this was done before."""
    need_etcd()
    joining, own = joining_in(file), run(REPLICA, 'program').strip()
    if words_of_log():
        report(f'{REPLICA_WORDS}: {word_of(words_of_log(), "--name")}', False)
        return
    if holds_registry():
        raise Refused(f'there is a registry on this host ({REGISTRY}); only a host without one '
                      'can join')
    if joining.version != own:
        raise Refused(f'the first host runs {joining.version}, and here is {own}: '
                      'install the same package')
    run('tar', '--extract', '--preserve-permissions', '--same-owner', '--file', file,
        '--directory', '/', '--exclude', 'JOIN', *(f'--exclude={name}' for name in THEIR_FOLDERS))
    for name, folder in THEIR_FOLDERS.items():
        unpack_folder(file, name, folder)
    write(REPLICA_WORDS, joining.words)
    report(f'{REPLICA_WORDS}: {joining.name}', True)


def unpack_folder(file: str | pathlib.Path, name: str, folder: ServiceFolder) -> None:
    """What of a service the first host has packed, written by the user of that service."""
    if name not in run('tar', '--list', '--file', file).split('\n'):
        return
    script = 'mkdir -p -m 750 "$1"; tar --extract --preserve-permissions --directory "$1"'
    with tempfile.TemporaryFile() as packed:
        words = ['tar', '--extract', '--to-stdout', '--file', file, name]
        subprocess.run(words, stdout=packed, check=True)
        packed.seek(0)
        done = as_user(folder.user, 'sh', '-ec', script, 'sh', folder.path, stdin=packed, text=True)
    if done.returncode:
        raise Refused(f'{folder.path}: {done.stderr.strip()}')


def place_etcd() -> None:
    """Debian's own etcd is another one, on the same ports."""
    if is_active('etcd') or output_of('systemctl', 'is-enabled', 'etcd') == 'enabled':
        run('systemctl', 'disable', '--now', 'etcd')
    run('systemctl', 'daemon-reload')
    run('systemctl', 'enable', 'goo-etcd')
    run('systemctl', 'start', '--no-block', 'goo-etcd')


def begin_log(file: str) -> None:
    """The log in etcd goes on after the entry at which the three hosts were made.

    Whoever joins first begins it.
    """
    if is_active('goo-replica') or log_end().place != joining_in(file).entry:
        return
    end = time.monotonic() + PATIENCE
    while True:
        try:
            report(run(REPLICA, 'found', *words_of_log()).strip(), True)
            return
        except Refused as fault:
            if 'there is a log in this etcd' in str(fault):
                report('the log in etcd', False)
                return
            if time.monotonic() > end:
                raise
            time.sleep(1)


# -------------------------------------------------------------------- what the hosts tell

def log_version() -> str:
    """The version that applies the next entry, by etcd."""
    from goo_service.log import etcd            # which one host does without
    words = words_of_log()
    options = EtcdOptions(etcd=word_of(words, '--etcd'), ca=word_of(words, '--ca'),
                          cert=word_of(words, '--cert'), cert_key=word_of(words, '--cert-key'))
    end = etcd.Keys(int(word_of(words, '--code'))).end
    try:
        return etcd.end_in(etcd.one(options, 'kv/range', etcd.range_of(end))).version
    except NoAnswer as fault:
        raise Refused(f'etcd: {fault}') from fault


def waits_for_others() -> bool:
    return GOODS.exists() and health().why != ''
