"""A systemd of a trial's own: the first process of namespaces of its own, which runs one command.

Its root is an overlay over the machine's, which goes with it: nothing is written to the machine. It
has no devices but /dev/null and the like, no network but loopback, a cgroup of its own, and none of
the services that a machine starts by itself.
"""
import os
import shutil
import signal
import subprocess
import sys
import time
from pathlib import Path

from program import TOP
from own_cgroup import entering
from own_cgroup import own_cgroups
from own_cgroup import remove_cgroups
from tally import COUNTS

UNITS, SYSTEM = Path('etc/systemd/system'), Path('usr/lib/systemd/system')
MASKED = ('systemd-sysctl', 'systemd-modules-load', 'systemd-udevd', 'systemd-udev-trigger',
          'systemd-tmpfiles-setup', 'systemd-tmpfiles-clean', 'systemd-logind',
          'systemd-remount-fs')
"""What would reach beyond the namespaces, or clear a folder."""
NODES = {'null': (1, 3), 'zero': (1, 5), 'full': (1, 7), 'random': (1, 8), 'urandom': (1, 9),
         'tty': (5, 0)}
"""The devices that every program may have."""
ROOM = '1400m'
"""Of what is written there. goo-setup doctor tells of less than a gigabyte that is free."""
SERVICE = '''[Unit]
DefaultDependencies=no
After=systemd-journald.service
[Service]
Type=oneshot
Environment=PATH=/usr/local/sbin:/usr/local/bin:/usr/sbin:/usr/bin:/sbin:/bin HOME=/root
Environment=PYTHONDONTWRITEBYTECODE=1 LC_ALL=C.UTF-8 DEBIAN_FRONTEND=noninteractive
StandardOutput=file:/mnt/result
StandardError=file:/mnt/result
ExecStart={words}
'''
TARGET = '''[Unit]
DefaultDependencies=no
Requires=systemd-journald.service
After=systemd-journald.service
Wants=trial.service
'''
JOURNAL = '[Journal]\nStorage=volatile\nAudit=no\nReadKMsg=no\n'


def mount(kind: str, target: Path, options: str = '') -> None:
    target.mkdir(parents=True, exist_ok=True)
    words = ['mount', '-t', kind, *(['-o', options] if options else []), kind, str(target)]
    subprocess.run(words, check=True)


def make_devices(folder: Path) -> None:
    mount('tmpfs', folder, 'mode=755')
    for name, (major, minor) in NODES.items():
        os.mknod(folder / name, 0o666 | 0o020000, os.makedev(major, minor))
        (folder / name).chmod(0o666)
    for name in ('shm', 'mqueue', 'hugepages'):
        (folder / name).mkdir()
    mount('devpts', folder / 'pts', 'newinstance,ptmxmode=0666')
    (folder / 'ptmx').symlink_to('pts/ptmx')
    (folder / 'fd').symlink_to('/proc/self/fd')


def make_units(root: Path, words: list[str]) -> None:
    """Leaves no service that a machine starts by itself, and adds the trial."""
    for wants in [*root.glob(f'{SYSTEM}/*.target.wants'), *root.glob(f'{UNITS}/*.wants')]:
        shutil.rmtree(wants)
    for name in MASKED:
        path = root / UNITS / f'{name}.service'
        path.unlink(missing_ok=True)
        path.symlink_to('/dev/null')
    (root / 'etc/systemd/journald.conf.d').mkdir(exist_ok=True)
    (root / 'etc/systemd/journald.conf.d/trial.conf').write_text(JOURNAL, encoding='ascii')
    (root / UNITS / 'trial.target').write_text(TARGET, encoding='ascii')
    (root / UNITS / 'trial.service').write_text(SERVICE.format(words=' '.join(words)),
                                                encoding='utf-8')


def become_systemd(folder: Path, words: list[str]) -> None:
    """Makes the root, goes into it, and becomes systemd."""
    subprocess.run(['mount', '--make-rprivate', '/'], check=True)
    layers = folder / 'layers'
    mount('tmpfs', layers, f'size={ROOM}')
    root, upper, work = layers / 'root', layers / 'upper', layers / 'work'
    upper.mkdir()
    work.mkdir()
    mount('overlay', root, f'lowerdir=/,upperdir={upper},workdir={work}')
    for kind, name, options in (('proc', 'proc', ''), ('tmpfs', 'run', 'mode=755'),
                                ('tmpfs', 'tmp', 'mode=1777'), ('tmpfs', 'sys', 'mode=755'),
                                ('cgroup2', 'sys/fs/cgroup', '')):
        mount(kind, root / name, options)
    make_devices(root / 'dev')
    for left in (root / 'var/lib').glob('goo*'):        # what another program left on this machine
        shutil.rmtree(left)
    # an index of pages takes long
    (root / 'var/lib/man-db/auto-update').unlink(missing_ok=True)
    make_units(root, words)
    for name in ('docs', 'tools', 'service/tests'):
        shutil.copytree(TOP / name, root / 'trial' / name)
    subprocess.run(['mount', '--bind', folder / 'out', root / 'mnt'], check=True)
    (root / 'before').mkdir()
    os.chdir(root)
    subprocess.run(['pivot_root', '.', 'before'], check=True)
    os.chroot('.')
    subprocess.run(['umount', '--lazy', '/before'], check=True)
    os.execve('/lib/systemd/systemd', ['systemd', '--system', '--unit=trial.target',
                                       '--log-target=journal', '--show-status=0'],
              {'container': 'trial'})


def may_be_had(folder: Path) -> bool:
    """Whether this machine allows mounts and namespaces of one's own."""
    words = ['unshare', '-mn', 'mount', '-t', 'tmpfs', 'tmpfs', str(folder)]
    return not os.geteuid() and subprocess.run(words, capture_output=True,
                                               check=False).returncode == 0


def has_ended(text: str) -> bool:
    """Whether the lines of a tool end with its counts."""
    return COUNTS.fullmatch(text.rstrip('\n').rpartition('\n')[2]) is not None


def followed(result: Path, process: subprocess.Popen[bytes], seconds: float) -> str:
    """Shows the lines of the trial as they come, to the last; the whole text."""
    text, end = '', time.monotonic() + seconds
    while not has_ended(text) and process.poll() is None and time.monotonic() < end:
        time.sleep(0.5)
        now = result.read_text(encoding='utf-8', errors='replace') if result.exists() else ''
        print(now[len(text):], end='', flush=True)
        text = now
    return text


def output(folder: Path, words: list[str], seconds: float) -> str:
    """What a command prints under a systemd of its own; `folder`/out is its /mnt.

    The command names files below /trial, where docs/, tools/ and service/tests/ are.
    """
    groups = own_cgroups(folder.name)
    begin = ['unshare', '-mnpfCui', '--kill-child', sys.executable, '-B', __file__, str(folder),
             *words]
    script = f'{entering(groups)} && exec "$@"' if groups else 'exec "$@"'
    with open(folder / 'said', 'wb') as said:
        process = subprocess.Popen(['sh', '-c', script, 'sh', *begin], stdin=subprocess.DEVNULL,
                                   stdout=said, stderr=said)
    try:
        text = followed(folder / 'out/result', process, seconds)
    finally:
        process.send_signal(signal.SIGKILL)
        process.wait()
        time.sleep(1)
        remove_cgroups(groups)
    return text if has_ended(text) else f'systemd: {(folder / "said").read_text()[-600:]!r}'


if __name__ == '__main__':
    become_systemd(Path(sys.argv[1]), sys.argv[2:])
