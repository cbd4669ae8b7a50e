"""Debian machines of a trial's own: a container with its own systemd, several in a network of their own, or one by qemu. For tools/trials/machine."""
import base64
import contextlib
import fcntl
import json
import os
import pathlib
import re
import shutil
import signal
import socket
import struct
import subprocess
import sys
import time

from own_cgroup import entering, own_cgroups, remove_cgroups
from program import TOP

DEBIAN = 'bookworm'
MACHINE = ('systemd-sysv', 'udev', 'dbus', 'linux-image-cloud-amd64', 'initramfs-tools', 'qemu-guest-agent', 'iproute2', 'procps', 'kmod', 'e2fsprogs', 'nftables', 'etcd-server',
           'etcd-client', 'python3-cffi-backend')
"""What makes it a machine, what its trials need beside the package, and what debootstrap does not find by a virtual package."""
DEPENDS = re.compile(r'(?ms)^Depends:(.*?)^\S')
PATHS = {'PATH': '/usr/local/sbin:/usr/local/bin:/usr/sbin:/usr/bin:/sbin:/bin', 'HOME': '/root', 'LANG': 'C.UTF-8', 'DEBIAN_FRONTEND': 'noninteractive'}
NAME = 'registry.example'
"""Under which a machine reaches its own front door."""
BALANCER = '192.0.2.10'
"""This machine's address in the network of several."""
EXT4_SHUTDOWN, WITHOUT_ITS_JOURNAL = 0x8004587d, 2
"""EXT4_IOC_SHUTDOWN, and its flag NOLOGFLUSH."""


def here(*words, **more):
    """A command on this machine that has to succeed."""
    done = subprocess.run([str(word) for word in words], capture_output=True, text=True, check=False, **more)
    if done.returncode:
        sys.exit(f'{" ".join(map(str, words))[:200]}: {(done.stderr or done.stdout)[-800:]}')
    return done.stdout


def inside():
    """What is in the machine from the start, since it has no way to more: a machine, and what the package depends on."""
    listed = DEPENDS.search((TOP / 'service/debian/control').read_text())[1]
    return ','.join([*MACHINE, *(name.split()[0] for name in listed.split(',') if '$' not in name)])


def make_base(base):
    """A Debian in a folder, unless one is there with all that is wanted inside. debootstrap works in mounts and processes of its own."""
    part, listed = base / 'root.part', base / 'inside'
    if (base / 'root').exists() and listed.exists() and listed.read_text() == inside():
        return
    shutil.rmtree(base / 'root', ignore_errors=True)
    shutil.rmtree(part, ignore_errors=True)
    print('debootstrap ..', flush=True)
    here('unshare', '--mount', '--pid', '--fork', '--propagation', 'private', 'debootstrap', '--variant=minbase', f'--include={inside()}', DEBIAN, part)
    (part / 'etc/hostname').write_text('registry\n')
    (part / 'etc/hosts').write_text(f'127.0.0.1 localhost registry {NAME}\n')
    (part / 'etc/fstab').write_text('')
    here('systemctl', f'--root={part}', 'disable', 'etcd', 'apt-daily.timer', 'apt-daily-upgrade.timer')         # three hosts start etcd again, as apt does
    part.rename(base / 'root')
    listed.write_text(inside())


class Done:
    """What a command in the machine came to."""

    def __init__(self, status, out, err):
        self.status, self.good = status, status == 0
        self.out, self.err = (text.decode(errors='replace') for text in (out, err))

    def __repr__(self):
        return f'status {self.status} {self.err[-300:]!r} {self.out[-700:]!r}'


class Machine:
    """A machine whose files are kept from one start to the next."""

    process, balancer, power_cuts = None, None, 2

    def waits_for(self, text, patience=120):
        """Whether a command succeeds within this time."""
        end = time.monotonic() + patience
        while time.monotonic() < end:
            if self.run(text).good:
                return True
            time.sleep(0.5)
        return False

    def is_up(self):
        """What systemd says once it has started what there is. A check each minute may have found the registry before it was ready, and finds it well a minute later."""
        self.run('systemctl is-system-running --wait; true', 300)
        self.waits_for('systemctl is-system-running', 150)
        return self.run('systemctl is-system-running; true').out.strip()

    def reboot(self):
        """As an operator does it; the machine ends, and is started again."""
        with contextlib.suppress(OSError, TimeoutError, ValueError, subprocess.TimeoutExpired):
            self.run('systemctl reboot', 10)
        try:
            self.process.wait(180)
        finally:
            self.cut_power()
        return self.start()


class Network:
    """A network of its own, with a bridge between containers. No way leads out of it."""

    def __enter__(self):
        made = f'ip link set lo up && ip link add goo0 type bridge && ip address add {BALANCER}/24 dev goo0 && ip link set goo0 up && echo up && exec sleep infinity'
        self.process = subprocess.Popen(['unshare', '--net', 'sh', '-c', made], stdin=subprocess.DEVNULL, stdout=subprocess.PIPE, text=True)
        if self.process.stdout.readline() != 'up\n':
            raise OSError('no network of its own can be made')
        self.entering = ['nsenter', f'--net=/proc/{self.process.pid}/ns/net', '--']
        return self

    def __exit__(self, *_):
        self.process.kill()
        self.process.wait()


class Container(Machine):
    """systemd-nspawn over the Debian and a disk of its own with what it writes, in a cgroup and mounts of its own, without the right to set the clock. Alone, or in a network with others."""

    answers_inside = '/told/answers'

    def __init__(self, base, goods, folder, name='registry', network=None, address=None):
        self.goods, self.folder, self.name, self.address = goods, folder, name, address
        self.console, self.answers, self.groups = folder / 'console', folder / 'told/answers', own_cgroups(name)
        for part in ('begun/upper', 'begun/work', 'disk', 'root', 'told'):
            (folder / part).mkdir(parents=True)
        self.mounting = f'mount -o loop {folder}/image {folder}/disk && mount -t overlay overlay -o lowerdir={base}/root,upperdir={folder}/disk/upper,workdir={folder}/disk/work {folder}/root'
        self.entering, self.joined = (network.entering, ['--network-bridge=goo0', f'--bind={goods.parent}/carried:/carried']) if network else ([], ['--private-network'])
        if network:
            self.put('etc/systemd/network/10-host0.network', f'[Match]\nName=host0\n[Network]\nAddress={address}/24\nLinkLocalAddressing=no\n')
            self.put('etc/hostname', f'{name}\n')
            wants = folder / 'begun/upper/etc/systemd/system/multi-user.target.wants/systemd-networkd.service'
            wants.parent.mkdir(parents=True)
            wants.symlink_to('/lib/systemd/system/systemd-networkd.service')
        here('truncate', '--size', '3G', folder / 'image')
        here('mkfs.ext4', '-q', '-F', '-d', folder / 'begun', folder / 'image')

    def put(self, name, text):
        """A file of the machine, before it is first started."""
        path = self.folder / 'begun/upper' / name
        path.parent.mkdir(parents=True, exist_ok=True)
        path.write_text(text)

    def start(self):
        words = ['systemd-nspawn', '--quiet', '--boot', f'--directory={self.folder}/root', f'--machine={self.name}', *self.joined, '--register=no', '--keep-unit', '--console=pipe', '--link-journal=no',
                 '--resolv-conf=off', '--timezone=off', '--drop-capability=CAP_SYS_TIME,CAP_SYS_MODULE', f'--bind-ro={self.goods}:/goods',
                 f'--bind={self.folder}/told:/told']
        script = f'{entering(self.groups)} && {self.mounting} && exec "$@"'
        self.unmounted()
        with open(self.console, 'ab') as console:
            self.process = subprocess.Popen([*self.entering, 'unshare', '--mount', '--propagation', 'private', 'sh', '-c', script, 'sh', *words], stdin=subprocess.DEVNULL, stdout=console, stderr=console)
        self.first = self.first_process()
        if not self.waits_for('test -S /run/systemd/private', 60):
            raise TimeoutError(self.console.read_text(errors='replace')[-800:])
        return self.is_up()

    def first_process(self):
        """The container's systemd. What it must not see is looked for before anything is done there."""
        for _ in range(300):
            children = pathlib.Path(f'/proc/{self.process.pid}/task/{self.process.pid}/children').read_text().split() if self.process.poll() is None else []
            if children and pathlib.Path(f'/proc/{children[0]}/comm').read_text() == 'systemd\n':
                self.hidden(children[0])
                return children[0]
            time.sleep(0.1)
        raise TimeoutError(self.console.read_text(errors='replace')[-800:])

    def unmounted(self):
        """The disk of an earlier start is let go once the last of its processes has gone. Two mounts of one disk would spoil it."""
        end = time.monotonic() + 120
        while here('losetup', '--noheadings', '--associated', self.folder / 'image'):
            if time.monotonic() > end:
                raise TimeoutError(f'{self.folder}/image is still mounted')
            time.sleep(0.1)

    def hidden(self, process):
        seen = pathlib.Path(f'/proc/{process}/root')
        if (seen / self.folder.relative_to('/')).exists() or os.stat(seen / 'tmp').st_dev == os.stat('/tmp').st_dev or (seen / 'dev/vda').exists():
            self.process.kill()
            raise OSError('the container sees files of this machine')

    def run(self, text, patience=180):
        """Some lines for the shell, as root."""
        words = ['nsenter', f'--target={self.first}', '--mount', '--pid', '--net', '--uts', '--ipc', '--cgroup', '--root', '/bin/bash', '-c', f'cd /root; {text}']
        try:
            done = subprocess.run(words, stdin=subprocess.DEVNULL, capture_output=True, timeout=patience, env=PATHS, check=False)
        except subprocess.TimeoutExpired as fault:
            raise TimeoutError(text) from fault
        return Done(done.returncode, done.stdout, done.stderr)

    def cut_power(self):
        """The disk stops with what was synced or happened to be written, and all processes are killed at once."""
        if self.process.poll() is None:
            self.stop_disk()
            with contextlib.suppress(ProcessLookupError):
                os.kill(int(self.first), signal.SIGKILL)
            try:
                self.process.wait(30)
            except subprocess.TimeoutExpired:
                self.process.kill()
                self.process.wait()

    def stop_disk(self):
        """As in the tests of file systems: ext4 writes no more, its journal neither, and forgets what it has not written."""
        disk = os.open(f'/proc/{self.process.pid}/root{self.folder}/disk', os.O_RDONLY)
        try:
            fcntl.ioctl(disk, EXT4_SHUTDOWN, struct.pack('I', WITHOUT_ITS_JOURNAL))
        finally:
            os.close(disk)

    def shut_down(self):
        """In order, as a switched-off machine leaves its disk."""
        with contextlib.suppress(TimeoutError):
            self.run('systemctl poweroff', 20)
        self.process.wait(180)

    def end(self):
        if self.process:
            self.cut_power()
        time.sleep(1)
        remove_cgroups(self.groups)


class Emulated(Machine):
    """qemu without the processor's help, from a disk with what was set up in a container. Commands are given through its guest agent."""

    answers_inside, power_cuts = '/dev/ttyS1', 1

    def __init__(self, base, goods, folder, mounting):
        self.folder, self.line, self.console, self.answers = folder, None, folder / 'console', folder / 'answers'
        for name in ('vmlinuz', 'initrd.img'):
            shutil.copy(next((base / 'root/boot').glob(f'{name}-*')), folder / name)
        here('truncate', '--size', '4G', folder / 'whole')
        here('unshare', '--mount', '--propagation', 'private', 'sh', '-c', f'{mounting} && mkfs.ext4 -q -F -d {folder}/root {folder}/whole')
        here('mkfs.ext4', '-q', '-F', '-d', goods, folder / 'goods.img', '64M')

    def start(self):
        agent = self.folder / 'agent'
        agent.unlink(missing_ok=True)
        self.process = subprocess.Popen([
            'qemu-system-x86_64', '-accel', 'tcg,thread=multi', '-cpu', 'max', '-m', '1200', '-smp', '4', '-nodefaults', '-no-user-config', '-nographic', '-no-reboot', '-nic', 'none',
            '-kernel', self.folder / 'vmlinuz', '-initrd', self.folder / 'initrd.img', '-append', 'root=/dev/vda rw console=ttyS0 panic=-1 quiet',
            '-drive', f'file={self.folder}/whole,if=virtio,format=raw', '-drive', f'file={self.folder}/goods.img,if=virtio,format=raw,readonly=on',
            '-serial', f'file:{self.console}', '-chardev', f'file,id=answers,path={self.answers},append=on', '-serial', 'chardev:answers',
            '-device', 'virtio-serial', '-chardev', f'socket,path={agent},server=on,wait=off,id=agent', '-device', 'virtserialport,chardev=agent,name=org.qemu.guest_agent.0'],
            stdin=subprocess.DEVNULL)
        self.connect(agent)
        self.run('mkdir -p /goods && mount -o ro /dev/vdb /goods')
        return self.is_up()

    def connect(self, agent, patience=1200):
        """Waits for the guest agent; what it says to earlier questions is passed over."""
        end = time.monotonic() + patience
        while time.monotonic() < end and self.process.poll() is None:
            with contextlib.suppress(OSError, ValueError):
                self.line = socket.socket(socket.AF_UNIX)
                self.line.settimeout(10)
                self.line.connect(str(agent))
                number = time.monotonic_ns() % 1_000_000_000
                self.ask('guest-sync', lambda said: said == number, id=number)
                return
            self.line.close()
            time.sleep(1)
        raise TimeoutError(f'the machine did not start: {self.console.read_text(errors="replace")[-800:]}')

    def ask(self, command, is_it=lambda said: True, **arguments):
        self.line.sendall(json.dumps({'execute': command, 'arguments': arguments}).encode() + b'\n')
        for line in self.line.makefile('rb'):
            said = json.loads(line.replace(b'\xff', b''))
            if 'error' in said:
                raise OSError(said['error']['desc'])
            if is_it(said['return']):
                return said['return']
        raise OSError('the agent has gone')

    def run(self, text, patience=180):
        """Some lines for the shell, as root. The processor is slow: it has five times the time."""
        self.line.settimeout(60)
        process = self.ask('guest-exec', path='/bin/bash', arg=['-c', text], env=[f'{name}={value}' for name, value in PATHS.items()], **{'capture-output': True})['pid']
        end = time.monotonic() + 5 * patience
        while time.monotonic() < end:
            said = self.ask('guest-exec-status', pid=process)
            if said['exited']:
                return Done(said.get('exitcode', 128 + said.get('signal', 0)), *(base64.b64decode(said.get(name, '')) for name in ('out-data', 'err-data')))
            time.sleep(0.1)
        raise TimeoutError(text)

    def waits_for(self, text, patience=120):
        return super().waits_for(text, 5 * patience)

    def cut_power(self):
        """Whatever was not on the disk is gone."""
        self.process.kill()
        self.process.wait()
        self.line.close()

    def end(self):
        if self.process:
            self.cut_power()
