"""A host of a trial's own for what root does on it: mounts, users and a network that go with it.

/etc, /usr and /var are copies that are written nowhere else, /run is empty. The package's files lie
where the package puts them. systemd does not run: /usr/bin/systemctl notes what it is told and
which units are active. /usr/bin/goo is a stand-in that notes each time it opens the file.
"""
import base64
import ctypes
import os
import select
import shutil
import struct
import subprocess
import tempfile
from dataclasses import dataclass
from pathlib import Path
from typing import Any

TOP = Path(__file__).resolve().parents[2]
USERS = ('goo', 'goo-agent', 'goo-door', 'goo-replica', 'goo-etcd', 'goo-records', 'www-data')
FOLDERS = {'/var/lib/goo': 'goo', '/var/lib/goo-exchange': 'goo-agent',
           '/var/lib/goo-etcd': 'goo-etcd', '/var/lib/goo-replica': 'goo-replica',
           '/var/lib/goo-records': 'goo-records'}
"""The folders that a service owns."""
SETUP = r'''
mount --make-rprivate /
mount -t tmpfs -o mode=755 tmpfs "$1"
for name in etc usr var; do
    mkdir "$1/$name" "$1/work-$name"
    mount -t overlay overlay -o "lowerdir=/$name,upperdir=$1/$name,workdir=$1/work-$name" "/$name"
done
mount -t tmpfs -o mode=755 tmpfs /run
rm -rf /var/lib/goo* /etc/goo /usr/lib/goo /var/backups/goo
mkdir -p /run/systemd/system /run/stage/active /run/goo
mkdir -p /usr/lib/goo /usr/share/goo/etc /var/backups/goo
cp "$2"/service/etc/sysusers/*.conf /usr/lib/sysusers.d/
cp "$2"/service/etc/tmpfiles/*.conf /usr/lib/tmpfiles.d/
systemd-sysusers goo.conf goo-replica.conf goo-records.conf 2> /dev/null
systemd-tmpfiles --create goo.conf
cp -a "$2"/service/libexec/* /usr/lib/goo/
cp -a "$2"/service/etc/systemd/* /usr/lib/systemd/system/
PYTHONPATH="$2/tools/lib" python3 -B -c 'import pathlib, service_commands, sys
service_commands.install(pathlib.Path(sys.argv[1], "service"), pathlib.Path("/"))' "$2"
cd "$2/service/etc"
cp -a drop-ins etcd nginx exchange.conf /usr/share/goo/etc/
ip link set lo up
echo ready
exec sleep infinity
'''
SYSTEMCTL = r'''#!/bin/bash
# What the stage needs of systemctl.
echo "$*" >> /run/stage/calls
words=()
for word in "$@"; do case $word in --*) ;; *) words+=("$word") ;; esac; done
verb=${words[0]} status=0
for unit in "${words[@]:1}"; do
    case $unit in *.*) ;; *) unit=$unit.service ;; esac
    active=/run/stage/active/$unit
    case $verb in
        is-active) [ -e "$active" ] && echo active || { echo inactive; status=3; } ;;
        is-enabled)
            [ -e "/run/stage/enabled-$unit" ] && echo enabled || { echo disabled; status=1; } ;;
        enable) touch "/run/stage/enabled-$unit"; case "$*" in *--now*) touch "$active" ;; esac ;;
        start | restart)
            if [ -e "/run/stage/refuses-$unit" ]; then
                echo "$unit: refused" >&2; status=1; continue
            fi
            if [ "$unit" = goo.service ] && [ ! -e "$active" ]; then
                goo --version > /run/goo/version
                rm -f /run/stage/crashed
                if grep -q CRASHES /usr/bin/goo; then touch /run/stage/crashed; fi
                echo serve >> /run/stage/openings
            fi
            touch "$active" ;;
        stop)
            if [ "$unit" = goo.service ] && [ -e "$active" ]; then
                line=$(sed -n 's/^ExecStopPost=//p' /usr/lib/systemd/system/goo.service)
                SERVICE_RESULT=success EXIT_CODE=killed EXIT_STATUS=TERM \
                    setpriv --reuid=goo --regid=goo --clear-groups $line
            fi
            rm -f "$active" ;;
        show) cat "/run/stage/restarts-$unit" 2> /dev/null || echo 0 ;;
    esac
done
exit $status
'''
GOO = r'''#!/bin/bash
# A stand-in for the program, of version VERSION with tables of version TABLES.
words="$*" db=${words#*--db } db=${db%% *}
case $1 in
    --version) echo "goo VERSION" ;;
    init)
        WAITS sqlite3 "$db" "CREATE TABLE meta (version, code); INSERT INTO meta VALUES (TABLES, 7)"
        echo "ready 07" ;;
    run)
        echo run >> /run/stage/openings
        found=$(sqlite3 "$db" 'SELECT version FROM meta')
        [ "$found" = TABLES ] || { echo "goo: version $found" >&2; exit 1; } ;;
    audit) echo ok ;;
esac
'''
DOOR = r'''
import http.server, json, os, pathlib, socketserver, sys
sys.dont_write_bytecode = True
from goo_service.log import entries
from goo_service.log import store

def why():
    for unit in ('goo-door.socket', 'goo.service', 'goo-replica.service'):
        if not pathlib.Path('/run/stage/active', unit).exists():
            return f'{unit} does not run'
    if pathlib.Path('/run/stage/crashed').exists():
        return 'the registry does not answer'
    lines = [line for path in sorted(pathlib.Path('/var/lib/goo-replica/log').glob('*.jsonl'))
             for line in path.read_bytes().splitlines()]
    end = store.after(entries.read_entry(lines[-1]), lines[-1]).version if lines else ''
    here = pathlib.Path('/run/goo/version').read_text().strip()
    if not lines or end == here:
        return ''
    return f'the log is at version {end}, and the program here is {here}'

class Handler(http.server.BaseHTTPRequestHandler):
    def do_GET(self):
        text = json.dumps({'entry': 1, 'behind': 0, 'why': why()}).encode()
        self.send_response(503 if why() else 200)
        self.send_header('Content-Length', str(len(text)))
        self.end_headers()
        self.wfile.write(text)
    def address_string(self):
        return 'local'
    def log_message(self, *words):
        pass

class Server(socketserver.ThreadingMixIn, socketserver.UnixStreamServer):
    pass

pathlib.Path('/run/stage/door.pid').write_text(str(os.getpid()))
Server('/run/goo/door.sock', Handler).serve_forever()
'''


AROUND = {'PATH': '/usr/local/sbin:/usr/local/bin:/usr/sbin:/usr/bin:/sbin:/bin',
          'PYTHONDONTWRITEBYTECODE': '1'}


@dataclass
class Done:
    """What a command on the stage came to."""
    status: int
    out: str
    err: str

    def __str__(self) -> str:
        return f'status {self.status}\n{self.out}\n{self.err}'


class Stage:
    """Begun by `with`; it goes with its end."""

    def __init__(self, top: Path = TOP) -> None:
        self.top, self.folder = top, Path(tempfile.mkdtemp(prefix='goo-stage-'))
        self.process: subprocess.Popen[str]

    def __enter__(self) -> 'Stage':
        self.folder.chmod(0o755)
        words = ['setpriv', '--pdeathsig=KILL', 'unshare', '--mount', '--net', '--pid', '--fork',
                 '--kill-child', '--mount-proc', 'bash', '-ec', SETUP, 'bash', str(self.folder),
                 str(self.top)]
        self.process = subprocess.Popen(words, stdin=subprocess.DEVNULL, stdout=subprocess.PIPE,
                                        text=True)
        assert self.process.stdout
        if self.process.stdout.readline() != 'ready\n':
            raise OSError('no host of its own can be made')
        number = self.process.pid
        children = Path(f'/proc/{number}/task/{number}/children').read_text().split()
        self.inside = ['nsenter', f'--target={children[0]}', '--mount', '--net', '--pid', '--']
        self.root = Path(f'/proc/{children[0]}/root')
        self.put('/usr/bin/systemctl', SYSTEMCTL, 0o755)
        self.put('/usr/lib/stage/door.py', DOOR)
        for name in ('calls', 'openings'):
            self.put(f'/run/stage/{name}', '', 0o666)
        return self

    def __exit__(self, *_: object) -> None:
        self.process.kill()
        self.process.wait()
        shutil.rmtree(self.folder, ignore_errors=True)

    def put(self, path: str, text: str, mode: int = 0o644) -> None:
        """A file of root's on the stage."""
        packed = base64.b64encode(text.encode()).decode()
        text = 'mkdir -p "${1%/*}"; rm -f "$1"; echo "$2" | base64 -d > "$1"; chmod "$3" "$1"'
        self.run('sh', '-ec', text, 'sh', path, packed, f'{mode:o}')

    def run(self, *words: object, seconds: float = 60, **more: Any) -> Done:
        """A command as root."""
        done = subprocess.run([*self.inside, *map(str, words)], capture_output=True,
                              timeout=seconds, env=AROUND, check=False, cwd='/', **more)
        return Done(done.returncode, *(said.decode(errors='replace')
                                       for said in (done.stdout, done.stderr)))

    def begin(self, *words: object) -> subprocess.Popen[bytes]:
        """A command that goes on."""
        said = open(self.folder / 'said', 'ab')
        return subprocess.Popen([*self.inside, *map(str, words)], stdin=subprocess.DEVNULL,
                                stdout=said, stderr=said, cwd='/')

    def shell(self, text: str, **more: Any) -> Done:
        """Lines that all have to end well."""
        done = self.run('bash', '-euo', 'pipefail', '-c', text, **more)
        assert done.status == 0, f'{text}\n{done}'
        return done

    def python(self, text: str, *words: object, **more: Any) -> Done:
        """Some Python as root, with the package's modules."""
        head = 'import sys; sys.dont_write_bytecode = True\n'
        return self.run('/usr/bin/python3', '-c', head + text, *words, **more)

    def program(self, version: str, tables: int = 2, more: str = '') -> None:
        """Puts a version of the program in place, as dpkg does: by a new file under the name."""
        text = GOO.replace('VERSION', version).replace('TABLES', str(tables)).replace('WAITS', more)
        self.put('/usr/bin/goo.new', text, 0o755)
        self.shell('mv /usr/bin/goo.new /usr/bin/goo')

    def text(self, path: str) -> str:
        return self.run('cat', path).out

    def lines(self, path: str) -> list[str]:
        return self.text(path).splitlines()

    def active(self) -> set[str]:
        """The units that run."""
        return set(self.run('ls', '/run/stage/active').out.split())


# ------------------------------------------------------------------ what root must not touch

CHANGES = {0x1: 'read', 0x2: 'written', 0x4: 'given away or opened to others', 0x20: 'opened',
           0x40: 'moved away', 0x80: 'moved to', 0x100: 'created in', 0x200: 'deleted from',
           0x400: 'deleted', 0x800: 'moved'}
"""The events of inotify, in words."""


class Canary:
    """A file and a folder of root's, to which links are planted. Tells what is done to them."""

    FILE, FOLDER = '/run/canary/file', '/run/canary/folder'

    def __init__(self, stage: Stage) -> None:
        stage.shell('rm -rf /run/canary; mkdir -p /run/canary/folder; '
                    'chmod 700 /run/canary/folder; '
                    'umask 077; echo SECRET > /run/canary/file')
        self.libc = ctypes.CDLL(None, use_errno=True)
        self.queue = self.libc.inotify_init1(os.O_NONBLOCK)
        for path in (self.FILE, self.FOLDER):
            named = str(stage.root / path[1:]).encode()
            if self.libc.inotify_add_watch(self.queue, named, sum(CHANGES)) < 0:
                raise OSError(ctypes.get_errno(), path)

    def seen(self) -> list[str]:
        """What was done since the last look."""
        found = []
        while select.select([self.queue], [], [], 0)[0]:
            data = os.read(self.queue, 65536)
            while data:
                watch, mask, _, length = struct.unpack_from('iIII', data)
                name = data[16:16 + length].rstrip(b'\0').decode()
                data = data[16 + length:]
                said = [word for bit, word in CHANGES.items() if mask & bit]
                found.append(f'{("file", "folder")[watch - 1]} {" ".join(said)} {name}'.strip())
        return found

    def close(self) -> None:
        os.close(self.queue)
