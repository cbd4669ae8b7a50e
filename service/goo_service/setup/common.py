"""Where a registry stands on a host, and how `goo-setup` writes files and runs commands."""
import pathlib
import re
import shutil
import subprocess
from dataclasses import dataclass
from typing import Any

from goo_service.common.files import write_whole
from goo_service.common.owner import Owner

ETC, SHARE = pathlib.Path('/etc/goo'), pathlib.Path('/usr/share/goo/etc')
NGINX, SYSTEMD = pathlib.Path('/etc/nginx'), pathlib.Path('/etc/systemd/system')
REGISTRY, LOG = pathlib.Path('/var/lib/goo'), pathlib.Path('/var/lib/goo-replica')
BOOK, EXCHANGE = pathlib.Path('/var/lib/goo-records'), pathlib.Path('/var/lib/goo-exchange')
COPIES = pathlib.Path('/var/backups/goo')
DATABASE, FIRST = REGISTRY / 'registry.db', BOOK / 'first'
PATH = '/usr/local/sbin:/usr/local/bin:/usr/sbin:/usr/bin:/sbin:/bin'
LARGEST, SECONDS = 1 << 26, 10
"""Bytes that are read of a file of a service, and how long its user may take for it."""
CLOSED = SYSTEMD / 'goo-door.socket.d/closed.conf'
REPLICA = '/usr/bin/goo-replica-log'
REPLICA_WORDS = ETC / 'replica.env'
"""There on each of three hosts: the replica's name, and where etcd is."""
EVERYWHERE = ('goo-registry.socket', 'goo-door.socket', 'goo.service', 'goo-replica.service',
              'goo-records.service', 'goo-records-web.socket', 'goo-records-verify.socket',
              'goo-backup.timer', 'goo-watch.timer', 'goo-health.timer', 'goo-units.timer',
              'goo-doctor.timer', 'goo-prune.timer', 'goo-records-check.timer')
"""What runs on each host, in the order in which it is started."""
NEWER = ('goo-records-verify.socket', 'goo-units.timer', 'goo-doctor.timer')
"""What a registry of an earlier version has not: the new version starts it."""
OF_PEOPLE = ('goo-people-who.socket', 'goo-people-web.socket', 'goo-people-gate.socket',
             'goo-people-post.service')
"""What runs where users sign in by goo-people."""
WAY = ETC / 'people.conf'
"""Says for nginx who answers who is there."""
ON_ONE, LEADER = 'goo-advance.timer', 'h1'
"""What runs on one of three hosts alone, and on which."""
LED = ('goo-door.socket', 'goo-replica.service', 'goo.service')
"""What is stopped before the registry's file or its log is changed.

With the socket, since a request would start the others again.
"""


class Refused(Exception):
    """What can't be done, and why."""


# -------------------------------------------------------------------- commands

def run(*words: object, stdin: str | None = None) -> str:
    """What a command prints that has to succeed."""
    try:
        return subprocess.run([str(word) for word in words], check=True, capture_output=True,
                              text=True, input=stdin).stdout
    except subprocess.CalledProcessError as fault:
        why = (fault.stderr or fault.stdout).strip() or f'status {fault.returncode}'
        raise Refused(f'{" ".join(map(str, words))}: {why}') from fault


def output_of(*words: object) -> str:
    """What a command prints, whatever its status; nothing where it is not there."""
    try:
        return subprocess.run([str(word) for word in words], capture_output=True, text=True,
                              check=False).stdout.strip()
    except OSError:
        return ''


def as_user(user: str, *words: object, group: str | None = None,
            **options: Any) -> 'subprocess.CompletedProcess[Any]':
    """Runs a command as a user of the service, and not as root.

    What stands below a folder of that user is for that user alone to open. The command has no
    terminal, since whoever shares a terminal with root can type into it, and nothing of root's
    environment.
    """
    reduced = ['setpriv', f'--reuid={user}', f'--regid={group or user}', '--clear-groups',
               '--no-new-privs', '--', *words]
    given: dict[str, Any] = {
        'stdin': subprocess.DEVNULL, 'capture_output': True, 'cwd': '/', 'check': False,
        'env': {'PATH': PATH, 'LANG': 'C.UTF-8'}, 'start_new_session': True, **options}
    return subprocess.run([str(word) for word in reduced], **given)


IS_FILE = '[ -f "$1" ] && [ ! -L "$1" ]'
"""A link is not followed, and a pipe is not waited for."""


def read_as(user: str, path: pathlib.Path) -> str:
    """The text of a file below a folder of a user; an empty one where there is no such file."""
    script = f'{IS_FILE} && exec head --bytes={LARGEST} -- "$1"'
    try:
        done = as_user(user, 'sh', '-c', script, 'sh', path, timeout=SECONDS)
    except subprocess.TimeoutExpired:
        return ''
    return str(done.stdout.decode('utf-8', 'replace')) if done.returncode == 0 else ''


def is_active(unit: str) -> bool:
    return output_of('systemctl', 'is-active', unit) == 'active'


def goo(*words: object) -> str:
    """What the program prints on standard error, run as the registry's user with nothing to read.
    """
    done = as_user('goo', 'goo', words[0], '--db', DATABASE, *words[1:], text=True)
    return done.stderr.strip() or ('' if done.returncode == 0 else f'goo: status {done.returncode}')


# -------------------------------------------------------------------- files

@dataclass(frozen=True)
class File:
    """A file of the configuration, as it is to be."""
    path: pathlib.Path
    text: str
    mode: int = 0o644
    owner: str = 'root'

    def below(self, root: pathlib.Path) -> 'File':
        """The same file below another root folder."""
        return File(root / self.path.relative_to('/'), self.text, self.mode, self.owner)

    def write(self) -> None:
        write(self.path, self.text, self.mode, self.owner, self.owner)


def report(what: object, was_done: bool) -> bool:
    """Prints whether something was done or stood before; whether it was done."""
    print(f'{"done" if was_done else "stands":7} {what}', flush=True)
    return was_done


def write(path: pathlib.Path, text: str, mode: int = 0o644, owner: str = 'root',
          group: str = 'root') -> None:
    """The file is there whole or not at all, and nobody else reads it meanwhile."""
    write_whole(path, text, mode, Owner.of_names(owner, group))


def text_of(path: pathlib.Path) -> str:
    """The text of a file of root's; an empty one where there is none."""
    return path.read_text(encoding='utf-8') if path.exists() else ''


def make_folder(path: pathlib.Path, mode: int, owner: str = 'root') -> None:
    """A folder of this owner; one that is there stays as it is."""
    if not path.exists():
        path.mkdir(parents=True)
        shutil.chown(path, owner, owner)
        path.chmod(mode)


def link(source: pathlib.Path, target: pathlib.Path) -> bool:
    """Links to a file of the package, where nothing stands yet.

    What leads nowhere is of a package that was removed.
    """
    is_new = not target.exists()
    if is_new:
        target.parent.mkdir(parents=True, exist_ok=True)
        target.unlink(missing_ok=True)
        target.symlink_to(source)
    return report(target, is_new)


# -------------------------------------------------------------------- the registry's file

def read_meta(database: pathlib.Path, column: str, form: str) -> str:
    """What a database keeps of itself, in this form, read as the user who owns it.

    A log beside the file is not read.
    """
    script = (f'{IS_FILE} && exec sqlite3 -init /dev/null -batch '
              f'"file:$1?mode=ro&immutable=1" "SELECT {column} FROM meta"')
    try:
        done = as_user('goo', 'sh', '-c', script, 'sh', database, timeout=SECONDS)
    except subprocess.TimeoutExpired as fault:
        raise Refused(f'{database}: it cannot be read within {SECONDS} s') from fault
    found = str(done.stdout.decode(errors='replace').strip())
    if not re.fullmatch(form, found, re.ASCII):
        why = done.stderr.decode(errors='replace').strip()
        raise Refused(f'{database}: {why or "no file that tells its " + column}')
    return found


def meta_of(database: pathlib.Path, column: str) -> int:
    """A number that a database keeps of itself."""
    return int(read_meta(database, column, r'\d{1,15}'))


def code_of_registry() -> int:
    """The code that the file holds. It never changes, so a log beside the file does not matter."""
    return meta_of(DATABASE, 'code')


def holds_registry() -> bool:
    """Whether the file holds a registry.

    One whose beginning was cut off may hold none, or have it in its log alone.
    """
    try:
        return DATABASE.exists() and code_of_registry() > 0
    except Refused:
        return False


# -------------------------------------------------------------------- one host, or one of three

def words_of_log() -> list[str]:
    """The replica's words where the log is over etcd; none where this host is alone."""
    found = re.search(r'(?m)^REPLICA_WORDS=(.*--etcd .*)$', text_of(REPLICA_WORDS))
    return found[1].split() if found else []


def word_of(words: list[str], option: str) -> str:
    return words[words.index(option) + 1] if option in words else ''


def leads() -> bool:
    """Whether this host moves the date and runs the exchange: it is alone, or the first of three.
    """
    return word_of(words_of_log(), '--name') in ('', LEADER)


def units() -> tuple[str, ...]:
    """What runs on this host."""
    etcd = ('goo-etcd.service',) if words_of_log() else ()
    people = OF_PEOPLE if has_people() else ()
    return (*etcd, *EVERYWHERE, *people, *([ON_ONE] if leads() else []))


def has_people() -> bool:
    """Whether goo-people signs users in here, and not nginx by the files."""
    return f'include {SHARE}/nginx/people.conf;' in text_of(WAY)
