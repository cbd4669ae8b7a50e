"""A host with the package, for the tests in this folder: commands, units, requests.

The tests run as root under a systemd of their own, which tools/lib/own_systemd.py starts, and
nowhere else. Those of a file share the host and run in the order in which they stand. Once one
fails, those after it may fail for it: the first failure counts.
"""
import datetime
import json
import re
import subprocess
import time
from collections.abc import Callable
from pathlib import Path
from typing import Any

TOP = Path(__file__).resolve().parents[3]
REGISTRY, ETC, COPIES = Path('/var/lib/goo'), Path('/etc/goo'), Path('/var/backups/goo')
LOG = Path('/var/lib/goo-replica')
ARCHIVE = LOG / 'archive'
NEW, OLD = 'goo_0.0.2_amd64.deb', 'goo_0.0.1_amd64.deb'
TODAY = datetime.date.today()
Done = subprocess.CompletedProcess[str]


def run(*words: object, **more: Any) -> Done:
    """A command to its end."""
    how: dict[str, Any] = {'stdin': None, 'timeout': 300, **more}
    return subprocess.run([str(word) for word in words], capture_output=True, text=True,
                          check=False, **how)


def shell(text: str, stdin: str = '') -> Done:
    """A block of the handbook, which stops at its first failure."""
    return run('bash', '-euo', 'pipefail', '-c', text, cwd='/root', input=stdin)


def blocks(heading: str) -> list[str]:
    """The blocks of commands in a section of the handbook."""
    for page in sorted((TOP / 'docs').glob('*.md')):
        section = re.search(rf'(?ms)^##+ {heading}$(.*?)(?=^## |\Z)',
                            page.read_text(encoding='utf-8'))
        if section:
            return re.findall(r'(?ms)^ *```sh\n(.*?)^ *```$', section[1])
    raise LookupError(f'no page of docs/ has a section "{heading}"')


def script(heading: str, at: int, **words: str) -> str:
    """A block of commands of the handbook, with values in place of some of its words."""
    text = blocks(heading)[at]
    for name, value in words.items():
        text = re.sub(rf'\b{name}\b', value, text)
    return text


def play(heading: str, *at: int, stdin: str = '', **words: str) -> str:
    """Carries out the commands of a section as they stand, but for N; what they printed."""
    printed = ''
    for number in at or range(len(blocks(heading))):
        text = script(heading, number, **words)
        done = shell(text, stdin)
        printed += done.stdout + done.stderr
        assert done.returncode == 0, f'{text}\n{printed[-700:]}'
    return printed


def comes(is_so: Callable[[], object], seconds: float = 30) -> bool:
    """Whether something becomes so within this time."""
    end = time.monotonic() + seconds
    while not is_so():
        if time.monotonic() > end:
            return False
        time.sleep(0.2)
    return True


# ------------------------------------------------------------------ units

def states(*units: str) -> list[str]:
    return run('systemctl', 'is-active', *units).stdout.split()


def become(state: str, *units: str) -> bool:
    """Whether units come to a state within half a minute."""
    return comes(lambda: set(states(*units)) == {state})


def start(unit: str) -> bool:
    """Whether a unit starts; one that runs to its end ends well."""
    return run('systemctl', 'start', unit).returncode == 0


def shown(unit: str, name: str) -> str:
    return run('systemctl', 'show', f'--property={name}', '--value', unit).stdout.strip()


def journal(unit: str) -> str:
    return run('journalctl', '-u', unit, '--no-pager', '-o', 'cat').stdout[-900:]


def failed() -> str:
    return run('systemctl', '--failed', '--plain', '--no-legend').stdout.strip()


def active() -> str:
    """The units of the package that run."""
    return run('systemctl', 'list-units', '--plain', '--no-legend', '--state=active',
               'goo*').stdout


# ------------------------------------------------------------------ requests

def password(user: str) -> str:
    return f'a-trial-of-{user}'


def at_door(user: str, path: str, body: object = None, word: str = '') -> tuple[str, str]:
    """Status and text of a request through the front door. By curl, as the handbook has it."""
    data = ['--data', json.dumps(body)] if body else []
    done = run('curl', '-sk', '--max-time', '60', '-u', f'{user}:{word or password(user)}',
               '-w', '\n%{http_code}', *data, f'https://localhost{path}')
    text, _, status = done.stdout.rpartition('\n')
    return status, text


def by_socket(user: str, path: str, body: object = None, socket: str = 'door') -> str:
    """The answer to a local user. By curl, since another user may not read tools/lib/client.py."""
    data = ['--data', json.dumps(body)] if body else []
    return run('runuser', '-u', user, '--', 'curl', '-s', '--max-time', '20', '--unix-socket',
               f'/run/goo/{socket}.sock', '-H', 'GOO-Caller: ISSUER', '-H', 'GOO-Role: full', *data,
               f'http://goo{path}').stdout


def outcome_in(text: str) -> str:
    """The outcome that an answer tells; where it tells none, the answer."""
    found = re.search(r'"outcome":"(\w+)"', text)
    return found[1] if found else text


def outcome(body: object, user: str = 'office') -> str:
    """The outcome of a request at the front door; where there is none, what came."""
    status, text = at_door(user, '/v1/requests', body)
    return outcome_in(text) if status == '200' else f'{status} {text}'


def outcome_inside(key: str) -> str:
    """The outcome of a request that opens a holder, by the log's socket."""
    return outcome_in(by_socket('root', '/v1/requests', holder(key)))


def holder(key: str) -> dict[str, str]:
    return {'command': 'open_holder', 'key': key, 'holder': key.upper(), 'name': key.capitalize()}


def is_well(seconds: float = 60) -> bool:
    """Whether the log takes requests within this time."""
    return comes(lambda: '"ok": true' in by_socket('root', '/healthz'), seconds)


def last_entry() -> str:
    """The last line of the archive."""
    newest = sorted(ARCHIVE.glob('*.jsonl'))[-1]
    return newest.read_text(encoding='utf-8').splitlines()[-1]


def copies() -> list[Path]:
    return sorted(COPIES.glob('2*'))


# ------------------------------------------------------------------ the package

def install(package: str) -> Done:
    return run('dpkg', '--install', f'/mnt/{package}')


def files_of_package() -> list[Path]:
    return [Path(line) for line in run('dpkg', '--listfiles', 'goo').stdout.splitlines()]


def set_up() -> Done:
    """A registry of this host alone, whose first user is office."""
    file = Path('/root/office')
    file.write_text(password('office') + '\n', encoding='ascii')
    return run('goo-setup', '--self-signed', '--alone', '--name', 'localhost', '--code', '7',
               '--user', 'office', '--password-file', file, stdin=subprocess.DEVNULL)


def add_user(name: str, *words: str) -> Done:
    file = Path('/root', name)
    file.write_text(password(name) + '\n', encoding='ascii')
    return run('goo-setup', 'user', 'add', name, *words, '--password-file', file)
