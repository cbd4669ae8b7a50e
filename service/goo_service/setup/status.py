"""What `goo-setup status` prints: what runs on this host, at which entry, and the last copy."""
import datetime
import pathlib
import re
import socket
import subprocess
from dataclasses import dataclass
from typing import Any

from goo_service.setup.common import COPIES
from goo_service.setup.common import EXCHANGE
from goo_service.setup.common import output_of
from goo_service.setup.common import read_as
from goo_service.setup.common import units
from goo_service.setup.common import word_of
from goo_service.setup.common import words_of_log
from goo_service.setup.health import book
from goo_service.setup.health import health
from goo_service.setup.health import object_in

ALARMS = pathlib.Path('/run/goo-alarm')


@dataclass(frozen=True)
class Copy:
    """A copy, and how many days ago it was made."""
    name: str
    days: int


def last_copy() -> Copy | None:
    """The newest copy; None where there is none."""
    names = [path.name for path in COPIES.iterdir()] if COPIES.exists() else []
    dated = sorted(name for name in names if re.match(r'\d{4}-\d{2}-\d{2}', name))
    if not dated:
        return None
    today = datetime.datetime.now(datetime.timezone.utc).date()
    return Copy(dated[-1], (today - datetime.date.fromisoformat(dated[-1][:10])).days)


def failed_units() -> list[str]:
    lines = output_of('systemctl', '--failed', '--plain', '--no-legend').split('\n')
    return [line.split()[0] for line in lines if line.startswith('goo')]


def last_alarm() -> str:
    """The newest alarm since the host was started."""
    stamps = {path.stat().st_mtime: path.stem for path in ALARMS.glob('*.told')}
    if not stamps:
        return 'none since the host was started'
    last = max(stamps)
    return f'{datetime.datetime.fromtimestamp(last):%F %T}, {stamps[last]}'


def package_version() -> str:
    return output_of('dpkg-query', '-W', '-f', '${Version}', 'goo') or 'no package'


def program_version() -> str:
    """What the program says of itself."""
    done = subprocess.run(['goo', '--version'], capture_output=True, text=True, check=False)
    found = re.match(r'(goo )?\d+\.\d+\.\d+.*', done.stdout + done.stderr)
    return found[0] if found else 'it tells none'


def members() -> list[str]:
    """The addresses of the three hosts, this one's first."""
    return re.findall(r'https://([0-9.]+):2379', word_of(words_of_log(), '--etcd'))


def is_up(address: str) -> bool:
    """Whether etcd of a host takes connections."""
    try:
        socket.create_connection((address, 2379), 3).close()
    except OSError:
        return False
    return True


def exchange_state() -> dict[str, Any]:
    """What the last run of the exchange found; an empty object where it never ran."""
    return object_in(read_as('goo-agent', EXCHANGE / 'state.json'))


def peers_in(state: dict[str, Any]) -> list[dict[str, Any]]:
    """What the exchange says of each peer."""
    peers = state.get('peers')
    return [peer for peer in peers if isinstance(peer, dict)] if isinstance(peers, list) else []


def printable(text: str) -> str:
    """A text without characters that a terminal would act on: some of it was written by services,
    and by other hosts."""
    return ''.join(one if one.isprintable() else '?' for one in text)


def line_of_hosts() -> str:
    silent = [address for address in members() if not is_up(address)]
    up = ', '.join(address for address in members() if address not in silent) or 'none'
    return (f'host      {word_of(words_of_log(), "--name")} of three; etcd answers on {up}'
            f'{", not on " + ", ".join(silent) if silent else ""}')


def status() -> int:
    now, stands, copy = health(), book(), last_copy()
    print(f'package   {package_version()}\nprogram   {program_version()}')
    at = '' if now.entry is None else f'; entry {now.entry}'
    print(f'registry  {now.why or "takes requests"}{at}')
    told = 'entry {entry}, date {today}'.format_map(stands) if stands else 'does not answer'
    print(f'book      {told}')
    if words_of_log():
        print(line_of_hosts())
    for unit in units():
        print(f'unit      {unit} {output_of("systemctl", "is-active", unit) or "unknown"}')
    print(f'copy      {f"{copy.name}, {copy.days} days old" if copy else "none"}')
    for peer in peers_in(exchange_state()):
        contact = peer.get('contact') or 'never'
        print(printable(f'peer      {peer.get("registry")}, last heard of {contact}'))
    print(f'alarm     {last_alarm()}')
    print(f'failed    {", ".join(failed_units()) or "none"}')
    return 1 if now.why else 0
