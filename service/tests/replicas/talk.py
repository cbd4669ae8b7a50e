"""What a trial says to a host: programs that are run there, and requests."""
import ctypes
import os
import re
import subprocess
import threading
import time
from collections.abc import Callable
from dataclasses import dataclass
from pathlib import Path
from typing import Any
from typing import Protocol

import client
from door import SERVICE
from programs import find_registry
from service_commands import command

TOP = Path(__file__).resolve().parents[3]
GOO = find_registry()
(REPLICA,), (REPLICA_LOG,) = command('goo-replica', SERVICE), command('goo-replica-log', SERVICE)
CRASHING = ('/usr/bin/python3', '-P', TOP / 'tools/lib/crashing_replica.py')
LIBC = ctypes.CDLL(None, use_errno=True)
NEW_NETWORK = 0x40000000
TODAY, CODE, VERSION = '2026-03-01', 7, 'trial'
Done = subprocess.CompletedProcess[str]
inside = threading.local()
"""The network in which a thread is."""


class Reachable(Protocol):
    """A port in the network that a descriptor names; without one, in this machine's."""

    @property
    def fd(self) -> int | None: ...

    @property
    def port(self) -> int: ...


@dataclass(frozen=True)
class Port:
    """A port of something that is no host."""

    fd: int | None
    port: int
    address: str = '127.0.0.1'


@dataclass(frozen=True)
class Told:
    """An answer: its status, its entry, whether it says that it may be stale, and its text."""

    status: int
    entry: int | None
    stale: bool
    text: str


def run(*words: object, **more: Any) -> Done:
    return subprocess.run([str(word) for word in words], capture_output=True, text=True,
                          check=False, **more)


def must(*words: object) -> str:
    """What a program says that may not fail."""
    done = run(*words)
    assert done.returncode == 0, (words, done.stderr)
    return done.stdout


def until(holds: Callable[[], Any], patience: float = 90, pause: float = 0.2) -> Any:
    """Waits until something holds; what it was at last. Who does not answer yet is asked again."""
    end, now = time.monotonic() + patience, None
    while time.monotonic() < end:
        try:
            if now := holds():
                break
        except (OSError, ValueError):
            pass
        time.sleep(pause)
    return now


def enter(host: Reachable) -> None:
    """This thread goes to the host's network."""
    if host.fd is not None and getattr(inside, 'host', None) is not host:
        assert LIBC.setns(host.fd, NEW_NETWORK) == 0, os.strerror(ctypes.get_errno())
        inside.host = host


def ask(host: Reachable, method: str, target: str, caller: str, body: bytes, patience: float,
        **more: str | None) -> Told:
    """The answer to a request, read here: the time of http.client would be part of figures."""
    enter(host)
    named: dict[str, str | None] = {
        'user': f'u-{caller}', 'address': '192.0.2.7', 'role': 'full', **more}
    fields = [f'GOO-{name.title()}: {value}' for name, value in named.items() if value is not None]
    text = client.request(method, target, caller, [client.CLOSE, *fields], 'goo', body)
    came = client.ask(host.port, text, patience=patience, whole=patience)
    head, _, body = came.partition(b'\r\n\r\n')
    length = re.search(rb'(?i)content-length: *(\d+)', head)
    if not length or int(length[1]) != len(body):
        raise OSError('cut off')
    entry = re.search(rb'GOO-Entry: *(\d+)', head)
    return Told(int(head.split()[1]), int(entry[1]) if entry else None, b'GOO-Stale' in head,
                body.decode())


def open_account(host: Reachable, key: str, patience: float = 30) -> Told:
    """The answer to a request that is sent once."""
    body = b'{"command":"open_account","key":"%b","holder":"C1"}' % key.encode()
    return ask(host, 'POST', '/v1/requests', 'ISSUER', body, patience)


def group_of(leader: int) -> list[int]:
    """The processes of a group that have not ended, its leader first."""
    found = []
    for path in Path('/proc').glob('[0-9]*/stat'):
        try:
            state, _, group = path.read_text().rsplit(')', 1)[1].split()[:3]
        except OSError:
            continue
        if int(group) == leader and state not in 'ZX':
            found.append(int(path.parent.name))
    return sorted(found, key=lambda pid: (pid != leader, pid))


def memory_of(pids: list[int]) -> int:
    """Resident KB of processes together."""
    found = (re.search(r'VmRSS:\s+(\d+)', Path(f'/proc/{pid}/status').read_text()) for pid in pids)
    return sum(int(one[1]) for one in found if one)


def day(n: int) -> str:
    """A day: the first one is 2025-01-01."""
    return time.strftime('%Y-%m-%d', time.gmtime(1735689600 + 86400 * n))
