"""`goo-advance` moves the registry's date to the day of this host, by its own clock and zone."""
import datetime
import http.server
import json
import os
import socketserver
import subprocess
import threading
from collections.abc import Iterator
from dataclasses import dataclass
from dataclasses import field
from pathlib import Path

import pytest
from door import SERVICE
from house import House
from calls import ISSUER
from service_commands import command

ADVANCE = command('goo-advance', SERVICE)


@dataclass
class Registry:
    """A stand-in for the registry at a socket: it tells its date, and keeps what it is sent."""

    socket: Path
    date: str = '2025-03-01'
    sent: list[dict[str, str]] = field(default_factory=list)

    def advance(self, clock: str = '', zone: str = 'UTC') -> subprocess.CompletedProcess[str]:
        """`advance` with the host's clock, or with another one."""
        words = ['faketime', clock] if clock else []
        return subprocess.run([*words, *ADVANCE, '--door', str(self.socket)], capture_output=True,
                              text=True, env={**os.environ, 'TZ': zone}, check=False)


class Server(socketserver.ThreadingUnixStreamServer):
    """Serves a stand-in."""

    registry: Registry


class Handler(http.server.BaseHTTPRequestHandler):
    """What the stand-in answers."""

    server: Server

    def do_GET(self) -> None:
        date = self.server.registry.date
        self.reply(f'STATEMENT\nregistry 07\ndate {date}\naccount 1\nholder SUN\nEND\n')

    def do_POST(self) -> None:
        length = int(self.headers['Content-Length'])
        self.server.registry.sent.append(json.loads(self.rfile.read(length)))
        self.reply('{"outcome":"accepted","reply":{"expired":0}}')

    def reply(self, text: str) -> None:
        self.send_response_only(200)
        self.send_header('Content-Length', str(len(text)))
        self.end_headers()
        self.wfile.write(text.encode())


@pytest.fixture
def registry(tmp_path: Path) -> Iterator[Registry]:
    standing = Registry(tmp_path / 'door.sock')
    with Server(str(standing.socket), Handler) as server:
        server.registry = standing
        threading.Thread(target=server.serve_forever, args=(0.02,),
                         daemon=True).start()
        yield standing
        server.shutdown()


def test_the_day_of_this_host_reaches_the_registry() -> None:
    """By the host's clock as it is, through the log."""
    before = datetime.date.today()
    with House(parts=('registry', 'log'), day=str(before - datetime.timedelta(20))) as house:
        house.make_country()
        socket = str(house.folder / 'door.sock')
        done = house.run(*ADVANCE, '--door', socket, check=False)
        after = datetime.date.today()
        assert done.returncode == 0, done
        shown = house.ask_log(ISSUER, 'GET', '/v1/accounts/1/statement').text.splitlines()
        assert {f'date {before}', f'date {after}'} & set(shown), shown


@pytest.mark.parametrize(('zone', 'clock'), [
    ('UTC', '2025-03-01 00:05:00'),
    ('UTC', '2025-12-31 23:59:50'),
    ('UTC', '2024-02-29 00:05:00'),
    ('CET-1', '2025-03-02 00:05:00'),       # the day before in UTC
    ('EST5', '2025-03-02 21:00:00'),        # the day after in UTC
])
def test_the_day_is_that_of_the_clock_and_the_zone(registry: Registry, zone: str,
                                                   clock: str) -> None:
    day = clock[:10]
    registry.date = str(datetime.date.fromisoformat(day) - datetime.timedelta(1))
    done = registry.advance(clock, zone)
    assert done.returncode == 0, done
    assert [sent['day'] for sent in registry.sent] == [day]
    assert registry.sent[0]['command'] == 'advance'


def test_without_another_clock_it_is_the_hosts(registry: Registry) -> None:
    days = {str(datetime.date.today())}
    registry.date = str(datetime.date.today() - datetime.timedelta(1))
    done = registry.advance()
    days.add(str(datetime.date.today()))
    assert done.returncode == 0, done
    assert len(registry.sent) == 1 and registry.sent[0]['day'] in days


@pytest.mark.parametrize(('clock', 'words'), [
    ('2025-04-30 00:05:00', '60 days'),
    ('2025-02-26 00:05:00', '3 days after'),
])
def test_a_clock_that_is_far_off_moves_nothing(registry: Registry, clock: str,
                                               words: str) -> None:
    done = registry.advance(clock)
    assert done.returncode == 1 and words in done.stderr, done
    assert not registry.sent
