"""The exchange on three hosts: it runs on one at a time, and another goes on when that is lost."""
import http.server
import json
import shutil
import signal
import ssl
import subprocess
import threading
from collections.abc import Callable
from collections.abc import Iterator
from pathlib import Path
from typing import Any

import pytest
from mutations import gsrn
from replicas.clients import Clients
from replicas.cluster import Cluster
from replicas.cluster import GATE
from replicas.conftest import Make
from replicas.host import Host
from replicas.talk import CODE
from replicas.talk import Done
from replicas.talk import GOO
from replicas.talk import Port
from replicas.talk import TODAY
from replicas.talk import ask
from replicas.talk import day
from replicas.talk import enter
from replicas.talk import must
from replicas.talk import run
from replicas.talk import until
from service_commands import command

pytestmark = pytest.mark.slow
PEER, EACH = 9, 10
"""The peer's code, and the certificates of an export."""
PEERS = {CODE: PEER, PEER: CODE}


@pytest.fixture(scope='module')
def cluster(begin: Make) -> Iterator[Cluster]:
    with begin(3) as made:
        yield made


class Front(http.server.BaseHTTPRequestHandler):
    """What a front door shows a peer that has signed in: the files of its outbox."""

    protocol_version = 'HTTP/1.1'
    server: 'Door'

    def do_GET(self) -> None:
        file = self.server.outbox / self.path.removeprefix('/notices/')
        is_there = self.path.startswith('/notices/') and file.is_file()
        text = file.read_bytes() if is_there else b''
        self.send_response(200 if is_there else 404)
        self.send_header('Content-Length', str(len(text)))
        self.end_headers()
        self.wfile.write(text)

    def log_message(self, *_: object) -> None:
        pass


class Door(http.server.ThreadingHTTPServer):
    """A front door over TLS, with the outbox that it shows."""

    outbox = Path('/nowhere')


class Bodies:
    """Registry 9 at the switch, with its exchange, and both front doors."""

    def __init__(self, cluster: Cluster) -> None:
        self.cluster, self.folder = cluster, cluster.folder / 'bodies'
        self.inside = ('ip', 'netns', 'exec', cluster.switch)
        self.port = Port(cluster.gate.fd, 8470)
        self.doors: dict[int, Door] = {}

    def __enter__(self) -> 'Bodies':
        self.folder.mkdir()
        self.configure()
        db = self.folder / 'registry.db'
        must(GOO, 'init', '--db', db, '--code', PEER, '--today', TODAY)
        self.registry = subprocess.Popen(
            [*self.inside, GOO, 'serve', '--db', db, '--port', '8470', '--count', '1000000'],
            stdout=subprocess.PIPE)
        assert self.registry.stdout
        self.registry.stdout.readline()
        for code in PEERS:
            self.open_door(code)
        self.doors[PEER].outbox = self.folder / f'of-{PEER}/outbox/{CODE:02}'
        for n, more in enumerate(('"open_holder","holder":"P","name":"P"',
                                  '"open_account","holder":"P"', f'"add_peer","peer":{CODE}')):
            self.ask('POST', '/v1/requests', f'{{"key":"b{n}","command":{more}}}'.encode())
        return self

    def __exit__(self, *_: object) -> None:
        for door in self.doors.values():
            door.shutdown()
            door.server_close()
        self.registry.terminate()
        self.registry.communicate(timeout=20)

    def configure(self) -> None:
        """The keys and the configuration of both exchanges, and the certificate of the doors."""
        must('openssl', 'req', '-x509', '-newkey', 'ec', '-pkeyopt',
             'ec_paramgen_curve:prime256v1', '-nodes', '-days', '2', '-subj', '/CN=doors',
             '-addext', f'subjectAltName=IP:{GATE}', '-keyout', self.folder / 'door.key',
             '-out', self.folder / 'door.pem')
        (self.folder / 'password').write_text('a password')
        public = {code: self.make_key(code) for code in PEERS}
        for code, other in PEERS.items():
            (self.folder / f'{code}.conf').write_text(
                f'[registry]\ncode = {code}\nregistry = http://127.0.0.1:8470\n'
                f'key = {self.folder}/{code}.key\n[peer {other}]\n'
                f'url = https://{GATE}:{8440 + other}\nuser = u\n'
                f'password_file = {self.folder}/password\nkey = {public[other]}\n'
                f'authority = {self.folder}/door.pem\n')

    def make_key(self, code: int) -> str:
        key = self.folder / f'{code}.key'
        must('openssl', 'genpkey', '-algorithm', 'ed25519', '-out', key)
        return must('openssl', 'pkey', '-in', key, '-pubout').splitlines()[1]

    def open_door(self, code: int) -> None:
        """In the network of the switch, where a thread stays."""
        def serve() -> None:
            enter(self.cluster.gate)
            door = Door((GATE, 8440 + code), Front)
            tls = ssl.create_default_context(ssl.Purpose.CLIENT_AUTH)
            tls.load_cert_chain(self.folder / 'door.pem', self.folder / 'door.key')
            door.socket = tls.wrap_socket(door.socket, server_side=True)
            self.doors[code] = door
            door.serve_forever()

        threading.Thread(target=serve, daemon=True).start()
        assert until(lambda: code in self.doors, 20)

    def ask(self, method: str, target: str, body: bytes = b'') -> dict[str, Any]:
        told = ask(self.port, method, target, 'ISSUER', body, 60)
        found: dict[str, Any] = json.loads(told.text) if told.status == 200 else {}
        return found

    def ours(self, host: Host, folder: Path, *words: object) -> Done:
        """A run of our exchange on a host, whose outbox the peer then sees."""
        self.doors[CODE].outbox = folder / f'outbox/{PEER:02}'
        return self.run(host.inside, CODE, folder, *words)

    def theirs(self, *words: object) -> Done:
        return self.run(lambda *line: [*self.inside, *map(str, line)], PEER,
                        self.folder / f'of-{PEER}', *words)

    def run(self, inside: Callable[..., list[str]], code: int, folder: Path,
            *words: object) -> Done:
        folder.mkdir(exist_ok=True)
        return run(*inside(*command('goo-exchange'), '--config', self.folder / f'{code}.conf',
                           '--folder', folder, *words), timeout=300)


class Exports:
    """Certificates that may be exported, and those that are."""

    def __init__(self, clients: Clients) -> None:
        """The peer is known, and an account has them."""
        self.clients, self.sent = clients, 0
        clients.must('ISSUER', 0, 'add_peer', 'peer-9', peer=PEER)
        assert clients.register(1, gsrn(900), 'export-device')['status'] == 200
        made = clients.must('ISSUER', 0, 'declare', 'export-days', device=gsrn(900),
                            first_day=day(400), last_day=day(400), gross_wh=100000000, aux_wh=0)
        self.first = int(made['reply']['reply']['first'])

    def send(self, home: int) -> None:
        first = self.first + self.sent * EACH
        op = self.clients.request('C0', home, 'export', f'export-{self.sent}', giver=1, peer=PEER,
                                  account=1, first=f'{first:014}', last=f'{first + EACH - 1:014}')
        assert op['status'] == 200, op
        self.sent += 1

    def must_have_arrived(self, bodies: Bodies) -> None:
        """The peer has all that were sent, each of them once and nowhere here."""
        for n in range(self.sent):
            number = f'/v1/certificates/{self.first + (n + 1) * EACH - 1:014}'
            ours = ask(bodies.cluster.hosts[1], 'GET', number, 'ISSUER', b'', 60)
            assert bodies.ask('GET', number).get('place') == 'held'
            assert json.loads(ours.text).get('place') == 'exported'


def test_the_exchange_goes_on_on_another_host(cluster: Cluster, clients: Clients) -> None:
    """With an older copy of its folder, and as a new generation with none: each export arrives
    once."""
    one, two, three = cluster.hosts
    folders = [cluster.folder / f'exchange-{host.name}' for host in cluster.hosts]
    exports = Exports(clients)
    with Bodies(cluster) as bodies:
        for _ in range(2):
            bodies.ours(one, folders[0])
            bodies.theirs()
            if not exports.sent:
                exports.send(0)
        done = bodies.ours(one, folders[0])
        shutil.copytree(folders[0], folders[1])                 # as the nightly copy has it
        exports.send(0)
        bodies.ours(one, folders[0])
        bodies.theirs()
        assert done.returncode == 0, done
        exports.must_have_arrived(bodies)
        one.hold(*one.names, number=signal.SIGKILL)
        exports.send(1)
        bodies.ours(two, folders[1])
        bodies.theirs()
        done = bodies.ours(two, folders[1])
        assert done.returncode == 0, done
        exports.must_have_arrived(bodies)
        go_on_as_generation_2(bodies, exports, three, folders[2])
    one.release(*one.names)
    cluster.even(90)


def go_on_as_generation_2(bodies: Bodies, exports: Exports, host: Host, folder: Path) -> None:
    """A host with no folder asks first; and the peer has to accept the generation."""
    asks = bodies.ours(host, folder)
    assert asks.returncode == 1 and '--generation' in asks.stdout, asks
    bodies.ours(host, folder, '--generation', '2')
    bodies.theirs()
    bodies.ours(host, folder)
    bodies.theirs()
    accepted = bodies.theirs('--accept-generation', str(CODE), '2')
    exports.send(2)
    bodies.ours(host, folder)
    bodies.theirs()
    done, theirs = bodies.ours(host, folder), bodies.theirs()
    assert (accepted.returncode, done.returncode, theirs.returncode) == (0, 0, 0), (accepted, done)
    exports.must_have_arrived(bodies)
