"""Issuing bodies that exchange certificates: each with a registry, a front door and an exchange."""
import collections
import contextlib
import json
import random
import shutil
import subprocess
import tempfile
from collections.abc import Iterator
from pathlib import Path
from typing import Any

from client import answered
from client import request
from door import SERVICE
from front import Front
from relays import Relay
from relays import Wire
from service_commands import command

DEVICES = {7: '500000000000000012', 8: '500000000000000036', 9: '500000000000000029'}
CARRIERS: dict[int, dict[str, str]] = {7: {'carrier': 'hydrogen'}, 8: {}, 9: {}}
"""What a lot or a registration states where it isn't of electricity."""
LIVE = ('held', 'cancelled', 'expired', 'withdrawn')
HOLDERS = ('SUN', 'VOLT')
DRAINS = 60
Done = subprocess.CompletedProcess[str]
Run = tuple[int, int, int, str]
"""First and last number, account and place."""


class Fates:
    """Of three deliveries one is lost, one comes twice and one goes through, by chance."""

    def __init__(self, chance: random.Random) -> None:
        self.chance, self.count = chance, collections.Counter[str]()

    def __call__(self) -> str:
        ways = ('cut', 'unheard', 'twice', 'twice', 'passed', 'passed')
        fate = self.chance.choice(ways)
        self.count[fate] += 1
        return fate


class Body:
    """An issuing body. Of a seed: over connections that fail."""

    def __init__(self, front: Front, seed: int | None = None) -> None:
        self.front, self.code, self.keys = front, front.code, 0
        self.numbers: set[int] = set()
        self.chance = random.Random(seed)
        self.fates = Fates(self.chance) if seed is not None else None
        self.wire: Wire
        self.address = f'unix:{front.folder}/door.sock'
        if self.fates:
            self.address = f'http://127.0.0.1:{Relay(front.registry_port, self.fates).port}'
        self.state, self.config = front.door.exchange, front.folder / 'exchange.conf'
        self.key = front.folder / 'exchange.key'
        subprocess.run(['openssl', 'genpkey', '-algorithm', 'ed25519', '-out', self.key],
                       check=True, capture_output=True)
        self.public = subprocess.run(
            ['openssl', 'pkey', '-in', self.key, '-pubout'], check=True, capture_output=True,
            text=True).stdout.splitlines()[1]

    # ------------------------------------------------------------- the exchange

    def meets(self, *others: Any, user: str = '', password: str = '',
              ports: dict[int, int] | None = None, seconds: dict[int, int] | None = None) -> None:
        """Writes the configuration.

        Where connections fail, the others' notices are fetched over a wire that breaks.
        """
        user = user or f'registry{self.code:02}'
        word = self.front.folder / 'password'
        word.write_text(f'{password or "pw-" + user}\n')
        sections = [f'[registry]\ncode = {self.code}\nregistry = {self.address}\n'
                    f'key = {self.key}\n']
        for other in others:
            port = (ports or {}).get(other.code, other.front.port)
            if self.fates:
                self.wire = Wire(port, self.chance)
                port = self.wire.port
            sections.append(
                f'[peer {other.code}]\nurl = https://localhost:{port}\nuser = {user}\n'
                f'key = {other.public}\nseconds = {(seconds or {}).get(other.code, 120)}\n'
                f'password_file = {word}\nauthority = {other.front.folder}/etc/tls/cert.pem\n')
        self.config.write_text('\n'.join(sections))

    def exchange(self, *words: object) -> Done:
        done = subprocess.run(
            [*command('goo-exchange', SERVICE), '--config', self.config, '--folder', self.state,
             *map(str, words)], capture_output=True, text=True, timeout=300, check=False)
        assert 'Traceback' not in done.stderr, done.stderr
        return done

    def until(self, wanted: str, *words: object) -> Done:
        """Runs the exchange until a word is told; the last run."""
        for _ in range(DRAINS):
            run = self.exchange(*words)
            if wanted in run.stdout:
                break
        return run

    def sent_row(self, peer: int, number: str) -> dict[str, Any]:
        """What --state tells of the last notice to a peer on which a certificate is."""
        told = json.loads(self.exchange('--state').stdout)
        rows = [row for of in told['peers'] if of['registry'] == peer for row in of['sent']
                if any(part['first'] <= number <= part['last'] for part in row['parts'])]
        return dict(rows[-1])

    # ------------------------------------------------------------- the registry

    def ask(self, caller: str, method: str, path: str, body: str = '') -> tuple[int, str]:
        came = answered(self.front.registry_port, request(method, path, caller, body=body.encode()),
                        patience=60)
        return int(came.status), came.body.decode()

    def does(self, caller: str, command: str, **fields: Any) -> dict[str, Any]:
        self.keys += 1
        body = json.dumps({'command': command, 'key': f't{self.keys}', **fields})
        return dict(json.loads(self.ask(caller, 'POST', '/v1/requests', body)[1]))

    def begin(self, *peers: int) -> None:
        """Two holders with an account each, a device, and some 900 certificates."""
        for holder in HOLDERS:
            self.does('ISSUER', 'open_holder', holder=holder, name=holder.title())
            self.does('ISSUER', 'open_account', holder=holder)
        device = DEVICES[self.code]
        self.does('ISSUER', 'register_device', account=1, capacity_w=2000000, country='DE',
                  commissioned='2020-06-15', device=device, site=f'Field of {self.code}',
                  source='F01010100', support='none', tech='T010000', **CARRIERS[self.code])
        for peer in peers:
            self.does('ISSUER', 'add_peer', peer=peer)
        for month in (10, 11, 12):
            reply = self.does('ISSUER', 'declare', device=device, first_day=f'2024-{month}-01',
                              last_day=f'2024-{month}-30', gross_wh=300_400_000 + month,
                              aux_wh=0)['reply']
            assert reply['count'] in (300, 301)
            self.numbers |= set(range(int(reply['first']), int(reply['last']) + 1))

    def statements(self) -> Iterator[Run]:
        """Each run of each account."""
        for account in range(1, 1000):
            status, text = self.ask('ISSUER', 'GET', f'/v1/accounts/{account}/statement')
            if status != 200:
                return
            for words in map(str.split, text.splitlines()):
                if len(words) == 9:
                    yield int(words[0]), int(words[1]), account, words[8].split(':')[0]

    def held(self) -> list[Run]:
        return [run for run in self.statements() if run[3] == 'held']

    def some(self, account: int, count: int = 1) -> int:
        """The first of so many certificates in a row that an account holds."""
        return next(first for first, last, of, _ in self.held()
                    if of == account and last - first + 1 >= count)

    def holder_of(self, number: int) -> int | None:
        """The account that holds a certificate; None where none does."""
        return next((of for first, last, of, _ in self.held() if first <= number <= last), None)

    def export(self, peer: int, first: int, count: int, giver: int = 1) -> int:
        """Exports certificates to the account of the same number; the number of the first."""
        done = self.does(HOLDERS[giver - 1], 'export', giver=giver, peer=peer, account=giver,
                         first=f'{first:014}', last=f'{first + count - 1:014}')
        assert done['outcome'] == 'accepted', done
        return first

    def lower(self, first: str, last: str) -> dict[str, Any]:
        """October is lowered by as many MWh as these are certificates of its device."""
        return self.does('ISSUER', 'correct', device=DEVICES[self.code], first_day='2024-10-01',
                         less_wh=(int(last) - int(first) + 1) * 10**6, first=first, last=last,
                         reason='meter read twice')

    def issued(self) -> int:
        """By the audit, whose sums are held against one another."""
        total = 0
        for line in self.ask('ISSUER', 'GET', '/v1/audit')[1].splitlines():
            _, declared, less, issued, withdrawn, carry = map(int, line.split())
            assert declared - less == (issued - withdrawn) * 10**6 + carry and carry < 10**6
            assert less == withdrawn * 10**6 > 0
            total += issued
        return total

    def notices(self) -> Iterator[dict[str, Any]]:
        """All notices that it has sent."""
        for number in range(1, 100000):
            status, text = self.ask('ISSUER', 'GET', f'/v1/notices/{number}')
            if status != 200:
                return
            yield json.loads(text)

    def under_way(self, addressee: int) -> set[int]:
        """Numbers on notices to a registry."""
        return {number for notice in self.notices() if notice['addressee'] == addressee
                for part in notice['parts']
                for number in range(int(part['first']), int(part['last']) + 1)}

    def texts(self) -> list[tuple[int, str]]:
        """The statements and the audit."""
        paths = [f'/v1/accounts/{account}/statement' for account in (1, 2, 3)]
        return [self.ask('ISSUER', 'GET', path) for path in (*paths, '/v1/audit')]

    # ------------------------------------------------------------- copies

    def copy(self) -> Path:
        """A copy of the stopped database, with its log where it left one."""
        folder = Path(tempfile.mkdtemp(dir=self.front.folder, prefix='copy-'))
        self.front.stop('registry')
        shutil.copytree(self.front.db.parent, folder, dirs_exist_ok=True)
        self.front.start('registry')
        return folder / 'registry.db'

    def back_to(self, copy: Path) -> None:
        self.front.stop('registry')
        shutil.rmtree(self.front.db.parent)
        shutil.copytree(copy.parent, self.front.db.parent)
        self.front.start('registry')

    def go_back(self, copy: Path, generation: int) -> None:
        """What `goo-copies restore` does, as far as the exchange sees it."""
        self.back_to(copy)
        text = json.dumps({'generation': generation, 'copy': '2025-03-01',
                           'time': '2025-03-01T00:00:00Z'})
        (self.state / 'restored.json').write_text(text)


# ------------------------------------------------------------------ several

@contextlib.contextmanager
def registries(*codes: int) -> Iterator[list[Body]]:
    """Registries that know each other and have begun, over connections that hold."""
    with contextlib.ExitStack() as stack:
        bodies = [Body(stack.enter_context(Front(rate=500, code=code)))
                  for code in codes]
        for body in bodies:
            body.begin(*(code for code in codes if code != body.code))
            body.does('SUN', 'transfer', giver=1, taker=2, first=f'{body.code:02}000000000201',
                      last=f'{body.code:02}000000000260')
        for body in bodies:
            body.meets(*(other for other in bodies if other is not body))
        for body in bodies:
            body.exchange()
        drain(*bodies)
        yield bodies


def drain(*bodies: Body) -> list[Done]:
    """Runs all exchanges until none has anything to do or to tell; the last run of each."""
    for _ in range(DRAINS if bodies[0].fates else 12):
        runs = [body.exchange() for body in bodies]
        if all(run.returncode == 0 and not run.stdout for run in runs):
            break
    return runs


def homes(bodies: list[Body]) -> dict[int, list[tuple[int, str]]]:
    """For each certificate known anywhere, the registries in which it is, each with its place."""
    found: dict[int, list[tuple[int, str]]] = collections.defaultdict(list)
    for body in bodies:
        for first, last, _, place in body.statements():
            for number in range(first, last + 1):
                found[number] += [(body.code, place)] if place in LIVE else []
    return found


def assert_in_one_home(*bodies: Body) -> None:
    """Each certificate that was issued is at home in one registry.

    The recount of the first two finds nothing broken or under way.
    """
    found = homes(list(bodies))
    issued = set().union(*(body.numbers for body in bodies))
    assert not {number: found[number] for number in issued if len(found[number]) != 1}
    assert_recounted(*bodies[:2])


def assert_recounted(one: Body, other: Body) -> None:
    """Recounted from their requests both are the same, and nothing is under way between them."""
    done = subprocess.run([*command('goo-copies recount'), one.copy(), '--other', other.copy()],
                          capture_output=True, text=True, check=False)
    lines = [line for line in done.stdout.splitlines() if 'BROKEN' in line or (
        'has not taken in' in line and not line.endswith(': 0'))]
    assert done.returncode == 0 and not lines, (done, lines)


def send_what_is_asked_for(text: str) -> None:
    """As the operator would who is told it."""
    for line in text.splitlines():
        if 'curl -sS' in line:
            subprocess.run(['sh', '-c', line[line.index('curl -sS'):]], capture_output=True,
                           timeout=60, check=False)


def make_whole(body: Body, *others: Body) -> str:
    """Runs the exchanges until the one that went back says that it is whole; what it said."""
    told = ''
    for _ in range(12):
        run = body.exchange()
        told += run.stdout
        send_what_is_asked_for(run.stdout)
        if 'has all notices' in run.stdout:
            return told
        for other in others:
            other.exchange()
    raise AssertionError(f'it is not whole: {told}')
