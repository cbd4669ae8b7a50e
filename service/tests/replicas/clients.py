"""Clients of a cluster: what they did, and what came of it."""
import collections
import json
import random
import threading
import time
from collections.abc import Callable
from typing import Any

from mutations import gsrn
from replicas.cluster import Cluster
from replicas.talk import ask
from replicas.talk import day

PATIENCE = 20
"""Seconds of a client: longer than a replica takes to give a request up."""
LONGEST = 120
"""Seconds after which a client sends a request no more."""
ANSWERS = (200, 400, 403, 404, 409)
CERTIFICATES = 4000
HEAD = 'key,device,first_day,last_day,gross_wh,aux_wh'
PLANT = {'capacity_w': 2_000_000_000, 'commissioned': '2020-06-15', 'country': 'DE',
         'site': 'North', 'source': 'F01010100', 'support': 'none', 'tech': 'T010000'}
WEIGHTS = {'give': 20.0, 'hot': 22, 'cancel': 5, 'declare': 6, 'table': 4, 'refused': 5,
           'repeat': 6, 'reuse': 3, 'retry': 4, 'advance': 0.3, 'read': 18, 'withdraw': 1,
           'account': 2}
"""What a client does, and how often."""
Op = dict[str, Any]
"""A request: caller, route, body and method; when it began, was sent last, and was answered; its
tries, status, entry, text and reply."""


def is_taken(op: Op) -> bool:
    """Whether a command was accepted, now or before."""
    return (op['status'] == 200
            and op.get('reply', {}).get('outcome') in ('accepted', 'repeated'))


class Clients:
    """Each has a holder, an account and a device, and sends one request after another."""

    def __init__(self, cluster: Cluster, count: int, seed: int,
                 certificates: int = CERTIFICATES, pause: float = 0) -> None:
        self.cluster, self.count, self.seed, self.ended = cluster, count, seed, False
        self.certificates = certificates            # of each client at the beginning
        self.pause = pause                          # mean seconds between two of its requests
        self.ops: list[Op] = []
        self.errors: list[str] = []
        self.lock = threading.Lock()
        self.next_day: collections.Counter[int] = collections.Counter()
        self.tries: collections.Counter[object] = collections.Counter()
        self.first: dict[int, int] = {}
        self.threads: list[threading.Thread] = []

    # ---------------------------------------------------------------- requests

    def do(self, caller: str, route: str, body: bytes, home: int, method: str = 'POST',
           patience: float = PATIENCE) -> Op:
        """Sends a request until it is answered, each time through the next host."""
        op: Op = {'caller': caller, 'route': route, 'body': body, 'method': method,
                  'began': time.monotonic(), 'tries': 0, 'status': None}
        while time.monotonic() - op['began'] < LONGEST:
            host = self.cluster.hosts[(home + op['tries']) % self.cluster.count]
            op['tries'] += 1
            op['sent'] = time.monotonic()
            status: object
            try:
                told = ask(host, method, route, caller, body, patience)
                status, op['entry'], op['stale'] = told.status, told.entry, told.stale
                op['text'] = told.text
            except OSError as fault:
                status = type(fault).__name__
            op['answered'] = time.monotonic()
            self.tries[status] += 1
            if status in ANSWERS:
                op['status'], op['host'] = status, host.name
                break
            time.sleep(random.uniform(0.02, 0.3))
        with self.lock:
            self.ops.append(op)
        return op

    def request(self, caller: str, home: int, command: str, key: str, **fields: object) -> Op:
        body = json.dumps({'command': command, 'key': key, **fields}).encode()
        op = self.do(caller, '/v1/requests', body, home)
        op['key'] = key
        op['reply'] = json.loads(op['text']) if op['status'] else {}
        return op

    def send_again(self, old: Op, home: int) -> Op:
        op = self.do(old['caller'], old['route'], old['body'], home)
        op['key'] = old['key']
        return op

    def register(self, account: int, device: str, key: str, home: int = 0) -> Op:
        fields: dict[str, Any] = {'account': account, 'device': device, **PLANT}
        return self.request('ISSUER', home, 'register_device', key, **fields)

    def next_of(self, chance: random.Random) -> tuple[int, int]:
        """A device and its next day, or its last one again."""
        with self.lock:
            device = chance.randrange(min(3, self.count))
            self.next_day[device] += chance.random() < 0.7
            return device, self.next_day[device]

    def table(self, key: str, home: int, chance: random.Random) -> Op:
        rows = [HEAD]
        for i in range(chance.randint(3, 25)):
            device, n = self.next_of(chance)
            own = f'{key}-{i if chance.random() < 0.9 else 0}'
            known = gsrn(device + 1 if chance.random() < 0.95 else 77)
            gross = chance.choice((0, 1234567, 3000000, '12x'))
            rows.append(f'{own},{known},{day(n)},{day(n)},{gross},0')
        body = '\n'.join(rows).encode() + b'\n'
        return self.do('ISSUER', '/v1/declarations', body, home) | {'key': key}

    def some(self, count: int, tag: str, home: int = 0) -> int:
        """Requests one after another: accepted, refused, unreadable, tables; how many of them were
        answered, up to one that was not."""
        chance = random.Random(tag)
        for i in range(count):
            key, kind = f'{tag}-{i}', i % 5
            if kind == 4:
                op = self.table(key, home, chance)
            elif kind == 2:
                op = self.transfer_hot(chance.randrange(3), key, home, chance)
            else:
                holder = 'NONE' if kind == 3 else 'C1'
                op = self.request('ISSUER', home, 'open_account', key, holder=holder)
            if not op['status']:
                return i
        return count

    def transfer_hot(self, k: int, key: str, home: int, chance: random.Random) -> Op:
        """Of certificates that all clients ask for."""
        first = self.first[0] + chance.randrange(20)
        return self.request(f'C{k}', home, 'transfer', key, giver=k + 1,
                            taker=chance.randint(1, self.count), first=f'{first:014}',
                            last=f'{first + chance.randint(0, 2):014}')

    # ---------------------------------------------------------------- clients

    def set_up(self) -> None:
        """Without these nothing can be tried."""
        for k in range(self.count):
            self.must('ISSUER', k, 'open_holder', f'h{k}', holder=f'C{k}', name=f'Client {k}')
            self.must('ISSUER', k, 'open_account', f'a{k}', holder=f'C{k}')
        for k in range(self.count):
            assert self.register(k + 1, gsrn(k + 1), f'd{k}', k)['status']
            done = self.must('ISSUER', k, 'declare', f'm{k}', device=gsrn(k + 1),
                             first_day=day(0), last_day=day(0),
                             gross_wh=self.certificates * 10**6 + 400000 + k, aux_wh=0)
            self.first[k], self.next_day[k] = int(done['reply']['reply']['first']), 1

    def must(self, *words: Any, **fields: Any) -> Op:
        done = self.request(*words, **fields)
        assert done['status'], done
        return done

    def start(self) -> None:
        self.threads = [threading.Thread(target=self.act, args=(k,), daemon=True)
                        for k in range(self.count)]
        for thread in self.threads:
            thread.start()

    def end(self) -> None:
        """All clients end, and all of them were answered."""
        self.ended = True
        for thread in self.threads:
            thread.join(200)
        assert not any(thread.is_alive() for thread in self.threads) and not self.errors, \
            self.errors
        self.must_be_answered()

    def must_be_answered(self) -> None:
        left = [op for op in self.ops if not op['status']]
        assert not left, left[:2]

    def act(self, k: int) -> None:
        try:
            Acts(self, k).go()
        except Exception as fault:
            self.errors.append(f'client {k}: {type(fault).__name__} {fault}')
            raise

    # ---------------------------------------------------------------- what came of it

    def writes(self) -> list[Op]:
        return [op for op in self.ops if op['method'] == 'POST' and op['status']]

    def reads(self) -> list[Op]:
        return [op for op in self.ops if op['method'] == 'GET' and op['status']]

    def longest_gap(self, first: float, last: float) -> float:
        """The longest time without a write answered, between two times."""
        answered = [float(op['answered']) for op in self.writes()]
        times = sorted(time for time in answered if first <= time <= last)
        return max(b - a for a, b in zip([first, *times], [*times, last]))


class Acts:
    """What one client does, by chance."""

    def __init__(self, clients: Clients, k: int) -> None:
        self.clients, self.k, self.holder = clients, k, f'C{k}'
        self.chance = random.Random(clients.seed * 100 + k)
        self.cursor = clients.first[k] + 50
        self.done: list[Op] = []
        self.denied: list[Op] = []
        self.acts: dict[str, Callable[[str, int], Op | None]] = {
            name: getattr(self, name) for name in WEIGHTS}

    def go(self) -> None:
        n = 0
        while not self.clients.ended:
            n += 1
            time.sleep(self.clients.pause * random.uniform(0.5, 1.5))
            home = self.chance.randrange(3) if self.chance.random() < 0.2 else self.k
            what, = self.chance.choices(list(WEIGHTS), list(WEIGHTS.values()))
            op = self.acts[what](f'c{self.k}-{n}', home)
            if op and is_taken(op):
                self.done.append(op)
            elif op and op['status'] in (403, 409):
                self.denied.append(op)

    def span(self) -> dict[str, str]:
        """The next certificates of this client."""
        first = self.cursor
        self.cursor += self.chance.randint(1, 4)
        return {'first': f'{first:014}', 'last': f'{self.cursor - 1:014}'}

    def give(self, key: str, home: int) -> Op:
        taker = self.chance.randint(1, self.clients.count)
        return self.clients.request(self.holder, home, 'transfer', key, giver=self.k + 1,
                                    taker=taker, **self.span())

    def hot(self, key: str, home: int) -> Op:
        return self.clients.transfer_hot(self.k, key, home, self.chance)

    def cancel(self, key: str, home: int) -> Op:
        return self.clients.request(self.holder, home, 'cancel', key, account=self.k + 1,
                                    beneficiary='Bäckerei', use_first='2025-01-01',
                                    use_last='2025-12-31', **self.span())

    def withdraw(self, key: str, home: int) -> Op:
        return self.clients.request('ISSUER', home, 'withdraw', key, reason='meter',
                                    **self.span())

    def declare(self, key: str, home: int) -> Op:
        device, n = self.clients.next_of(self.chance)
        return self.clients.request('ISSUER', home, 'declare', key, device=gsrn(device + 1),
                                    first_day=day(n), last_day=day(n),
                                    gross_wh=self.chance.randint(0, 5000000), aux_wh=0)

    def table(self, key: str, home: int) -> Op:
        return self.clients.table(key, home, self.chance)

    def refused(self, key: str, home: int) -> Op:
        caller, command = self.chance.choice((('ISSUER', 'open_account'),
                                              (self.holder, 'open_account'),
                                              ('NOBODY', 'advance')))
        fields: dict[str, Any] = {'holder': 'NONE'} if self.chance.random() < 0.8 else {
            'wrong': 1}
        return self.clients.request(caller, home, command, key, **fields)

    def account(self, key: str, home: int) -> Op:
        return self.clients.request('ISSUER', home, 'open_account', key, holder=self.holder)

    def advance(self, _: str, home: int) -> Op:
        to = day(424 + self.chance.randint(0, 20))
        return self.clients.request('ISSUER', home, 'advance', f'advance-{to}', day=to)

    def repeat(self, key: str, home: int) -> Op | None:
        if not self.done:
            return self.read(key, home)
        return self.clients.send_again(self.chance.choice(self.done), home)

    def retry(self, key: str, home: int) -> Op | None:
        if not self.denied:
            return self.read(key, home)
        op = self.clients.send_again(self.chance.choice(self.denied[-20:]), home)
        op['reply'] = json.loads(op['text']) if op['status'] else {}
        return op

    def reuse(self, key: str, home: int) -> Op | None:
        """Another command under a key that was used."""
        if not self.done:
            return self.read(key, home)
        old = self.chance.choice(self.done)
        return self.clients.request(old['caller'], home, 'open_holder', old['key'],
                                    holder=f'X{key[1:]}', name='another')

    def read(self, _: str, home: int) -> Op | None:
        account = self.chance.randint(1, self.clients.count)
        number = self.clients.first[0] + self.chance.randrange(20)
        target = self.chance.choice((f'/v1/accounts/{account}/statement', '/v1/audit',
                                     f'/v1/certificates/{number:014}'))
        self.clients.do('ISSUER', target, b'', home, 'GET')
        return None
