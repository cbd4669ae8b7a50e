"""What must hold after clients and faults, whatever these were."""
import base64
import bisect
import collections
import json
import os
import re
import shutil
import subprocess
from collections.abc import Callable
from pathlib import Path

import client
from goo_service.log import reader
from goo_service.log import entries
from goo_service.log import roles
from goo_service.log.entries import Entry
from replicas.clients import Clients
from replicas.clients import Op
from replicas.cluster import Cluster
from replicas.cluster import Rows
from replicas.cluster import dump
from replicas.talk import CODE
from replicas.talk import GOO
from replicas.talk import Told
from replicas.talk import ask
from replicas.talk import enter
from replicas.talk import must
from replicas.talk import run
from service_commands import command

TABLES = '/v1/declarations'
LOG = f'/goo/{CODE:02}/log'
LONGEST = 300
"""Seconds of a request to a registry by itself: a table takes an unproved one long."""
FAR = 30
"""Entries after which a read that shows none of them is taken as wrong."""
NUMBERS: dict[int, tuple[str, ...]] = {
    1: (), 2: ('account',), 4: ('count',), 5: ('cancellation', 'count'),
    6: ('withdrawal', 'count'), 7: ('expired',), 8: ('notice', 'count'), 9: ('count',)}
"""The numbers of a kept reply by its kind (docs/TABLES.md)."""


# -------------------------------------------------------------------- the log

def whole_log(cluster: Cluster) -> list[Entry]:
    """The log's entries: as etcd has them, or as archive and files of the log have them."""
    return log_of_one(cluster) if cluster.count == 1 else log_of_etcd(cluster)


def log_of_one(cluster: Cluster) -> list[Entry]:
    host, key = cluster.hosts[0], entries.read_key(cluster.folder / 'mac.key')
    archive = [record.entry for record in reader.read_archive(host.state / 'archive', 0, key)]
    log = [entries.read_entry(line, key)
           for path in sorted((host.state / 'log').glob('*.jsonl'))
           for line, _ in reader.lines(path)]
    assert log == archive[len(archive) - len(log):]
    return archive


def log_of_etcd(cluster: Cluster) -> list[Entry]:
    enter(cluster.hosts[0])
    found: list[Entry] = []
    at = f'{LOG}/'
    while True:
        asked = {'key': base64.b64encode(at.encode()).decode(),
                 'range_end': base64.b64encode(f'{LOG}0'.encode()).decode(), 'limit': 500}
        text = client.request('POST', '/v3/kv/range', None, [client.CLOSE], 'etcd',
                              json.dumps(asked).encode())
        answer = client.answered(2379, text, patience=30, tls=cluster.context(),
                                 name='127.0.0.1')
        pairs = json.loads(answer.body).get('kvs', [])
        if not pairs:
            return found
        found += [entries.read_entry(base64.b64decode(pair['value'])) for pair in pairs]
        at = base64.b64decode(pairs[-1]['key']).decode() + '\0'


# -------------------------------------------------------------------- one pass over the log

class Bare:
    """A goo by itself in the first host's network, which is sent requests one by one."""

    def __init__(self, cluster: Cluster, db: Path) -> None:
        host = cluster.hosts[0]
        self.fd, self.port = host.fd, client.free_port() if host.alone else 8499
        self.process = subprocess.Popen(
            host.inside(GOO, 'serve', '--db', db, '--port', self.port, '--count', '1000000000'),
            stdout=subprocess.PIPE, text=True)
        assert self.process.stdout
        self.process.stdout.readline()

    def ask(self, method: str, target: str, caller: str, body: bytes) -> Told:
        return ask(self, method, target, caller, body, LONGEST)

    def stop(self) -> None:
        self.process.terminate()
        self.process.communicate(timeout=20)


def is_carried_out(entry: Entry) -> bool:
    """Whether the registry is sent it."""
    return (entry.method == 'POST'
            and roles.allows(entry.role, entry.method, entry.route, entry.body))


def same(route: str, text: str) -> str:
    """An outcome with no difference between what was accepted now and before."""
    if route == TABLES:
        return re.sub(r'(?m)^(\d+) (accepted|repeated)$', r'\1 done', text)
    return text.replace('"outcome":"repeated"', '"outcome":"accepted"')


def without_numbers(text: str) -> str:
    """A report without the numbers of refusals: a row of a table that was cut off, and is applied
    again behind later rows, may be refused by another."""
    return re.sub(r'refused \d+', 'refused', text)


class Replayed:
    """The log applied in one pass by a fresh goo, beside what clients were told and shown."""

    def __init__(self, bare: Bare, clients: Clients) -> None:
        self.bare = bare
        self.told = {op['entry']: op for op in clients.writes()}
        self.reads = sorted(clients.reads(), key=lambda op: int(op['entry']))
        self.open: list[Op] = []
        self.wrong: list[tuple[int, str, str]] = []
        self.lost: list[Op] = []
        self.seen = 0

    def apply(self, entry: Entry) -> None:
        if entry.route == TABLES and self.open:
            self.apply_rows(entry)
        told = self.bare.ask('POST', entry.route, entry.caller, entry.body)
        if entry.n in self.told:
            self.compare(entry, self.told[entry.n], told)
        while self.reads and self.reads[0]['entry'] <= entry.n:
            self.open.append(self.reads.pop(0))
        self.look(entry.n)

    def compare(self, entry: Entry, op: Op, told: Told) -> None:
        self.seen += 1
        texts = [same(entry.route, text) for text in (op['text'], told.text)]
        is_own = op['body'] == entry.body and (entry.user, entry.address) == (
            f"u-{op['caller']}", '192.0.2.7')
        if entry.route == TABLES:
            texts = list(map(without_numbers, texts))
        if op['status'] != told.status or len(set(texts)) > 1 or not is_own:
            self.wrong.append((entry.n, op['text'], told.text))

    def apply_rows(self, entry: Entry) -> None:
        """A registry that is killed in a table shows its first rows until the table comes again."""
        lines = entry.body.splitlines(keepends=True)
        for count in range(2, len(lines)):
            self.bare.ask('POST', entry.route, entry.caller, b''.join(lines[:count]))
            self.look(entry.n - 1)

    def look(self, n: int) -> None:
        """Which reads show the records as they are now."""
        still: list[Op] = []
        shown: dict[str, Told] = {}
        for op in self.open:
            route = op['route']
            if route not in shown:
                shown[route] = self.bare.ask('GET', route, 'ISSUER', b'')
            if (shown[route].status, shown[route].text) != (op['status'], op['text']):
                (still if n < op['entry'] + FAR else self.lost).append(op)
        self.open = still


def replayed(cluster: Cluster, clients: Clients, log: list[Entry]) -> Rows:
    """The rows of a fresh goo after the whole log. Each client was told what it decides, and each
    read shows the records after its entry, or after one of the next."""
    folder = cluster.folder / 'replay'
    folder.mkdir()
    shutil.copy(cluster.folder / 'begun.db', folder / 'registry.db')
    bare = Bare(cluster, folder / 'registry.db')
    found = Replayed(bare, clients)
    for entry in log:
        if is_carried_out(entry):
            found.apply(entry)
    bare.stop()
    assert not found.wrong and found.seen == len(found.told), found.wrong[:3]
    assert not found.lost + found.open, (found.lost + found.open)[:2]
    return dump(folder / 'registry.db', cluster.folder / 'copy-replay')


# -------------------------------------------------------------------- order and receipts

def highest(ops: list[Op]) -> Callable[[float], int]:
    """The highest entry that was answered before a time."""
    times, most = [], [0]
    for op in sorted(ops, key=lambda op: float(op['answered'])):
        times.append(op['answered'])
        most.append(max(most[-1], op['entry']))
    return lambda time: most[bisect.bisect_left(times, time)]


def must_be_in_time(clients: Clients) -> None:
    """An answer before a request was sent has the lower entry, no two have the same, and a read has
    all that was answered before it was sent."""
    writes = clients.writes()
    reads = [op for op in clients.reads() if not op['stale']]
    before, read_before = highest(writes), highest(reads)
    late = [op for op in writes
            if max(before(op['sent']), read_before(op['sent'])) >= op['entry']]
    assert not late, late[:2]
    old = [op for op in reads
           if max(before(op['sent']), read_before(op['sent'])) > op['entry']]
    assert not old, old[:2]
    assert len({op['entry'] for op in writes}) == len(writes)


def reply_of(kind: int, *numbers: int) -> dict[str, object]:
    if kind != 3:
        return dict(zip(NUMBERS[kind], numbers))
    carry, first, last = numbers
    span = {'first': f'{first:014}', 'last': f'{last:014}'} if first else {}
    return {'carry': carry, 'count': last - first + 1 if first else 0, **span}


class Acknowledged:
    """What clients were told of each key: its reply, where it was accepted and has one."""

    def __init__(self, clients: Clients) -> None:
        self.accepted: dict[tuple[str, str], object] = {}
        self.refused: set[tuple[str, str]] = set()
        self.wrong: list[object] = []
        for op in sorted(clients.writes(), key=lambda op: int(op['entry'])):
            (self.add_table if op['route'] == TABLES else self.add)(op)

    def add(self, op: Op) -> None:
        said, at = json.loads(op['text']), (op['caller'], json.loads(op['body']).get('key'))
        if said['outcome'] in ('accepted', 'repeated'):
            if self.accepted.get(at) not in (None, said['reply']):
                self.wrong.append((at, said))
            self.accepted[at] = said['reply']
        elif at not in self.accepted:
            self.refused.add(at)

    def add_table(self, op: Op) -> None:
        keys = [line.split(',')[0] for line in op['body'].decode().splitlines()[1:]]
        for line in op['text'].splitlines():
            number, outcome = line.split()[:2]
            at = ('ISSUER', keys[int(number) - 1])
            if outcome in ('accepted', 'repeated'):
                self.accepted[at] = None
            elif at not in self.accepted:
                self.refused.add(at)


def must_have_receipts(cluster: Cluster, clients: Clients) -> None:
    """Each acknowledged acceptance has a receipt with its reply; no key has one that was only
    refused, or of which nobody was told."""
    text = must('sqlite3', '-json', cluster.folder / 'copy-h1/registry.db',
                'SELECT caller, key, kind, n1, n2, n3 FROM receipt')
    kept = {(row['caller'], row['key']): reply_of(row['kind'], row['n1'], row['n2'], row['n3'])
            for row in json.loads(text)}
    told = Acknowledged(clients)
    lost = [(at, reply, kept.get(at)) for at, reply in told.accepted.items()
            if at not in kept or reply is not None and kept[at] != reply]
    assert not told.wrong and not lost, (told.wrong[:3], lost[:3])
    assert not (told.refused - told.accepted.keys()) & kept.keys()
    assert not kept.keys() - told.accepted.keys()


def must_be_archived(cluster: Cluster, clients: Clients) -> None:
    """Each host's archive has each outcome that a client was told, and all end with one chain."""
    told = {op['entry']: op for op in clients.writes()}
    key, ends = entries.read_key(cluster.folder / 'mac.key'), set()
    for host in cluster.hosts:
        seen = collections.Counter[bool]()
        for record in reader.read_archive(host.state / 'archive', 0, key):
            if op := told.get(record.entry.n):
                route, outcome = record.entry.route, record.outcome
                text = entries.comparable(route, op['status'], op['text'].encode())
                seen[text == entries.comparable(route, outcome.status, outcome.body)] += 1
        assert (seen[True], seen[False]) == (len(told), 0), host.name
        ends.add((record.entry.n, record.hash, record.outcome.chain))
    assert len(ends) == 1, ends
    verified = cluster.hosts[0].op('verify', '--from', first_copy(cluster))
    assert verified.returncode == 0, verified


def first_copy(cluster: Cluster) -> Path:
    return sorted((cluster.folder / 'copies').glob('????-*'))[0]


def must_balance(audit: str) -> None:
    for line in audit.splitlines():
        _, declared, less, issued, withdrawn, carry = map(int, line.split())
        assert declared - less == (issued - withdrawn) * 10**6 + carry and carry < 10**6, line


def must_be_the_same(dumps: list[Rows]) -> None:
    is_same = len(set(dumps)) == 1 and dumps[0][0].startswith('PRAGMA')
    assert is_same, [rows[:200] for rows, _ in dumps]


def all_must_hold(cluster: Cluster, clients: Clients) -> None:
    """The log is whole; all registries have the rows of one that takes it in one pass; clients were
    told what it decides, in real-time order; archives and recounts agree. All is stopped then."""
    log = whole_log(cluster)
    assert [entry.n for entry in log] == list(range(1, len(log) + 1))
    cluster.stop('replica', 'goo')
    dumps = cluster.dumps()
    must_be_the_same(dumps)
    assert replayed(cluster, clients, log) == dumps[0]
    must_have_receipts(cluster, clients)
    must_be_in_time(clients)
    must_be_archived(cluster, clients)
    must_balance(dumps[0][1])
    for host in cluster.hosts:
        told = run(*command('goo-copies recount'), cluster.folder / f'copy-{host.name}',
                   cwd='/tmp', env={**os.environ, 'PYTHONDONTWRITEBYTECODE': '1'})
        assert told.returncode == 0, told
