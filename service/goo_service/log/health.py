"""What a replica says of itself.

/healthz is for a balancer and for goo-health, /metrics has Prometheus' text form.
"""
import json
from typing import TYPE_CHECKING

from goo_service.log.registry import Answer

if TYPE_CHECKING:
    from goo_service.log.replica import Replica

BEHIND = 1000
"""Entries that the place may be behind the log."""
TOTALS = ('writes', 'reads', 'applied', 'again', 'aside', 'overtaken', 'role_refused', 'beyond')
METRICS = 'text/plain; version=0.0.4; charset=utf-8'


def health(replica: 'Replica') -> Answer:
    """200 where requests are taken, else 503 with the reason."""
    place, end = replica.place, replica.store.last.n
    why = replica.halted if replica.options.reads_only else replica.trouble()
    behind = max(0, end - place.n)
    state = {'replica': replica.options.name, 'entry': place.n, 'end': end, 'behind': behind,
             'ok': not why, 'why': why, 'hash': place.hash, 'chain': place.chain,
             'version': replica.version, 'aside': replica.counts['aside'],
             'digest': replica.digests.undigested}
    status = 503 if why or behind > BEHIND else 200
    return Answer(status, 'application/json', json.dumps(state).encode() + b'\n')


def metrics(replica: 'Replica') -> Answer:
    """The longest wait is the one since somebody last looked."""
    place, last, requests = replica.place, replica.store.last, replica.requests
    gauges: dict[str, float] = {
        'entry': place.n, 'end': last.n, 'lag_entries': max(0, last.n - place.n),
        'quorum': int(replica.store.quorum), 'ok': int(not replica.trouble()),
        'halted': int(bool(replica.halted or replica.outvoted)),
        'waiting': len(requests.pending), 'longest_wait_seconds': round(requests.longest, 6),
        **replica.store.figures()}
    requests.longest = 0.0
    lines = [f'# TYPE goo_replica_{name} gauge\ngoo_replica_{name} {value}\n'
             for name, value in gauges.items()]
    lines += [f'# TYPE goo_replica_{name}_total counter\n'
              f'goo_replica_{name}_total {replica.counts[name]}\n' for name in TOTALS]
    return Answer(200, METRICS, ''.join(lines).encode())
