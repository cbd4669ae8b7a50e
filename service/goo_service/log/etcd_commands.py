"""What an operator does to a log over etcd. Each command may be given twice."""
from collections.abc import Callable

from goo_service.log import entries
from goo_service.log import etcd
from goo_service.log.etcd import Keys
from goo_service.log.etcd import one
from goo_service.log.options import EtcdOptions
from goo_service.log.store import Placed
from goo_service.log.store import Point
from goo_service.log.store import after


def begin_log(options: EtcdOptions, place: Placed, line: bytes) -> Point:
    """Begins the log in an etcd that has none, after this replica's place; its end.

    A member that was called before may have done so without an answer: then the log's first entry
    is this very line.
    """
    keys, end = Keys(options.code), after(entries.read_entry(line), line)
    first = keys.log(place.n + 1)
    done = one(options, 'kv/txn', {
        'compare': [etcd.is_there(keys.end, False)],
        'success': [etcd.put(first, line), etcd.put(keys.end, etcd.as_text(end))],
        'failure': [etcd.get(keys.end), etcd.get(first)]})
    if not done.get('succeeded'):
        there, begun = etcd.ranges(done)
        if etcd.pairs(begun) != [etcd.Pair(first, line)]:
            raise entries.Broken('there is a log in this etcd, which ends at entry '
                                 f'{etcd.end_in(there).n}')
    return end


def move_version(options: EtcdOptions, line_after: Callable[[Point], bytes]) -> Point:
    """Appends the entry that moves the version, whose line `line_after` makes; the log's end."""
    keys = Keys(options.code)
    while True:
        end = etcd.end_in(one(options, 'kv/range', etcd.range_of(keys.end)))
        line = line_after(end)
        moved = after(entries.read_entry(line), line)
        done = one(options, 'kv/txn', {
            'compare': [etcd.is_value(keys.end, etcd.as_text(end))],
            'success': [etcd.put(keys.log(end.n + 1), line),
                        etcd.put(keys.end, etcd.as_text(moved))]})
        if done.get('succeeded'):
            return moved


def vote_aside(options: EtcdOptions, n: int) -> str:
    """The operator's vote in the name of a host."""
    keys = Keys(options.code)
    one(options, 'kv/txn', {'compare': [etcd.is_there(keys.aside(n), False)],
                            'success': [etcd.put(keys.aside(n, options.name), 'cannot')]})
    return f'{options.name} votes to set entry {n} aside'


def record_copy(options: EtcdOptions, name: str, n: int) -> str:
    """A copy has all entries up to n: those after it are kept."""
    key = f'{Keys(options.code).root}copy/{name}'
    one(options, 'kv/txn', {'success': [etcd.put(key, f'{n:020}')]})
    return f'copy {name}: entry {n}'


def forget(options: EtcdOptions, name: str) -> str:
    """A replica or a copy that is gone for good no longer holds the log back."""
    root = Keys(options.code).root
    one(options, 'kv/txn', {'success': [etcd.delete(f'{root}{kind}/{name}')
                                        for kind in ('replica', 'copy')]})
    return f'{name} is forgotten'


def prune(options: EtcdOptions) -> str:
    """Deletes the entries that all replicas have applied and all copies have."""
    keys = Keys(options.code)
    replicas, copies = (etcd.pairs(one(options, 'kv/range', etcd.range_of(*keys.under(kind))))
                        for kind in ('replica', 'copy'))
    if len(replicas) < options.replicas or not copies:
        raise entries.Broken(f'not pruned: {len(replicas)} replicas of {options.replicas} and '
                             f'{len(copies)} copies are known')
    floor = min(int(pair.value) for pair in (*replicas, *copies))
    gone = one(options, 'kv/txn', {'success': [
        etcd.delete(f'{keys.root}{kind}/', f'{keys.root}{kind}/{floor + 1:020}')
        for kind in ('log', 'digest', 'aside')]})
    one(options, 'kv/compaction', {'revision': gone['header']['revision'], 'physical': True})
    count = gone['responses'][0]['response_delete_range'].get('deleted', 0)
    return f'pruned up to entry {floor}: {count} entries'
