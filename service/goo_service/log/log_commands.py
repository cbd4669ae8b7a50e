"""What an operator does to the log: it begins, moves to a version, and loses entries."""
import json
import secrets
from pathlib import Path

from goo_service.common import owner
from goo_service.copies.replay import records_of
from goo_service.log import file_store
from goo_service.log import position
from goo_service.log import reversal
from goo_service.log import store
from goo_service.log.entries import Broken
from goo_service.log.words import Words
from goo_service.log.words import become_owner
from goo_service.log.words import held_place
from goo_service.log.words import replica_answer
from goo_service.log.words import version_line


def begin_log(words: Words) -> None:
    """Begins the log after the place of this host, or at 0 with a new place."""
    version = words.program()
    become_owner(words)
    if not (words.state / 'place').exists():
        position.begin(words.state / 'place', 0, secrets.token_hex(32))
    place = held_place(words)
    line = version_line(words, version, place.n, place.hash)
    if words.etcd:
        from goo_service.log import etcd_commands       # which one host does without
        etcd_commands.begin_log(words, place, line)
    else:
        file_store.begin(words.state / 'log', line, place.n + 1)
    print(f'the log begins after entry {place.n}, with version {version}')


def move_version(words: Words) -> None:
    become_owner(words)

    def line_after(end: store.Point) -> bytes:
        return version_line(words, words.text, end.n, end.hash)

    if words.etcd:
        from goo_service.log import etcd_commands       # which one host does without
        n = etcd_commands.move_version(words, line_after).n
    else:
        log = file_store.FileStore(words.state / 'log', words.secret)
        n = log.last.n + 1
        log.put([line_after(log.last)])
    print(f'after entry {n} the version is {words.text}')


def set_aside(words: Words) -> None:
    """Only the entry that the replica is at: any other one is a slip."""
    n = words.number()
    at = int(str(replica_answer(words, '/healthz', 30).members().get('entry', -1))) + 1
    if n != at:
        raise Broken(f'entry {n} is not the one that the replica is at, which is {at}')
    become_owner(words)
    if words.etcd:
        from goo_service.log import etcd_commands       # which one host does without
        return print(etcd_commands.vote_aside(words, n))
    (words.state / 'log' / f'{n}.aside').touch()
    print(f'entry {n} is set aside once the registry fails at it again')


# ------------------------------------------------------------------ an entry is undone

def undo(words: Words) -> None:
    """Entry N leaves log and archive, and all after it."""
    n, version = words.number(), words.program()
    become_owner(words)
    if (words.state / 'place').exists():
        held_place(words).close()
    folder = reversal.remove_from(
        words.state, n, lambda point: version_line(words, version, point.n, point.hash))
    print(f'entry {n} and all after it are in {folder}; a new log begins after entry {n - 1}, '
          f'with version {version}')


def send_again(words: Words) -> None:
    """What came after entry N is sent again, through the replica."""
    n, count, differ = words.number(), 0, 0

    def under_way() -> list[str]:
        return [str(part) for part in reversal.under_way(words.state) or ()]

    [read] = owner.as_owner(words.state, lambda: iter([json.dumps(under_way()).encode()]))
    there = json.loads(read)
    if not there or int(there[0]) != n:
        raise Broken(f'entry {n} is not being undone')
    folder = Path(there[1])
    records = records_of(folder / 'archive', n, words.secret, words.state)
    for sent in reversal.send(words.door, records):
        count += 1
        if not sent.is_same():
            differ += 1
            print(sent.in_words(), flush=True)
    owner.work_as_owner(words.state, lambda: (folder / 'sent').touch())
    print(f'{count} entries after entry {n} were sent again, '
          f'and {differ} of them came to another outcome')
