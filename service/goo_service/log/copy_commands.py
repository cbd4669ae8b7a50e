"""What an operator does to copies and the archive: they are made, compared, checked, put back."""
import json
import shlex
import shutil
import subprocess
import sys
import time
from pathlib import Path

from goo_service.common import owner
from goo_service.copies import book
from goo_service.copies import contents
from goo_service.copies import nightly
from goo_service.copies import verification
from goo_service.copies.places import Place
from goo_service.copies.places import read_place
from goo_service.log import archive
from goo_service.log import position
from goo_service.log import reader
from goo_service.log.words import Words
from goo_service.log.words import become_owner
from goo_service.log.words import held_place


def put_place(words: Words) -> None:
    """The place of a copy. The one of before stays beside it."""
    place = read_place(Path(words.text))
    become_owner(words)
    path = words.state / 'place'
    if path.exists():
        held_place(words).close()
        path.rename(path.with_name(f"place.before-{time.strftime('%Y-%m-%dT%H%M%S')}"))
    position.begin(path, place.n, place.hash, place.chain)
    print(f'the place is entry {place.n}')


def first_copy(words: Words) -> None:
    def place() -> list[bytes]:
        held = held_place(words)
        there = json.dumps({'n': held.n, 'hash': held.hash, 'chain': held.chain}).encode()
        held.close()
        return [there]

    def has_entries() -> list[bytes]:
        folder = words.state / 'archive'
        return [b'yes' if folder.is_dir() and reader.months(folder) else b'']

    [read] = owner.as_owner(words.state, lambda: iter(place()))
    at = Place(**json.loads(read), version=words.program())
    made = nightly.first_copy(words.goo, words.db, words.copies, at)
    print(made)
    [is_old] = owner.as_owner(words.state, lambda: iter(has_entries()))
    if not is_old and (done := book.place_beginning(made, at.n, nightly.CONFIGURATION)):
        print(done, file=sys.stderr)


def copy(words: Words) -> int:
    made, before = nightly.next_copy(words.goo, words.copies, words.state / 'archive',
                                     words.secret, words.db, words.door)
    n = read_place(made).n
    print(f'{made}: the live file at entry {n}; the log makes the same rows of {before.name}')
    if words.etcd:
        from goo_service.log import etcd_commands       # which one host does without
        etcd_commands.record_copy(words, words.name, n)
    for old in contents.copies_in(words.copies)[:-words.keep]:
        shutil.rmtree(old)
    return recount_copy(words, made, before) if words.recount else 0


def recount_copy(words: Words, made: Path, before: Path) -> int:
    """The copy recounted from the requests that it keeps, apart from the program."""
    earlier = before / 'registry.db'
    command = [*shlex.split(words.recount), str(made / 'registry.db'),
               *(['--before', str(earlier)] if before.exists() else [])]
    done = subprocess.run(command, capture_output=True, text=True, check=False)
    (made / 'recount.txt').write_text(done.stdout)
    print(f'{made}: {(done.stdout or done.stderr).splitlines()[-1:]}')
    return 1 if done.returncode else 0


def verify(words: Words) -> None:
    begin, base = 1, None
    for word in words.begin:
        if word.isdecimal():
            begin = int(word)
        else:
            base = Path(word)
    copies = words.copies if words.copies.is_dir() else None
    for line in verification.verify(words.goo, words.state / 'archive', words.secret, base,
                                    copies, begin):
        print(line)


def compress(words: Words) -> None:
    become_owner(words)
    archive.compress(words.state / 'archive')


# ------------------------------------------------------------------ over etcd

def record_copy(words: Words) -> None:
    from goo_service.log import etcd_commands       # which one host does without
    become_owner(words)
    print(etcd_commands.record_copy(words, words.text, held_place(words).n))


def forget(words: Words) -> None:
    from goo_service.log import etcd_commands       # which one host does without
    print(etcd_commands.forget(words, words.text))


def prune(words: Words) -> None:
    from goo_service.log import etcd_commands       # which one host does without
    print(etcd_commands.prune(words))
