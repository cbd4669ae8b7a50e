"""What a host does with its log: it sends it to another host, and says how it is."""
import shutil
import subprocess
import sys
import time
from pathlib import Path

from goo_service.common.files import write_whole
from goo_service.log import file_store
from goo_service.log.words import Words
from goo_service.log.words import become_owner
from goo_service.log.words import replica_answer
from goo_service.log.words import version_of

SILENT = 300
"""Seconds that nothing may be shipped."""
HOUR = 3600


def program(words: Words) -> None:
    print(version_of(words.goo))


def ship(words: Words) -> int:
    """Sends the log as it grows, and the archive each hour.

    `shipped` then has up to which entry, and when.
    """
    become_owner(words)
    shipped: int | None = None
    hour = 0.0
    while True:
        last, is_due = file_store.last_number(words.state / 'log'), time.time() - hour > HOUR
        folders = [name for name, wanted in (('log', last != shipped or is_due),
                                             ('archive', is_due)) if wanted]
        if all(is_sent(words.state / folder, words.text) for folder in folders):
            shipped, hour = last, time.time() if is_due else hour
            write_whole(words.state / 'shipped', f'{last} {int(time.time())}\n', is_synced=False)
        if words.once:
            return 0 if shipped is not None else 1
        time.sleep(1 if shipped == last else 10)


def is_sent(folder: Path, target: str) -> bool:
    """Sends a folder by rsync, which puts each file in its place whole.

    Files that are gone here stay there.
    """
    done = subprocess.run(['rsync', '--archive', '--timeout=20', folder, target],
                          capture_output=True, text=True, check=False)
    if done.returncode:
        print(f'not shipped: {done.stderr.strip()[-300:]}', file=sys.stderr, flush=True)
    return done.returncode == 0


def health(words: Words) -> int:
    answer = replica_answer(words, '/healthz', 30)
    state = answer.members()
    become_owner(words)
    room = shutil.disk_usage(words.state).free >> 20
    faults: list[object] = []
    if answer.status != 200:
        faults.append(state.get('why') or f"{state.get('behind')} entries behind")
    if room < words.room:
        faults.append(f'{room} MiB are free for log and archive')
    if state.get('aside'):
        faults.append(f"{state['aside']} entries were set aside since the replica started")
    if state.get('digest'):
        faults.append(state['digest'])
    if (words.state / 'shipped').exists():
        age = int(time.time()) - int((words.state / 'shipped').read_text().split()[1])
        faults += [f'nothing was shipped for {age} s'] if age > SILENT else []
    print('; '.join(map(str, faults)) or f"well at entry {state.get('entry')}")
    return 1 if faults else 0
