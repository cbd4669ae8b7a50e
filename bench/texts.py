"""Prints which statements of SQL the program gives to the database for a request of each kind (kinds.py), and how many of each: gdb stops where the library looks a text up.

usage: python3 bench/texts.py [KIND ..]

Of twelve requests over a registry in memory the last ten count, so a text that only some of them give has a fraction. Of the columns that a SELECT shows only the first stands here. It needs gdb.
"""
import collections
import re
import shutil
import subprocess
import sys

import kinds
from measured import NEW, PROGRAM, SECONDS, head, room, row

ASKED, COUNTED = 12, 10
FIRST = 'FROM receipt WHERE caller = ?1'
"""Each request begins with this look-up."""
INSIDE = r'''
import gdb
REGISTERS = ('rdi', 'rsi', 'rdx', 'rcx', 'r8', 'r9')
class Fetch(gdb.Breakpoint):
    def stop(self):
        values, inferior = [int(gdb.parse_and_eval('$' + name)) % 2 ** 64 for name in REGISTERS], gdb.selected_inferior()
        for place, count in zip(values, values[1:]):
            try:
                if 6 < count < 2_000 and bytes(inferior.read_memory(place, 7)) in (b'SELECT ', b'INSERT ', b'UPDATE ', b'DELETE ', b'CREATE '):
                    OUT.write(bytes(inferior.read_memory(place, count)).decode() + '\n')
                    return False
            except gdb.MemoryError:
                pass
        OUT.write('a text that was not found\n')
        return False
gdb.execute('set pagination off')
Fetch("'sqlite::cache::Entry::fetch'")
'''


def texts(kind):
    """The texts that the requests of a kind gave, request by request."""
    with room() as folder:
        given, told, script = (folder / name for name in ('lines', 'texts', 'inside.py'))
        given.write_text('\n'.join(kinds.lines(kind, ASKED)) + '\n', encoding='utf-8')
        script.write_text(f'OUT = open({str(told)!r}, "w", encoding="utf-8", buffering=1)\n{INSIDE}', encoding='utf-8')
        run = ' '.join(['run', 'run', '--memory', *NEW, '<', str(given), '>', str(folder / 'outcomes')])
        subprocess.run(['gdb', '-q', '-batch', '-x', script, '-ex', run, PROGRAM], capture_output=True, timeout=SECONDS, check=True)
        requests = []
        for text in told.read_text(encoding='utf-8').splitlines():
            if FIRST in text:
                requests.append([])
            if requests:
                requests[-1].append(text)
    return requests[-COUNTED:]


def short(text):
    return re.sub(r'^SELECT ([\w.]+), .*? FROM ', r'SELECT \1 .. FROM ', text)


def main(chosen):
    if not shutil.which('gdb'):
        sys.exit('no gdb')
    head(['Request', 'Statements', 'How many', 'Text'])
    for kind in chosen:
        counted = collections.Counter(short(text) for request in texts(kind) for text in request)
        for at, (text, count) in enumerate(counted.items()):
            row([*([kind, f'{counted.total() / COUNTED:.1f}'] if at == 0 else ['', '']), f'{count / COUNTED:.1f}', f'`{text}`'])


if __name__ == '__main__':
    if not set(sys.argv[1:]) <= kinds.KINDS.keys():
        sys.exit(__doc__)
    main(sys.argv[1:] or kinds.KINDS)
