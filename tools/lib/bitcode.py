"""The program's bitcode, caught as `rt try` hands it to the kit's compiler: the code of these sources, with nothing proved."""
import os
import shutil
import subprocess
import time
from pathlib import Path

from program import KIT, OUT

CLANG = KIT / 'toolchain/bin/clang'
SMALLEST = 1_000_000
"""Bytes. The kit tries its compiler on a smaller module before."""


def compiler_at_work(place):
    """The folder in which the kit's compiler, started below this place, has the program's bitcode whole; None before that."""
    for process in Path('/proc').iterdir():
        try:
            if process.name.isdigit() and (process / 'exe').readlink() == CLANG and b'module.bc' in (process / 'cmdline').read_bytes().split(b'\0'):
                folder = (process / 'cwd').readlink()
                if folder.is_relative_to(place) and (folder / 'module.bc').stat().st_size > SMALLEST:
                    return folder
        except OSError:     # the process has ended meanwhile
            pass
    return None


def caught_bitcode(room):
    """Copies the bitcode into a folder; None where rt ended and it was not seen. What rt said is in try.log."""
    place = room / 'try'
    place.mkdir()
    with open(room / 'try.log', 'wb') as log:
        # --help ends by itself, and the compiler is stopped before that
        trying = subprocess.Popen(['rt', 'try', '--', '--help'], cwd=OUT.parent, env={**os.environ, 'TMPDIR': str(place)}, stdin=subprocess.DEVNULL, stdout=log, stderr=log)
    try:
        while trying.poll() is None:
            if folder := compiler_at_work(place):
                return Path(shutil.copyfile(folder / 'module.bc', room / 'program.bc'))
            time.sleep(0.1)
        return None
    finally:
        trying.terminate()      # rt ends what it has started
        trying.wait()
