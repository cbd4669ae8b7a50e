"""Programs that tools start: the registry's own, and those of this machine."""
import os
import shutil
import signal
import sys

import program
from tally import ended

NEEDED = {'nginx': 'nginx', 'openssl': 'openssl', 'htpasswd': 'apache2-utils', 'curl': 'curl'}


signal.signal(signal.SIGTERM, lambda *_: sys.exit(143))     # whatever ends a tool, what it started ends with it


def need(**more):
    """Ends the tool where the machine lacks a program that all of it needs, by the program's name and its Debian package."""
    os.environ['PATH'] += ':/usr/sbin:/sbin'
    lacking = [f'{name} ({package})' for name, package in {**NEEDED, **more}.items() if not shutil.which(name)]
    if lacking:
        print(f"this machine lacks {', '.join(lacking)}")
        sys.exit(ended(0, 1))


def find_registry():
    """The registry's program: GOO, the proved one, the one on the PATH, or the trial program of `./goo`, which is told."""
    if os.environ.get('GOO'):
        return os.environ['GOO']
    if program.PROVED.exists():
        return str(program.PROVED)
    if shutil.which('goo'):
        return shutil.which('goo')
    if program.TRIAL.exists():
        print('with the trial program, unproved and slow', file=sys.stderr)
        return str(program.TRIAL)
    return sys.exit('no goo: ./goo --help builds one, or set GOO to the program')
