"""A copy of the sources with stand-ins for the programs and for rt, for test_first_look.py."""
import os
import re
import runpy
import shutil
import subprocess
import sys
from collections.abc import Collection
from collections.abc import Iterable
from dataclasses import dataclass
from pathlib import Path

TOP = Path(__file__).resolve().parents[2]
SECONDS = 300
"""In which a newcomer has the first answer."""
CHECK = runpy.run_path(str(TOP / 'check'))
TOOLS = {words[0]: f'{CHECK["FOLDERS"][kind]}/{words[0]}' for kind, words in CHECK['TOOLS']}
"""The tools of ./check, each with its path."""
PLACES = '/usr/bin:/bin:/usr/sbin:/sbin'
KEEP = ('import sys; sys.path.insert(0, "tools/lib"); import program, pathlib; '
        'program.keep_mark(pathlib.Path(sys.argv[1]), program.mark())')


def script(path: Path, line: str) -> Path:
    path.parent.mkdir(parents=True, exist_ok=True)
    path.write_text(f'#!/bin/sh\n{line}\n', encoding='ascii')
    path.chmod(0o755)
    return path


class Clone:
    """The sources, without what was built of them."""

    def __init__(self, folder: Path) -> None:
        self.top = folder / 'clone'
        self.top.mkdir()
        for name in ('goo', 'check', 'crates.txt'):
            shutil.copy2(TOP / name, self.top / name)
        shutil.copytree(TOP / 'crates', self.top / 'crates', ignore=shutil.ignore_patterns('out'))
        self.rt = script(folder / 'bin/rt', 'echo "rt $*"')
        self.source = self.top / 'crates/goo/src/main.rt'

    def reset(self) -> None:
        """As it was at first: no program is built, and tools and sources are those of here."""
        for name in ('crates/goo/out', 'tools'):
            shutil.rmtree(self.top / name, ignore_errors=True)
        shutil.copytree(TOP / 'tools', self.top / 'tools')
        shutil.copy2(TOP / self.source.relative_to(self.top), self.source)

    def put(self, name: str, line: str) -> Path:
        """A stand-in for a build of the present sources, `goo` or `trial/goo`."""
        path = script(self.top / 'crates/goo/out' / name, line)
        subprocess.run([sys.executable, '-B', '-c', KEEP, path], cwd=self.top, check=True)
        return path

    def goo(self, *words: str, real_rt: bool = False) -> subprocess.CompletedProcess[str]:
        """./goo, with the requests of crates/goo/stdin."""
        path = os.environ['PATH'] if real_rt else f'{self.rt.parent}:{os.environ["PATH"]}'
        with open(TOP / 'crates/goo/stdin', 'rb') as lines:
            return subprocess.run([self.top / 'goo', *words], stdin=lines, capture_output=True,
                                  text=True, env={**os.environ, 'PATH': path},
                                  timeout=2 * SECONDS, check=False)


@dataclass(frozen=True)
class Checked:
    """How ./check ended: its status, what it said, its last line, and whether the gate began."""

    status: int
    said: str
    last: str
    began: bool

    def names(self, what: str) -> bool:
        """Whether a line says that this is missing or is not allowed."""
        form = (rf'^check: (?:{re.escape(what)} is missing|'
                rf'this machine does not allow {re.escape(what)};)')
        return re.search(form, self.said, re.M) is not None


class Machine:
    """A machine as ./check sees it, by stand-ins that come before other commands."""

    def __init__(self, clone: Clone, packages: Iterable[str],
                 rt: str = 'echo "7 passed, 0 failed"') -> None:
        """The lines of tools/data/packages that hold there, and what rt does, which leaves a mark.
        Without `rt` there is none."""
        folder = clone.top.parent
        self.clone, self.bin, self.mark = clone, folder / 'machine', folder / 'gate-began'
        shutil.rmtree(self.bin, ignore_errors=True)
        lines = ''.join(f'{line}\n' for line in packages)
        (clone.top / 'tools/data/packages').write_text(lines, encoding='utf-8')
        script(self.bin / 'apt-get', 'exit 100')
        if rt:
            script(self.bin / 'rt', f'touch {self.mark}; {rt}')

    def check(self, *words: str, tools: Collection[str] = ()) -> Checked:
        """./check; of the tools it tries these alone."""
        self.mark.unlink(missing_ok=True)
        left_out = [word for name in TOOLS if name not in tools for word in ('--without', name)]
        done = subprocess.run([sys.executable, self.clone.top / 'check', *left_out, *words],
                              capture_output=True, text=True, timeout=SECONDS, check=False,
                              env={**os.environ, 'PATH': f'{self.bin}:{PLACES}'})
        return Checked(done.returncode, done.stdout, done.stdout.strip().rpartition('\n')[2],
                       self.mark.exists())


def needed() -> list[list[str]]:
    """The lines of tools/data/packages: package, sign and tools."""
    lines = (TOP / 'tools/data/packages').read_text(encoding='utf-8').splitlines()
    return [line.split(maxsplit=2) for line in lines if line and not line.startswith('#')]


def owners(sign: str) -> set[str]:
    """The Debian packages, installed here, that a command, a path or a Python module is of."""
    if sign.startswith('python3:'):
        telling = f'import {sign[8:]} as module; print(module.__file__)'
        file: str | None = subprocess.run(['/usr/bin/python3', '-c', telling], text=True,
                                          capture_output=True, check=False).stdout.strip()
    else:
        file = sign if sign.startswith('/') else shutil.which(sign, path=PLACES)
    if not file or not os.path.exists(file):
        return set()
    names = {name for path in (file, os.path.realpath(file))
             for name in (path, path.removeprefix('/usr'))}
    told = subprocess.run(['dpkg-query', '-S', *names], capture_output=True, text=True,
                          check=False).stdout
    return {line.split(':')[0] for line in told.splitlines()}
