"""Packages of trials. Each is made in a clone of a commit, where a program of the trial is marked
as proved. The packages go nowhere else.
"""
import os
import subprocess
import sys
from pathlib import Path

from program import TOP

MARK = ('import sys; sys.path.insert(0, "tools/lib"); import program; '
        'program.keep_mark(program.PROVED, program.mark())')
SECONDS = 900


def carried_out(*words: str | Path, **more: object) -> str:
    """What a command prints that has to succeed."""
    done = subprocess.run([str(word) for word in words], capture_output=True, text=True,
                          check=False, timeout=SECONDS, **more)
    if done.returncode:
        sys.exit(f'{" ".join(map(str, words))[:200]}: {(done.stderr or done.stdout)[-1500:]}')
    return done.stdout


def has_commit(commit: str) -> bool:
    """Whether this repository has a commit; a shallow clone may not."""
    return subprocess.run(['git', 'cat-file', '-e', f'{commit}^{{commit}}'], cwd=TOP, check=False,
                          capture_output=True).returncode == 0


class Clone:
    """A copy of a commit, the last one unless another is named."""

    def __init__(self, folder: Path, commit: str = 'HEAD') -> None:
        self.folder, self.built = folder, folder / 'crates/goo/out/goo'
        carried_out('git', 'clone', '--quiet', '--no-checkout', TOP, folder)
        carried_out('git', 'checkout', '--quiet',
                    carried_out('git', 'rev-parse', commit, cwd=TOP).strip(),
                    cwd=folder)
        self.built.parent.mkdir(parents=True)

    def package(self, program: Path | str, into: Path, version: str) -> Path:
        """Makes the package of a version with this program."""
        carried_out('cp', program, self.built)
        carried_out(sys.executable, '-B', '-c', MARK, cwd=self.folder)
        carried_out(self.folder / 'tools/package', '--into', into, '--as', version,
                    env={**os.environ, 'DPKG_DEB_COMPRESSOR_TYPE': 'none'})
        return into / f'goo_{version}_amd64.deb'
