"""The registry's program: what it is made of, where its two builds are, and which sources each is of.

The proved build is made by `./goo --prove` or by the gate, the trial build by `./goo` where nothing is proved. Beside each lies a mark: the sources and the
kit that it was made of. A build counts only while the sources are those of its mark.
"""
import hashlib
import os
from pathlib import Path

TOP = Path(__file__).resolve().parents[2]
OUT = TOP / 'crates/goo/out'
KIT = Path('/opt/rattle')
PROVED, TRIAL = OUT / 'goo', OUT / 'trial/goo'
PARTS = ('src', 'specs', 'proofs')


def standing():
    """The program's crates, each with all that it stands on, by crates.txt."""
    lines = [line.split('#')[0].split(':') for line in (TOP / 'crates.txt').read_text(encoding='utf-8').splitlines()]
    named = {line[0].split()[0]: line[1].split() for line in lines if len(line) == 2}
    below = {}

    def add(name):
        if name not in below:
            own = [other for other in named[name] if other in named]
            below[name] = set(own).union(*(add(other) for other in own))
        return below[name]

    add('goo')
    return below


def sources(name):
    """Each file that a check of the crate reads."""
    return [Path(at, file) for part in PARTS for at, _, files in os.walk(TOP / 'crates' / name / part) for file in files]


def mark(below=None):
    """A hash over the kit's name, crates.txt, and every source of the program's crates with its path."""
    kit = KIT / 'KIT-ID'
    files = sorted(file for name in below or standing() for file in sources(name))
    whole = hashlib.sha256(kit.read_bytes() if kit.exists() else b'')
    for file in [TOP / 'crates.txt', *files]:
        whole.update(f'{file.relative_to(TOP)}\n'.encode() + hashlib.sha256(file.read_bytes()).digest())
    return whole.hexdigest()


def mark_file(build):
    """Where the mark of a build is kept."""
    return build.with_name(f'{build.name}.of')


def is_of(build, sources_mark):
    """Whether a build is there, and of these sources."""
    kept = mark_file(build)
    return os.access(build, os.X_OK) and kept.exists() and kept.read_text(encoding='ascii').split()[:1] == [sources_mark]


def keep_mark(build, sources_mark):
    """Says that the build is of these sources, and which bytes it has."""
    kept = mark_file(build)
    part = kept.with_name(f'{kept.name}.part')
    part.write_text(f'{sources_mark} {digest(build)}\n', encoding='ascii')
    part.replace(kept)


def digest(build):
    """The SHA-256 of a build's bytes."""
    with open(build, 'rb') as file:
        return hashlib.file_digest(file, 'sha256').hexdigest()


def why_not_proved(sources_mark):
    """Why the proved build can't be installed; None if it can."""
    if not os.access(PROVED, os.X_OK) or not mark_file(PROVED).exists():
        return 'there is no proved program: ./goo --prove makes it'
    kept = mark_file(PROVED).read_text(encoding='ascii').split()
    if kept[:1] != [sources_mark]:
        return f'{PROVED} was proved from other sources than these: ./goo --prove proves these'
    if kept[1:] != [digest(PROVED)]:
        return f'{PROVED} is not the file that was built from the proofs: ./goo --prove builds it again'
    return None
