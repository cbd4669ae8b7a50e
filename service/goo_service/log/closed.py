"""Registries that are closed: their notices are taken no more.

The file has a registry's code at the beginning of each line. What stands behind the code is for the
reader. Without the file no registry is closed.
"""
from pathlib import Path

from goo_service.common.files import write_whole

PATH = '/etc/goo/closed-registries'
MOST_BYTES = 4096


def read_closed(path: Path) -> frozenset[str]:
    """The codes, as digits without a leading zero. Root writes the file; the log reads it."""
    try:
        with path.open('rb') as file:
            lines = file.read(MOST_BYTES).decode(errors='replace').splitlines()
    except FileNotFoundError:
        return frozenset()
    return frozenset(filter(None, map(code_of, lines)))


def code_of(line: str) -> str:
    """The code at the beginning of a line; '' where there is none."""
    word = line.split()[0] if line.split() else ''
    return word.lstrip('0') if word.isdecimal() else ''


def close(path: Path, code: int, about: str) -> None:
    """Closes a registry, once."""
    if str(code) not in read_closed(path):
        before = path.read_text(encoding='utf-8') if path.exists() else ''
        write_whole(path, f'{before}{code:02} {about}\n', mode=0o644)


def reopen(path: Path, code: int) -> None:
    """Takes a registry's lines away."""
    if str(code) in read_closed(path):
        lines = path.read_text(encoding='utf-8').splitlines(keepends=True)
        kept = ''.join(line for line in lines if code_of(line) != str(code))
        write_whole(path, kept, mode=0o644)
