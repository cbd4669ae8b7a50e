"""Files that are written whole: their content, mode and owner, and what a fault leaves."""
import os
import stat
from pathlib import Path

import pytest
from goo_service.common import files
from goo_service.common.owner import Owner


def test_content_and_mode(tmp_path: Path) -> None:
    path = tmp_path / 'new/below/f'
    contents: list[tuple[str | bytes, int]] = [
        ('one\nÄ', 0o600), (b'\xff\0', 0o640), ('', 0o644)]
    for content, mode in contents:
        files.write_whole(path, content, mode)
        assert path.read_bytes() == (content if isinstance(content, bytes) else content.encode())
        assert stat.S_IMODE(path.stat().st_mode) == mode
    assert os.listdir(path.parent) == ['f']


def test_no_other_mode_in_between(tmp_path: Path, monkeypatch: pytest.MonkeyPatch) -> None:
    """At each call that changes the disk, the part is for its owner alone or has its mode."""
    seen: list[tuple[str, int, int]] = []
    old = os.umask(0)

    def watched(name: str) -> None:
        real = getattr(os, name)

        def call(*words: object) -> object:
            for part in tmp_path.glob('.f.part'):
                seen.append((name, stat.S_IMODE(part.stat().st_mode), part.stat().st_size))
            return real(*words)
        monkeypatch.setattr(os, name, call)
    for name in ('fchown', 'fchmod', 'fsync', 'replace'):
        watched(name)
    try:
        files.write_whole(tmp_path / 'f', 'secret', 0o640, Owner(os.getuid(), os.getgid()))
    finally:
        os.umask(old)
    assert [name for name, *_ in seen] == ['fchown', 'fchmod', 'fsync', 'replace']
    assert [(mode, size) for _, mode, size in seen] == [
        (0o600, 0), (0o600, 0), (0o640, 6), (0o640, 6)]


def test_what_is_synced_and_when(tmp_path: Path, monkeypatch: pytest.MonkeyPatch) -> None:
    """The content before the name, the name afterwards, a new folder in the one above it."""
    done: list[str] = []
    fsync, replace = os.fsync, os.replace

    def synced(opened: int) -> None:
        done.append(f'sync {os.readlink(f"/proc/self/fd/{opened}")}')
        fsync(opened)

    def replaced(old: Path, new: Path) -> None:
        done.append('rename')
        replace(old, new)
    monkeypatch.setattr(os, 'fsync', synced)
    monkeypatch.setattr(os, 'replace', replaced)
    files.write_whole(tmp_path / 'a/f', 'x')
    assert done == [f'sync {tmp_path}', f'sync {tmp_path}/a/.f.part', 'rename',
                    f'sync {tmp_path}/a']
    done.clear()
    files.write_whole(tmp_path / 'a/f', 'y', is_synced=False)
    assert done == ['rename']


@pytest.mark.parametrize('name', ['fchown', 'fchmod', 'fsync', 'replace'])
def test_a_fault_leaves_what_was(tmp_path: Path, monkeypatch: pytest.MonkeyPatch,
                                 name: str) -> None:
    path = tmp_path / 'f'
    path.write_text('old')

    def fails(*_: object) -> None:
        raise OSError(28, 'No space left on device')
    monkeypatch.setattr(os, name, fails)
    with pytest.raises(OSError, match='No space'):
        files.write_whole(path, 'new', owner=Owner(os.getuid(), os.getgid()))
    assert path.read_text() == 'old' and os.listdir(tmp_path) == ['f']


@pytest.mark.parametrize('left', ['file', 'link'])
def test_a_part_that_a_crash_or_somebody_left(tmp_path: Path, left: str) -> None:
    """It is no way to another file, and no hindrance."""
    path, part, other = tmp_path / 'f', tmp_path / '.f.part', tmp_path / 'other'
    other.write_text('other')
    if left == 'file':
        part.write_text('half')
    else:
        part.symlink_to(other)
    files.write_whole(path, 'whole')
    assert path.read_text() == 'whole' and other.read_text() == 'other' and not path.is_symlink()
    assert sorted(os.listdir(tmp_path)) == ['f', 'other']
