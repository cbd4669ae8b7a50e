"""Files that are there whole or not at all, also after a crash or a power failure."""
import os
from pathlib import Path

from goo_service.common.owner import Owner


def sync_folder(folder: Path) -> None:
    """The names in a folder are on the disk."""
    opened = os.open(folder, os.O_RDONLY | os.O_DIRECTORY)
    try:
        os.fsync(opened)
    finally:
        os.close(opened)


def make_folder(folder: Path, mode: int = 0o755) -> None:
    """The folder and those above it are there, and are on the disk where they are new."""
    if folder.is_dir():
        return
    make_folder(folder.parent)
    folder.mkdir(mode=mode, exist_ok=True)
    sync_folder(folder.parent)


def write_whole(path: Path, content: str | bytes, mode: int = 0o640, owner: Owner | None = None,
                is_synced: bool = True) -> None:
    """Writes a file under its name at once. Nobody else reads it before, or with another mode.

    A crash leaves the file as it was, or as it is now, and perhaps the part beside it, which the
    next call removes. Without `is_synced` a power failure may leave the file of before, or an empty
    one.
    """
    make_folder(path.parent)
    part = path.with_name(f'.{path.name}.part')
    part.unlink(missing_ok=True)
    try:
        write_part(part, content.encode() if isinstance(content, str) else content, mode, owner,
                   is_synced)
        os.replace(part, path)
    except BaseException:
        part.unlink(missing_ok=True)
        raise
    if is_synced:
        sync_folder(path.parent)


def write_part(part: Path, content: bytes, mode: int, owner: Owner | None, is_synced: bool) -> None:
    """A new file. A link that stands at its path is not followed."""
    opened = os.open(part, os.O_WRONLY | os.O_CREAT | os.O_EXCL | os.O_NOFOLLOW, 0o600)
    with open(opened, 'wb') as file:
        if owner:
            os.fchown(opened, owner.user, owner.group)
        os.fchmod(opened, mode)
        file.write(content)
        file.flush()
        if is_synced:
            os.fsync(opened)
