"""Work of root's below a folder that a service owns: a child that is the folder's owner does it.

A service that was taken over can put a link at each path below its own folder. Root would follow
the link, and read, write or give away what lies behind it. The owner reaches there no more than he
reaches anyway. So root opens nothing below such a folder: the child opens files, and what it reads
comes back through a pipe, as bytes and nothing else.
"""
import grp
import os
import pwd
import shutil
import struct
import sys
from collections.abc import Callable
from collections.abc import Iterator
from dataclasses import dataclass
from pathlib import Path
from typing import BinaryIO

HEAD = struct.Struct('>cI')
"""Of each part in the pipe: its kind and its length."""
DATA, FAULT, END = b'=', b'!', b'.'


class NotDone(Exception):
    """The owner could not do it. The text says why."""


@dataclass(frozen=True)
class Owner:
    """A user and a group, by their numbers."""
    user: int
    group: int

    @staticmethod
    def of_names(user: str, group: str) -> 'Owner':
        """LookupError where this host has no such user, or no such group."""
        return Owner(pwd.getpwnam(user).pw_uid, grp.getgrnam(group).gr_gid)


def owner_of(folder: Path) -> Owner | None:
    """The owner of a folder, where root has to become that user; else None."""
    there = folder.stat()
    return Owner(there.st_uid, there.st_gid) if os.geteuid() == 0 and there.st_uid else None


def become(owner: Owner) -> None:
    """This process is that user from here on, and cannot go back."""
    os.setgroups([])
    os.setresgid(owner.group, owner.group, owner.group)
    os.setresuid(owner.user, owner.user, owner.user)


def become_owner_of(folder: Path) -> None:
    """What is left to be done is done as the owner of this folder."""
    if owner := owner_of(folder):
        become(owner)


def remove(path: Path) -> None:
    """Removes what stands at a path: a folder with all in it, or a file, a link, a pipe itself."""
    if path.is_dir() and not path.is_symlink():
        shutil.rmtree(path)
    else:
        path.unlink(missing_ok=True)


def as_owner(folder: Path, work: Callable[[], Iterator[bytes]]) -> Iterator[bytes]:
    """The parts that `work` gives, which is carried out as the owner of a folder."""
    owner = owner_of(folder)
    if owner is None:
        yield from work()
        return
    near, far = os.pipe()
    sys.stdout.flush()
    sys.stderr.flush()
    child = os.fork()
    if not child:
        os.close(near)
        carry_out(far, owner, work)
    os.close(far)
    try:
        with open(near, 'rb') as pipe:          # closed, it ends a child that still writes
            yield from parts_from(pipe)
    finally:
        os.waitpid(child, 0)


def work_as_owner(folder: Path, work: Callable[[], None]) -> None:
    """Work that gives nothing back."""
    def silent() -> Iterator[bytes]:
        work()
        yield from ()
    for _ in as_owner(folder, silent):
        pass


def carry_out(far: int, owner: Owner, work: Callable[[], Iterator[bytes]]) -> None:
    """In the child: it does not come back."""
    try:
        pipe = open(far, 'wb')
        try:
            become(owner)
            for part in work():
                write_part(pipe, DATA, part)
            write_part(pipe, END, b'')
        except BrokenPipeError:
            pass                                # nobody wants the rest
        except Exception as fault:              # whatever it is, the parent tells it
            write_part(pipe, FAULT, f'{fault or type(fault).__name__}'.encode())
        pipe.flush()
    finally:
        os._exit(0)


def write_part(pipe: BinaryIO, kind: bytes, part: bytes) -> None:
    pipe.write(HEAD.pack(kind, len(part)))
    pipe.write(part)


def parts_from(pipe: BinaryIO) -> Iterator[bytes]:
    while True:
        kind, length = HEAD.unpack(read_exactly(pipe, HEAD.size))
        part = read_exactly(pipe, length)
        if kind == END:
            return
        if kind == FAULT:
            raise NotDone(part.decode(errors='replace'))
        yield part


def read_exactly(pipe: BinaryIO, length: int) -> bytes:
    part = pipe.read(length)
    if len(part) < length:
        raise NotDone('the process that works for root has ended')
    return part
