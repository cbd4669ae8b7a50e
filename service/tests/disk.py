"""A disk that keeps what was synced, by what strace saw of the processes that write on it.

`watch` attaches strace to processes. Each call that it saw changes a Disk, in the order in which
the calls ended, and `after_failure` says which files are there if the power fails then. What a
process means to be on the disk plays no part in it.
"""
import contextlib
import random
import re
import signal
import subprocess
import time
from collections.abc import Iterable
from collections.abc import Iterator
from dataclasses import dataclass
from dataclasses import field
from pathlib import Path

CHANGES = ('write', 'writev', 'pwrite64', 'pwritev', 'ftruncate', 'fallocate', 'openat', 'rename',
           'renameat', 'renameat2', 'unlink', 'unlinkat', 'fsync', 'fdatasync', 'sync_file_range')
SENDS = ('sendto', 'sendmsg')
RECEIVES = ('read', 'readv', 'recvfrom', 'recvmsg')
LINE = re.compile(r'(\d+) +(\d+\.\d+) (.*)')
CALL = re.compile(r'(\w+)\((.*)\) += (.*)')
TOOK = re.compile(r'(.*) <(\d+\.\d+)>')
OPENED = re.compile(r'\d+<([^>]*)>')
TEXT = re.compile(r'"([^"]*)"')


class Unknown(Exception):
    """A call on a watched file that the disk can't carry out."""


@dataclass(frozen=True)
class Call:
    """A call that ended, and when."""

    ended: float
    name: str
    words: str
    result: str

    @property
    def path(self) -> Path | None:
        """The file that it is about, by its descriptor."""
        opened = OPENED.match(self.words)
        return Path(text_of(opened[1]).decode()) if opened else None

    @property
    def texts(self) -> list[bytes]:
        """The texts among its words: what it writes, or names of files."""
        return [text_of(found) for found in TEXT.findall(self.words)]


def text_of(hexadecimal: str) -> bytes:
    """Bytes that strace shows as \\x41\\x42."""
    return bytes.fromhex(hexadecimal.replace('\\x', ''))


def read_trace(path: Path) -> Iterator[Call]:
    """The calls of a trace that succeeded, in the order in which it has them."""
    begun: dict[str, str] = {}
    for line in path.read_text().splitlines():
        found = LINE.fullmatch(line)
        if not found:
            continue
        process, seen, text = found[1], float(found[2]), found[3]
        if text.endswith('<unfinished ...>'):
            begun[process] = text.removesuffix('<unfinished ...>').rstrip()
            continue
        resumed = re.match(r'<\.\.\. \w+ resumed>', text)
        if resumed:
            text = begun.pop(process) + text[resumed.end():]
        took = TOOK.fullmatch(text)
        call = CALL.fullmatch(took[1]) if took else None
        if took and call and not call[3].startswith('-1'):
            ended = seen if resumed else seen + float(took[2])
            yield Call(ended, call[1], call[2], call[3])


@dataclass(frozen=True)
class Change:
    """What one call does to a file: bytes at an offset or at its end, or a new size."""

    data: bytes = b''
    offset: int | None = None
    size: int | None = None

    def make(self, content: bytearray) -> None:
        if self.size is not None:
            del content[self.size:]
            content.extend(bytes(self.size - len(content)))
            return
        at = len(content) if self.offset is None else self.offset
        content.extend(bytes(max(0, at - len(content))))
        content[at:at + len(self.data)] = self.data

    def torn(self, chance: random.Random) -> 'Change':
        """The same, of which a part alone came to the disk."""
        kept = chance.randint(0, len(self.data))
        return Change(self.data[:kept], self.offset, self.size)


@dataclass
class File:
    """A file: what is on the disk for certain, and the changes since."""

    durable: bytes = b''
    pending: list[Change] = field(default_factory=list)

    def content(self, changes: Iterable[Change]) -> bytes:
        content = bytearray(self.durable)
        for change in changes:
            change.make(content)
        return bytes(content)

    def now(self) -> bytes:
        """As every process sees it."""
        return self.content(self.pending)

    def sync(self) -> None:
        self.durable, self.pending = self.now(), []

    def after_failure(self, chance: random.Random | None) -> bytes:
        """Without a chance what was synced alone; else with the first changes, one of them torn."""
        count = chance.randint(0, len(self.pending)) if chance else 0
        kept = self.pending[:count]
        if chance and count < len(self.pending):
            kept = [*kept, self.pending[count].torn(chance)]
        return self.content(kept)


class Disk:
    """The files below some folders. All that is there at the beginning is on the disk."""

    def __init__(self, folders: Iterable[Path]) -> None:
        self.folders = tuple(folders)
        files = [path for folder in self.folders for path in folder.rglob('*') if path.is_file()]
        self.names = {path: File(path.read_bytes()) for path in files}
        self.durable_names = dict(self.names)

    def copied(self) -> 'Disk':
        """The same disk, on which other calls may be carried out."""
        other = Disk(())
        other.folders = self.folders
        files = {id(file): File(file.durable, list(file.pending))
                 for file in [*self.names.values(), *self.durable_names.values()]}
        other.names = {path: files[id(file)] for path, file in self.names.items()}
        other.durable_names = {path: files[id(file)] for path, file in self.durable_names.items()}
        return other

    def take(self, call: Call) -> None:
        """Carries out a call, if it is about one of these files."""
        if call.name in ('rename', 'renameat', 'renameat2', 'unlink', 'unlinkat'):
            self.rename([Path(text.decode()) for text in call.texts])
        elif call.name == 'openat':
            self.open(call)
        elif (path := call.path) and self.is_mine(path):
            self.take_of(path, call)

    def is_mine(self, path: Path) -> bool:
        return any(path.is_relative_to(folder) for folder in self.folders)

    def take_of(self, path: Path, call: Call) -> None:
        if call.name in ('fsync', 'fdatasync'):
            self.sync(path)
        elif call.name in ('write', 'writev'):
            self.names[path].pending.append(Change(b''.join(call.texts)[:int(call.result)]))
        elif call.name in ('pwrite64', 'pwritev'):
            offset = int(call.words.rsplit(', ', 1)[1])
            text = b''.join(call.texts)[:int(call.result)]
            self.names[path].pending.append(Change(text, offset))
        elif call.name == 'ftruncate':
            self.names[path].pending.append(Change(size=int(call.words.rsplit(', ', 1)[1])))
        else:
            raise Unknown(f'{call.name} of {path}')

    def sync(self, path: Path) -> None:
        """A file's content; or the names in a folder."""
        if path in self.names:
            self.names[path].sync()
            return
        for names in (self.names, self.durable_names):
            for name in [name for name in names if name.parent == path]:
                if name in self.names:
                    self.durable_names[name] = self.names[name]
                else:
                    del self.durable_names[name]

    def open(self, call: Call) -> None:
        opened = OPENED.match(call.result)
        path = Path(text_of(opened[1]).decode()) if opened else None
        if not path or not self.is_mine(path) or 'O_CREAT' not in call.words:
            return
        file = self.names.setdefault(path, File())
        if 'O_TRUNC' in call.words:
            file.pending.append(Change(size=0))

    def rename(self, paths: list[Path]) -> None:
        """A file gets another name, or none."""
        if not any(self.is_mine(path) for path in paths):
            return
        if not all(path.is_absolute() for path in paths):
            raise Unknown(f'a name that is no whole path: {paths}')
        file = self.names.pop(paths[0])
        if len(paths) > 1:
            self.names[paths[1]] = file

    def now(self) -> dict[Path, bytes]:
        """The files as every process sees them."""
        return {path: file.now() for path, file in self.names.items()}

    def after_failure(self, chance: random.Random | None = None) -> dict[Path, bytes]:
        """The files after a power failure: without a chance what was synced alone."""
        names = dict(self.durable_names)
        if chance:
            names |= {path: file for path, file in self.names.items() if chance.random() < 0.5}
        return {path: file.after_failure(chance) for path, file in names.items()}


class Unseen(Exception):
    """strace could not be attached."""


@contextlib.contextmanager
def watch(processes: Iterable[int], trace: Path, *, slow: float = 0,
          calls: Iterable[str] = (*CHANGES, *SENDS)) -> Iterator[None]:
    """strace over these processes. With `slow` each sync takes so many seconds longer.

    It ends when they have ended, and has ended behind the `with`.
    """
    pids = list(processes)
    attach = [word for pid in pids for word in ('-p', str(pid))]
    late = f'inject=fsync,fdatasync:delay_enter={int(slow * 1e6)}'
    tracer = subprocess.Popen(
        ['strace', '-f', '-y', '-ttt', '-T', '-xx', '-s', str(1 << 21), '-o', str(trace),
         '-e', f'trace={",".join(calls)}', *(['-e', late] if slow else []), *attach],
        stderr=subprocess.PIPE, stdin=subprocess.DEVNULL, text=True)
    try:
        while not all(is_traced(pid) for pid in pids):
            if tracer.poll() is not None:
                raise Unseen(tracer.communicate()[1])
            time.sleep(0.01)
        yield
    finally:
        tracer.send_signal(signal.SIGINT)
        tracer.communicate()


def is_traced(pid: int) -> bool:
    status = Path(f'/proc/{pid}/status').read_text()
    return 'TracerPid:\t0\n' not in status
