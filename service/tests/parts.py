"""Processes that a house of the service is made of: each is a group of its own, ended as a whole.

A second process ends what is left where the one that runs the tests was killed.
"""
import contextlib
import os
import shutil
import signal
import subprocess
import sys
import time
from collections.abc import Callable
from dataclasses import dataclass
from dataclasses import field
from pathlib import Path
from typing import Any

PATIENCE = 60.0
"""Seconds that a part may take to start or to end, on a machine that does much else."""


class NotStarted(Exception):
    """A part that ended, or that did not come in time. The text has the end of what it wrote."""


@dataclass
class Guard:
    """Ends all groups that it was told of, and takes folders away, once this process is gone."""

    folders: list[Path]
    process: subprocess.Popen[str] = field(init=False)

    def __post_init__(self) -> None:
        words = [sys.executable, '-B', __file__, *map(str, self.folders)]
        self.process = subprocess.Popen(words, stdin=subprocess.PIPE, text=True,
                                        start_new_session=True)

    def tell(self, line: str) -> None:
        assert self.process.stdin
        print(line, file=self.process.stdin, flush=True)

    def end(self) -> None:
        """All of the groups have ended, and the guard ends too."""
        self.tell('done')
        self.process.communicate()


@dataclass
class Part:
    """One part of the service: how it is started, and when it is there."""

    name: str
    words: Callable[[], list[str]]
    is_there: Callable[[float], Any]
    """Whether it takes requests. It is given the time at which the part was started."""
    folder: Path
    guard: Guard
    environment: dict[str, str] = field(default_factory=dict)
    before: Callable[[], None] = lambda: None
    """What its unit does before each start."""
    process: subprocess.Popen[bytes] | None = None
    begun: float = 0.0

    @property
    def said(self) -> Path:
        """The file of what it writes to its two streams."""
        return self.folder / f'{self.name}.log'

    def launch(self) -> None:
        """Starts it, and does not wait for it."""
        self.before()
        self.begun = time.time()
        with open(self.said, 'ab') as file:
            self.process = subprocess.Popen(
                self.words(), stdin=subprocess.DEVNULL, stdout=file, stderr=file,
                start_new_session=True, cwd=self.folder,
                env={**os.environ, 'PYTHONDONTWRITEBYTECODE': '1', **self.environment})
        self.guard.tell(f'begun {self.process.pid}')

    def wait(self, patience: float = PATIENCE) -> None:
        """Waits until it is there. A part that ends meanwhile is told with its words."""
        until = time.monotonic() + patience
        while not self.is_there(self.begun):
            status = self.process.poll() if self.process else None
            if status is not None or time.monotonic() > until:
                text = self.said.read_text(errors='replace')[-2000:]
                how = 'is not there in time' if status is None else f'ended with {status}'
                raise NotStarted(f'{self.name} {how}: {text}')
            time.sleep(0.01)

    def start(self) -> None:
        self.launch()
        self.wait()

    def processes(self) -> list[int]:
        """Those that have not ended."""
        return processes_of(self.process.pid) if self.process else []

    def send(self, number: int) -> None:
        """A signal to all of its processes."""
        if self.process:
            with contextlib.suppress(ProcessLookupError):
                os.killpg(self.process.pid, number)

    def end(self, number: int = signal.SIGTERM) -> None:
        """Ends all of its processes, and waits for them. What does not end in time is killed."""
        if not self.process:
            return
        self.send(number)
        with contextlib.suppress(subprocess.TimeoutExpired):
            self.process.wait(PATIENCE / 3)
        self.send(signal.SIGKILL)
        self.process.wait()
        while is_a_group(self.process.pid):
            time.sleep(0.01)
        self.guard.tell(f'ended {self.process.pid}')
        self.process = None


def is_a_group(leader: int) -> bool:
    """Whether a process of a group is left that has not ended."""
    try:
        os.killpg(leader, 0)
    except ProcessLookupError:
        return False
    return bool(processes_of(leader))


def processes_of(leader: int) -> list[int]:
    """The processes of a group that have not ended."""
    found = []
    for path in Path('/proc').glob('[0-9]*/stat'):
        with contextlib.suppress(OSError):
            state, _, group = path.read_text().rsplit(')', 1)[1].split()[:3]
            found += [int(path.parent.name)] if int(group) == leader and state not in 'ZX' else []
    return found


def guard(folders: list[str]) -> None:
    """Reads what was begun and what has ended, until this is done or whoever tells it is gone."""
    groups: set[int] = set()
    for line in sys.stdin:
        word, _, number = line.partition(' ')
        if word == 'done\n':
            return
        (groups.add if word == 'begun' else groups.discard)(int(number))
    for group in groups:
        with contextlib.suppress(ProcessLookupError):
            os.killpg(group, signal.SIGKILL)
    for folder in folders:
        shutil.rmtree(folder, ignore_errors=True)


if __name__ == '__main__':
    guard(sys.argv[1:])
