"""Runs tests of service/tests by pytest and counts them. For tools/trials/service, page, and others.

A test that fails is tried again alone, up to two times: a machine that does much else fails a test
that a quiet one passes. Each that needed it is named in a line `unsteady: ..`. `--reruns 0` among
pytest's words turns that off, for a run over a fault that was planted.
"""
import importlib.util
import os
import shutil
import sys
import tempfile
from collections.abc import Sequence
from pathlib import Path
from typing import Any

from tally import ended

TOP = Path(__file__).resolve().parents[2]
TESTS = TOP / 'service/tests'
RERUNS, SHOWN = 2, 400


def is_there(sign: str) -> bool:
    """Whether a command, a path or a Python module is there."""
    if sign.startswith('python3:'):
        return importlib.util.find_spec(sign.removeprefix('python3:')) is not None
    return Path(sign).exists() if sign.startswith('/') else shutil.which(sign) is not None


def lacking(tool: str) -> list[str]:
    """The Debian packages that a tool needs by tools/data/packages and that are not there."""
    text = (TOP / 'tools/data/packages').read_text(encoding='utf-8')
    lines = [line.split() for line in text.splitlines() if line and not line.startswith('#')]
    return [line[0] for line in lines if tool in line[2:] and not is_there(line[1])]


class Counter:
    """Counts what pytest reports."""

    def __init__(self) -> None:
        self.passed = self.failed = self.skipped = 0
        self.again: dict[str, list[str]] = {}
        """The tests that were tried again, each with what was wrong before."""

    def pytest_runtest_logreport(self, report: Any) -> None:
        """A test counts once, by its call; what fails or is skipped around it counts too."""
        self.passed += report.when == 'call' and report.passed
        self.failed += report.failed
        self.skipped += report.skipped
        if report.outcome == 'rerun':
            crash = getattr(report.longrepr, 'reprcrash', None)
            told = crash.message if crash else str(report.longrepr)
            self.again.setdefault(report.nodeid, []).append(' '.join(told.split())[:SHOWN])

    def pytest_collectreport(self, report: Any) -> None:
        """A file that can't be read has failed."""
        self.failed += report.failed


def run(tool: str, tests: Sequence[Path | str], words: Sequence[str], workers: int = 0) -> int:
    """Runs these tests with words for pytest, and prints the counts: the exit status.

    With `workers` so many files of tests run side by side, where there are the processors.
    """
    os.environ['PATH'] += ':/usr/sbin:/sbin'
    if missing := lacking(tool):
        print(f'this machine lacks {", ".join(missing)}')
        return ended(0, 1)
    import pytest
    counter, at_once = Counter(), min(workers, len(os.sched_getaffinity(0)))
    spread = ['-n', str(at_once), '--dist', 'loadfile'] if at_once > 1 else []
    again = [] if any(word.startswith('--reruns') for word in words) else [f'--reruns={RERUNS}']
    with tempfile.TemporaryDirectory(prefix='goo-t-', ignore_cleanup_errors=True) as place:
        status = pytest.main(['-q', f'--basetemp={place}/t', *spread, *again, *map(str, tests),
                              *words], plugins=[counter])
    is_told = status in (pytest.ExitCode.OK, pytest.ExitCode.TESTS_FAILED)
    for name, faults in sorted(counter.again.items()):
        times = 'once' if len(faults) == 1 else f'{len(faults)} times'
        print(f'unsteady: {name} was tried again {times}, after: {"; ".join(faults)}')
    wrong = not is_told and not counter.failed
    sys.stdout.flush()
    return ended(counter.passed, counter.failed + wrong, counter.skipped)
