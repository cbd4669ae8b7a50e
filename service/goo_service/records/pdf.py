"""Documents as PDF: by a process of its own for each call, with bounds, so that nobody holds the
service by one.

    pdfs(papers, seconds)      the PDF of each document, one after another

Each document is made when it is asked for. docs/SECURITY.md has the bounds.
"""
import importlib.util
import json
import os
import subprocess
import sys
import tempfile
import threading
from collections.abc import Iterable
from collections.abc import Iterator
from pathlib import Path

from goo_service.records.questions import BadQuestion
from goo_service.records.questions import Row
from goo_service.records.render import LENGTH
from goo_service.records.seal import MOST_NUMBER

MOST_ROWS = 2000
"""Rows and ranges of the tables of one document."""
LARGEST = 1 << 24
"""Bytes of one PDF."""
SECONDS = 120.0
"""Of one document."""
MODULES = Path(__file__).resolve().parents[2]
WORDS = (sys.executable, '-m', 'goo_service.records.render')


class NotInstalled(Exception):
    """Debian's weasyprint is not on this host."""


class NotRendered(Exception):
    """The process of a PDF ended, or its time did. The text says which."""


def need_renderer() -> None:
    if importlib.util.find_spec('weasyprint') is None:
        raise NotInstalled('this host makes no PDF: it lacks the package weasyprint; the page of '
                           'the document can be printed')


def need_bounded(paper: Row) -> None:
    """What is too long for a PDF is told before anything is rendered."""
    rows = sum(len(row) and max(map(len, row)) for table in paper['tables']
               for row in table['rows'])
    if rows > MOST_ROWS:
        raise BadQuestion(f'the document has {rows:,} rows and ranges, and a PDF up to '
                          f'{MOST_ROWS:,}: print the page, or ask for fewer cancellations')
    if len(paper['number']) > MOST_NUMBER:
        raise BadQuestion('the numbers are no row of cancellations for one use, and too many for '
                          'a PDF: print the page, or ask for fewer')


def environment(folder: str) -> dict[str, str]:
    """What the process has of ours: where its modules are, and a folder that goes after it."""
    return {'PATH': os.environ.get('PATH', '/usr/bin'), 'PYTHONPATH': str(MODULES),
            'LANG': 'C.UTF-8', 'HOME': '/nonexistent', 'TMPDIR': folder,
            'PYTHONDONTWRITEBYTECODE': '1'}


def pdfs(papers: Iterable[Row], seconds: float = SECONDS) -> Iterator[bytes]:
    """The PDF of each document, made when it is asked for, each within so many seconds."""
    need_renderer()
    with (tempfile.TemporaryDirectory(prefix='goo-pdf-') as folder,
          start_renderer(folder) as process):
        try:
            for paper in papers:
                need_bounded(paper)
                yield one(process, paper, seconds)
        finally:
            process.kill()


def start_renderer(folder: str) -> 'subprocess.Popen[bytes]':
    return subprocess.Popen(WORDS, stdin=subprocess.PIPE, stdout=subprocess.PIPE,
                            stderr=subprocess.DEVNULL, cwd='/', env=environment(folder))


def one(process: 'subprocess.Popen[bytes]', paper: Row, seconds: float) -> bytes:
    """One PDF. A process that takes longer is killed, and then its output ends."""
    assert process.stdin and process.stdout
    to, by, ended = process.stdin, process.stdout, threading.Event()

    def end() -> None:
        ended.set()
        process.kill()

    timer = threading.Timer(seconds, end)
    timer.daemon = True
    timer.start()
    try:
        to.write(json.dumps(paper).encode() + b'\n')
        to.flush()
        head = by.read(LENGTH.size)
        size = LENGTH.unpack(head)[0] if len(head) == LENGTH.size else 0
        made = by.read(size) if size <= LARGEST else b''
    except BrokenPipeError:
        size, made = 0, b''
    finally:
        timer.cancel()
    if not size or len(made) < size:
        raise NotRendered(f'a PDF takes longer than {seconds:g} s' if ended.is_set()
                          else 'the PDF could not be made within its bounds')
    return made
