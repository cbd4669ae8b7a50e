"""A book of acts goes on from where it was: killed anywhere, it comes to the same rows; a book that
is of another log, of another form or damaged is made anew, and the reason is told."""
import argparse
import os
import random
import shutil
import signal
import sqlite3
import sys
import threading
from collections.abc import Callable
from collections.abc import Iterator
from contextlib import closing
from pathlib import Path
from types import FrameType
from typing import Any

import pytest
from goo_service.log import reader
from goo_service.log import entries
from goo_service.records import book
from goo_service.records import follow
from goo_service.records import resumed
from goo_service.records import schema
from goo_service.records import writer
from made_book import CODE
from made_book import DAY
from made_book import Logged
from made_book import rows_of_book
from acts_by_chance import Requests

ACTS = 240
"""Requests by chance besides those that begin a country."""


def words(folder: Path, archive: Path, **more: Any) -> argparse.Namespace:
    """The words of `records follow --once`."""
    return argparse.Namespace(**{
        'begun': [str(CODE), DAY, '1'], 'copy': None, 'after': None, 'archive': str(archive),
        'into': str(folder), 'socket': str(folder / 'nobody'), 'once': True, **more})


def lines_of(archive: Path) -> list[bytes]:
    return [line for path in reader.months(archive) for line, _ in reader.lines(path)]


def write_archive(folder: Path, lines: list[bytes]) -> Path:
    """An archive of these lines."""
    folder.mkdir(exist_ok=True)
    (folder / '2026-02.jsonl').write_bytes(b''.join(line + b'\n' for line in lines))
    return folder


@pytest.fixture(scope='module')
def log(tmp_path_factory: pytest.TempPathFactory) -> Logged:
    """Requests of every kind by chance, over two years."""
    made = Logged(tmp_path_factory.mktemp('log'))
    made.send_all(Requests(88).all(ACTS))
    return made


@pytest.fixture(scope='module')
def whole(log: Logged) -> Any:
    """The rows of the book that was made at once."""
    follow.follow(words(log.folder / 'whole', log.folder / 'archive'))
    return rows_of_book(log.folder / 'whole/current')


@pytest.fixture
def short(tmp_path: Path, monkeypatch: pytest.MonkeyPatch) -> Path:
    """An archive of the first half. Nothing is waited for."""
    monkeypatch.setattr(resumed, 'PATIENCE', 0)
    return tmp_path / 'archive'


# -------------------------------------------------------------------- it goes on

def test_a_history_has_acts_of_every_kind(log: Logged, whole: Any) -> None:
    """Else what follows would show little."""
    with closing(schema.connect(log.folder / 'whole/current', read_only=True)) as database:
        kinds = {kind for kind, in database.execute('SELECT DISTINCT kind FROM act')}
    assert kinds == {*book.KINDS.values(), 'expiry', 'unreadable'}


@pytest.mark.parametrize('seed', range(3))
def test_it_goes_on_where_it_was(log: Logged, whole: Any, tmp_path: Path, seed: int,
                                 capsys: pytest.CaptureFixture[str]) -> None:
    """Stopped at any entries, it has the rows of a book that was made at once."""
    lines, chance = lines_of(log.folder / 'archive'), random.Random(seed)
    stops = sorted(chance.sample(range(1, len(lines)), 12))
    for stop in (*stops, len(lines)):
        archive = write_archive(tmp_path / 'archive', lines[:stop])
        follow.follow(words(tmp_path / 'book', archive))
    told = capsys.readouterr().out
    assert told.count('the book goes on from entry') == len(stops)
    assert told.count('made anew') == 1             # at first there is none
    assert rows_of_book(tmp_path / 'book/current') == whole


def test_a_start_reads_the_new_entries_alone(tmp_path: Path,
                                             monkeypatch: pytest.MonkeyPatch) -> None:
    made = Logged(tmp_path)
    monkeypatch.setattr(made.archive, 'sync', lambda: None)
    for number in range(10_000):
        answer = b'{"fault":"NotJson","outcome":"unreadable"}'
        made.take(made.record('SUN', '/v1/requests', b'%d' % number, 400, answer))
    # Its thread goes on to look for more, so it has an archive of its own.
    shorter = write_archive(tmp_path / 'shorter', lines_of(tmp_path / 'archive'))
    follow.follow(words(tmp_path / 'book', shorter))
    for number in range(7):
        made.take(made.record('SUN', '/v1/requests', b'new', 400, answer))
    longer = write_archive(tmp_path / 'longer', lines_of(tmp_path / 'archive'))
    read: list[bytes] = []
    applied: list[int] = []
    real_read, real_apply = entries.read_record, book.Book.apply

    def read_record(line: bytes, key: bytes | None = None) -> entries.Record:
        read.append(line)
        return real_read(line, key)

    def apply(own: book.Book, record: entries.Record) -> None:
        applied.append(record.entry.n)
        real_apply(own, record)

    monkeypatch.setattr(entries, 'read_record', read_record)
    monkeypatch.setattr(book.Book, 'apply', apply)
    follow.follow(words(tmp_path / 'book', longer))
    assert applied == list(range(10_001, 10_008))
    assert len({reader.number_in(line) for line in read} - set(applied)) <= 2
    assert len(read) <= len(applied) + 3


# -------------------------------------------------------------------- crashes

STEPS = {follow.__file__, writer.__file__, resumed.__file__}
STUCK = 120
"""Seconds after which a child ends as by SIGKILL, wherever it is: a crash too."""


def end_at(step: int) -> Callable[[FrameType, str, Any], Any]:
    """Ends this process before the line with this number, as SIGKILL does: nothing is cleared."""
    left = [step]

    def trace(frame: FrameType, event: str, _: Any) -> Any:
        if frame.f_code.co_filename not in STEPS:
            return None
        if event == 'line':
            left[0] -= 1
            if left[0] < 0:
                os._exit(9)
        return trace

    return trace


def runs_to_end(step: int, given: argparse.Namespace) -> bool:
    """Whether `records follow` ends before a line that it would have to reach for its crash."""
    child = os.fork()
    if not child:
        os.dup2(os.open(os.devnull, os.O_WRONLY), 1)
        sys.settrace(end_at(step))
        try:
            follow.follow(given)
        except BaseException:       # the parent sees that it is neither end
            os._exit(1)
        os._exit(0)
    stuck = threading.Timer(STUCK, os.kill, (child, signal.SIGKILL))
    stuck.start()           # a lock of another thread may be held as it forks: then it ends here
    status = os.waitstatus_to_exitcode(os.waitpid(child, 0)[1])
    stuck.cancel()
    assert status in (0, 9, -signal.SIGKILL)
    return status == 0


def steps() -> Iterator[int]:
    """Numbers of lines, close at first and then wider."""
    step = 0
    while True:
        yield step
        step += 1 + step // 12


def crashes(given: argparse.Namespace, prepare: Callable[[], None],
            check: Callable[[], None]) -> int:
    """Ends it before one line after another. Behind each crash there is a whole book or none."""
    for count, step in enumerate(steps()):
        prepare()
        if runs_to_end(step, given):
            return count
        check()
    return 0


def fresh(folder: Path, source: Path | None = None) -> None:
    """A folder without a book, or with that of another one."""
    shutil.rmtree(folder, ignore_errors=True)
    if source:
        shutil.copytree(source, folder, symlinks=True)


@pytest.fixture(scope='module')
def few(log: Logged) -> list[bytes]:
    """The lines of a short log, to end a process in often."""
    return lines_of(log.folder / 'archive')[:60]


@pytest.fixture
def wanted(few: list[bytes], tmp_path: Path) -> Any:
    """The rows of its book."""
    follow.follow(words(tmp_path / 'few', write_archive(tmp_path / 'archive', few)))
    return rows_of_book(tmp_path / 'few/current')


def test_a_crash_while_it_is_made_leaves_none_or_the_whole(wanted: Any, tmp_path: Path) -> None:
    given = words(tmp_path / 'book', tmp_path / 'archive')
    current = tmp_path / 'book/current'

    def check() -> None:
        if current.exists():
            assert rows_of_book(current) == wanted

    assert crashes(given, lambda: fresh(tmp_path / 'book'), check) > 50
    follow.follow(given)
    assert rows_of_book(current) == wanted


def test_a_crash_while_it_goes_on_leaves_the_book_of_an_entry(few: list[bytes], wanted: Any,
                                                              tmp_path: Path) -> None:
    given, half = words(tmp_path / 'book', tmp_path / 'archive'), len(few) - 10
    follow.follow(words(tmp_path / 'before', write_archive(tmp_path / 'half', few[:half])))

    def check() -> None:
        with closing(schema.read_moment(tmp_path / 'book/current')) as database:
            entry, = database.execute('SELECT entry FROM meta').fetchone()
            last, = database.execute('SELECT max(entry) FROM act').fetchone()
        assert half <= last <= entry <= len(few)
        follow.follow(given)
        assert rows_of_book(tmp_path / 'book/current') == wanted

    assert crashes(given, lambda: fresh(tmp_path / 'book', tmp_path / 'before'), check) > 40


# -------------------------------------------------------------------- it is made anew

def changed(statement: str) -> Callable[[Path], None]:
    """A book in which a statement changed something."""
    def change(path: Path) -> None:
        with closing(sqlite3.connect(path)) as database, database:
            database.execute(statement)

    return change


def garbled(path: Path) -> None:
    """A book with bytes of chance from its third page on."""
    with open(path, 'r+b') as file:
        file.seek(8192)
        file.write(bytes(range(256)) * 400)


FORM = schema.FORM
ANEW: dict[str, Callable[[Path], object]] = {
    f'it has form {FORM - 1}, and this program writes form {FORM}':
        changed('UPDATE meta SET form = form - 1'),
    'it begins with --begun 9 2025-01-01 1, and is to begin with --begun 7 2026-01-15 1':
        changed("UPDATE meta SET beginning = '--begun 9 2025-01-01 1'"),
    ' is another one than in ': changed("UPDATE meta SET hash = replace(hash, 'a', 'b')"),
    'is damaged: no such table': changed('DROP TABLE run'),
    'is damaged: ': garbled,
    'is damaged: file is not a database': lambda path: path.write_text('no database ' * 500),
    'is damaged: no such table: meta': lambda path: path.write_bytes(b''),
    'there is none': Path.unlink,
}
"""What is told, and what was done to the book."""


@pytest.mark.parametrize('told', ANEW)
def test_a_book_that_cannot_go_on_is_made_anew(log: Logged, whole: Any, tmp_path: Path, told: str,
                                               capsys: pytest.CaptureFixture[str]) -> None:
    lines, into = lines_of(log.folder / 'archive'), tmp_path / 'book'
    follow.follow(words(into, write_archive(tmp_path / 'archive', lines[:-20])))
    capsys.readouterr()
    path = (into / 'current').resolve()
    for beside in into.glob(f'{path.name}-*'):
        beside.unlink()
    ANEW[told](path)
    follow.follow(words(into, write_archive(tmp_path / 'archive', lines)))
    first, second = capsys.readouterr().out.splitlines()
    assert first.startswith('the book is made anew: ') and told in first
    assert ': the book is made, ' in second
    assert rows_of_book(into / 'current') == whole


def test_an_archive_that_ends_before_the_book(log: Logged, tmp_path: Path, short: Path,
                                              capsys: pytest.CaptureFixture[str]) -> None:
    """As behind a registry that went back to a copy."""
    lines, into = lines_of(log.folder / 'archive'), tmp_path / 'book'
    follow.follow(words(into, write_archive(short, lines[:300])))
    follow.follow(words(into, write_archive(short, lines[:200])))
    assert f'it goes to entry 300, and {short} ends before' in capsys.readouterr().out
    with closing(schema.read_moment(into / 'current')) as database:
        assert database.execute('SELECT entry FROM meta').fetchone()[0] == 200


def test_an_archive_that_begins_behind_the_book(log: Logged, tmp_path: Path, short: Path) -> None:
    """Nothing is made of it, and the book stays as it is."""
    lines, into = lines_of(log.folder / 'archive'), tmp_path / 'book'
    follow.follow(words(into, write_archive(short, lines[:200])))
    before = rows_of_book(into / 'current')
    with pytest.raises(schema.Mismatch):
        follow.follow(words(into, write_archive(short, lines[220:])))
    assert rows_of_book(into / 'current') == before


def test_an_archive_from_the_next_entry_on_is_enough(log: Logged, whole: Any, tmp_path: Path,
                                                     short: Path) -> None:
    """Its first entry names the book's last one."""
    lines, into = lines_of(log.folder / 'archive'), tmp_path / 'book'
    follow.follow(words(into, write_archive(short, lines[:200])))
    follow.follow(words(into, write_archive(short, lines[200:])))
    assert rows_of_book(into / 'current') == whole


# -------------------------------------------------------------------- each entry once

def test_an_entry_that_is_applied_twice_is_told(log: Logged, tmp_path: Path,
                                                monkeypatch: pytest.MonkeyPatch) -> None:
    real = book.Book.apply

    def twice(own: book.Book, record: entries.Record) -> None:
        real(own, record)
        real(own, record)

    monkeypatch.setattr(book.Book, 'apply', twice)
    with pytest.raises(schema.Mismatch):
        follow.follow(words(tmp_path / 'book', log.folder / 'archive'))


# -------------------------------------------------------------------- one file, one writer

def test_made_in_other_steps_it_is_the_same_file(log: Logged, whole: Any, tmp_path: Path,
                                                 monkeypatch: pytest.MonkeyPatch) -> None:
    monkeypatch.setattr(follow, 'BATCH', 37)
    follow.follow(words(tmp_path / 'again', log.folder / 'archive'))
    made, again = log.folder / 'whole/current', tmp_path / 'again/current'
    assert made.read_bytes() == again.read_bytes()


def test_a_second_writer_is_told(log: Logged, tmp_path: Path) -> None:
    into = tmp_path / 'book'
    into.mkdir()
    with follow.lock_of(into), pytest.raises(follow.Locked, match=f'follows the log into {into}'):
        follow.follow(words(into, log.folder / 'archive'))
    assert not (into / 'current').exists()


# -------------------------------------------------------------------- a log that is spoiled

AT = 30
SPOILED: dict[str, Callable[[list[bytes]], list[bytes]]] = {
    f'entry {AT + 1} stands after entry {AT - 1}':
        lambda lines: lines[:AT - 1] + lines[AT:],
    'begins with entry 10, and the book would begin with entry 1':
        lambda lines: lines[9:],
    f'after entry {AT - 1}: ':
        lambda lines: [*lines[:AT - 1], lines[AT - 1][:len(lines[AT - 1]) // 2], *lines[AT:]],
    f'entry {AT}, at byte ':
        lambda lines: [*lines[:AT - 1], b'nonsense', *lines[AT:]],
    f'after entry {AT - 1}: .*entry {AT + 1} stands after':
        lambda lines: [*lines[:AT - 1], lines[AT], lines[AT - 1], *lines[AT + 1:]],
    f'entry {AT}: its outcome is not the one that was chained':
        lambda lines: [*lines[:AT - 1], lines[AT - 1].replace(b'"status":', b'"status":1', 1),
                       *lines[AT:]],
}
"""What is told of an archive, and what is done to its lines."""


@pytest.mark.parametrize('is_there', [False, True])
@pytest.mark.parametrize('told', SPOILED)
def test_of_a_spoiled_log_no_book_is_made(few: list[bytes], tmp_path: Path, told: str,
                                          is_there: bool) -> None:
    """The one before goes on answering, and no half of one is left beside it."""
    into = tmp_path / 'book'
    if is_there:
        follow.follow(words(into, write_archive(tmp_path / 'good', few[:5])))
    before = rows_of_book(into / 'current') if is_there else None
    spoiled = write_archive(tmp_path / 'spoiled', SPOILED[told](few))
    with pytest.raises((entries.Broken, schema.Mismatch), match=told):
        follow.follow(words(into, spoiled))
    left = {path.name for path in into.glob('book-*') if path.suffix == '.making'}
    assert not left
    if is_there:
        database = schema.connect(into / 'current', read_only=True)
        entry, = database.execute('SELECT entry FROM meta').fetchone()
        database.close()
        assert entry > 5 or rows_of_book(into / 'current') == before
    else:
        assert not (into / 'current').exists()


def test_another_registrys_code_is_told_by_the_first_entry_that_shows_it(
        log: Logged, tmp_path: Path) -> None:
    given = words(tmp_path / 'book', log.folder / 'archive', begun=['8', DAY, '1'])
    with pytest.raises(schema.Mismatch, match=r'entry \d+: the registry (accepted|answered) '):
        follow.follow(given)


def test_a_torn_last_line_is_not_read(few: list[bytes], tmp_path: Path) -> None:
    archive = write_archive(tmp_path / 'archive', few[:-1])
    with open(archive / '2026-02.jsonl', 'ab') as file:
        file.write(few[-1][:50])
    follow.follow(words(tmp_path / 'book', archive))
    with closing(schema.read_moment(tmp_path / 'book/current')) as database:
        entry, = database.execute('SELECT entry FROM meta').fetchone()
    assert entry == len(few) - 1
