"""The nightly check: the book of acts against a copy of the registry, which the program wrote."""
import argparse
import contextlib
import json
import os
import shutil
import subprocess
from collections.abc import Callable
from contextlib import closing
from dataclasses import dataclass
from pathlib import Path
from typing import Any

import client
import pytest
from goo_service.copies import contents
from goo_service.log import reader
from goo_service.records import check
from goo_service.records import follow
from goo_service.records import schema
from archives import make_archive       # it leads to service/ itself, and not to a copy of it
from program import PROVED
from acts_by_chance import CODE
from acts_by_chance import Requests
from acts_by_chance import TODAY

GOO = os.environ.get('GOO', str(PROVED))
SINCE = 80
"""Entries that the book has and the copy has not."""


@dataclass(frozen=True)
class Night:
    """A copy, the log, and a book that is further than the copy."""

    folder: Path
    entry: int
    last: int

    def words(self, **more: Any) -> argparse.Namespace:
        return argparse.Namespace(**{
            'copies': str(self.folder / 'copies'), 'archive': str(self.folder / 'archive'),
            'into': str(self.folder / 'book'), **more})

    @property
    def copy(self) -> Path:
        return next((self.folder / 'copies').iterdir())

    def change(self, statement: str) -> int:
        with closing(schema.connect(self.folder / 'book/current')) as database:
            return database.execute(statement).rowcount


def follow_all(folder: Path) -> None:
    follow.follow(argparse.Namespace(
        begun=[str(CODE), TODAY, '1'], copy=None, after=None, archive=str(folder / 'archive'),
        into=str(folder / 'book'), socket=str(folder / 'nobody'), once=True))


def write_copy(folder: Path, requests: list[tuple[Any, ...]], hash_of_last: str) -> None:
    """A copy of the file of a registry that has had these requests."""
    folder.mkdir(parents=True)
    database = folder / 'registry.db'
    words = ['--db', str(database), '--code', str(CODE), '--today', TODAY]
    subprocess.run([GOO, 'init', *words], check=True, capture_output=True)
    port, registry, _ = client.listening(lambda port: subprocess.Popen(
        [GOO, 'serve', '--db', database, '--count', '100000', '--port', str(port)],
        stdout=subprocess.PIPE))
    for _, caller, route, body, *role in requests:
        if not role:
            client.answered(port, client.post(body, caller, route))
    registry.terminate()
    registry.wait()
    audit = subprocess.run([GOO, 'audit', '--db', database], check=True, capture_output=True)
    (folder / 'audit.txt').write_bytes(audit.stdout)
    place = {'n': len(requests), 'hash': hash_of_last, 'chain': '-', 'version': 'trial'}
    (folder / 'place.json').write_text(json.dumps(place))
    contents.write_list(folder)


@pytest.fixture(scope='module')
def night(tmp_path_factory: pytest.TempPathFactory) -> Night:
    folder = tmp_path_factory.mktemp('night')
    requests: list[tuple[Any, ...]] = list(Requests(4).all(150))
    make_archive(GOO, folder / 'archive', requests, CODE, TODAY)
    entry = len(requests) - SINCE
    record = next(reader.read_archive(folder / 'archive', after=entry - 1))
    write_copy(folder / 'copies/2026-03-01T023000Z', requests[:entry], record.hash)
    follow_all(folder)
    return Night(folder, entry, len(requests))


def test_a_book_that_went_on_since_the_copy_agrees(night: Night,
                                                   capsys: pytest.CaptureFixture[str]) -> None:
    assert check.check(night.words()) == 0
    told = capsys.readouterr().out
    assert told.startswith(f'entry {night.last}: the book and {night.copy} of entry {night.entry}, '
                           'with the entries since, agree in ')
    with closing(schema.read_moment(night.folder / 'book/current')) as book:
        counts = [book.execute(f'SELECT count(*) FROM {name}').fetchone()[0] for name in (
            'holder', 'account', 'device', 'declaration', 'correction', 'cancellation',
            'withdrawal', 'notice', 'lot', 'run', 'peer')]
    assert check.compare(night.words()).count > sum(counts)


FIRST = 'WHERE first = (SELECT min(first) FROM run)'
CHANGES = {
    'a run in another place': (
        f'UPDATE run SET kind = kind % 5 + 1 {FIRST}',
        f'UPDATE run SET kind = (kind + 3) % 5 + 1 {FIRST}', 'account '),
    'a run of another act': (
        f'UPDATE run SET number = number + 1 {FIRST}',
        f'UPDATE run SET number = number - 1 {FIRST}', 'certificates from 07000000000001 on: '),
    'a run of another account': (
        f'UPDATE run SET account = account % 10 + 1 {FIRST}',
        f'UPDATE run SET account = (account + 8) % 10 + 1 {FIRST}', 'account '),
    'a lot of another site': (
        "UPDATE lot SET site = site || 'x' WHERE id = 1",
        'UPDATE lot SET site = substr(site, 1, length(site) - 1) WHERE id = 1', 'fieldx'),
    'a device with 1 Wh more': (
        'UPDATE device SET carry_wh = carry_wh + 1 WHERE act = (SELECT min(act) FROM device)',
        'UPDATE device SET carry_wh = carry_wh - 1 WHERE act = (SELECT min(act) FROM device)',
        'device '),
    'an account that is closed': (
        'UPDATE account SET closed = 1 WHERE number = 4',
        'UPDATE account SET closed = 0 WHERE number = 4',
        'account 4: RHEIN open in the copy, RHEIN closed in the book\n'),
    'an account of another holder': (
        "UPDATE account SET holder = 'SUN' WHERE number = 4",
        "UPDATE account SET holder = 'RHEIN' WHERE number = 4",
        'account 4: RHEIN open in the copy, SUN open in the book\n'),
    'an account that is missing': (
        'UPDATE account SET number = -10 WHERE number = 10',
        'UPDATE account SET number = 10 WHERE number = -10',
        'account 10: NORD open in the copy, nothing in the book\n'),
    'another beneficiary': (
        "UPDATE cancellation SET beneficiary = beneficiary || 'x' WHERE number = 1",
        '''UPDATE cancellation SET beneficiary = substr(beneficiary, 1, length(beneficiary) - 1)
           WHERE number = 1''', 'cancellation 1: '),
    'another date': (
        "UPDATE meta SET today = '2020-01-01' || today",
        'UPDATE meta SET today = substr(today, 11)', 'the registry: code 7 date '),
}
"""What is changed in a book that agrees, how it is changed back, and what is told."""


@pytest.mark.parametrize('what', CHANGES)
def test_what_differs_is_told_with_both_values(night: Night, what: str,
                                               capsys: pytest.CaptureFixture[str]) -> None:
    change, undo, told = CHANGES[what]
    assert night.change(change) == 1
    try:
        assert check.check(night.words()) == 1
    finally:
        assert night.change(undo) == 1
    lines = capsys.readouterr().err
    assert told in lines
    assert all(line.startswith('records: ') and line.endswith(' in the book')
               and ' in the copy, ' in line for line in lines.splitlines())


def test_a_copy_that_was_changed_is_told(night: Night) -> None:
    audit = night.copy / 'audit.txt'
    before = audit.read_bytes()
    audit.write_bytes(before + b' ')
    try:
        with pytest.raises(ValueError, match='is not the copy that was made: audit.txt'):
            check.compare(night.words())
    finally:
        audit.write_bytes(before)


@pytest.mark.skipif(os.geteuid() != 0, reason='root becomes the user of the book')
def test_root_reads_the_copy_and_nothing_else(night: Night, tmp_path: Path) -> None:
    """Each folder is open to its user alone; the log also to its group."""
    log, book, user, group = tmp_path / 'log', tmp_path / 'book', 65_534, 65_533
    shutil.copytree(night.folder / 'archive', log / 'archive')
    shutil.copytree(night.folder / 'book', book, symlinks=True)
    for path in (book, *book.iterdir()):
        os.chown(path, user, user, follow_symlinks=False)
    for path in (log, log / 'archive', *(log / 'archive').iterdir()):
        os.chown(path, 1, group)
        path.chmod(0o750 if path.is_dir() else 0o640)
    book.chmod(0o700)
    tmp_path.chmod(0o711)
    night.copy.parent.chmod(0o700)
    child = os.fork()
    if not child:
        with contextlib.suppress(BaseException):
            result = check.compare(night.words(archive=str(log / 'archive'), into=str(book)))
            is_user = (os.getresuid(), os.getgroups()) == ((user,) * 3, [group])
            os._exit(0 if is_user and result.count and not result.differences else 1)
        os._exit(2)
    assert os.waitstatus_to_exitcode(os.waitpid(child, 0)[1]) == 0


def refused(place: dict[str, object]) -> Callable[[Path], None]:
    """A copy that tells another place."""
    def change(copy: Path) -> None:
        (copy / 'place.json').write_text(json.dumps(place))
        contents.write_list(copy)

    return change


@pytest.mark.parametrize(('place', 'told'), [
    ({'n': 10_000, 'hash': 'a' * 64}, 'and .* is of entry 10000: goo-records is behind'),
    ({'n': 20, 'hash': 'a' * 64}, 'entry 21 does not follow the entry at which'),
])
def test_a_copy_that_is_no_copy_of_this_log(night: Night, place: dict[str, object],
                                            told: str) -> None:
    path = night.copy / 'place.json'
    before = json.loads(path.read_text())
    refused(place)(night.copy)
    try:
        with pytest.raises(schema.Mismatch, match=told):
            check.compare(night.words())
    finally:
        refused(before)(night.copy)


def test_without_a_copy_nothing_is_said_to_agree(night: Night, tmp_path: Path) -> None:
    with pytest.raises(ValueError, match='has no copy with place.json in it'):
        check.compare(night.words(copies=str(tmp_path)))
