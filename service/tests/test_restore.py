"""`goo-copies restore` beside the registry's files: the door, and the book's beginning."""
import os
import shutil
from pathlib import Path

import pytest
from goo_service.copies import book
from goo_service.copies import host
from goo_service.copies import nightly
from goo_service.copies import restore
from goo_service.copies.places import Place


def test_the_timers_wait_until_the_log_takes_requests(
        monkeypatch: pytest.MonkeyPatch, tmp_path: Path) -> None:
    """A date that is sent before that would fail."""
    did: list[str] = []

    def wait() -> str:
        did.append('wait')
        return 'well'

    monkeypatch.setattr(host, 'EXCHANGE', tmp_path)
    monkeypatch.setattr(host, 'open_door', lambda: did.append('door'))
    monkeypatch.setattr(host, 'is_enabled', lambda unit: unit != 'goo-exchange.timer')
    monkeypatch.setattr(host, 'systemctl', lambda *words: did.extend(words))
    monkeypatch.setattr(host, 'wait_for_log', wait)
    restore.reopen(False)
    assert did == ['door', 'start', 'goo.service', 'goo-replica.service', 'wait', 'start',
                   'goo-advance.timer', 'goo-backup.timer']


@pytest.fixture
def records(monkeypatch: pytest.MonkeyPatch, tmp_path: Path) -> Path:
    """The folder of the records, with the beginning of their book."""
    folder = tmp_path / 'goo-records'
    (folder / 'first').mkdir(parents=True)
    (folder / 'first/registry.db').write_bytes(b'the registry as it was')
    (folder / 'first/place.json').write_text('{}')
    (folder / 'current').write_bytes(b'the book')
    monkeypatch.setattr(book, 'BOOK', folder)
    monkeypatch.setattr(nightly, 'EXCHANGE', Path('/nowhere'))
    monkeypatch.setattr(nightly, 'CONFIGURATION', Path('/nowhere'))
    return folder


def made_copy(copies: Path, n: int) -> Path:
    """A copy of a night, with all that is in it beside the registry."""
    copies.mkdir(exist_ok=True)
    return nightly.new_copy(copies, lambda part: Place(n, 'f' * 64, '-', 'goo 1.0.0'))


def files_below(folder: Path) -> dict[str, bytes]:
    return {str(path.relative_to(folder)): path.read_bytes()
            for path in folder.rglob('*') if path.is_file()}


def test_the_beginning_of_the_book_is_in_each_copy_and_comes_back(
        records: Path, tmp_path: Path) -> None:
    """On a host that has none: whole, though an earlier run was cut off, and nothing else."""
    copy = made_copy(tmp_path / 'copies', 1)
    before = files_below(records / 'first')
    shutil.rmtree(records)
    (records / 'first.part').mkdir(parents=True)
    (records / 'first.part/of-before').touch()
    assert book.put_beginning_back(copy / 'records.tar')
    assert files_below(records) == {f'first/{name}': text for name, text in before.items()}


def test_a_beginning_that_is_there_stays(records: Path, tmp_path: Path) -> None:
    copy = made_copy(tmp_path / 'copies', 1)
    (records / 'first/place.json').write_text('another')
    assert not book.put_beginning_back(copy / 'records.tar')
    assert (records / 'first/place.json').read_text() == 'another'


def test_copies_share_the_beginning_while_it_is_the_same(records: Path, tmp_path: Path) -> None:
    first, second = (made_copy(tmp_path / 'copies', n) / 'records.tar' for n in (1, 2))
    assert os.path.samefile(first, second)
    (records / 'first/registry.db').write_bytes(b'of a new log')
    third = made_copy(tmp_path / 'copies', 3) / 'records.tar'
    assert third.read_bytes() != second.read_bytes() and third.stat().st_nlink == 1
    assert 'records.tar' in (third.parent / 'SHA256SUMS').read_text()


def test_without_a_beginning_a_copy_has_none(records: Path, tmp_path: Path) -> None:
    shutil.rmtree(records / 'first')
    copy = made_copy(tmp_path / 'copies', 1)
    assert not (copy / 'records.tar').exists()
    assert not book.put_beginning_back(copy / 'records.tar')
