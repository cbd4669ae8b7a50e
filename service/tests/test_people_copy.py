"""The file of people in a copy of the host, and put back from it."""
import os
import sqlite3
import subprocess
import threading
from contextlib import closing
from pathlib import Path

import pytest
from goo_service.copies import people
from goo_service.people import store
from door import SERVICE
from people_stage import Stage
from service_commands import command


@pytest.fixture
def stage(tmp_path: Path) -> Stage:
    return Stage(tmp_path / 'people' / 'people.db')


def names_in(path: Path) -> list[str]:
    with closing(sqlite3.connect(path)) as db:
        return [row[0] for row in db.execute('SELECT name FROM user ORDER BY id')]


def restore(stage: Stage, copy: Path) -> 'subprocess.CompletedProcess[str]':
    return subprocess.run([*command('goo-people', SERVICE), '--file', str(stage.path), 'restore',
                           str(copy)], capture_output=True, text=True, check=False)


def test_a_copy_has_what_was_committed_and_is_for_root_alone(stage: Stage, tmp_path: Path) -> None:
    stage.make_user()
    copy = tmp_path / 'copy.db'
    with stage.open() as db, store.changing(db):        # another one is under way
        db.execute("UPDATE user SET mail = 'not yet'")
        assert people.copy(stage.path, copy)
    assert copy.stat().st_mode & 0o777 == 0o600 and copy.stat().st_uid == os.getuid()
    with closing(sqlite3.connect(copy)) as made:
        assert made.execute('SELECT name, mail FROM user').fetchall() == [('anna', None)]
        assert made.execute('PRAGMA integrity_check').fetchone()[0] == 'ok'


def test_a_copy_is_of_one_moment_while_others_write(stage: Stage, tmp_path: Path) -> None:
    """Each change writes an act and counts it: a copy has as many as it counts."""
    stage.make_user()
    with stage.change() as db:
        db.execute("INSERT INTO read_to VALUES ('count', '0')")
    ends = threading.Event()

    def write() -> None:
        while not ends.is_set():
            with stage.change() as db:
                stage_act(db)
                db.execute("UPDATE read_to SET place = place + 1 WHERE reader = 'count'")

    writer = threading.Thread(target=write)
    writer.start()
    try:
        for number in range(8):
            copy = tmp_path / f'copy-{number}.db'
            people.copy(stage.path, copy)
            with closing(sqlite3.connect(copy)) as made:
                acts = made.execute("SELECT count(*) FROM act WHERE kind = 'rule_set'").fetchone()
                place = made.execute('SELECT place FROM read_to').fetchone()
                assert acts[0] == int(place[0])
    finally:
        ends.set()
        writer.join()


def stage_act(db: sqlite3.Connection) -> None:
    db.execute('INSERT INTO act (time, user, way, address, caller, kind, about, detail) '
               "VALUES (0, '', '', '', '', 'rule_set', '', '{}')")


def test_where_there_is_no_file_there_is_no_copy(tmp_path: Path) -> None:
    assert not people.copy(tmp_path / 'none' / 'people.db', tmp_path / 'copy.db')
    assert not people.copy(tmp_path / 'people.db', tmp_path / 'copy.db')
    assert not (tmp_path / 'copy.db').exists()


def test_a_damaged_file_is_put_back_from_a_copy(stage: Stage, tmp_path: Path) -> None:
    stage.make_user()
    session = stage.sign_in()
    copy = tmp_path / 'copy.db'
    people.copy(stage.path, copy)
    stage.make_user('later', 'VOLT')
    stage.path.write_bytes(b'damaged' * 1000)
    done = restore(stage, copy)
    assert done.returncode == 0, done
    assert names_in(stage.path) == ['anna'] and stage.path.stat().st_mode & 0o777 == 0o600
    aside = list(stage.path.parent.glob('people.db.before-*'))
    assert len(aside) == 1 and aside[0].read_bytes().startswith(b'damaged')
    fresh = Stage(stage.path)
    assert fresh.ask(session=session).status == 401
    fresh.sign_in()


@pytest.mark.parametrize('text', [b'', b'no database', b'SQLite format 3\0' + bytes(5000)])
def test_what_is_no_file_of_people_changes_nothing(stage: Stage, tmp_path: Path,
                                                   text: bytes) -> None:
    stage.make_user()
    (tmp_path / 'copy.db').write_bytes(text)
    done = restore(stage, tmp_path / 'copy.db')
    assert done.returncode == 1 and done.stderr.startswith('goo-people: ')
    assert names_in(stage.path) == ['anna']


def test_a_link_in_the_place_of_a_copy_is_not_followed(stage: Stage, tmp_path: Path) -> None:
    (tmp_path / 'link').symlink_to(stage.path)
    done = restore(stage, tmp_path / 'link')
    assert done.returncode == 1 and 'symbolic link' in done.stderr


def test_a_restore_that_was_cut_off_goes_on(stage: Stage, tmp_path: Path,
                                            monkeypatch: pytest.MonkeyPatch) -> None:
    """At each step of moving files: the file is there or the same call brings it."""
    stage.make_user()
    copy = tmp_path / 'copy.db'
    people.copy(stage.path, copy)
    rename = Path.rename
    for fails_at in range(4):
        left = [fails_at]

        def some_rename(old: Path, new: Path | str, left: list[int] = left) -> Path:
            if not left[0]:
                raise OSError('cut off')
            left[0] -= 1
            return rename(old, new)

        with stage.open():              # with a log beside the file
            stage.make_user(f'later{fails_at}', 'VOLT')
            monkeypatch.setattr(Path, 'rename', some_rename)
            with open(copy, 'rb') as source:
                try:
                    people.put_back(source, stage.path, f'before-{fails_at}a')
                except OSError as fault:
                    assert str(fault) == 'cut off'
            monkeypatch.setattr(Path, 'rename', rename)
        with open(copy, 'rb') as source:
            people.put_back(source, stage.path, f'before-{fails_at}b')
        assert names_in(stage.path) == ['anna']


def test_a_host_that_lost_the_file_has_that_of_the_copy(stage: Stage, tmp_path: Path) -> None:
    stage.make_user()
    copy, lost = tmp_path / 'copy', tmp_path / 'lost'
    copy.mkdir()
    lost.mkdir()
    assert people.put_back_where_none_is(copy, lost / 'people.db') == ''
    people.copy(stage.path, copy / 'people.db')
    said = people.put_back_where_none_is(copy, lost / 'people.db')
    assert said.endswith('is that of the copy; its sessions have ended')
    assert names_in(lost / 'people.db') == ['anna']
    stage.make_user('later', 'VOLT')
    assert 'stays as it is' in people.put_back_where_none_is(copy, stage.path)
    assert names_in(stage.path) == ['anna', 'later']
