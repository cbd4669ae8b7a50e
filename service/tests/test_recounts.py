"""goo-copies recount: it finds nothing in what the program wrote, prints the texts that the program
prints, and finds each thing that is wrong in a copy.

Copies that are right: a registry in which each command was accepted, each worked case of cases/,
and histories by chance. Copies that are wrong: the first registry, changed (wrong_copies.py).
"""
import csv
import functools
import hashlib
import io
import json
import os
import random
import re
import shutil
import subprocess
from collections.abc import Callable
from pathlib import Path

import client
import pytest
from cases import Case
from cases import cases_in
from door import TOP
from recounted import EACH_COMMAND
from recounted import Files
from recounted import HOLDERS
from recounted import LIMIT
from recounted import RECOUNT
from recounted import SUNNY
from recounted import advanced
from recounted import declared
from recounted import device
from recounted import history
from recounted import imported
from recounted import lines_of
from recounted import numbers
from recounted import opened
from recounted import rows_of
from recounted import transferred
from wrong_copies import FILLED
from wrong_copies import WRONG

Run = subprocess.CompletedProcess[str]
SMALL = [HOLDERS[0], opened('SUN'), device(SUNNY, 1)]
"""What a small registry begins with."""
CSV = {'counts-by-account-and-place.csv', 'corrections.csv', 'requests-by-caller.csv'}
LEAST = 50
"""Requests of a history that are accepted."""


@pytest.fixture(scope='module')
def files(tmp_path_factory: pytest.TempPathFactory) -> Files:
    return Files(tmp_path_factory.mktemp('recounts'))


@pytest.fixture(scope='module')
def db(files: Files) -> Path:
    """The file of a registry in which each command was accepted."""
    return files.of(EACH_COMMAND)


def recount(*words: object) -> Run:
    return subprocess.run([*RECOUNT, *map(str, words)], capture_output=True, text=True,
                          timeout=LIMIT, check=False)


def titles(run: Run, word: str) -> set[str]:
    """What its lines of a kind are about, without their counts."""
    lines = [line[9:] for line in run.stdout.splitlines() if line.startswith(f'  {word}')]
    return {re.sub(r', [\d,]+ (row|device|request)s?$', '', re.sub(r': [\d,]+$', '', line))
            for line in lines}


def must_hold(*words: object) -> Run:
    """Nothing is found in a copy."""
    run = recount(*words)
    assert run.returncode == 0 and not titles(run, 'BROKEN') and not run.stderr, run
    return run


def must_break(run: Run, *lines: str) -> None:
    """These lines are BROKEN, and no others."""
    assert (run.returncode, titles(run, 'BROKEN')) == (1, set(lines)), run


# -------------------------------------------------------------------- copies that are right

def test_texts_are_those_that_the_program_prints(files: Files, db: Path) -> None:
    into = files.fresh() / 'into'
    must_hold(db, '--into', into)
    wanted = {'audit.txt': files.run('audit', '--db', db).stdout}
    for account in (1, 2, 3):
        text = files.run('statement', account, '--db', db).stdout
        wanted[f'statement-{account}.txt'] = text
        table = csv.DictReader(io.StringIO((into / f'holdings-{account}.csv').read_text()))
        assert f'\nheld {sum(int(row["count"]) for row in table)}\n' in text
    port, server = files.serve(db, 1)
    document = client.answered(port, client.request(target='/v1/cancellations/1'))
    wanted['cancellation-1.txt'] = document.body.decode()
    server.communicate()
    assert {path.name: path.read_text() for path in into.glob('*.txt')} == wanted
    assert {path.name for path in into.glob('*.csv')} == CSV | {
        f'holdings-{account}.csv' for account in (1, 2, 3)}
    assert recount(db, '--into', into).returncode == 3      # a folder that is there


def test_holdings_are_those_that_the_documents_show(files: Files) -> None:
    page = (TOP / 'docs/FORMATS.md').read_text()
    shown = re.search(r'(?s)## The holdings of an account as CSV\n.*?```\n(.*?)```', page)
    winter = [one for one in EACH_COMMAND if one[1]['command'] == 'declare'
              and one[1]['device'] == SUNNY][:2]
    into = files.fresh() / 'into'
    must_hold(files.of([*SMALL, *winter, advanced('2025-04-05'),
                        declared(SUNNY, '2025-03-01', '2025-03-31', 1)]), '--into', into)
    assert shown and (into / 'holdings-1.csv').read_text() == shown[1]


@pytest.mark.parametrize('case', cases_in(), ids=lambda case: str(case.name))
def test_each_worked_case(files: Files, case: Case) -> None:
    db = files.begun(*case.next_serial)
    files.outcomes(db, case.requests.decode())
    assert recount(db).returncode == 0


def test_histories_by_chance(files: Files, request: pytest.FixtureRequest) -> None:
    seed, count = request.config.getoption('--seed'), request.config.getoption('--histories')
    accepted = 0
    for at in range(count):
        db, of_them = history(files, random.Random(f'{seed}.{at}'))
        accepted += of_them
        assert recount(db).returncode == 0, (seed, at)
    assert accepted > LEAST * count


@pytest.fixture(scope='module')
def killed(files: Files) -> Path:
    """The file of a registry that was killed: its log lies beside it."""
    db = files.begun()
    port, server = files.serve(db, 1000)
    for line in lines_of(EACH_COMMAND).splitlines():
        client.answered(port, client.post_of(line.encode()))
    server.kill()
    server.communicate()
    return db


def test_a_log_beside_a_copy(files: Files, killed: Path) -> None:
    """Both stay as they are; without the log the copy has fewer requests, or is none."""
    def sums() -> dict[str, str]:
        return {path.name: hashlib.sha256(path.read_bytes()).hexdigest()
                for path in killed.parent.iterdir()}

    before = sums()
    must_hold(killed.parent)
    assert 'registry.db-wal' in before and sums() == before
    alone = shutil.copy(killed, files.fresh())
    assert f'{len(EACH_COMMAND)} requests' not in recount(alone).stdout


SPOILT: dict[str, Callable[[Path], None]] = {
    'was in this copy and is gone': lambda log: log.unlink(),
    'is not the file that was copied': lambda log: os.truncate(log, 41),
    'does not belong to this copy': lambda log: drop_line(log.parent / 'SHA256SUMS', log.name)}


def drop_line(file: Path, word: str) -> None:
    lines = file.read_text().splitlines(keepends=True)
    file.write_text(''.join(line for line in lines if word not in line))


def listed(files: Files, folder: Path) -> Path:
    """A copy of a copy with the list of its files, as sha256sum writes it."""
    names = sorted(path.name for path in folder.iterdir())
    sums = subprocess.run(['sha256sum', *names], cwd=folder, capture_output=True, text=True,
                          check=True).stdout
    copy = files.fresh() / 'copy'
    shutil.copytree(folder, copy)
    (copy / 'SHA256SUMS').write_text(sums)
    return copy


def test_a_copy_with_the_list_of_its_files(files: Files, killed: Path) -> None:
    must_hold(listed(files, killed.parent))


@pytest.mark.parametrize('said', SPOILT)
def test_a_copy_whose_files_are_not_the_listed_ones(files: Files, killed: Path,
                                                    said: str) -> None:
    copy = listed(files, killed.parent)
    SPOILT[said](copy / 'registry.db-wal')
    run = recount(copy)
    assert run.returncode == 3 and f'registry.db-wal {said}' in run.stderr and not run.stdout, run


def test_a_registry_of_version_2_that_was_one_of_version_1(files: Files) -> None:
    db = files.of([*SMALL, declared(SUNNY, '2025-01-01', '2025-01-31', 5_000_000)])
    old = files.changed(db, 'UPDATE meta SET version = 1; DROP TABLE correction; '
                            'DROP TABLE device_carrier; DROP TABLE lot_carrier')
    new = files.changed(old, '')
    files.run('audit', '--db', new)
    must_hold(new, '--before', old)


# -------------------------------------------------------------------- copies that are wrong

@functools.cache
def broken_by(files: Files, db: Path, what: str) -> frozenset[str]:
    """What is told of a wrong copy."""
    run = recount(files.changed(db, WRONG[what][0].format(**FILLED)))
    assert run.returncode == 1, run
    return frozenset(titles(run, 'BROKEN'))


@pytest.mark.parametrize('what', WRONG)
def test_a_wrong_copy(files: Files, db: Path, what: str) -> None:
    _, *wanted = WRONG[what]
    assert set(wanted) <= broken_by(files, db, what)


def test_each_line_breaks_in_a_wrong_copy(files: Files, db: Path) -> None:
    held = titles(must_hold(db), 'holds')
    assert held <= set[str]().union(*(broken_by(files, db, what) for what in WRONG))


def test_another_text_of_the_audit(files: Files, db: Path) -> None:
    copy = files.changed(db, '')
    (copy.parent / 'audit.txt').write_text(f'{SUNNY} 1 0 0 0 1\n')
    must_break(recount(copy.parent), 'the audit is the same by the queries and audit.txt')


def test_another_registry_that_took_a_notice_in(files: Files, db: Path) -> None:
    """Five of the ten came back by a notice that registry 9 has never sent, so they are at home in
    both: registry 7 took a stranger's word for it."""
    nine = files.fresh() / 'registry.db'
    files.run('init', '--db', nine, '--code', '9', '--today', '2025-04-05')
    first, _ = (json.loads(body) for body, in
                rows_of(db, 'SELECT body FROM notice_out ORDER BY number'))
    requests = [('ISSUER', {'command': 'open_holder', 'holder': 'NORD', 'name': 'Nord'}),
                *[opened('NORD')] * 5, ('ISSUER', {'command': 'add_peer', 'peer': 7}),
                imported(first)]
    assert set(files.outcomes(nine, lines_of(requests))) == {'accepted'}
    run = recount(db, '--other', nine)
    must_break(run, 'no certificate is at home in both',
               'each notice of ours that it has taken in says there what it says here')
    assert '  shows  notices of ours to the other that it has not taken in: 1\n' in run.stdout


# -------------------------------------------------------------------- the first day, copies before

def test_a_date_that_was_moved_before_anything_has_one(files: Files) -> None:
    """It is recounted from the earliest day that fits: one of its periods could be declared until
    just then."""
    must_hold(files.of([*SMALL, declared(SUNNY, '2023-10-01', '2023-10-31', 5),
                        advanced('2026-04-05'),
                        declared(SUNNY, '2026-03-01', '2026-03-31', 7_000_000)]))


def test_another_day_of_all_that_came_before_the_date_was_moved(files: Files) -> None:
    """It is taken for the first date; but not beside an earlier copy, nor where that is stated."""
    db = files.of([*SMALL, declared(SUNNY, '2025-01-01', '2025-01-31', 5_000_000),
                   advanced('2025-04-05')])
    wrong = files.changed(db, "UPDATE lot SET issued_on = '2025-02-28'")
    must_hold(wrong)
    must_break(recount(wrong, '--before', db), 'table lot')
    must_break(recount(wrong, '--begun', '2025-03-01'), 'table lot')


def test_a_later_copy_goes_on_from_an_earlier_one(files: Files, db: Path) -> None:
    earlier, later = files.changed(db, ''), files.changed(db, '')
    files.outcomes(later, lines_of([transferred('SUN', 1, 2, numbers(1219, 1219))], 'late'))
    run = must_hold(later, '--before', earlier)
    assert f'stands here as it stood there, {len(EACH_COMMAND)} requests' in run.stdout
    run = recount(earlier, '--before', later)
    assert run.returncode == 1 and len(titles(run, 'BROKEN')) == 1
    assert 'SUN late0 there, none here' in run.stdout


def test_a_request_and_its_rows_changed_together(files: Files, db: Path) -> None:
    """Nothing sees it but the copy before."""
    renamed = files.changed(db, "UPDATE holder SET name = 'Wind' WHERE code = 'VOLT'; "
                                'UPDATE receipt SET command = CAST(replace(CAST(command AS TEXT), '
                                "'\"Volt\"', '\"Wind\"') AS BLOB)")
    must_hold(renamed)
    run = recount(renamed, '--before', db)
    assert run.returncode == 1 and 'request 2: ISSUER k1 there, ISSUER k1 here' in run.stdout


def test_begun_on_another_day(db: Path) -> None:
    run = recount(db, '--begun', '2025-03-02')
    assert run.returncode == 1 and 'table lot' in titles(run, 'BROKEN')


# -------------------------------------------------------------------- what is no copy

def must_be_refused(status: int, said: str, *words: object) -> None:
    run = recount(*words)
    assert run.returncode == status and said in run.stderr and 'Traceback' not in run.stderr, run


def test_what_is_no_copy_of_a_registry(files: Files, db: Path) -> None:
    empty, text = files.fresh() / 'empty', files.fresh() / 'text'
    empty.touch()
    text.write_text('A text, and no database. ' * 100)
    must_be_refused(3, 'no such file', files.folder / 'none')
    must_be_refused(3, 'not a registry', empty)
    must_be_refused(3, 'not a registry', text)
    must_be_refused(3, 'version 1', files.changed(db, 'UPDATE meta SET version = 1'))


def test_words_that_are_none_of_a_recount(db: Path) -> None:
    must_be_refused(2, 'usage')
    must_be_refused(2, 'usage', db, '--begun', '2025-02-30')
