"""Where the book of acts begins: a beginning that does not fit is told with what to do."""
import json
import shutil
import subprocess
from pathlib import Path

import pytest
from door import SERVICE
from service_commands import command
from house import House
from made_book import CODE
from made_book import DAY
from made_book import Logged

RECORDS, = command('goo-records', SERVICE)
ADVICE = 'GOO_RECORDS_BEGIN=--copy COPY'


def followed(folder: Path, *words: object) -> subprocess.CompletedProcess[str]:
    """`records follow` over the archive of a folder, to its end."""
    whole = [RECORDS, 'follow', *words, '--archive', folder / 'archive',
             '--into', folder / 'book', '--once']
    return subprocess.run([str(word) for word in whole], capture_output=True, text=True, timeout=60,
                          check=False)


@pytest.fixture
def later(tmp_path: Path) -> Logged:
    """A log that begins with entry 41, after an entry whose hash is known."""
    log = Logged(tmp_path, 41, 'a' * 64)
    log.country()
    return log


BEGUN = ('--begun', CODE, DAY, 1)


def copy_of(folder: Path, **place: object) -> Path:
    """What stands beside the registry in a copy."""
    copy = folder / 'copy'
    copy.mkdir()
    (copy / 'place.json').write_text(json.dumps({'chain': '-', 'version': 'v', **place}))
    return copy


def test_a_log_that_begins_later_needs_a_copy(later: Logged) -> None:
    done = followed(later.folder, *BEGUN)
    assert done.returncode == 3
    assert 'begins with entry 41, and the book would begin with entry 1, by --begun' in done.stderr
    assert ADVICE in done.stderr
    assert not (later.folder / 'book/current').exists()


@pytest.mark.parametrize(('place', 'told'), [
    ({'n': 40, 'hash': 'b' * 64}, 'entry 41 does not follow the entry at which'),
    ({'n': 39, 'hash': 'a' * 64}, 'begins with entry 41, and the book would begin with entry 40'),
    ({'n': 900, 'hash': 'a' * 64}, 'and the book would begin after entry 900'),
    ({'hash': 'a' * 64}, 'no place in it')])
def test_a_copy_of_another_log_is_told(later: Logged, place: dict[str, object], told: str) -> None:
    done = followed(later.folder, '--copy', copy_of(later.folder, **place))
    assert done.returncode == 3
    assert told in done.stderr
    assert done.stderr.count('\n') == 1


def test_after_is_what_the_copy_says(later: Logged) -> None:
    copy = copy_of(later.folder, n=40, hash='a' * 64)
    done = followed(later.folder, '--copy', copy, '--after', 7)
    assert done.stderr == (f'records: {copy} was made at entry 40, and --after says 7: '
                           'leave --after out\n')
    done = followed(later.folder, *BEGUN, '--after', 7)
    assert '--after belongs to --copy' in done.stderr


def test_a_log_begun_anew_over_a_registry_with_records(own_house: House) -> None:
    """It is told at the start, no book is made of it, and the copy that was made then mends it."""
    country = own_house.make_country()
    own_house.wait_for_book()
    for part in ('nginx', 'records', 'log', 'registry'):
        own_house.stop(part)
    shutil.rmtree(own_house.state)
    own_house.state.mkdir()
    assert own_house.log_words('found').returncode == 0
    copy = own_house.log_words('first-copy').stdout.strip()
    for part in ('registry', 'log'):
        own_house.start(part)
    folder, door = own_house.state, ('--socket', own_house.folder / 'door.sock')
    begun = ('--begun', CODE, own_house.day, 1)
    done = followed(folder, *begun, *door)
    assert done.returncode == 3
    assert 'account 1 is in the registry and in no entry of the log' in done.stderr
    assert ADVICE in done.stderr
    assert not (folder / 'book/current').exists()
    moved = {'command': 'transfer', 'key': 'anew', 'giver': country.sun, 'taker': country.volt,
             'first': f'{country.first:014}', 'last': f'{country.first:014}'}
    answer = own_house.ask_log('SUN', 'POST', '/v1/requests', json.dumps(moved))
    assert answer.status == 200
    done = followed(folder, *begun)
    assert (done.returncode, ADVICE in done.stderr) == (3, True)
    done = followed(folder, '--copy', copy, *door)
    assert done.returncode == 0
    checked = own_house.run(RECORDS, 'check', '--copies', own_house.copies, '--archive',
                            folder / 'archive', '--into', folder / 'book')
    assert f'the book and {copy} of entry 0, with the entries since, agree' in checked.stdout


def test_a_registry_that_begins_has_nothing_to_lack(own_house: House) -> None:
    own_house.must('office', 'open_holder', holder='A', name='A')
    door = ('--socket', own_house.folder / 'door.sock')
    for words in (door, ('--socket', own_house.folder / 'nowhere')):
        done = followed(own_house.state, '--begun', 7, own_house.day, 1, *words)
        assert done.returncode == 0
