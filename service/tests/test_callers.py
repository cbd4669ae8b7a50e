"""The list of who signs in as whom: what a line may be, and the map that nginx reads."""
import re
import stat
import subprocess
from pathlib import Path

import pytest
from goo_service.people import callers
from goo_service.people.callers import Fault
from door import SERVICE
from hypothesis import given
from hypothesis import strategies as some
from service_commands import command

KEPT = '$2y$08$abcdefghijklmnopqrstuv'
"""A password as `htpasswd -B -C 8` keeps it, cut off behind its salt."""
NAME = some.text(some.characters(min_codepoint=32, max_codepoint=126), min_size=1, max_size=30)
PEOPLE = 'anna SUN\noffice ISSUER\n# nobody\n\nmeter ISSUER declares\nnorth peer 08\n'
MAP = '''# Made by `callers` from the list. A change here is lost.
"~\\Aanna\\z" "SUN full";    # anna
"~\\Ameter\\z" "ISSUER declares";    # meter
"~\\Anorth\\z" "peer 08";    # north
"~\\Aoffice\\z" "ISSUER full";    # office
'''


def read(folder: Path, text: str, certificates: bool = False) -> dict[str, str]:
    path = folder / 'callers'
    path.write_bytes(text.encode())
    return callers.read_list(path, certificates).entries


def made(folder: Path, *words: str) -> subprocess.CompletedProcess[str]:
    files = [f'--{name}={folder / name}' for name in ('list', 'users', 'map')]
    return subprocess.run([*command('goo-callers', SERVICE), *files, *words], capture_output=True,
                          text=True, check=False)


# ------------------------------------------------------------------ lines

@pytest.mark.parametrize(('line', 'user', 'entry'), [
    ('anna SUN', 'anna', 'SUN full'), ('  anna   SUN  reads ', 'anna', 'SUN reads'),
    ('anna ISSUER declares', 'anna', 'ISSUER declares'), ('north peer 08', 'north', 'peer 08'),
    ('a\\b S-1', 'a\\b', 'S-1 full'), ('"CN=Anna B.,O=Sun" SUN', 'CN=Anna B.,O=Sun', 'SUN full')])
def test_a_line_says_who_somebody_is(tmp_path: Path, line: str, user: str, entry: str) -> None:
    assert read(tmp_path, f'{line}\n', certificates=' ' in user) == {user: entry}


@pytest.mark.parametrize(('line', 'why'), [
    ('anna', 'a line is USER'), ('anna SUN full more', 'a line is USER'),
    ('anna sun', "no holder's code"), ('anna ' + 17 * 'A', "no holder's code"),
    ('anna SUN write', 'no role'), ('north peer', 'two digits'), ('north peer 00', 'two digits'),
    ('north peer 8', 'two digits'), ('"anna b" SUN', 'no blank'), ('a:b SUN', 'no blank'),
    ('änna SUN', 'printable ASCII'), ('"" SUN', '1 to 200'), (201 * 'a' + ' SUN', '1 to 200'),
    ('"anna SUN', "a quote that isn't closed")])
def test_a_line_with_a_fault_is_told_by_its_number(tmp_path: Path, line: str, why: str) -> None:
    with pytest.raises(Fault) as told:
        read(tmp_path, f'# list\nbert VOLT\n{line}\n')
    assert len(told.value.args) == 1
    assert told.value.args[0].startswith(f'{tmp_path}/callers:3: ') and why in told.value.args[0]


def test_all_lines_with_faults_are_told(tmp_path: Path) -> None:
    with pytest.raises(Fault) as told:
        read(tmp_path, 'a\nb SUN\nc\n')
    assert [line.split(': ')[0] for line in told.value.args] == [
        f'{tmp_path}/callers:{number}' for number in (1, 3)]


# ------------------------------------------------------------------ the map

@given(NAME, NAME)
def test_a_pattern_is_of_one_name_alone(name: str, other: str) -> None:
    """nginx reads it by PCRE, which has these signs as Python has them, but for the end."""
    pattern = callers.pattern(name)
    assert pattern.startswith('~') and pattern.endswith(r'\z') and '"' not in pattern
    form = re.compile(pattern[1:].removesuffix(r'\z') + r'\Z')
    assert form.search(name)
    for one in (other, name.upper(), name.lower(), name + '\n', f'{name}a', f'a{name}'):
        assert bool(form.search(one)) == (one == name), one


def test_the_map_of_a_list(tmp_path: Path) -> None:
    (tmp_path / 'list').write_text(PEOPLE)
    names = ('anna', 'office', 'meter', 'north')
    (tmp_path / 'users').write_text(''.join(f'{name}:{KEPT}\n' for name in names))
    for name in ('list', 'users'):
        (tmp_path / name).chmod(0o640)
    done = made(tmp_path)
    assert (done.returncode, done.stderr) == (0, ''), done
    assert done.stdout == f'{tmp_path}/map: 4 users\n'
    assert (tmp_path / 'map').read_text() == MAP
    assert stat.S_IMODE((tmp_path / 'map').stat().st_mode) == 0o640


def test_what_may_not_be_meant_is_told_and_written(tmp_path: Path) -> None:
    (tmp_path / 'list').write_text('anna SUN\nbert VOLT\n')
    (tmp_path / 'users').write_text(f'anna:{KEPT}\ncarl:$apr1$x\n')
    (tmp_path / 'list').chmod(0o644)
    (tmp_path / 'users').chmod(0o640)
    done = made(tmp_path)
    assert done.returncode == 0
    for line in (f'{tmp_path}/list: every user', 'bert: no password', 'carl: a password and no',
                 "carl: a password that `htpasswd -B -C 8` didn't write"):
        assert line in done.stderr
    assert f'{tmp_path}/users' not in done.stderr and 'anna' not in done.stderr
    written = (tmp_path / 'map').read_text()
    assert '"none";    # carl' in written and 'bert' not in written


@pytest.mark.parametrize(('people', 'users', 'why'), [
    ('anna SUN\nanna VOLT\n', 'anna', 'stands in'), ('Anna SUN\n', 'anna', 'capital letters'),
    ('anna SUN\n', 'anna:x\nanna', 'stands in'), ('anna NOT A CODE\n', 'anna', 'a line is')])
def test_a_fault_leaves_the_map_as_it_was(tmp_path: Path, people: str, users: str,
                                          why: str) -> None:
    (tmp_path / 'list').write_text(people)
    (tmp_path / 'users').write_text(f'{users}:{KEPT}\n')
    (tmp_path / 'map').write_text('as it was')
    done = made(tmp_path)
    assert done.returncode == 1 and why in done.stderr and not done.stdout
    assert (tmp_path / 'map').read_text() == 'as it was'


def test_with_certificates_there_is_no_password_file(tmp_path: Path) -> None:
    (tmp_path / 'list').write_text('"CN=Anna B." SUN\n')
    assert made(tmp_path).returncode == 1
    assert made(tmp_path, '--certificates').returncode == 0
    assert '"SUN full";    # CN=Anna B.' in (tmp_path / 'map').read_text()
