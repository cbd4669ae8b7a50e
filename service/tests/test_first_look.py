"""./goo, ./check, what all tools count and ask by, and tools/trial: a newcomer's first commands.

The programs are stand-ins in a copy of the sources (clone.py), and so are rt and what ./check looks
for. tools/trial runs GOO, or the program that ./goo built.
"""
import os
import re
import select
import signal
import ssl
import subprocess
import sys
import tempfile
import time
from collections.abc import Iterator
from pathlib import Path
from typing import IO

import client
import pytest
from clone import CHECK
from clone import Clone
from clone import Machine
from clone import SECONDS
from clone import TOOLS
from clone import TOP
from clone import needed
from clone import owners
from clone import script

WORDS = ['run', '--memory', '--code', '7', '--today', '2025-03-01']
RIGHTS = {'mounts': 'mount', 'namespaces': 'unshare', 'nobody': 'setpriv'}
"""Each right, and the command that shows whether it is allowed."""
as_root = pytest.mark.skipif(os.geteuid() != 0, reason='rights and packages are for root')


@pytest.fixture(scope='module')
def made(tmp_path_factory: pytest.TempPathFactory) -> Clone:
    return Clone(tmp_path_factory.mktemp('first-look'))


@pytest.fixture
def clone(made: Clone) -> Clone:
    made.reset()
    return made


# -------------------------------------------------------------------- counts

@pytest.mark.parametrize(('trials', 'without', 'last', 'status'), [
    ('t', '', '0 passed, 0 failed', 1),
    ('t.check("a", 1)', '', '1 passed, 0 failed', 0),
    ('t.check("a", 1), t.check("b", 0)', '', '1 passed, 1 failed', 1),
    ('t.check("a", 1), t.skip("b", "nft, or root")', '', '1 passed, 1 failed', 1),
    ('t.carry_out("a", lambda: 1 / 0)', '', '0 passed, 1 failed', 1),
    ('t.check("a", 1), t.skip("b", "nft, or root")', 'nft', '1 passed, 0 failed, 1 skipped', 0),
    ('t.skip("b", "nft, or root")', 'nft', '0 passed, 0 failed, 1 skipped', 1),
    ('t.count(0), t.count(1)', '', '1 passed, 1 failed', 1)])
def test_the_last_line_of_a_tool(trials: str, without: str, last: str, status: int) -> None:
    text = f'from tally import Tally; t = Tally(); {trials}; t.end()'
    done = subprocess.run([sys.executable, '-B', '-c', text], cwd=TOP / 'tools/lib', text=True,
                          env={**os.environ, 'GOO_WITHOUT': without}, capture_output=True,
                          check=False)
    assert (done.stdout.splitlines()[-1:], done.returncode) == ([last], status)


PASSES = 'def test_passes(): pass\n'
FAILS = 'def test_fails(): assert False\n'
SKIPS = 'import pytest\ndef test_skips(): pytest.skip("it")\n'


@pytest.mark.parametrize(('text', 'last', 'status'), [
    (PASSES, '1 passed, 0 failed', 0), (PASSES + FAILS, '1 passed, 1 failed', 1),
    (PASSES + SKIPS, '1 passed, 0 failed, 1 skipped', 0),
    (SKIPS, '0 passed, 0 failed, 1 skipped', 1),
    ('import nothing_of_that_name\n', '0 passed, 1 failed', 1), ('', '0 passed, 1 failed', 1)])
def test_the_last_line_of_a_tool_of_pytest(tmp_path: Path, text: str, last: str,
                                           status: int) -> None:
    (tmp_path / 'test_made.py').write_text(text)
    run = f'import suite; raise SystemExit(suite.run("none", ["{tmp_path}"], ["--reruns=0"]))'
    done = subprocess.run(['/usr/bin/python3', '-B', '-c', run], cwd=TOP / 'tools/lib', text=True,
                          capture_output=True, check=False)
    assert (done.stdout.splitlines()[-1:], done.returncode) == ([last], status)


@pytest.mark.parametrize(('line', 'counted'), [
    ('echo 3 passed, 0 failed', (3, 0, 0)),
    ('echo 2 passed, 1 failed, 4 skipped; exit 1', (2, 1, 4)),
    ('echo 3 passed, 0 failed; exit 1', (3, 1, 0)),
    ('echo 0 passed, 0 failed, 2 skipped', (0, 1, 2)), ('echo all is well', (0, 1, 0)),
    ('kill -9 $$', (0, 1, 0)), ('sleep 600', (0, 1, 0))])
def test_what_check_makes_of_a_tool(line: str, counted: tuple[int, int, int]) -> None:
    seconds = 1 if line.startswith('sleep') else SECONDS
    assert CHECK['counted'](['sh', '-c', line], seconds, os.environ, str)[0] == counted


# -------------------------------------------------------------------- answers

HEAD = b'HTTP/1.1 200 OK\r\n'
CHUNKED = HEAD + b'Transfer-Encoding: chunked\r\n\r\n'


@pytest.mark.parametrize(('came', 'method', 'body'), [
    (HEAD + b'Content-Length: 2\r\n\r\nhi', 'GET', b'hi'), (HEAD + b'\r\nhi', 'GET', b'hi'),
    (CHUNKED + b'2\r\nhi\r\n0\r\n\r\n', 'GET', b'hi'),
    (HEAD + b'Content-Length: 3\r\n\r\n', 'HEAD', b'')])
def test_an_answer_is_read(came: bytes, method: str, body: bytes) -> None:
    """By its length, by chunks, or to the end."""
    assert client.read_answer(came, method).body == body


@pytest.mark.parametrize(('came', 'method'), [
    (HEAD + b'Content-Length: 3\r\n\r\nhi', 'GET'), (CHUNKED + b'2\r\nhi\r\n', 'GET'),
    (HEAD + b'Content-Length: 1\r\n\r\nhi', 'GET'),
    (HEAD + b'Content-Length: 2\r\n\r\nhi', 'HEAD'), (b'', 'GET'), (b'hi', 'GET')])
def test_what_is_cut_off_or_has_more_behind_it_is_no_answer(came: bytes, method: str) -> None:
    with pytest.raises(OSError):
        client.read_answer(came, method)


# -------------------------------------------------------------------- ./goo

def test_goo_without_a_program(clone: Clone) -> None:
    none = clone.goo('--proved')
    assert none.returncode == 1 and not none.stdout
    assert 'there is no proved program' in none.stderr
    fallen = clone.goo(*WORDS)          # no bitcode is seen: rt try runs the words
    assert fallen.stdout == f'rt try -- {" ".join(WORDS)}\n'
    assert 'builds no trial program' in fallen.stderr


def test_goo_with_a_trial_program(clone: Clone) -> None:
    """It is run, and called one in a line; and it is not to be installed."""
    clone.put('trial/goo', 'echo trial "$@"')
    tried = clone.goo('audit')
    assert tried.stdout == 'trial audit\n'
    assert tried.stderr.count('\n') == 1 and 'unproved' in tried.stderr
    assert clone.goo('--proved').returncode == 1


def test_goo_with_a_proved_program(clone: Clone) -> None:
    """It is run without a word, and may be installed, unless its bytes are others."""
    proved = clone.put('goo', 'echo proved "$@"')
    ran, shown = clone.goo('audit'), clone.goo('--proved')
    assert (ran.stdout, ran.stderr) == ('proved audit\n', '')
    assert (shown.stdout, shown.returncode) == (f'{proved}\n', 0)
    assert clone.goo('--prove', 'audit').stdout == 'proved audit\n'
    proved.write_text('#!/bin/sh\necho another\n', encoding='ascii')
    assert clone.goo('--proved').returncode == 1


def test_goo_of_a_changed_source(clone: Clone) -> None:
    """Neither program is run, it is told, and nothing is to be installed."""
    clone.put('trial/goo', 'echo trial "$@"')
    clone.put('goo', 'echo proved "$@"')
    with open(clone.source, 'a', encoding='utf-8') as source:
        source.write('// changed\n')
    stale = clone.goo('audit')
    assert 'rt try' in stale.stdout and 'not those that were proved' in stale.stderr
    assert clone.goo('--proved').returncode == 1


@pytest.mark.slow
def test_a_real_trial_program(clone: Clone) -> None:
    begun = time.monotonic()
    answered = clone.goo(*WORDS, real_rt=True)
    assert answered.stdout == (TOP / 'crates/goo/stdout').read_text(encoding='utf-8')
    assert time.monotonic() - begun < SECONDS
    again = clone.goo(*WORDS, real_rt=True)
    assert again.stdout == answered.stdout and again.stderr.count('\n') == 1
    assert ', not proved, ' in clone.goo('--version', real_rt=True).stdout


# -------------------------------------------------------------------- what ./check needs

def test_packages_that_are_missing(clone: Clone) -> None:
    """Each is named, the status is 1, and the gate does not begin."""
    lines = needed()
    done = Machine(clone, [f'{package} no-{package} {tools}'
                           for package, _, tools in lines]).check()
    assert (done.status, done.began, done.last) == (1, False, '0 passed, 1 failed')
    assert not [package for package, *_ in lines
                if not done.names(package) or f'--without {package}' not in done.said]


def test_each_sign_that_is_here_is_of_its_package() -> None:
    for package, sign, _ in needed():
        assert all(name.startswith(package) for name in owners(sign)), sign


@as_root
@pytest.mark.parametrize('right', RIGHTS)
def test_a_right_that_is_not_allowed(clone: Clone, right: str) -> None:
    """It is named; --without it ./check goes on."""
    machine = Machine(clone, [])
    script(machine.bin / RIGHTS[right], 'exit 1')
    done = machine.check()
    assert (done.status, done.began) == (1, False) and done.names(right)
    assert machine.check('--without', right).began


def test_no_rt(clone: Clone) -> None:
    done = Machine(clone, [], rt='').check()
    assert done.status == 1 and 'check: there is no rt on this machine' in done.said


def test_a_package_that_is_left_out(clone: Clone) -> None:
    """And a word that is of no tool, package or right: status 2."""
    machine = Machine(clone, ['goo-trial goo-trial on-a-file'])
    assert machine.check('--without', 'goo-trial').began
    assert machine.check('--without', 'nothing-of-that-name').status == 2


@as_root
def test_a_package_that_can_be_installed(clone: Clone) -> None:
    machine = Machine(clone, ['goo-trial goo-trial on-a-file'])
    made = machine.bin / 'goo-trial'
    script(machine.bin / 'apt-get', 'case "$*" in *" install "*goo-trial*) '
           f'printf "#!/bin/sh\\n" > {made}; chmod +x {made};; esac')
    done = machine.check()
    assert done.began and 'check: installs goo-trial' in done.said


# -------------------------------------------------------------------- what ./check sums up

@pytest.mark.parametrize(('rt', 'last'), [
    ('echo "6 passed, 1 failed"; exit 1', '6 passed, 1 failed'),
    ('echo "7 passed, 0 failed"', '7 passed, 1 failed'),
    ('echo "0 passed, 0 failed"', '0 passed, 1 failed'),
    ('echo "7 passed, 0 failed"; exit 3', '7 passed, 1 failed'), ('exit 0', '0 passed, 1 failed')])
def test_a_gate_that_failed_or_built_nothing(clone: Clone, rt: str, last: str) -> None:
    """No program of before is tried."""
    clone.put('goo', 'echo of before')
    done = Machine(clone, [], rt).check()
    assert done.status == 1 and done.last.startswith(last)
    assert 'built no program' in done.said and TOOLS['on-a-file'] not in done.said


TOLD = {'lint': 'echo 9 passed, 0 failed', 'storms': 'echo 5 passed, 0 failed, 1 skipped',
        'cells': 'echo 3 passed, 0 failed'}
SKIPPED = 1 + sum(words[0] not in TOLD for _, words in CHECK['TOOLS'])
ONCE = ('[ -e again ] && echo "3 passed, 0 failed" || '
        '{ touch again; echo "FAILED of it"; echo "2 passed, 1 failed"; exit 1; }')
TWICE = ('cells, first try: FAILED of it\ncells, second try, which counts: 3 passed, 0 failed\n')


def summed(clone: Clone, **changed: str) -> tuple[str, str]:
    """The last line of ./check where the gate built a program, and its remarks."""
    built = clone.top / 'crates/goo/out/goo'
    (clone.top / 'again').unlink(missing_ok=True)
    rt = f'mkdir -p {built.parent}; cp /bin/true {built}; echo "7 passed, 0 failed"'
    for name, line in {**TOLD, **changed}.items():
        script(clone.top / TOOLS[name], line.replace('again', str(clone.top / 'again')))
    done = Machine(clone, [], rt).check(tools=TOLD)
    assert done.status == int(' 0 failed' not in done.last)
    assert ('tried once more' in done.said) == ('cells' in changed)
    return done.last, done.said.partition('== remarks\n')[2]


def test_all_passes(clone: Clone) -> None:
    """Texts are told and not added, and what is left out is skipped."""
    last, remarks = summed(clone)
    assert last == f'15 passed, 0 failed, {SKIPPED} skipped' and 'FAILED' not in remarks


def test_a_scripted_tool_that_fails_once(clone: Clone) -> None:
    """It is tried once more, alone, and that counts."""
    last, remarks = summed(clone, cells=ONCE)
    assert last == f'15 passed, 0 failed, {SKIPPED} skipped' and TWICE in remarks


def test_a_tool_by_chance_that_fails_once(clone: Clone) -> None:
    last, remarks = summed(clone, storms=ONCE)
    assert last == f'12 passed, 1 failed, {SKIPPED - 1} skipped'
    assert 'storms: FAILED of it\n' in remarks and TWICE not in remarks


def test_a_text_that_does_not_agree(clone: Clone) -> None:
    last, _ = summed(clone, lint='echo 8 passed, 1 failed; exit 1')
    assert last == f'15 passed, 1 failed, {SKIPPED} skipped'


# -------------------------------------------------------------------- tools/trial

USER = re.compile(r'^  (\w+) +(pw-\w+) +(.+)$')
"""A user in what tools/trial prints: name, password, who that is."""
PAGES = ('/', '/verify.html', '/openapi.yaml', '/v1/audit')
LAST = 'Ctrl-C ends it.'


def processes_with(text: str) -> list[str]:
    """Processes that have this text in their environment."""
    found = []
    for path in Path('/proc').glob('[0-9]*/environ'):
        try:
            found += [path.parent.name] if text.encode() in path.read_bytes() else []
        except OSError:                             # it ended meanwhile
            continue
    return found


def lines_until(stream: IO[bytes], last: str) -> list[str]:
    """What comes up to a line, or until the end of the time or of the stream."""
    lines, until = [''], time.monotonic() + SECONDS
    while lines[-1] != last:
        ready, _, _ = select.select([stream], [], [], max(0, until - time.monotonic()))
        line = stream.readline().decode() if ready else ''
        if not line:
            break
        lines.append(line.rstrip('\n'))
    return lines


def status_of(port: int, user: str, password: str, path: str) -> int:
    """The status of an answer to a user; 0 where none came."""
    context = ssl.create_default_context()
    context.check_hostname, context.verify_mode = False, ssl.CERT_NONE
    fields = [client.CLOSE, f'Authorization: Basic {client.basic(user, password)}']
    try:
        text = client.request('GET', path, None, fields, f'localhost:{port}')
        return int(client.answered(port, text, tls=context).status)
    except OSError:
        return 0


@pytest.fixture(scope='module')
def trial() -> Iterator[list[str]]:
    """What tools/trial says. Ctrl-C ends it, and nothing of it is left."""
    with tempfile.TemporaryDirectory(prefix='goo-l-') as folder:
        begun = subprocess.Popen([TOP / 'tools/trial'], stdout=subprocess.PIPE, bufsize=0,
                                 start_new_session=True, env={**os.environ, 'TMPDIR': folder})
        assert begun.stdout
        try:
            yield lines_until(begun.stdout, LAST)
        finally:
            count = len(processes_with(folder))
            begun.send_signal(signal.SIGINT)
            status = begun.wait(SECONDS)
            begun.stdout.close()
        assert count > 5 and status == 0
        assert not os.listdir(folder) and not processes_with(folder)


def port_of(trial: list[str]) -> int:
    found = (re.search('https://localhost:([0-9]+)/ ', line) for line in trial)
    return next(int(one[1]) for one in found if one)


def test_whom_the_trial_names_signs_in_and_finds_its_records(trial: list[str]) -> None:
    assert trial[-1] == LAST
    users = [found.groups() for line in trial if (found := USER.match(line))]
    assert len(users) == 6
    for user, password, who in users:
        wanted = 403 if 'nobody' in who or 'declares alone' in who else 200
        got = status_of(port_of(trial), user, password, '/records/v1/acts?limit=1')
        assert got == wanted, user


@pytest.mark.parametrize('page', PAGES)
def test_a_page_that_the_trial_names(trial: list[str], page: str) -> None:
    assert status_of(port_of(trial), 'office', 'pw-office', page) == 200
