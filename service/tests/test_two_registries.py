"""Two and three registries that exchange certificates, and what can go wrong between them.

One goes back to a copy, on its host, on a new one, with a peer that is silent, or is itself the
peer; certificates come home by a third one; a peer is slow; files are missing. What is unsigned,
changed, damaged or no notice at all is tried by modules, in test_exchange.py. In the end each
certificate is in one home, and the recount finds nothing broken. test_rounds.py has connections
that fail.
"""
import contextlib
import shutil
import socket
import ssl
import threading
import time
import types
from pathlib import Path

import pytest
from bodies import Body
from bodies import assert_in_one_home
from bodies import drain
from bodies import make_whole
from bodies import registries
from front import Front


def some_history(seven: Body, nine: Body) -> Path:
    """Ten certificates go to 9 before the copy of 7.

    After it ten more, which 9 cancels; three of the first come back and go out again. The copy.
    """
    begin = seven.export(9, seven.some(1, 10), 10)
    drain(seven, nine)
    copy = seven.copy()
    later = seven.export(9, seven.some(1, 10), 10)
    drain(seven, nine)
    nine.does('SUN', 'cancel', account=1, beneficiary='Bakery', use_first='2025-01-01',
              use_last='2025-01-31', first=f'{later:014}', last=f'{later + 9:014}')
    nine.export(7, begin, 3)
    drain(seven, nine)
    seven.export(9, begin, 2)
    drain(seven, nine)
    return copy


def assert_goes_on(seven: Body, nine: Body) -> None:
    """The peer's operator releases it, and what is exported now arrives."""
    nine.exchange()                                     # it sees that the other is whole
    nine.exchange('--accept-generation', 7, 2)
    drain(seven, nine)
    new = seven.export(9, seven.some(1, 5), 5)
    runs = drain(seven, nine)
    assert all(run.returncode == 0 for run in runs) and nine.holder_of(new) == 1, runs
    assert_in_one_home(seven, nine)


def test_back_to_a_copy() -> None:
    with registries(7, 9) as (seven, nine):
        copy = some_history(seven, nine)
        unread = seven.export(9, seven.some(1, 4), 4)
        seven.exchange()                                # published, and 9 has not read it
        seven.go_back(copy, 2)
        seven.exchange()
        run = nine.exchange()
        assert run.returncode == 1 and 'has gone back to a copy' in run.stdout, run
        assert nine.holder_of(unread) is None, 'the other takes nothing more'
        refused = nine.exchange('--accept-generation', 7, 2)
        assert refused.returncode == 2 and 'not whole' in refused.stderr, refused
        told = make_whole(seven, nine).splitlines()
        assert len({line for line in told if 'curl -sS' in line}) == 2, told
        assert seven.holder_of(unread) == 1, 'what the other had not read is here again'
        run = nine.exchange()
        assert run.returncode == 1
        assert 'it is of generation 2, and we knew generation 1' in run.stdout, run
        assert_goes_on(seven, nine)


@pytest.mark.slow
def test_on_a_new_host_without_the_folder_of_the_exchange() -> None:
    with registries(7, 9) as (seven, nine):
        seven.back_to(some_history(seven, nine))
        shutil.rmtree(seven.state)
        seven.state.mkdir()
        run = seven.exchange()
        assert run.returncode == 1 and 'exchange --generation 2' in run.stdout, run
        assert 'exchange --new' in run.stdout and not list(seven.state.glob('outbox/*/[0-9]*'))
        run = seven.exchange('--generation', 1)
        assert run.returncode == 1 and '--generation 2' in run.stdout, 'a peer knows that one'
        seven.exchange('--generation', 2)
        nine.exchange()
        make_whole(seven, nine)
        assert_goes_on(seven, nine)


@pytest.mark.slow
def test_back_to_a_copy_while_the_peer_is_silent() -> None:
    with registries(7, 9) as (seven, nine):
        copy = seven.copy()
        later = seven.export(9, seven.some(1, 10), 10)
        drain(seven, nine)
        seven.go_back(copy, 2)
        run = seven.exchange()
        assert run.returncode == 1 and 'registry 9: it has not told yet' in run.stdout, run
        run = seven.exchange('--again')
        assert run.returncode == 2 and 'not whole again' in run.stderr, 'nothing by hand'
        told = seven.exchange('--without', 9).stdout
        if 'has all notices' not in told:
            make_whole(seven)
        assert seven.holder_of(later) is None, "by the operator's word, what it had published"
        run = seven.exchange('--without', 9)
        assert run.returncode == 2 and 'nothing is waited for' in run.stderr, 'it comes too late'
        assert_goes_on(seven, nine)


@pytest.mark.slow
def test_the_peer_goes_back() -> None:
    with registries(7, 9) as (seven, nine):
        copy = nine.copy()
        seven.export(9, seven.some(1, 10), 10)
        drain(seven, nine)
        nine.back_to(copy)                              # it says nothing, and lost an import
        drain(seven, nine)
        drain(seven, nine)
        assert_in_one_home(seven, nine)
        copy = nine.copy()
        lost = seven.export(9, seven.some(1, 10), 10)
        nine.export(7, nine.some(2, 5), 5, giver=2)
        drain(seven, nine)
        number = f'{seven.some(1):014}'
        seven.does('SUN', 'export', giver=1, peer=9, account=3, first=number, last=number)
        seven.exchange()
        nine.until('UnknownAccount')                    # one waits behind those that it loses
        nine.go_back(copy, 2)
        make_whole(nine, seven)
        seven.exchange()                                # it sees that the other is whole
        seven.exchange('--accept-generation', 9, 2)
        nine.exchange('--again')
        run = nine.exchange()
        assert nine.holder_of(lost) == 1 and 'does not have' not in run.stdout, run
        assert 'waits: refused: UnknownAccount' in run.stdout, run
        nine.does('ISSUER', 'open_account', holder='SUN')
        assert all(run.returncode == 0 for run in drain(seven, nine))
        assert_in_one_home(seven, nine)


# ------------------------------------------------------------------ what a peer may not do

def test_the_long_way_home() -> None:
    """What went to 8 and comes back from 9, and what 9 has of 8, is held until it is released."""
    with registries(7, 8, 9) as (seven, eight, nine):
        ours = seven.export(8, seven.some(1, 10), 10)
        drain(seven, eight)
        eight.export(9, ours, 10)
        theirs = eight.export(9, eight.some(2, 10), 10, giver=2)
        eight.exchange()
        nine.exchange()
        nine.exchange('--release', 8, 1)                # what 7 has sent to 8, and 8 sends on
        drain(eight, nine)
        nine.export(7, ours, 10)
        nine.export(7, theirs, 10, giver=2)
        nine.exchange()
        run = seven.exchange()
        assert run.returncode == 1 and run.stdout.count(': held') >= 2, run
        assert seven.holder_of(ours) is None
        nine.until('waits there')
        assert nine.sent_row(7, f'{ours:014}')['became'] == 'held', 'and not why'
        runs = [seven.exchange('--release', 9, position) for position in (1, 2)]
        assert (seven.holder_of(ours), seven.holder_of(theirs)) == (1, 2), runs
        drain(seven, eight, nine)
        assert_in_one_home(seven, eight, nine)


# ------------------------------------------------------------------ peers that keep others waiting

class Slow(threading.Thread):
    """A front door that never ends its answer.

    It sends a byte a second, or one `100 Continue` after another.
    """

    def __init__(self, front: Front, endless: bool) -> None:
        super().__init__(daemon=True)
        self.context = ssl.SSLContext(ssl.PROTOCOL_TLS_SERVER)
        own = front.door.etc / 'tls'
        self.context.load_cert_chain(own / 'cert.pem', own / 'key.pem')
        self.listener = socket.create_server(('127.0.0.1', 0))
        self.port, self.endless = int(self.listener.getsockname()[1]), endless
        self.start()

    def run(self) -> None:
        while True:
            near, _ = self.listener.accept()
            threading.Thread(target=self.answer, args=(near,), daemon=True).start()

    def answer(self, near: socket.socket) -> None:
        pause, head = 0.01 if self.endless else 1, b'HTTP/1.1 200 OK\r\nContent-Length: 100000\r\n'
        with contextlib.suppress(OSError), self.context.wrap_socket(near, server_side=True) as sink:
            sink.recv(65536)
            for byte in head + b'\r\n' + b'x' * 100000:
                sink.sendall(b'HTTP/1.1 100 Continue\r\n\r\n' if self.endless else bytes([byte]))
                time.sleep(pause)


@pytest.mark.slow
def test_a_slow_peer_is_given_up_and_told_and_what_the_other_sent_is_here() -> None:
    with registries(7, 9) as (seven, nine):
        seven.does('ISSUER', 'add_peer', peer=8)
        for endless in (False, True):
            slow = Slow(nine.front, endless)
            eight = types.SimpleNamespace(code=8, front=nine.front, public=nine.public)
            seven.meets(eight, nine, ports={8: slow.port}, seconds={8: 4})
            first = nine.export(7, nine.some(1, 5), 5)
            nine.exchange()
            run = seven.exchange()
            assert run.returncode == 1 and seven.holder_of(first) == 1, run
            assert 'registry 8: its answers take more than 4 seconds' in run.stdout, run


@pytest.mark.slow
def test_a_peer_whose_files_are_not_there_and_a_folder_in_the_place_of_a_file_are_told() -> None:
    with registries(7, 9) as (seven, nine):
        first = nine.export(7, nine.some(1, 5), 5)
        nine.exchange()
        seven.config.write_text(
            f'{seven.config.read_text()}\n[peer 8]\nurl = https://localhost:1\nuser = x\n'
            'password_file = /nowhere/08\nauthority = /nowhere/08.pem\n')
        run = seven.exchange()
        assert run.returncode == 1 and 'registry 8: ' in run.stdout, run
        assert seven.holder_of(first) == 1, 'what the other sent is here'
        (seven.state / 'lock').unlink()
        (seven.state / 'lock').mkdir()
        run = seven.exchange()
        assert run.returncode == 1 and 'lock' in run.stdout, run
