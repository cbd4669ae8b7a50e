"""The one HTTP client: what it sends, and its ends in time and in bytes.

Each server here is a few bytes sent by a thread over a bare socket: no HTTP library sends such.
"""
import contextlib
import socket
import threading
import time
from collections.abc import Callable
from collections.abc import Iterator
from dataclasses import dataclass
from dataclasses import field
from pathlib import Path

import pytest
from goo_service.common.client import Client
from goo_service.common.client import NoAnswer

Talk = Callable[[socket.socket], None]
WHOLE = (b'HTTP/1.1 200 OK\r\nContent-Length: 5\r\nGOO-Entry: 12\r\n'
         b'Content-Type: text/plain\r\n\r\nhello')


@dataclass
class Server:
    """Talks once with whoever comes to its socket, and keeps what came first."""

    listening: socket.socket
    address: str
    came: list[bytes] = field(default_factory=list)

    def serve(self, talk: Talk) -> None:
        def run() -> None:
            one, _ = self.listening.accept()
            with one:
                self.came.append(one.recv(1 << 16))
                with contextlib.suppress(OSError):      # the client may go at any time
                    talk(one)
        threading.Thread(target=run, daemon=True).start()


@pytest.fixture(params=['path', 'port'])
def server(tmp_path: Path, request: pytest.FixtureRequest) -> Iterator[Server]:
    by_path = request.param == 'path'
    with socket.socket(socket.AF_UNIX if by_path else socket.AF_INET) as listening:
        listening.bind(str(tmp_path / 's') if by_path else ('127.0.0.1', 0))
        listening.listen(4)
        name = listening.getsockname()
        yield Server(listening, name if by_path else f'127.0.0.1:{name[1]}')


def sends(*parts: bytes, pause: float = 0) -> Talk:
    def talk(one: socket.socket) -> None:
        for part in parts:
            time.sleep(pause)
            one.sendall(part)
    return talk


def test_an_answer_and_what_was_sent(server: Server) -> None:
    server.serve(sends(WHOLE[:20], WHOLE[20:-2], WHOLE[-2:], pause=0.02))
    answer = Client(server.address).post('/v1/requests', b'{}', {'GOO-User': 'Zoë'})
    assert (answer.status, answer.body, answer.text, answer.entry) == (200, b'hello', 'hello', 12)
    assert answer.fields['content-type'] == 'text/plain'
    head, _, body = server.came[0].partition(b'\r\n\r\n')
    lines = head.split(b'\r\n')
    assert lines[0] == b'POST /v1/requests HTTP/1.1'
    assert {b'GOO-Caller: ISSUER', b'GOO-Role: full', b'Content-Length: 2',
            'GOO-User: Zoë'.encode()} <= set(lines[1:])
    assert body in (b'', b'{}')                 # it may come in a part of its own


def test_fields_of_the_client_take_the_place_of_the_usual_ones(server: Server) -> None:
    server.serve(sends(WHOLE))
    Client(server.address, fields={'GOO-Caller': 'SUN'}).get('/v1/audit')
    assert b'GOO-Caller: SUN' in server.came[0] and b'GOO-Role' not in server.came[0]


@pytest.mark.parametrize(('body', 'members'), [
    (b'{"n": 7}', {'n': 7}), (b'[1]', {}), (b'{"n":', {}), (b'\xff', {}), (b'[' * 100_000, {})])
def test_members_of_an_object(server: Server, body: bytes, members: dict[str, object]) -> None:
    server.serve(sends(b'HTTP/1.1 200 OK\r\nContent-Length: %d\r\n\r\n%b' % (len(body), body)))
    assert Client(server.address).get('/').members() == members


@pytest.mark.parametrize('text', [
    b'', WHOLE[:30], WHOLE[:-1], b'hello\r\n\r\n', b'HTTP/1.1 abc\r\n\r\n',
    b'HTTP/1.1 200 OK\r\nTransfer-Encoding: chunked\r\n\r\n5\r\nhel',
    b'HTTP/1.1 200 OK\r\n' + b'A: b\r\n' * 1000 + b'\r\n'])
def test_an_answer_that_did_not_come_whole(server: Server, text: bytes) -> None:
    server.serve(sends(text))
    with pytest.raises(NoAnswer, match=server.address):
        Client(server.address).get('/')


def test_a_bound_in_bytes(server: Server) -> None:
    server.serve(sends(WHOLE))
    assert Client(server.address, most=5).get('/').body == b'hello'
    server.serve(sends(WHOLE))
    with pytest.raises(NoAnswer, match='more than 4 bytes'):
        Client(server.address, most=4).get('/')
    server.serve(sends(WHOLE))
    assert Client(server.address, most=4).beginning('/', 3).body == b'hel'


@pytest.mark.parametrize('parts', [[b''], [bytes([byte]) for byte in WHOLE],
                                   [WHOLE[:-5], *[bytes([byte]) for byte in b'hello']]])
def test_a_bound_in_time_over_all_parts(server: Server, parts: list[bytes]) -> None:
    """Each part comes soon, and the whole does not: a bound of each read alone lets it go on."""
    server.serve(sends(*parts, b'', b'', pause=0.3))
    began = time.monotonic()
    with pytest.raises(NoAnswer, match=r'timed out|no time is left'):
        Client(server.address, patience=0.7).get('/')
    assert 0.6 < time.monotonic() - began < 5


def test_nobody_listens(tmp_path: Path) -> None:
    with pytest.raises(NoAnswer, match='No such file'):
        Client(str(tmp_path / 'none')).get('/')
    with pytest.raises(NoAnswer, match='refused'):
        Client('127.0.0.1:1').get('/')


def test_a_connection_that_is_kept(server: Server) -> None:
    gone = threading.Event()

    def talk(one: socket.socket) -> None:
        one.sendall(WHOLE)
        gone.wait(20)
    server.serve(talk)
    with Client(server.address).keep_open('/replica/hold') as kept:
        assert kept.answer.body == b'hello' and kept.lasts()
        gone.set()
        until = time.monotonic() + 20
        while kept.lasts() and time.monotonic() < until:
            time.sleep(0.01)
        assert not kept.lasts()


def test_a_fault_of_the_caller_stays_its_own(server: Server) -> None:
    server.serve(sends(WHOLE))
    with pytest.raises(OSError, match='disk'), Client(server.address).keep_open('/'):
        raise OSError('disk')
