"""HTTP for the tools: connections on this machine, the bytes of requests and responses, and answers that are read."""
import base64
import http.client
import io
import secrets
import select
import socket
import time
from collections import namedtuple
from contextlib import closing, suppress

PHRASES = {200: 'OK', 400: 'Bad Request', 403: 'Forbidden', 404: 'Not Found', 405: 'Method Not Allowed', 409: 'Conflict', 413: 'Content Too Large',
           501: 'Not Implemented', 503: 'Service Unavailable'}
PATIENCE = 120
"""Seconds that a server may take for anything, on a machine that does much else."""
TRIES = 5
"""Ports that a server is begun at, where each was taken by somebody else."""
CLOSE = 'Connection: close'
"""For a server that would keep the connection: an answer is read to its end."""
Answer = namedtuple('Answer', 'status fields body')


# Servers and connections

def free_port():
    """A port of 127.0.0.1 that nothing listens on; none of those that a connection takes by itself, so that it stays free."""
    while True:
        with closing(socket.socket()) as listener, suppress(OSError):
            listener.bind(('127.0.0.1', 10_000 + secrets.randbelow(22_000)))
            return listener.getsockname()[1]


def listening(start, patience=PATIENCE):
    """A server that `start(port)` begins on a free port, another one where somebody took it meanwhile: its port, its process and the first line that it prints, if any."""
    for _ in range(TRIES):
        port = free_port()
        process = start(port)
        ready, _, _ = select.select([process.stdout], [], [], patience)
        line = process.stdout.readline() if ready else b''
        if line or process.wait(patience) != 3:
            break
    return port, process, line


def connected(at, patience=PATIENCE, tls=None, name='localhost', room=None, source=''):
    """A connection to a port of 127.0.0.1, from an address where one is given, or to the Unix socket at a path; through TLS, to this name, where a context is given.

    `room` bytes are received ahead at most.
    """
    stream = socket.socket(socket.AF_INET if isinstance(at, int) else socket.AF_UNIX)
    try:
        stream.settimeout(patience)
        if room:
            stream.setsockopt(socket.SOL_SOCKET, socket.SO_RCVBUF, room)
        if source:
            stream.bind((source, 0))
        stream.connect(('127.0.0.1', at) if isinstance(at, int) else str(at))
        return tls.wrap_socket(stream, server_hostname=name) if tls else stream
    except BaseException:
        stream.close()
        raise


def comes(test, seconds=PATIENCE, pause=0.05):
    """Waits until a test holds, for as long as a busy machine may take; whether it came to hold."""
    until = time.monotonic() + seconds
    while not test():
        if time.monotonic() > until:
            return False
        time.sleep(pause)
    return True


def is_open(at):
    """Whether somebody listens there."""
    try:
        connected(at).close()
    except OSError:
        return False
    return True


# Bytes

def ask(at, sent, ends=False, patience=PATIENCE, whole=None, **more):
    """Sends the bytes of a request and reads the answer to its end; `ends` where the stream ends after them. All of it takes `whole` seconds at most."""
    until = whole and time.monotonic() + whole
    with closing(connected(at, patience, **more)) as stream:
        if sent:
            stream.sendall(sent)
        if ends:
            stream.shutdown(socket.SHUT_WR)
        return read_all(stream, until)


def read_all(stream, until=None):
    """What a stream gives until it ends; the registry may close it before it has read what comes behind a decided request."""
    came, fault = read_most(stream, until)
    if fault and not (came and isinstance(fault, ConnectionResetError)):
        raise fault
    return came


def read_most(stream, until=None):
    """What a stream gives until it ends or breaks, and what broke it, if anything."""
    parts = []
    try:
        while True:
            if until:
                stream.settimeout(max(0.01, until - time.monotonic()))
            part = stream.recv(65536)
            if not part:
                return b''.join(parts), None
            parts.append(part)
    except OSError as fault:
        return b''.join(parts), fault


def basic(user, password):
    """What a field `Authorization: Basic` says."""
    return base64.b64encode(f'{user}:{password}'.encode()).decode()


def request(method='GET', target='/v1/audit', caller='ISSUER', more=(), host='x', body=b'', version='1.1'):
    """The bytes of a request. `caller` and `host` None leave the field out; a body brings its Content-Length."""
    fields = [] if host is None else [f'Host: {host}']
    fields += [] if caller is None else [f'GOO-Caller: {caller}']
    fields += [f'Content-Length: {len(body)}'] if body else []
    return '\r\n'.join([f'{method} {target} HTTP/{version}', *fields, *more, '', '']).encode() + body


def post(body, caller='ISSUER', target='/v1/requests', **others):
    """A request that has a body."""
    return request('POST', target, caller, body=body if isinstance(body, bytes) else body.encode(), **others)


def post_of(line):
    """A line, a caller and a body, as a request."""
    caller, _, body = line.partition(b' ')
    return post(body, caller.decode())


def response(status, body=None, is_json=False, allow=None, is_head=False):
    """The bytes of a response; the body is the phrase where none is given, and left off for HEAD."""
    text = f'{PHRASES[status]}\n' if body is None else body
    text = text if isinstance(text, bytes) else text.encode()
    kind = 'application/json' if is_json else 'text/plain; charset=utf-8'
    lines = [f'HTTP/1.1 {status} {PHRASES[status]}', f'Content-Type: {kind}', *([f'Allow: {allow}'] if allow else []),
             f'Content-Length: {len(text)}', 'Connection: close', '', '']
    return '\r\n'.join(lines).encode() + (b'' if is_head else text)


# Answers that are read

class Came(io.BytesIO):
    """Bytes that came, as http.client wants them of a socket. It closes them where the answer ends; what stands behind it is read all the same."""

    def makefile(self, _):
        return self

    def close(self):
        pass


def answered(at, sent, **more):
    """The answer to a request: status, fields and body. One that was cut off, or more than one, is an OSError."""
    return read_answer(ask(at, sent, **more), sent.partition(b' ')[0].decode())


def read_answer(came, method='GET'):
    """The bytes of an answer to such a request as status, fields and body. One that was cut off, or more than one, is an OSError."""
    stream = Came(came)
    answer = http.client.HTTPResponse(stream, method=method)
    try:
        answer.begin()
        body = answer.read()
    except http.client.HTTPException as fault:
        raise OSError(f'cut off, or no answer: {fault!r}') from fault
    if rest := stream.read():
        raise OSError(f'{len(rest)} bytes came behind an answer: {rest[:100]!r}')
    return Answer(answer.status, answer.headers, body)
