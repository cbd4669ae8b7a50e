"""Applies a bundle line by line, and keeps the refusals of its lines until the bundle is in place.

A crash in the middle of a bundle has it applied again from its first line. What was accepted is
`repeated` then. But what was refused might be accepted now, since lines after it have changed the
records. So a refusal is on the disk before the next line is sent, and is not asked for again. The
file has the mark of the bundle's entry in its first line, and then a line for each refusal.

A bundle that is asked for whole is rehearsed before its first line is sent (copies/rehearse.py).
"""
import asyncio
import base64
import json
import os
import socket
from collections.abc import Callable
from pathlib import Path

from goo_service.common.client import address_of
from goo_service.common.files import sync_folder
from goo_service.log import bundles
from goo_service.log.archive import CREATED
from goo_service.log.archive import write_all
from goo_service.log.entries import Entry
from goo_service.log.entries import compact
from goo_service.log.registry import APPLY
from goo_service.log.registry import PART
from goo_service.log.registry import Answer

ANSWERS = 60
"""Seconds for the answer whether there is room."""
MOST_ANSWER = 64 << 10
"""Bytes of what a rehearsal says."""
Send = Callable[[bytes, bool], Answer | None]
"""Sends a line's request; whether another one follows. None where it is set aside."""


class Refusals:
    """The answers of the bundle under way that must not be asked for again."""

    def __init__(self, path: Path) -> None:
        self.path = path
        self.file: int | None = None

    def begin(self, mark: str) -> dict[int, bytes]:
        """The refusals of this bundle that are kept, by their lines."""
        head = f'{mark}\n'.encode()
        kept = self.path.read_bytes() if self.path.exists() else b''
        is_same = kept.startswith(head)
        found = read_refusals(kept[len(head):]) if is_same else {}
        self.close()
        self.file = os.open(self.path, CREATED, 0o640)
        if is_same:         # what a crash left unfinished goes, and all else stays as it was synced
            whole = [refusal_line(number, body) for number, body in found.items()]
            os.ftruncate(self.file, len(head) + sum(map(len, whole)))
        else:               # the bundle before is in place, and its refusals are in the archive
            os.ftruncate(self.file, 0)
            write_all(self.file, head)
            sync_folder(self.path.parent)
        return found

    def keep(self, number: int, body: bytes) -> None:
        """A refusal is on the disk once this is done."""
        assert self.file is not None
        write_all(self.file, refusal_line(number, body))
        os.fdatasync(self.file)

    def close(self) -> None:
        if self.file is not None:
            os.close(self.file)
        self.file = None


def mark_of(entry: Entry) -> str:
    """By what the file knows a bundle: no other entry of any log has the same."""
    return f'{entry.n} {entry.prev} {entry.id}'


def refusal_line(number: int, body: bytes) -> bytes:
    return b'%d %b\n' % (number, base64.b64encode(body))


def read_refusals(text: bytes) -> dict[int, bytes]:
    """The refusals of the file's lines, up to the first that a crash left unfinished."""
    found: dict[int, bytes] = {}
    for line in text.split(b'\n')[:-1]:
        number, _, body = line.partition(b' ')
        try:
            found[int(number)] = base64.b64decode(body, validate=True)
        except ValueError:
            break
    return found


def apply_lines(entry: Entry, kept: dict[int, bytes], keep: Callable[[int, bytes], None],
                send: Send) -> Answer:
    """The answer to a bundle, once each line has its own."""
    lines = bundles.read(entry.body)
    answers: list[bytes] = []
    for line in lines:
        if line.number in kept:
            answers.append(kept[line.number])
            continue
        answer = send(line.body, line.number < len(lines))
        if answer is None:
            answers += [bundles.SET_ASIDE] * (len(lines) - len(answers))
            break
        answers.append(bundles.line_answer(answer.body))
        if answer.status != 200:
            keep(line.number, answers[-1])
    return Answer(200, bundles.KIND, b''.join(answers))


# ------------------------------------------------------------------ the rehearsal

def rehearse(address: str, entry: Entry, wait: Callable[[socket.socket], None]) -> Answer | None:
    """Why a bundle is refused whole; None where each of its lines would be accepted.

    ValueError, OSError or EOFError where the rehearsal did not come to its end.
    """
    lines = bundles.lines_of(entry.body)
    head = compact({'caller': entry.caller, 'lines': len(lines)})
    said = json.loads(fetch_rehearsal(address, head + b'\n' + b'\n'.join(lines) + b'\n', wait))
    if said == {'rehearsed': len(lines)}:
        return None
    if not isinstance(said, dict) or said.get('outcome') not in ('refused', 'unreadable'):
        raise ValueError(f'the rehearsal says {said}')
    return Answer(bundles.status_of(said), 'application/json', compact(said) + b'\n')


def fetch_rehearsal(address: str, question: bytes, wait: Callable[[socket.socket], None]) -> bytes:
    """What a rehearsal says, up to its end."""
    family, where = address_of(address)
    with socket.socket(family, socket.SOCK_STREAM) as s:
        s.settimeout(APPLY)
        s.connect(where)
        s.sendall(question)
        s.shutdown(socket.SHUT_WR)
        said = b''
        while True:
            wait(s)
            part = s.recv(PART)
            said += part
            if not part:
                return said
            if len(said) > MOST_ANSWER:
                raise ValueError('the rehearsal says too much')


async def no_room(address: str, caller: str) -> str:
    """Why no bundle can be rehearsed now; no text where one can."""
    question = compact({'caller': caller, 'lines': 0}) + b'\n'
    try:
        async with asyncio.timeout(ANSWERS):
            said = json.loads(await ask_meanwhile(address, question))
        return '' if said == {'rehearsed': 0} else f'no bundle can be tried now: {said["error"]}'
    except (OSError, EOFError, ValueError, TypeError, KeyError) as fault:
        why = f'{type(fault).__name__} {fault}'.strip()
        return f'no bundle can be tried now: {why}'


async def ask_meanwhile(address: str, question: bytes) -> bytes:
    """The same as `asked`, while others are served."""
    reader, writer = await asyncio.open_unix_connection(address)
    try:
        writer.write(question)
        writer.write_eof()
        return await reader.read(MOST_ANSWER)
    finally:
        writer.close()
