"""Between the front door and the log of a house: a place where answers can be lost."""
import contextlib
import re
import socket
import threading
from collections import deque
from collections.abc import Iterable
from typing import Self

from house import House

LENGTH = re.compile(rb'(?i)content-length: *(\d+)')


class Relay:
    """`with Relay(house) as relay`: takes the place of the log's socket until it ends.

    `fates` are asked for one for each POST: 'passed', or 'unheard', where the registry answers and
    the answer is lost. Once they are used up all pass. `posts` counts what was passed on.
    """

    def __init__(self, house: House, fates: Iterable[str] = ()) -> None:
        self.near, self.far = house.folder / 'door.sock', house.folder / 'behind.sock'
        self.fates, self.posts = deque(fates), 0

    def __enter__(self) -> Self:
        self.near.rename(self.far)
        self.listener = socket.create_server(str(self.near), family=socket.AF_UNIX, backlog=128)
        self.near.chmod(0o666)
        threading.Thread(target=self.listen, daemon=True).start()
        return self

    def __exit__(self, *_: object) -> None:
        self.far.rename(self.near)              # in the place of the relay's, at one moment
        self.listener.shutdown(socket.SHUT_RDWR)
        self.listener.close()

    def listen(self) -> None:
        with contextlib.suppress(OSError):
            while True:
                near, _ = self.listener.accept()
                threading.Thread(target=self.carry, args=(near,), daemon=True).start()

    def carry(self, near: socket.socket) -> None:
        with contextlib.suppress(OSError), near, socket.socket(socket.AF_UNIX) as far:
            request = read_request(near)
            is_lost = request.startswith(b'POST') and self.fate() == 'unheard'
            far.connect(str(self.far))
            far.sendall(request)
            while part := far.recv(65536):
                if not is_lost:
                    near.sendall(part)

    def fate(self) -> str:
        self.posts += 1
        return self.fates.popleft() if self.fates else 'passed'


def read_request(near: socket.socket) -> bytes:
    """Head and body of a request that tells its length."""
    data = b''
    while b'\r\n\r\n' not in data and (part := near.recv(65536)):
        data += part
    head, _, body = data.partition(b'\r\n\r\n')
    length = LENGTH.search(head)
    missing = int(length[1]) - len(body) if length else 0
    while missing > 0 and (part := near.recv(65536)):
        data, missing = data + part, missing - len(part)
    return data
