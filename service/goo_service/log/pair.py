"""The second process of a replica, as the first one sees it."""
import asyncio
import os
import socket
import traceback
from typing import Any
from typing import NoReturn
from typing import cast

from goo_service.log.journal import write
from goo_service.log.messages import Frames
from goo_service.log.messages import frame_of


class Pair(asyncio.Protocol):
    """A message that comes calls the method of its name: 'place' calls `on_place`.

    Where the second process ends, this one ends.
    """

    transport: asyncio.WriteTransport

    def __init__(self, pair: socket.socket, hearer: object) -> None:
        self.pair, self.hearer, self.frames = pair, hearer, Frames()

    async def begin(self) -> None:
        loop = asyncio.get_running_loop()
        await loop.create_unix_connection(lambda: self, sock=self.pair)

    def connection_made(self, transport: asyncio.BaseTransport) -> None:
        self.transport = cast(asyncio.WriteTransport, transport)

    def send(self, *message: Any) -> None:
        """At once, if nothing is under way before it.

        A transport may keep it until the end of the loop's turn.
        """
        text = frame_of(*message)
        if not self.transport.get_write_buffer_size():
            try:
                text = text[self.pair.send(text):]
            except BlockingIOError:
                pass
            except OSError as fault:
                self.connection_lost(fault)
        if text:
            self.transport.write(text)

    def data_received(self, part: bytes) -> None:
        for kind, *members in self.frames.add(part):
            getattr(self.hearer, f'on_{kind}')(*members)

    def connection_lost(self, fault: Exception | None) -> NoReturn:
        write('the process that applies has ended')
        os._exit(1)

    def fail(self, fault: Exception) -> NoReturn:
        """Ends the replica, as a fault in one of its tasks does."""
        traceback.print_exception(fault)
        os._exit(1)
