"""Digests of all rows after an entry, which the replicas of three hosts compare."""
import asyncio
import hashlib
import re
from collections.abc import Callable

from goo_service.log.hold import HOLD
from goo_service.log.journal import write

MOST = 5
"""Digests that are kept."""


class Digests:
    """By the numbers of their entries."""

    def __init__(self, rows: str, go: Callable[[], None]) -> None:
        """`rows`: the socket of the process that may read the registry's file.

        `go` has entries applied again.
        """
        self.rows, self.go = rows, go
        self.made: dict[int, str] = {}
        self.undigested = ''
        """Why there is no digest of the last entry that was to have one."""

    async def make(self, n: int, chain: str) -> None:
        """Has all rows as they are after entry n digested.

        Entries wait while the file is copied, and no longer.
        """
        writer: asyncio.StreamWriter | None = None
        try:
            try:
                async with asyncio.timeout(HOLD):
                    reader, writer = await asyncio.open_unix_connection(self.rows)
                    if await reader.readline() != b'copied\n':
                        raise EOFError('the file could not be copied')
            finally:
                self.go()
            rows = (await reader.readline()).decode()
            if not re.fullmatch('[0-9a-f]{64}\n', rows):
                raise EOFError('its rows could not be read')
            self.made[n] = hashlib.sha256(chain.encode() + rows.encode()).hexdigest()
            self.undigested = ''
            for old in sorted(self.made)[:-MOST]:
                del self.made[old]
        except (OSError, EOFError, TimeoutError, ValueError) as fault:
            why = f'{type(fault).__name__} {fault}'.strip()
            self.undigested = f'no digest at entry {n}: {self.rows}: {why}'
            write(f'WARNING: {self.undigested}')
        finally:
            if writer:
                writer.close()
