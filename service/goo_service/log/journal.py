"""What a replica writes to the journal of the host, and the requests that were set aside."""
import sys
from pathlib import Path

from goo_service.log import entries
from goo_service.log.entries import Entry


def write(words: str) -> None:
    """A line of the journal."""
    print(words, file=sys.stderr, flush=True)


class Journal:
    """Warnings, each once, and requests that the registry could not decide."""

    def __init__(self, path: Path) -> None:
        """`path`: the file of the requests."""
        self.path = path
        self.warned: set[str] = set()
        lines = path.read_text().splitlines() if path.exists() else []
        self.aside = {line.split()[0] for line in lines}

    def warn(self, words: str) -> None:
        if words not in self.warned:
            self.warned.add(words)
            write(f'WARNING: {words}')

    def is_aside(self, caller: str, route: str, body: bytes) -> bool:
        """Whether a request was set aside. It would stop all writes again."""
        return bool(self.aside) and entries.fingerprint(caller, route, body) in self.aside

    def set_aside(self, entry: Entry) -> None:
        """The same request is not taken again.

        On a full disk it is set aside all the same; after the next start it would be taken again.
        """
        mark = entries.fingerprint(entry.caller, entry.route, entry.body)
        self.aside.add(mark)
        try:
            with open(self.path, 'a') as file:
                print(mark, entry.n, file=file)
        except OSError as fault:
            self.warn(f'{self.path}: {fault.strerror}: entry {entry.n} is not kept there')
        write(f'ALARM: entry {entry.n} of {entry.caller} was set aside: '
              'the registry did not decide it')
