"""How many bytes the entries of each holder, and of each user, have in the log on this day (UTC).

It is for bounds.of_day.

Each entry is counted once, as it is given to the process that applies it, whichever host took it.
The counts and the last entry in them are kept in a file, at most a second behind. At a start the
entries after that one are counted again, so a start costs the entries of a second, however long the
log of the day is. A file that is lost or cannot be read begins the day anew.
"""
import collections
import dataclasses
import datetime
import json
import pathlib
import re

from goo_service.common.files import write_whole

HEAD = 8192
"""Bytes of a line in which time, user and caller stand."""
TEXT = rb'"(?:[^"\\]|\\.)*"'
MEMBERS = re.compile(rb'"time":"([^"]*)","host":%b,"user":(%b),.*?"caller":(%b)'
                     % (TEXT, TEXT, TEXT))


def names_of(caller: str, user: str) -> tuple[str, str]:
    """Under which names an entry counts: its holder's, and its user's. A code has no blank."""
    return caller, f'{caller} {user}'


def now() -> datetime.datetime:
    return datetime.datetime.now(datetime.timezone.utc)


@dataclasses.dataclass
class Sent:
    """What each caller, and each of its users, has sent on a day."""

    path: pathlib.Path
    entry: int
    """All entries up to this one are counted."""
    day: str = ''
    logged: dict[str, int] = dataclasses.field(default_factory=dict)
    waiting: collections.Counter[str] = dataclasses.field(default_factory=collections.Counter)
    saved: bool = True

    def of(self, caller: str, user: str) -> tuple[int, int]:
        """What a caller and its user have sent today, with the requests that wait to be logged."""
        self.turn()
        by_caller, by_user = (self.logged.get(name, 0) + self.waiting[name]
                              for name in names_of(caller, user))
        return by_caller, by_user

    def turn(self) -> None:
        """Begins the day, where it is another one."""
        today = now().date().isoformat()
        if self.day != today:
            self.day, self.logged, self.saved = today, {}, False

    def count(self, n: int, line: bytes) -> None:
        """An entry that is in the log."""
        if n <= self.entry:
            return
        self.turn()
        self.entry, self.saved = n, False
        found = MEMBERS.search(line[:HEAD])
        if found and found[1][:10].decode() == self.day:
            for name in names_of(json.loads(found[3]), json.loads(found[2])):
                self.logged[name] = self.logged.get(name, 0) + len(line)

    def hold(self, caller: str, user: str, size: int) -> None:
        """A request waits, whose entry will have so many bytes."""
        self.waiting.update(dict.fromkeys(names_of(caller, user), size))

    def release(self, caller: str, user: str, size: int) -> None:
        """The request is in the log, or will never be."""
        for name in names_of(caller, user):
            self.waiting[name] -= size
            if not self.waiting[name]:
                del self.waiting[name]

    def save(self) -> None:
        """Each second, so not synced: after a power failure the file may be older, or empty."""
        if self.saved:
            return
        counts = {'day': self.day, 'entry': self.entry, 'bytes': self.logged}
        write_whole(self.path, json.dumps(counts) + '\n', is_synced=False)
        self.saved = True


def read(path: pathlib.Path, entry: int) -> Sent:
    """The counts of a file; without one, as if nothing had been sent up to `entry`."""
    try:
        counts = json.loads(path.read_text(encoding='utf-8'))
        logged = {str(caller): int(size) for caller, size in counts['bytes'].items()}
        return Sent(path, int(counts['entry']), str(counts['day']), logged)
    except (OSError, ValueError, KeyError, TypeError, AttributeError):
        return Sent(path, entry)
