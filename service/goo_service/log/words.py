"""The words of `goo-replica-log`, and what its commands share."""
import hashlib
import secrets
import shutil
import subprocess
from dataclasses import dataclass
from dataclasses import field
from pathlib import Path

from goo_service.common import owner
from goo_service.common.client import Answer
from goo_service.common.client import Client
from goo_service.common.client import NoAnswer
from goo_service.log import entries
from goo_service.log import position
from goo_service.log.entries import Broken
from goo_service.log.entries import Entry
from goo_service.log.options import STATE
from goo_service.log.options import EtcdOptions


@dataclass
class Words(EtcdOptions):
    """The words of a command, as the help of each option describes them."""

    command: str = ''
    text: str = ''
    state: Path = Path(STATE)
    key: str = '/etc/goo/replica.key'
    door: str = '/run/goo/door.sock'
    copies: Path = Path('/var/backups/goo')
    keep: int = 60
    db: Path = Path('/var/lib/goo/registry.db')
    goo: str = 'goo'
    version: str = ''
    recount: str = ''
    begin: list[str] = field(default_factory=list)
    room: int = 512
    once: bool = False
    secret: bytes = b''
    """The key of the keyed hash, once it is read."""

    def number(self) -> int:
        """The entry that is named."""
        return int(self.text)

    def program(self) -> str:
        """The version that an option names, else that of the program."""
        return self.version or version_of(self.goo)


def replica_answer(words: Words, target: str, patience: float = 600) -> Answer:
    """What the replica says of itself."""
    try:
        return Client(words.door, patience).get(target)
    except NoAnswer as fault:
        raise Broken(f'no replica answers there: {fault}') from fault


def held_place(words: Words) -> position.Place:
    """The place; refused while a replica runs."""
    return position.Place(words.state / 'place')


def become_owner(words: Words) -> None:
    """From here on root is the user who owns the state: that user may have put links into it."""
    owner.become_owner_of(words.state)


def version_line(words: Words, version: str, n: int, hashed: str) -> bytes:
    """The line of an entry behind entry n that moves the version."""
    entry = Entry(n + 1, hashed, entries.now(), words.name, '', '', 'full', 'ISSUER', 'VERSION', '',
                  version, secrets.token_hex(8), version.encode())
    return entries.entry_line(entry, words.secret)


def version_of(goo: str) -> str:
    done = subprocess.run([goo, '--version'], capture_output=True, text=True, check=False)
    if done.returncode == 0 and done.stdout.strip():
        return done.stdout.splitlines()[0].strip()
    with open(shutil.which(goo) or goo, 'rb') as file:
        return f'sha256 {hashlib.file_digest(file, "sha256").hexdigest()}'
