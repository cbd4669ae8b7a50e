"""A house: nginx, the log of requests, the registry and the records of acts, standing together.

All of it is in one temporary folder and on free ports, is there within seconds, and ends with the
`with`. The configuration of nginx and the commands of the units are those of service/, with their
paths and ports changed. Several houses may stand side by side.

    with House() as house:
        country = house.make_country()
        answer = house.ask('anna', 'GET', f'/v1/accounts/{country.sun}/statement')

With `people=True` goo-people stands in front: house_people.py says how to sign in. Its parts are
'who', 'people' and 'gate'. Else nginx compares passwords of a file.

A part is one of 'nginx', 'log', 'registry', 'rehearsal' (which tries bundles for the log),
'records' (which makes the book), 'web' (which answers from the book) and 'verify' (which checks
documents by it). Nothing starts a part anew that has ended: a trial does, by `start`.
"""
import functools
import os
import re
import shlex
import shutil
import signal
import subprocess
import tempfile
from collections.abc import Callable
from collections.abc import Iterable
from pathlib import Path
from typing import Any
from typing import Self

import client
from calls import Calls
from calls import Unexpected
from door import Door
from parts import Guard
from parts import Part
from programs import find_registry
from service_commands import command
from service_commands import commands

CODE = 7
DAY = '2025-03-01'
MORE_USERS = ('audit ISSUER reads', 'meter ISSUER declares')
PARTS = ('registry', 'rehearsal', 'log', 'records', 'web', 'verify', 'nginx')
"""In the order in which they are started."""
BODY, BODY_ADDRESS = 'Umweltamt Beispielstadt', 'Wörlitzer Platz 1, 06844 Dessau'
"""The issuing body, as its documents name it."""
OF_PEOPLE = {'who': 'who', 'people': 'web', 'gate': 'gate'}
"""Those of a house with people, and how units and sockets are named: 'web' is of the records."""
RATE = 1000
"""Requests a second by the limits of the front door, unless a house has them as shipped."""


def run(folder: Path, *words: object, check: bool = True,
        **environment: str) -> subprocess.CompletedProcess[str]:
    """A command in a folder; where `check` is set, one that has to succeed."""
    done = subprocess.run([str(word) for word in words], capture_output=True, text=True,
                          env={**os.environ, **environment}, cwd=folder, check=False)
    if check and done.returncode:
        raise Unexpected(f'{words}: {done.stdout} {done.stderr}')
    return done


def log_words(folder: Path, goo: str, service: Path,
              *words: object) -> subprocess.CompletedProcess[str]:
    """goo-replica-log with the paths of a house in a folder."""
    return run(folder, *command('goo-replica-log', service), *words, '--state', folder / 'replica',
               '--key', folder / 'replica.key', '--door', folder / 'door.sock',
               '--copies', folder / 'copies', '--db', folder / 'registry/registry.db',
               '--goo', goo, '--name', 'house', check=False, TMPDIR=str(folder),
               GOO_EXCHANGE='/nowhere', GOO_CONFIGURATION='/nowhere')


@functools.cache
def begun(goo: str, service: Path, day: str, code: int) -> tempfile.TemporaryDirectory[str]:
    """An empty registry with its log and its first copy: each house begins with a copy of it."""
    made = tempfile.TemporaryDirectory(prefix='goo-begun-')
    folder = Path(made.name)
    for name in ('registry', 'replica', 'records', 'copies'):
        (folder / name).mkdir()
    (folder / 'replica.key').write_text('a key that the log of a house has')
    run(folder, goo, 'init', '--db', 'registry/registry.db', '--code', code, '--today', day)
    for word in ('found', 'first-copy', 'program'):
        done = log_words(folder, goo, service, word)
        if done.returncode:
            raise Unexpected(f'replica-log {word}: {done.stderr}')
    (folder / 'version').write_text(done.stdout)
    return made


class House(Calls):
    """One standing service; `settings` are those of its Door.

    With `rate=None` the limits of the front door are as shipped. `day` is the registry's date at
    the beginning. Of the parts some may be enough: `start` starts another one later.
    """

    always: tuple[str, ...] = ('registry', 'rehearsal', 'log')
    """Parts that each house has."""

    def __init__(self, *, day: str = DAY, code: int = CODE, parts: Iterable[str] = PARTS,
                 **settings: Any) -> None:
        self.day, self.code = day, code
        own: dict[str, Any] = {'rate': RATE, 'more': MORE_USERS, **settings}
        self.door = Door(**own)
        self.service, self.users = self.door.service, self.door.users
        self.wanted = (*(OF_PEOPLE if self.door.people else ()), *parts)
        self.goo = str(Path(find_registry()).resolve())

    # ---------------------------------------------------------------- standing

    def __enter__(self) -> Self:
        self.first = Path(begun(self.goo, self.service, self.day, self.code).name)
        self.folder = Path(tempfile.mkdtemp(prefix='goo-house-'))
        self.folder.chmod(0o755)
        self.guard = Guard([self.folder, self.first])
        self.parts: dict[str, Part] = {}
        try:
            self.lay()
            for name in self.always:
                self.parts[name].start()
            others = [self.parts[name] for name in self.wanted if name not in self.always]
            for part in others:
                part.launch()
            for part in others:
                part.wait()
        except BaseException:
            self.__exit__()
            raise
        return self

    def __exit__(self, *_: object) -> None:
        for part in self.parts.values():
            part.send(signal.SIGTERM)
        for part in self.parts.values():
            part.end(signal.SIGKILL)
        shutil.rmtree(self.folder, ignore_errors=True)
        self.guard.end()

    def lay(self) -> None:
        """An empty registry, its log, its first copy, and what starts each part."""
        shutil.copytree(self.first, self.folder, dirs_exist_ok=True)
        self.db = self.folder / 'registry' / 'registry.db'
        self.state = self.folder / 'replica'
        self.book = self.folder / 'records'
        self.copies = self.folder / 'copies'
        self.key = self.folder / 'replica.key'
        self.door.folder = self.folder
        if self.door.people:
            from house_people import People     # other houses do without its libraries
            self.people = People(self, self.folder / 'people-file' / 'people.db')
            (self.folder / 'people').mkdir()
            self.people.begin()
        self.registry_port = client.free_port()
        self.lay_parts()

    def lay_door(self) -> None:
        """The files of nginx, before its first start."""
        if not self.door.etc.exists():
            self.door.lay()
            self.lay_documents(self.door.etc)
        self.door.clear()

    def lay_documents(self, etc: Path) -> None:
        """What goo-setup makes for documents: the issuing body's name, and a key that seals."""
        own = f'name = {BODY}\naddress = {BODY_ADDRESS}\nsite = https://localhost:{self.port}\n'
        (etc / 'body.conf').write_text(f'[body]\n{own}', encoding='utf-8')
        key = etc / 'documents.key'
        run(etc, 'openssl', 'genpkey', '-algorithm', 'ed25519', '-out', key)
        run(etc, 'openssl', 'pkey', '-in', key, '-pubout', '-out', etc / 'documents.pub')

    def lay_parts(self) -> None:
        begun = ['--begun', str(self.code), self.day, '1',
                 '--archive', str(self.state / 'archive'), '--into', str(self.book)]
        door = self.folder / 'door.sock'
        listen = ['--listen', str(door), '--store', str(self.state / 'log'), '--name', 'house']
        self.add('registry', lambda: self.unit('goo.service'),
                 lambda _: client.is_open(self.registry_port))
        self.add_rehearsal()
        self.add('log', lambda: [*self.unit('goo-replica.service'), *listen], self.log_takes)
        self.add('records', lambda: [*self.unit('goo-records.service'), *begun], self.is_made)
        self.add_web('web')
        self.add_web('verify')
        for name in self.wanted:
            if name in OF_PEOPLE:
                self.add_of_people(name)
        self.add('nginx', self.door.words, lambda _: client.is_open(self.port))
        self.parts['nginx'].before = self.lay_door

    def add_rehearsal(self) -> None:
        """The socket of the unit, which starts a rehearsal for each connection."""
        path = self.folder / 'rehearsal.sock'
        begin = ['systemd-socket-activate', '--accept', '--inetd', '--listen', str(path)]
        self.add('rehearsal',
                 lambda: [*begin, *self.unit('goo-rehearsal@.service'), '--into', str(self.folder)],
                 lambda _: path.exists())
        self.parts['rehearsal'].before = lambda: path.unlink(missing_ok=True)

    def add_web(self, name: str) -> None:
        """A part that answers from the book, at a socket of its own."""
        unit, path = f'goo-records-{name}.service', self.folder / f'{name}.sock'
        self.add(name, lambda: [*self.unit(unit), '--bind', f'unix:{path}'],
                 lambda _: client.is_open(path),
                 PYTHONPATH=str(self.service), GOO_RECORDS=str(self.book),
                 GOO_EXCHANGE=str(self.book / 'exchange.json'),
                 GOO_ETC=str(self.folder / 'etc'))

    def add_of_people(self, name: str) -> None:
        """A part of goo-people at its socket."""
        own = OF_PEOPLE[name]
        path = self.folder / 'people' / f'{own}.sock'
        listen = ['--bind', f'unix:{path}'] if name == 'people' else ['--listen', str(path)]
        self.add(name, lambda: [*self.unit(f'goo-people-{own}.service'), *listen],
                 lambda _: client.is_open(path),
                 PYTHONPATH=str(self.service),
                 GOO_PEOPLE=str(self.folder / 'people-file' / 'people.db'),
                 GOO_PEOPLE_GATE=str(self.folder / 'people' / 'gate.sock'),
                 GOO_RECORDS_SOCKET=str(self.folder / 'web.sock'))
        self.parts[name].before = lambda: path.unlink(missing_ok=True)

    def add(self, name: str, words: Callable[[], list[str]], is_there: Callable[[float], Any],
            **environment: str) -> None:
        self.parts[name] = Part(name, words, is_there, self.folder, self.guard, environment)

    def unit(self, name: str) -> list[str]:
        """The command of a unit, with its paths changed for those of this house."""
        text = (self.service / 'etc/systemd' / name).read_text()
        line = re.search(r'(?m)^ExecStart=(.*)$', text)
        assert line, f'{name} has no ExecStart'
        words = [word for word in shlex.split(line[1]) if not word.startswith('$')]
        for old, new in self.places():
            words = [word.replace(old, new) for word in words]
        return words

    def places(self) -> list[tuple[str, str]]:
        """Each path of the units, and what stands for it here; the longest first."""
        named = {
            '/usr/lib/goo': self.service / 'libexec',
            '/usr/bin/goo-': f'{commands(self.service)}/goo-',
            '/usr/bin/goo': self.goo, '8470': self.registry_port,
            '/var/lib/goo/registry.db': self.db, '/var/lib/goo-replica': self.state,
            '/var/lib/goo-records': self.book, '/etc/goo/replica.key': self.key,
            '/etc/goo': self.door.etc, '/run/goo/registry.sock': f'127.0.0.1:{self.registry_port}',
            '/run/goo-records': self.folder, '/run/goo': self.folder,
            '/run/goo-people': self.folder / 'people',
            '/var/lib/goo-people': self.folder / 'people-file'}
        longest_first = sorted(named, key=len, reverse=True)
        return [(old, str(named[old])) for old in longest_first]

    def log_takes(self, _: float) -> bool:
        try:
            return bool(self.health().get('ok'))
        except (OSError, ValueError):
            return False

    def is_made(self, begun: float) -> bool:
        """Whether a book has caught up since a time: it was published then, or goes on."""
        said = self.parts['records'].said
        lines = said.read_text().splitlines() if said.exists() else []
        if not lines or said.stat().st_mtime < begun - 0.01:
            return False
        return ': the book is made, ' in lines[-1] or ': the book goes on ' in lines[-1]

    # ---------------------------------------------------------------- parts

    def start(self, part: str) -> None:
        """Starts a part that was ended, and waits until it takes requests."""
        self.parts[part].start()
        if part == 'registry' and self.parts['log'].process:
            client.comes(lambda: self.log_takes(0), 10)     # the log looks for it now and then

    def stop(self, part: str) -> None:
        """Ends a part as systemd does it."""
        self.parts[part].end()

    def kill(self, part: str) -> None:
        """Kills all processes of a part."""
        self.parts[part].end(signal.SIGKILL)

    def restart(self, part: str) -> None:
        self.stop(part)
        self.start(part)

    def said(self, part: str) -> str:
        """What a part has written to its two streams."""
        return self.parts[part].said.read_text(errors='replace')

    # ---------------------------------------------------------------- the operator

    def run(self, *words: object, check: bool = True,
            **environment: str) -> subprocess.CompletedProcess[str]:
        """A command; where `check` is set, one that has to succeed."""
        return run(self.folder, *words, check=check, **environment)

    def log_words(self, *words: object) -> subprocess.CompletedProcess[str]:
        """goo-replica-log with the paths of this house."""
        return log_words(self.folder, self.goo, self.service, *words)
