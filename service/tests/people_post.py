"""A mailer that keeps what it is given (aiosmtpd), and `goo-people-post` over a file of people."""
import email.message
import email.parser
import email.policy
import os
import signal
import sqlite3
import ssl
import subprocess
import threading
import time
from collections.abc import Callable
from collections.abc import Iterator
from dataclasses import dataclass
from dataclasses import field
from pathlib import Path
from typing import Any
from typing import Self

from aiosmtpd.controller import Controller
from werkzeug.serving import make_server

import client
from goo_service.people import store
from door import SERVICE
from service_commands import command

PATIENCE = 60.0
OK = '250 taken'


def comes(what: Callable[[], Any], patience: float = PATIENCE) -> Any:
    """Waits until something is so."""
    until = time.monotonic() + patience
    while not (found := what()):
        assert time.monotonic() < until, 'it does not come'
        time.sleep(0.05)
    return found


@dataclass
class Mailer:
    """Takes mails, or refuses them by their address, each with its answer."""

    port: int = 0
    refuses: dict[str, str] = field(default_factory=dict)
    """By the address: what is said to RCPT."""
    data: dict[str, str] = field(default_factory=dict)
    """By the address: what is said once the mail is there."""
    came: list[email.message.EmailMessage] = field(default_factory=list)
    at_data: Callable[[], None] = lambda: None
    """What is done once a mail is kept, before it is answered."""
    tls: ssl.SSLContext | None = None
    controller: Any = None

    async def handle_RCPT(self, _: Any, __: Any, envelope: Any, address: str, ___: Any) -> str:
        if said := self.refuses.get(address):
            return said
        envelope.rcpt_tos.append(address)
        return '250 OK'

    async def handle_DATA(self, _: Any, __: Any, envelope: Any) -> str:
        to = str(envelope.rcpt_tos[0])
        if said := self.data.get(to):
            return said
        read = email.parser.BytesParser(policy=email.policy.SMTP).parsebytes(envelope.content)
        assert isinstance(read, email.message.EmailMessage)
        self.came.append(read)
        self.at_data()
        return OK

    def start(self) -> Self:
        self.port = self.port or client.free_port()
        self.controller = Controller(self, '127.0.0.1', self.port, tls_context=self.tls,
                                     require_starttls=self.tls is not None)
        self.controller.start()
        return self

    def stop(self) -> None:
        if self.controller:
            self.controller.stop()
            self.controller = None

    @property
    def subjects(self) -> list[str]:
        return [str(mail['Subject']) for mail in self.came]

    @property
    def ids(self) -> list[str]:
        return [str(mail['Message-ID']) for mail in self.came]

    def to(self, name: str) -> list[email.message.EmailMessage]:
        return [mail for mail in self.came if mail['To'] == f'{name}@example.org']


class Post:
    """`goo-people-post` as a process, over a file in a folder."""

    def __init__(self, folder: Path, mailer: Mailer, settings: str = '') -> None:
        self.folder, self.state, self.config = folder, folder / 'state', folder / 'etc'
        self.said = folder / 'said'
        self.process: subprocess.Popen[bytes] | None = None
        self.config.mkdir()
        (self.config / 'body.conf').write_text(
            '[body]\nname = Umweltamt Beispielstadt\nsite = https://registry.example\n')
        self.lay(f'[mail]\nhost = 127.0.0.1\nport = {mailer.port}\nfrom = goo@registry.example\n'
                 f'[records]\nsocket = {folder}/records.sock\n{settings}')
        store.make_file(self.state / 'people.db')

    def lay(self, settings: str) -> None:
        (self.config / 'people-post.conf').write_text(settings)

    @property
    def file(self) -> Path:
        return self.state / 'people.db'

    def db(self) -> sqlite3.Connection:
        return store.open_file(self.file)

    def words(self) -> list[str]:
        return [*command('goo-people-post', SERVICE), '--file', str(self.file),
                '--config', str(self.config / 'people-post.conf')]

    def start(self) -> None:
        """Once it says that it runs. A mailer may have killed it since."""
        starts = self.starts
        with open(self.said, 'ab') as file:
            self.process = subprocess.Popen(self.words(), stdout=file, stderr=file,
                                            cwd=self.folder)
        comes(lambda: self.starts > starts or self.is_ended())
        assert self.starts > starts, self.text

    def is_ended(self) -> bool:
        return self.process is None or self.process.poll() is not None

    @property
    def starts(self) -> int:
        return self.text.count('sends what waits')

    @property
    def text(self) -> str:
        return self.said.read_text() if self.said.exists() else ''

    def kill(self) -> None:
        self.end(signal.SIGKILL)

    def end(self, number: int = signal.SIGTERM) -> None:
        if self.process:
            self.process.send_signal(number)
            self.process.wait(PATIENCE)
            self.process = None

    def count(self, condition: str, table: str = 'mail') -> int:
        """How many rows are so."""
        db = self.db()
        try:
            found, = db.execute(f'SELECT count(*) FROM {table} WHERE {condition}').fetchone()
            return int(found)
        finally:
            db.close()

    def hurry(self) -> None:
        """What waits for its next try has it now."""
        db = self.db()
        with store.changing(db):
            db.execute('UPDATE mail SET next = 0')
            db.execute('UPDATE delivery SET next = 0')
            db.execute('UPDATE hook SET paused = 0')
        db.close()


def serve_records(application: Any, path: Path) -> Iterator[None]:
    """The records at a socket."""
    server = make_server(f'unix://{path}', 0, application, threaded=True)
    thread = threading.Thread(target=server.serve_forever, daemon=True)
    thread.start()
    yield
    server.shutdown()
    server.server_close()
    os.unlink(path)
