"""The words of `goo-replica`, the process that takes in requests and writes the log."""
import argparse
import os
from dataclasses import dataclass
from dataclasses import field
from pathlib import Path

from goo_service.log.closed import PATH

STATE = '/var/lib/goo-replica'


@dataclass
class EtcdOptions:
    """Where etcd is, and as what a host speaks with it."""

    etcd: str = field(default='', metadata={
        'help': "the members of etcd, this host's first, with commas between"})
    ca: str = field(default='', metadata={'help': 'for etcd: the file of the authority'})
    cert: str = field(default='', metadata={'help': 'for etcd: the file of the certificate'})
    cert_key: str = field(default='', metadata={'help': 'for etcd: the file of its key'})
    code: int = field(default=0, metadata={'help': "the registry's, in etcd's keys"})
    name: str = field(default_factory=lambda: os.uname().nodename, metadata={
        'help': "this replica's"})
    replicas: int = field(default=3, metadata={'help': 'how many take part in comparing digests'})


@dataclass
class Options(EtcdOptions):
    """What a replica is told. The text of each word stands beside it."""

    listen: str = field(default='127.0.0.1:8470', metadata={
        'help': "a path or HOST:PORT; a socket of systemd's goes before it"})
    registry: str = field(default='/run/goo/registry.sock', metadata={
        'help': 'a path or HOST:PORT'})
    state: str = field(default=STATE, metadata={'help': 'the folder of the place and the archive'})
    key: str = field(default='/etc/goo/replica.key', metadata={
        'help': 'the file with the key of the keyed hash'})
    version: str = field(default='@/run/goo/version', metadata={
        'help': "of the registry's program, or @FILE that has it"})
    store: str = field(default=f'{STATE}/log', metadata={
        'help': 'the folder of the log, on one host'})
    quota: int = field(default=8 << 30, metadata={'help': "etcd's --quota-backend-bytes"})
    aside: float = field(default=60.0, metadata={
        'help': 'seconds after which this replica votes to set an entry aside that the registry '
                'fails at; 0: never'})
    digest: int = field(default=10000, metadata={
        'help': "entries between two digests, over etcd; each takes a copy of the registry's file"})
    rows: str = field(default='/run/goo/rows.sock', metadata={
        'help': "who copies the registry's file and digests its rows, over etcd"})
    rehearsal: str = field(default='/run/goo/rehearsal.sock', metadata={
        'help': "who rehearses a bundle on a copy of the registry's file"})
    closed: str = field(default=PATH, metadata={
        'help': 'the file with the codes of registries whose notices are taken no more'})
    strict: bool = field(default=False, metadata={
        'help': 'a read that may be stale is answered 503'})
    reads_only: bool = field(default=False, metadata={
        'help': 'writes are answered 503; on one host the log is one that another host ships here'})

    def program_version(self) -> str:
        """The version of the program: a text, or what a file has.

        The registry's unit writes that file at each start.
        """
        if not self.version.startswith('@'):
            return self.version
        try:
            return Path(self.version[1:]).read_text().split('\n')[0].strip()
        except OSError:
            return ''


def parse_words(words: list[str] | None = None) -> Options:
    """The options that a command line states; without one, this process' own."""
    parser = argparse.ArgumentParser(prog='goo-replica', description=(
        'Puts each write into one log before the registry sees it, and applies the log to the '
        'registry beside it.'))
    for name, of in Options.__dataclass_fields__.items():
        default = getattr(Options(), name)
        option, told = f'--{name.replace("_", "-")}', of.metadata['help']
        if isinstance(default, bool):
            parser.add_argument(option, action='store_true', help=told)
        else:
            parser.add_argument(option, type=type(default), default=default, help=told)
    return Options(**vars(parser.parse_args(words)))
