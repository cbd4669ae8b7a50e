"""Exchanges notices with the other registries: publishes our own, collects theirs. Run by
goo-exchange.timer.

Publish: the registry numbers its notices 1, 2, 3 and so on. Each one not yet published is read from
our registry and put, signed, into the outbox of its addressee, FOLDER/outbox/CC/P, where P counts
the notices for registry CC from 1. Beside them stands our state for that registry: our generation,
how many notices there are, and what became of its own. The front door lets a registry that has
signed in read its own outbox and nothing else.

Collect: from each peer's front door its state is read, and each notice for us that we have not had,
and imported into our registry, as the issuing body. What is not signed by the peer's key is not
believed. The key of an import is made of sender and number, and one notice is imported once
whatever its key, so a delivery that is lost, repeated or late does no harm:

  accepted, repeated   the delivery has ended
  held                 certificates that this peer may not have, or more than a device can have
                       made: told, and imported when the operator releases it
  refused              told by name, and kept in FOLDER/refused for the operator; UnknownAccount,
                       AccountClosed and UnknownPeer are tried again in each run
  anything else        told, and tried again in the next run

Peers do not wait for each other. Nothing is imported from a peer that went back to a copy, or shows
less or something else than before, until the operator releases it. Nothing is deleted from an
outbox, and what is in FOLDER, but for generation.json, can be made again.

Exit status 0: done, and nothing is left. 1: something is left that the operator should see. 2:
wrong command line or configuration.
"""
import argparse
import configparser
import fcntl
import io
import os
import re
import sys
from dataclasses import dataclass
from pathlib import Path

from goo_service.exchange.accounts import Directory
from goo_service.exchange.common import Again
from goo_service.exchange.common import log
from goo_service.exchange.common import read_text
from goo_service.exchange.ours import Ours
from goo_service.exchange.outbox import Outbox
from goo_service.exchange.peer import Peer
from goo_service.exchange.registry import Registry
from goo_service.exchange.run import run
from goo_service.exchange.signature import Key

PEER = re.compile('peer [1-9][0-9]?')


@dataclass(frozen=True)
class Configuration:
    """Our registry, our key and the peers."""

    registry: Registry
    key: Key
    peers: list[Peer]
    directory: Directory | None


def read_configuration(path: Path) -> Configuration:
    """What a file configures."""
    config = configparser.ConfigParser(interpolation=None)
    with open(path, encoding='utf-8') as file:
        config.read_file(file)
    peers = [Peer(int(name.split()[1]), config[name])
             for name in config.sections() if PEER.fullmatch(name)]
    key = Path(config['registry'].get('key', '/etc/goo/exchange.key'))
    own = config['registry']
    return Configuration(Registry(own), Key(key), peers, Directory.of(own))


def words() -> argparse.ArgumentParser:
    """The words of the command line."""
    words = argparse.ArgumentParser(prog='goo-exchange', description=__doc__,
                                    formatter_class=argparse.RawDescriptionHelpFormatter)
    words.add_argument('--config', type=Path, default='/etc/goo/exchange.conf', metavar='FILE')
    words.add_argument('--folder', type=Path, default='/var/lib/goo-exchange', metavar='FOLDER')
    one = words.add_mutually_exclusive_group()
    one.add_argument('--state', action='store_true', help='print what became of each notice, as '
                     'the last run found it (JSON)')
    one.add_argument('--again', action='store_true', help='deliver what was refused once more')
    for name, numbers, text in PAIRS:
        one.add_argument(name, nargs=2, type=int, metavar=numbers, help=text)
    one.add_argument('--new', action='store_true', help='our registry never exchanged anything '
                     'before this folder was made')
    one.add_argument('--generation', type=int, metavar='N', help='our registry went back to a '
                     'copy, and is of generation N now')
    one.add_argument('--without', type=int, metavar='CC', help='after going back to a copy: do not '
                     'wait for the word of registry CC')
    return words


PAIRS = (
    ('--release', ('CC', 'P'), 'import the notice that is held at position P of registry CC'),
    ('--settle', ('CC', 'P'), 'the notice at position P of registry CC is seen to: it waits no '
     'more, and is not imported'),
    ('--accept-generation', ('CC', 'N'), 'registry CC is of generation N now, and in order as it '
     'is'))
"""Orders that name a registry and a number."""


def waits(given: argparse.Namespace) -> bool:
    """Whether the operator ordered something: then this run waits for the one before."""
    return any((given.release, given.settle, given.accept_generation, given.again, given.new,
                given.generation, given.without))


def print_state(folder: Path) -> int:
    """Prints what the last run wrote; the exit status."""
    text = read_text(folder / 'state.json')
    log(text.rstrip() if text else f'{folder}: no run has ended yet')
    return 0 if text else 1


def run_alone(given: argparse.Namespace, configured: Configuration) -> int:
    """A run, unless another one is under way."""
    with open(given.folder / 'lock', 'w', encoding='ascii') as lock:
        try:
            fcntl.flock(lock, fcntl.LOCK_EX | (0 if waits(given) else fcntl.LOCK_NB))
        except BlockingIOError:
            log('another exchange is running')
            return 0
        registry, key = configured.registry, configured.key
        outbox = Outbox(given.folder / 'outbox', registry.code, key)
        ours = Ours(given.folder, registry, key, outbox, directory=configured.directory)
        return run(ours, configured.peers, given)


def main() -> int:
    given = words().parse_args()
    if isinstance(sys.stdout, io.TextIOWrapper):
        sys.stdout.reconfigure(line_buffering=True)
    os.umask(0o027)
    try:
        configured = None if given.state else read_configuration(given.config)
    except (OSError, ValueError, KeyError, configparser.Error, Again) as fault:
        print(f'{given.config}: {type(fault).__name__} {fault}', file=sys.stderr)
        return 2
    try:
        return run_alone(given, configured) if configured else print_state(given.folder)
    except (Again, OSError) as why:
        log(str(why))
        return 1
    except ValueError as wrong:
        print(wrong, file=sys.stderr)
        return 2


if __name__ == '__main__':
    sys.exit(main())
