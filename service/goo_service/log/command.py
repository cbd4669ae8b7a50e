"""What an operator does to the log of a registry's requests. docs/REPLICAS.md describes the log.

usage: goo-replica-log COMMAND [OPTIONS]

found         begins the log, for a registry that has none; the registry and its replica are stopped
version TEXT  from here on entries are applied by that version of the program
aside N       entry N, which the registry cannot decide, is set aside: it is not carried out, and
              its client is told 500
place COPY    the place of a copy whose database was put back; the replica then applies the entries
              since
first-copy    the first copy with a place; the registry and its replica are stopped
copy          the copy of a night: the live file at an entry, compared row by row with the last copy
              and the entries since; nothing is stopped
verify        checks the archive from entry 1 on, or from --from N: numbers, hashes, keyed hashes,
              and the hash in each copy; with --from COPY also that the entries after that copy come
              to their outcomes
compress      compresses the archive's finished months
ship TARGET   sends log and archive to another host as they grow; TARGET is HOST:FOLDER for rsync
              over ssh, or a folder
program       prints the version of the program: what `goo --version` says, else its SHA-256
health        0 where the replica takes requests; else says why
undo N        entry N and all after it leave log and archive, for `restore COPY --before N`; the
              registry and its replica are stopped
again N       what came after entry N is sent again, and what comes to another outcome is told; for
              the same
copied NAME, forget NAME, prune
              over etcd: a copy was made; a replica or a copy is gone; delete what all have
"""
import argparse
import shlex
import sys
from collections.abc import Callable
from pathlib import Path

from goo_service.common import owner
from goo_service.common.programs import words_of
from goo_service.copies import contents
from goo_service.log import copy_commands
from goo_service.log import entries
from goo_service.log import host_commands
from goo_service.log import log_commands
from goo_service.log import store
from goo_service.log.entries import Broken
from goo_service.log.words import Words

COMMANDS: dict[str, Callable[[Words], int | None]] = {
    'found': log_commands.begin_log, 'version': log_commands.move_version,
    'aside': log_commands.set_aside, 'undo': log_commands.undo, 'again': log_commands.send_again,
    'place': copy_commands.put_place, 'first-copy': copy_commands.first_copy,
    'copy': copy_commands.copy, 'verify': copy_commands.verify,
    'compress': copy_commands.compress, 'copied': copy_commands.record_copy,
    'forget': copy_commands.forget, 'prune': copy_commands.prune, 'ship': host_commands.ship,
    'health': host_commands.health, 'program': host_commands.program}
WITH_TEXT = ('version', 'aside', 'place', 'ship', 'copied', 'forget', 'undo', 'again')
WITH_NUMBER = ('aside', 'undo', 'again')
ALONE, OVER_ETCD = ('undo', 'again'), ('prune', 'copied', 'forget')
"""What is for a log in files, and what for one over etcd."""
WITHOUT_KEY = ('ship', 'health', 'compress', 'program')


def parser() -> argparse.ArgumentParser:
    made = argparse.ArgumentParser(prog='goo-replica-log', description=__doc__,
                                   formatter_class=argparse.RawDescriptionHelpFormatter)
    made.add_argument('command', choices=COMMANDS, metavar='COMMAND')
    made.add_argument('text', nargs='?', default='',
                      help=f'of {", ".join(WITH_TEXT)}')
    made.add_argument('--state', type=Path)
    made.add_argument('--key')
    made.add_argument('--door', help='where the replica listens')
    made.add_argument('--copies', type=Path)
    made.add_argument('--keep', type=int, help='copies that stay')
    made.add_argument('--db', type=Path)
    made.add_argument('--goo')
    made.add_argument('--version', help='of found, first-copy and undo: the version of the program,'
                      ' if it is not the one of --goo')
    made.add_argument('--recount', default=shlex.join(words_of('copies.recount')),
                      help='what recounts a copy; empty: nothing')
    made.add_argument('--from', dest='begin', action='append',
                      help='of verify: the number of the entry with which the archive begins, or a '
                           'copy; given twice, both')
    made.add_argument('--room', type=int, help='of health: MiB that have to be free')
    made.add_argument('--once', action='store_true', help='of ship: once')
    made.add_argument('--name')
    made.add_argument('--code', type=int)
    made.add_argument('--etcd')
    made.add_argument('--replicas', type=int)
    for name in ('ca', 'cert', 'cert-key'):
        made.add_argument(f'--{name}')
    return made


def parse_words() -> Words:
    made = parser()
    given = made.parse_intermixed_args()
    words = Words(**{name: value for name, value in vars(given).items() if value is not None})
    if fault := fault_of(words):
        made.error(fault)
    return words


def fault_of(words: Words) -> str:
    """What is wrong with the words, if anything is."""
    name = words.command
    faults = {
        f'{name} needs a word after it': name in WITH_TEXT and not words.text,
        f'{name} needs the number of an entry': name in WITH_NUMBER and not words.text.isdecimal(),
        f'{name} is for a log in files': name in ALONE and bool(words.etcd),
        f'{name} is for a log over etcd, and needs --etcd': name in OVER_ETCD and not words.etcd,
        '--from: the first entry is 1': '0' in words.begin,
        '--keep: at least the copy of the night stays': words.keep < 1}
    return next((fault for fault, is_so in faults.items() if is_so), '')


def main() -> int | None:
    words = parse_words()
    try:
        if words.command not in WITHOUT_KEY:
            words.secret = entries.read_key(words.key)      # before root becomes another user
        return COMMANDS[words.command](words)
    except (Broken, contents.Unfit, owner.NotDone, store.NoAnswer, OSError) as fault:
        sys.exit(f'goo-replica-log: {fault}')


if __name__ == '__main__':
    sys.exit(main())
