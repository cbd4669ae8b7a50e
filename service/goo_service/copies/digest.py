"""Digests all rows of the registry's file, for the replicas of three hosts, which compare digests.

usage: goo-copies digest [--db FILE] [--into FOLDER]

It copies the file with its log, writes `copied`, and then one hash over all rows of all tables. The
caller sees to it that nobody writes to the file until `copied` has come. The copy is in a folder of
FOLDER, and goes. goo-rows@.service runs it for each connection to /run/goo/rows.sock, as the user
that owns the file: so the replica learns the hash, and reads no file of the registry's.
"""
import argparse
import contextlib
import sqlite3
import sys
import tempfile
from dataclasses import dataclass
from pathlib import Path

from goo_service.copies import contents
from goo_service.copies import rows


def fold(database: Path) -> None:
    """Puts the log beside a copied file into it."""
    with contextlib.closing(sqlite3.connect(database)) as connection:
        connection.execute('PRAGMA wal_checkpoint(TRUNCATE)')
        connection.execute('PRAGMA journal_mode = DELETE')


@dataclass(frozen=True)
class Words:
    """Which file, and where the copy is made."""

    db: Path
    into: Path


def parse_words() -> Words:
    parser = argparse.ArgumentParser(prog='goo-copies digest', description=__doc__,
                                     formatter_class=argparse.RawDescriptionHelpFormatter)
    parser.add_argument('--db', type=Path, default='/var/lib/goo/registry.db')
    parser.add_argument('--into', type=Path, default='/var/tmp', help='where the copy is made')
    return Words(**vars(parser.parse_args()))


def print_digest() -> None:
    words = parse_words()
    with tempfile.TemporaryDirectory(prefix='goo-rows-', dir=words.into) as folder:
        contents.copy_database(words.db, Path(folder))
        print('copied', flush=True)
        copied = Path(folder, words.db.name)
        fold(copied)
        print(rows.digest(copied), flush=True)


def main() -> None:
    try:
        print_digest()
    except BrokenPipeError:
        sys.exit(1)                             # the replica has ended
    except (contents.Unfit, OSError, sqlite3.Error) as fault:
        sys.exit(f'goo-copies digest: {fault}')


if __name__ == '__main__':
    main()
