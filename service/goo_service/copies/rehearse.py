"""Rehearses a bundle: what its lines would come to, by the registry's file as it is.

usage: goo-copies rehearse [--db FILE] [--into FOLDER] [--goo PROGRAM]

Standard input has {"caller":"SUN","lines":2} in its first line, and then the lines of the bundle.
The answer is {"rehearsed":2} where each line would be accepted, else the first line that would not:
its number, its key and the outcome that it would have. With no lines it is whether there is room.
The caller sees to it that nobody writes to the file meanwhile.

The file is copied with its log. What the bundle names is read from the copy, and the lines are
carried out over that by goo_service.rules, in memory; so a rehearsal takes no longer
with a large registry, but for the copying. Whether a line can be read is asked of the program.
goo-rehearsal@.service runs it for each connection to /run/goo/rehearsal.sock, as the user that owns
the file: the replica has no right to it.
"""
import argparse
import contextlib
import json
import sqlite3
import subprocess
import sys
import tempfile
from collections.abc import Iterable
from collections.abc import Iterator
from dataclasses import dataclass
from pathlib import Path
from typing import Any
from typing import cast

from goo_service.copies import contents
from goo_service.log import bundles
from goo_service.log.bundles import Line
from goo_service.rules.certificates import Place
from goo_service.rules.commands import compact
from goo_service.rules.commands import plain_of
from goo_service.rules.lots import ELECTRICITY
from goo_service.rules.lots import LOT
from goo_service.rules.lots import Lot
from goo_service.rules.refusals import Wrong
from goo_service.rules.registry import Registry

ROOM = 64 << 20
"""Bytes that have to be left beside the copy."""
PATIENCE = 240
"""Seconds for the program."""
RUNS = 200_000
"""Runs that the ranges of a bundle meet. They are in memory, and a range may be of any length."""
LOTS = f"""
    SELECT {', '.join(f'l.{member}' for member in LOT[:-1])}, coalesce(c.carrier, '{ELECTRICITY}')
    FROM lot l LEFT JOIN lot_carrier c ON c.lot = l.id WHERE l.id = ?"""
PIECES = """
    SELECT first, last, lot, kind, account, act FROM piece
    WHERE first <= :last AND last >= :first
    AND first >= coalesce((SELECT max(first) FROM piece WHERE first <= :first), :first)
    ORDER BY first"""
"""The pieces that a range meets. Pieces do not overlap, so one at most begins before the range."""
Span = tuple[int, int]


class TooManyRuns(Exception):
    """The ranges of a bundle meet more runs than are rehearsed."""


# ------------------------------------------------------------------ what the bundle names

def merge_spans(spans: Iterable[Span]) -> Iterator[Span]:
    """The spans in rising order, those made one that meet."""
    begin, end = 0, -1
    for first, last in sorted(spans):
        if first > end + 1:
            if end >= begin:
                yield begin, end
            begin, end = first, last
        end = max(end, last)
    if end >= begin:
        yield begin, end


def spans_of(commands: Iterable[dict[str, Any]]) -> Iterator[Span]:
    for of in commands:
        if 'first' in of:
            yield int(of['first']), int(of['last'])


class Named(Registry):
    """A registry in memory that knows what some commands name, as a file has it."""

    def __init__(self, database: sqlite3.Connection) -> None:
        code, today, *following = database.execute(
            'SELECT code, today, next_serial, next_account, next_cancellation, next_withdrawal, '
            'next_notice FROM meta').fetchone()
        super().__init__(code, today, 1)
        self.next = dict(zip(self.next, following))
        self.database, self.known_lots = database, dict[int, Lot]()
        self.peers = {peer for peer, in database.execute('SELECT code FROM peer')}

    def learn(self, commands: list[dict[str, Any]]) -> None:
        """Reads what these commands name."""
        for of in commands:
            for account in {of.get(name) for name in ('account', 'giver', 'taker')} - {None}:
                self.learn_account(account)
            self.learn_holder(of.get('holder'))
            self.learn_device(of.get('device'))
        for first, last in merge_spans(spans_of(commands)):
            self.learn_span(first, last)

    def learn_account(self, number: object) -> None:
        """In an export `account` is one of the other registry: what is learnt does no harm."""
        if row := self.row('SELECT number, holder, closed FROM account WHERE number = ?', number):
            self.accounts[row[0]] = (row[1], row[2])

    def learn_holder(self, code: object) -> None:
        if row := self.row('SELECT code, name FROM holder WHERE code = ?', code):
            self.holders[row[0]] = row[1]

    def learn_device(self, gsrn: object) -> None:
        if row := self.row('SELECT gsrn, account FROM device WHERE gsrn = ?', gsrn):
            self.devices[row[0]] = {'account': row[1]}

    def row(self, query: str, value: object) -> tuple[Any, ...] | None:
        return cast('tuple[Any, ...] | None', self.database.execute(query, (value,)).fetchone())

    def learn_span(self, first: int, last: int) -> None:
        """Lot and place of each known certificate of a span."""
        for begin, end, lot, *place in self.database.execute(PIECES, {'first': first,
                                                                      'last': last}):
            if len(self.certificates.firsts) == RUNS:
                raise TooManyRuns
            begin, end = max(begin, first), min(end, last)
            self.certificates.firsts.append(begin)
            self.certificates.runs[begin] = (end, self.lot_of(lot), Place(*place))

    def lot_of(self, number: int) -> Lot:
        if number not in self.known_lots:
            self.known_lots[number] = Lot(*self.database.execute(LOTS, (number,)).fetchone())
        return self.known_lots[number]


# ------------------------------------------------------------------ the rehearsal

def unreadable(goo: str, registry: Registry, caller: str, lines: list[Line]) -> dict[int, str]:
    """The faults of the lines that the program cannot read, by their numbers.

    It is asked in a registry of its own, which is empty, is in memory and goes.
    """
    words = [goo, 'run', '--memory', '--code', str(registry.code), '--today', registry.today]
    text = b''.join(b'%b %b\n' % (caller.encode(), line.body.replace(b'\r', b' '))
                    for line in lines)
    done = subprocess.run(words, input=text, capture_output=True, timeout=PATIENCE, check=False)
    answers = [bundles.outcome_in(answer) for answer in done.stdout.splitlines()]
    if done.returncode not in (0, 1) or len(answers) != len(lines):
        raise contents.Unfit(f'{goo} run --memory: status {done.returncode}, {len(answers)} '
                             f'answers: {done.stderr.decode(errors="replace")[:500]}')
    return {line.number: answer['fault'] for line, answer in zip(lines, answers)
            if answer['outcome'] == 'unreadable'}


def refusal_of(registry: Named, caller: str, line: Line,
               command: dict[str, Any]) -> dict[str, object] | None:
    """The refusal that a line would have; None where it would be accepted, or is done already."""
    kept = registry.database.execute('SELECT command FROM receipt WHERE caller = ? AND key = ?',
                                     (caller, line.key)).fetchone()
    if kept:
        text = kept[0] if isinstance(kept[0], bytes) else str(kept[0]).encode()
        is_same = text == compact(command).encode()
        return None if is_same else bundles.refusal(line, 'KeyReused', None)
    try:
        registry.apply(caller, command)
        return None
    except Wrong as wrong:
        return bundles.refusal(line, wrong.refusal, wrong.number)


def rehearse(database: sqlite3.Connection, goo: str, caller: str,
             lines: list[Line]) -> dict[str, object]:
    """The answer to a bundle."""
    registry = Named(database)
    faults = unreadable(goo, registry, caller, lines)
    commands = {line.number: plain_of(json.loads(line.body)) for line in lines
                if line.number not in faults}
    try:
        registry.learn(list(commands.values()))
    except TooManyRuns:
        return {'name': 'TooManyRuns', 'most': RUNS, 'outcome': 'refused'}
    for line in lines:
        if fault := faults.get(line.number):
            return {'line': line.number, 'key': line.key, 'fault': fault, 'outcome': 'unreadable'}
        if refusal := refusal_of(registry, caller, line, commands[line.number]):
            return refusal
    return {'rehearsed': len(lines)}


# ------------------------------------------------------------------ the command

@dataclass(frozen=True)
class Words:
    """Which file, where the copy is made, and the program."""

    db: Path
    into: Path
    goo: str


def parse_words() -> Words:
    parser = argparse.ArgumentParser(prog='goo-copies rehearse', description=__doc__,
                                     formatter_class=argparse.RawDescriptionHelpFormatter)
    parser.add_argument('--db', type=Path, default='/var/lib/goo/registry.db')
    parser.add_argument('--into', type=Path, default='/var/tmp', help='where the copy is made')
    parser.add_argument('--goo', default='/usr/bin/goo', help='the program of the registry')
    return Words(**vars(parser.parse_args()))


def room_for(words: Words) -> dict[str, object]:
    """Whether the copy has room."""
    files = [words.db.with_name(f'{words.db.name}{tail}') for tail in ('', *contents.LOGS)]
    size = sum(file.stat().st_size for file in files if file.exists())
    free = contents.room_on(words.into)
    if free >= size + ROOM:
        return {'rehearsed': 0}
    return {'error': f"a copy of the registry's file has {size} bytes, and {free} are free"}


def answer_of(words: Words, head: dict[str, Any], body: bytes) -> dict[str, object]:
    if head['lines'] == 0:
        return room_for(words)
    lines = bundles.read(body)
    if len(lines) != head['lines']:
        raise ValueError(f'{len(lines)} lines came of {head["lines"]}')
    with tempfile.TemporaryDirectory(prefix='goo-rehearsal-', dir=words.into) as folder:
        contents.copy_database(words.db, Path(folder))
        with contextlib.closing(sqlite3.connect(Path(folder, words.db.name))) as database:
            return rehearse(database, words.goo, str(head['caller']), lines)


def main() -> None:
    words = parse_words()
    try:
        head = json.loads(sys.stdin.buffer.readline())
        print(compact(answer_of(words, head, sys.stdin.buffer.read())), flush=True)
    except BrokenPipeError:
        sys.exit(1)                             # the replica has ended
    except (contents.Unfit, OSError, sqlite3.Error, ValueError, KeyError, TypeError,
            bundles.Unreadable, subprocess.TimeoutExpired) as fault:
        sys.exit(f'goo-copies rehearse: {fault}')


if __name__ == '__main__':
    main()
