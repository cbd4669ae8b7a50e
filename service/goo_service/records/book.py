"""The book of acts: an SQLite file that is made from the log of requests, for people who search and
choose. The registry never reads it.

Each accepted request is carried out once more by goo_service.rules, in memory, and what it changed
is written here: the act, the ranges of certificates that it moved, and the rows that it left.
Refused and unreadable requests are acts that changed nothing; so are writes that a user's role did
not allow. The file can be made anew at any time.
"""
import json
from collections.abc import Callable
from dataclasses import dataclass
from dataclasses import replace
from typing import Any

from goo_service.log import bundles
from goo_service.log import roles
from goo_service.log.entries import Entry
from goo_service.log.entries import Outcome
from goo_service.log.entries import Record
from goo_service.records import bundle_lines
from goo_service.records import moves
from goo_service.records import table_rows
from goo_service.records.commands import Command
from goo_service.records.commands import NOBODY
from goo_service.records.commands import Parties
from goo_service.records.commands import command_of
from goo_service.records.commands import command_of_row
from goo_service.records.commands import unread_members
from goo_service.records.commands import parties_of
from goo_service.records.registry import Change
from goo_service.records.schema import Mismatch
from goo_service.records.schema import fold_text
from goo_service.records.writer import Writer
from goo_service.rules import replies
from goo_service.rules.certificates import EXPORTED
from goo_service.rules.commands import ISSUER
from goo_service.rules.commands import plain_of
from goo_service.rules.commands import compact
from goo_service.rules.days import months_after
from goo_service.rules.lots import Lot
from goo_service.rules.lots import PLANT
from goo_service.rules.refusals import Again

KINDS = {
    'declare': 'issue', 'correct': 'correction', 'transfer': 'transfer', 'cancel': 'cancellation',
    'withdraw': 'withdrawal', 'export': 'export', 'import': 'import', 'open_holder': 'holder',
    'open_account': 'account', 'close_account': 'closing', 'register_device': 'device',
    'advance': 'date', 'add_peer': 'peer'}
"""The kind of act by the word of its command. `expiry` has no command: a new date makes it.
`unreadable` is what no command could be read from."""
ROLE = 'Role'
"""Why a write was refused that the role of its user does not allow. It never reached the registry,
whose own refusals have other names."""
TABLE_ROUTE, REQUEST_ROUTE = '/v1/declarations', '/v1/requests'
MOST_OFFSET = 2 ** 31 - 1
"""The largest number of the index of what certificates went through."""
NUMBERED = ('open_account', 'cancel', 'withdraw', 'export')
"""Commands whose answer begins with the number of the act."""
Reply = tuple[int, int, int, int]
"""The answer of the rules: its kind and three numbers."""


def kind_of(word: object) -> str:
    """The kind of the act that a command makes."""
    return KINDS.get(str(word), 'unreadable')


@dataclass(frozen=True, slots=True)
class At:
    """Where a request stands in the log, and who sent it."""

    entry: int
    caller: str
    time: str | None = None
    user: str | None = None
    role: str | None = None
    way: str | None = None
    confirmed: str | None = None
    line: int = 0
    rows: int = 0
    lines: str | None = None
    bundle: int | None = None
    """The entry of the bundle that it is a line of."""


@dataclass(frozen=True, slots=True)
class Result:
    """What a request came to: its outcome, the name of its refusal or fault, its reply."""

    outcome: str
    refusal: str | None = None
    reply: dict[str, Any] | None = None


class Book(Writer):
    """Writes what entries did."""

    # ---------------------------------------------------------------- entries

    def apply(self, record: Record) -> None:
        """Writes what an entry of the archive did."""
        entry, outcome = record.entry, record.outcome
        at = At(entry.n, entry.caller, entry.time, entry.user, entry.role, entry.way or None,
                entry.confirmed or None)
        is_write = entry.method == 'POST'
        if is_write and not roles.allows(entry.role, entry.method, entry.route, entry.body):
            self.apply_beyond_role(at, entry, outcome)
        elif entry.route == REQUEST_ROUTE:
            self.apply_request(at, entry.body, outcome)
        elif entry.route in bundles.ROUTES:
            self.apply_bundle(replace(at, bundle=entry.n), entry.body, outcome)
        elif entry.route == TABLE_ROUTE and outcome.status == 200:
            self.apply_table(at, entry.body, outcome.body)
        elif entry.route == TABLE_ROUTE:
            word = 'set aside' if outcome.status == 500 else 'unreadable'
            self.add_act(at, 'issue', Result(word, f'status {outcome.status}'))

    def apply_table(self, at: At, table: bytes, report: bytes) -> None:
        """Writes what each row of a table came to, and then what rows together came to."""
        together = table_rows.Together(at.caller)
        for row in table_rows.rows_of_table(table, report):
            if not together.add(row):
                self.apply_command(replace(at, line=row.line, rows=1), command_of_row(row.fields),
                                   Result(row.outcome, row.refusal))
        for same in together.kinds.values():
            self.add_act(replace(at, line=same.spans[0][0], rows=same.count, lines=same.lines),
                         'issue', Result(same.outcome, same.refusal))

    def apply_beyond_role(self, at: At, entry: Entry, outcome: Outcome) -> None:
        """Writes who tried what his role does not allow. The registry has not heard of it."""
        if outcome.status != 403:
            raise Mismatch(f'entry {entry.n}: the role {entry.role} does not allow it, and the log '
                           f'has status {outcome.status}')
        is_table = entry.route == TABLE_ROUTE
        first = bundles.lines_of(entry.body)[0] if entry.route in bundles.ROUTES else entry.body
        command = {'command': 'declare'} if is_table else unread_members(command_of(first))
        self.apply_command(at, command, Result('refused', ROLE))

    def apply_request(self, at: At, body: bytes, outcome: Outcome) -> None:
        try:
            answer = json.loads(outcome.body)
        except ValueError:
            word = 'set aside' if outcome.status == 500 else 'unreadable'
            answer = {'outcome': word, 'fault': f'status {outcome.status}'}
        self.apply_answered(at, body, answer)

    def apply_bundle(self, at: At, body: bytes, outcome: Outcome) -> None:
        """Writes what each line of a bundle came to, and then what lines together came to."""
        if outcome.status != 200:
            return self.apply_refused_bundle(at, body, outcome)
        together = bundle_lines.Together()
        for line, answer in bundles.read_outcomes(body, outcome.body):
            if not together.add(line.number, kind_of(line.command), answer):
                self.apply_answered(replace(at, line=line.number, rows=1), line.body, answer)
        for (kind, *_), same in together.kinds.items():
            self.add_act(replace(at, line=same.spans[0][0], rows=same.count, lines=same.lines),
                         kind, Result(same.outcome, same.refusal))

    def apply_refused_bundle(self, at: At, body: bytes, outcome: Outcome) -> None:
        """Writes one act for a bundle of which no line was carried out: the line that was why."""
        lines = bundles.lines_of(body)
        try:
            answer = json.loads(outcome.body)
        except ValueError:
            word = 'set aside' if outcome.status == 500 else 'unreadable'
            answer = {'outcome': word, 'fault': f'status {outcome.status}'}
        number = int(answer.get('line', 1))
        self.apply_answered(replace(at, line=number, rows=len(lines)), lines[number - 1], answer)

    def apply_answered(self, at: At, body: bytes, answer: dict[str, Any]) -> None:
        """Writes a request with the registry's answer."""
        command = command_of(body) if answer['outcome'] != 'unreadable' else {}
        command = unread_members(command) if answer['outcome'] == 'set aside' else command
        self.apply_command(at, command, Result(
            answer['outcome'], answer.get('name') or answer.get('fault'), answer.get('reply')))

    def apply_command(self, at: At, command: Command, result: Result) -> None:
        """Writes one request with what it came to. A repeated one whose first answer was never
        archived is the first one."""
        word, key = command.get('command'), command.get('key')
        if result.outcome == 'repeated' and self.has_accepted(at.caller, key):
            return
        if result.outcome in ('accepted', 'repeated'):
            self.accepted.add((at.caller, key))
            self.accept(at, key, plain_of(command), result)
        else:
            self.add_act(at, kind_of(word), result, parties_of(command, {}),
                         key if isinstance(key, str) else None)

    def accept(self, at: At, key: str | None, command: Command, result: Result) -> None:
        """Carries out an accepted command, and writes what it changed."""
        word = command['command']
        try:
            answer = self.registry.apply(at.caller, command)
        except Again:       # a notice that was imported before, under another key
            return
        except Exception as fault:     # whatever the reason, rules and registry differ
            raise Mismatch(f'entry {at.entry}: the registry accepted it, the rules say '
                           f'{fault!r}') from fault
        reply = replies.reply(*answer)
        if result.reply is not None and result.reply != reply:
            raise Mismatch(f'entry {at.entry}: the registry answered {result.reply}, the rules '
                           f'{reply}')
        number = answer[1] if word in NUMBERED else answer[3] if word == 'correct' else 0
        act = self.add_act(at, KINDS[word], replace(result, outcome='accepted'),
                           parties_of(command, self.registry.devices), key, number or None)
        changes = self.registry.certificates.fetch_changes()
        if word == 'advance':
            self.write_expiry(at, changes)
        else:
            self.write_moves(act, changes)
        if write := LEFT.get(word):
            write(self, act, command, answer)
        self.registry.forget()

    def has_accepted(self, caller: str, key: object) -> bool:
        """Whether there is an accepted request of this caller under this key."""
        if (caller, key) in self.accepted:
            return True
        found = self.database.execute("""SELECT 1 FROM act WHERE key = ? AND caller = ?
                                         AND outcome = 'accepted'""", (key, caller))
        return found.fetchone() is not None

    def add_act(self, at: At, kind: str, result: Result, of: Parties = NOBODY,
                key: str | None = None, number: int | None = None) -> int:
        """Writes an act; its number."""
        self.acts, self.waiting = self.acts + 1, self.waiting + 1
        refusal = None if result.outcome == 'accepted' else result.refusal
        self.insert('act', self.acts, at.entry, at.line, at.rows, at.lines, at.time, at.user,
                    at.role, at.way, at.confirmed, at.caller, self.registry.today, kind,
                    result.outcome, refusal, key, of.holder, of.giver, of.taker, of.device, of.peer,
                    number, of.wh, of.note, at.bundle)
        self.show(at.caller, self.acts)
        if result.outcome == 'accepted':
            self.show(of.holder, self.acts)
            for account in {of.giver, of.taker} - {None}:
                self.touch(account, self.acts)
        return self.acts

    def touch(self, account: int | None, act: int) -> None:
        """An act that touches an account is seen by its holder."""
        if account is not None:
            self.touched.add((account, act))
            self.show(self.registry.holder_of(account), act)

    def show(self, viewer: str | None, act: int) -> None:
        """The issuing body sees every act, so only holders are written."""
        if viewer is not None and viewer != ISSUER:
            self.seen.add((viewer, act))

    # ---------------------------------------------------------------- certificates

    def write_expiry(self, at: At, changes: list[Change]) -> None:
        """One act of expiry for each account that held what expired, in the order of numbers: they
        are the same however their lots came to be known."""
        by_account: dict[int, list[Change]] = {}
        for change in sorted(changes, key=lambda change: change.first):
            if change.before:
                by_account.setdefault(change.before.account, []).append(change)
        for account, expired in sorted(by_account.items()):
            act = self.add_act(at, 'expiry', Result('accepted'), Parties(giver=account))
            self.write_moves(act, expired)

    def write_moves(self, act: int, changes: list[Change]) -> None:
        """Writes the ranges that an act moved."""
        for part in moves.rows(self.part_of(change) for change in changes):
            self.moves, self.waiting = self.moves + 1, self.waiting + 1
            way = part.way
            self.insert('moved', self.moves, act, part.first, part.last, part.lot, part.to_lot,
                        way.kind, way.account, way.from_kind, way.from_account)
            begin = self.begins[part.lot]
            one_lot = part.lot == part.to_lot
            offsets = (part.first - begin, part.last - begin) if one_lot else (0, MOST_OFFSET)
            self.insert('passed', self.moves, *offsets, part.lot, part.to_lot)
            for touched in {way.account, way.from_account} - {None}:
                self.touch(touched, act)

    def part_of(self, change: Change) -> moves.Part:
        """A change as a row. Whoever exported certificates has no part in their return."""
        before, after = change.before, change.after
        known = self.number_of(change.lot, change.first, change.last)
        came_back = before is None or before.kind == EXPORTED
        way = moves.Way(after.kind, after.account, before.kind if before else None,
                        None if came_back or before is None else before.account)
        is_own = change.lot.origin == self.registry.code
        return moves.Part(change.first, change.last, known, known, is_own, way)

    def number_of(self, lot: Lot, first: int, last: int) -> int:
        """The number of a lot, which is written where it is new, with the certificates that were
        the first of it: of an own lot these are all. Offsets in it are counted from the first."""
        known = self.lots.get(lot.key)
        if known is None:
            known = self.lots[lot.key] = len(self.lots) + 1
            self.begins[known] = first
            trade_until = months_after(lot.last_day, 12)
            self.insert('lot', known, *lot, trade_until, lot.expires_on, first, last,
                        fold_text(lot.site))
        return known

    # ---------------------------------------------------------------- what commands leave besides

    def write_holder(self, act: int, of: Command, _: Reply) -> None:
        self.insert('holder', of['holder'], of['name'], act, fold_text(of['name']))

    def write_account(self, act: int, of: Command, answer: Reply) -> None:
        self.insert('account', answer[1], of['holder'], 0, act)
        self.touch(answer[1], act)

    def write_closing(self, act: int, of: Command, _: Reply) -> None:
        self.update('UPDATE account SET closed = 1 WHERE number = ?', of['account'])

    def write_device(self, act: int, of: Command, _: Reply) -> None:
        device = self.registry.devices[of['device']]
        self.insert('device', of['device'], device['account'],
                    *(device[member] for member in PLANT), device['carrier'],
                    *self.sums_of(of['device']), act, fold_text(device['site']))

    def sums_of(self, gsrn: str) -> list[Any]:
        """Last declared day, energy and certificates of a device."""
        device = self.registry.devices[gsrn]
        return [device[member] for member in
                ('last_day', 'carry', 'declared', 'less', 'issued', 'corrected')]

    def update_device(self, gsrn: str) -> None:
        self.update('''UPDATE device SET last_day = ?, carry_wh = ?, declared_wh = ?,
                       corrected_wh = ?, issued = ?, withdrawn = ? WHERE gsrn = ?''',
                    *self.sums_of(gsrn), gsrn)

    def write_declaration(self, act: int, of: Command, answer: Reply) -> None:
        first, last = (answer[2], answer[3]) if answer[2] else (None, None)
        self.insert('declaration', of['device'], of['first_day'], of['last_day'], of['gross_wh'],
                    of['aux_wh'], 0, first, last, act)
        self.update_device(of['device'])

    def write_correction(self, act: int, of: Command, answer: Reply) -> None:
        self.insert('correction', act, of['device'], of['first_day'], of['less_wh'],
                    answer[3] or None)
        self.update('''UPDATE declaration SET corrected_wh = corrected_wh + ?
                       WHERE (device, first_day) = (?, ?)''',
                    of['less_wh'], of['device'], of['first_day'])
        self.update_device(of['device'])
        if answer[3]:
            self.write_withdrawn(answer[3], act)

    def write_withdrawn(self, number: int, act: int) -> None:
        self.insert('withdrawal', number, *self.registry.withdrawals.pop(number), act)

    def write_withdrawal(self, act: int, _: Command, answer: Reply) -> None:
        self.write_withdrawn(answer[1], act)

    def write_cancellation(self, act: int, of: Command, answer: Reply) -> None:
        self.insert('cancellation', answer[1], *self.registry.cancellations.pop(answer[1]), act,
                    fold_text(of['beneficiary']))

    def write_peer(self, act: int, of: Command, _: Reply) -> None:
        self.insert('peer', of['peer'], act)

    def write_export(self, act: int, of: Command, answer: Reply) -> None:
        self.insert('notice', 1, of['peer'], answer[1], of['giver'], of['account'], answer[2],
                    self.registry.today, act)

    def write_import(self, act: int, of: Command, answer: Reply) -> None:
        notice = of['notice']
        self.insert('notice', 0, notice['sender'], notice['number'], notice['account'], None,
                    answer[1], self.registry.today, act)
        self.insert('imported', notice['sender'], notice['number'], compact(notice))


LEFT: dict[str, Callable[[Book, int, Command, Reply], None]] = {
    'open_holder': Book.write_holder, 'open_account': Book.write_account,
    'close_account': Book.write_closing, 'register_device': Book.write_device,
    'declare': Book.write_declaration, 'correct': Book.write_correction,
    'withdraw': Book.write_withdrawal, 'cancel': Book.write_cancellation,
    'add_peer': Book.write_peer, 'export': Book.write_export, 'import': Book.write_import}
"""What a command leaves besides its act and what it moved."""
