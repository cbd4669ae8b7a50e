"""What we know of one peer, and how far its notices for us were read: FOLDER/inbox/CC.json.

Each of its notices, once fetched, stays as taken-P in the outbox of that peer, where it can see
what we have of its own. One that was not imported stays in FOLDER/refused/CC-P as well, until it is
or the operator has settled it.
"""
import dataclasses
import datetime
from collections.abc import Iterator
from dataclasses import dataclass
from pathlib import Path

from goo_service.common.files import write_whole
from goo_service.exchange.common import Again
from goo_service.exchange.common import chain_of
from goo_service.exchange.common import chain_after
from goo_service.exchange.common import compact
from goo_service.exchange.common import read_object
from goo_service.exchange.common import read_text
from goo_service.exchange.outbox import Outbox
from goo_service.exchange.states import Fate
from goo_service.exchange.states import Incoming
from goo_service.exchange.states import Known
from goo_service.exchange.states import Record
from goo_service.exchange.states import State
from goo_service.exchange.states import Waiting


def now() -> str:
    return datetime.datetime.now(datetime.timezone.utc).strftime('%Y-%m-%dT%H:%M:%SZ')


@dataclass(frozen=True)
class Imported:
    """The last position whose notice was imported, and the text that was fetched there."""

    position: int
    text: str | None


class Inbox:
    """The notices of one peer."""

    def __init__(self, folder: Path, outbox: Outbox, peer: int) -> None:
        self.peer, self.outbox = peer, outbox
        self.path, self.refused = folder / 'inbox' / f'{peer:02}.json', folder / 'refused'
        self.record = self.read()

    def read(self) -> Record:
        """The record in the file. Without one, what was fetched is still shown to the peer, and all
        is delivered anew."""
        members = read_object(self.path)
        if members is None:
            highest = 0
            while self.text_at(highest + 1) is not None:
                highest += 1
            texts = (self.text_at(position) or '' for position in range(1, highest + 1))
            return Record(highest=highest, chain=chain_of(texts))
        whole = {**dataclasses.asdict(Record()), **members}
        kinds = {name: type(value) for name, value in dataclasses.asdict(Record()).items()}
        if {name: type(value) for name, value in whole.items()} != kinds:
            raise Again(f'{self.path} is damaged: remove it, and all is read anew')
        return Record(**whole)

    def write(self) -> None:
        write_whole(self.path, compact(dataclasses.asdict(self.record)) + '\n')

    @property
    def waiting(self) -> dict[str, Waiting]:
        """What was fetched and not imported, by position."""
        return self.record.waiting

    @property
    def known(self) -> Known:
        """What the peer has of ours."""
        return self.record.told

    def in_order(self) -> list[tuple[int, Waiting]]:
        """What waits, by rising position."""
        return sorted((int(position), of) for position, of in self.waiting.items())

    def update(self, state: State) -> None:
        """Writes down what a state of the peer says."""
        record, known = self.record, state['inbox']
        record.seen, record.contact = state['generation'], now()
        record.generation = record.generation or state['generation']
        record.told = Known(generation=known['generation'], highest=known['highest'],
                            chain=known['chain'], refused=known['refused'],
                            restoring=state['restoring'], shows=state['outbox']['highest'])
        self.write()

    def accept(self, generation: int) -> None:
        """By the operator's word: it is of this generation now, and in order as it is. All is read
        anew, and what is known is repeated."""
        record = self.record
        record.highest = min(record.highest, record.told.get('shows', record.highest))
        record.generation, record.cursor, record.changed = generation, 0, ''
        record.chain = self.chain_fetched()
        self.write()

    def begin_anew(self) -> None:
        """All that was fetched is delivered once more."""
        self.record.cursor, self.record.proved = 0, ''
        self.write()

    def text_at(self, position: int) -> str | None:
        """Its notice at a position, as it was fetched; None where it was not."""
        return read_text(self.outbox.place(self.peer, f'taken-{position}'))

    def chain_fetched(self) -> str:
        """The chain over all that was fetched, by the files."""
        positions = range(1, self.record.highest + 1)
        return chain_of(self.text_at(position) or '' for position in positions)

    def is_apart(self, position: int) -> bool:
        """Whether a notice was fetched and not imported."""
        return str(position) in self.record.waiting or str(position) in self.record.settled

    def was_imported(self, position: int, text: str) -> bool:
        """Whether just this text was fetched there and imported."""
        return (position <= self.record.highest and not self.is_apart(position)
                and self.text_at(position) == text)

    def is_settled(self, position: int, text: str) -> bool:
        return str(position) in self.record.settled and self.text_at(position) == text

    def write_fetched(self, position: int, text: str, signature: str) -> None:
        """Keeps what was fetched: from now on the peer is shown that we have it."""
        record = self.record
        is_new = position > record.highest
        is_changed = not is_new and self.text_at(position) not in (None, text)
        write_whole(self.outbox.place(self.peer, f'taken-{position}.sig'), signature)
        write_whole(self.outbox.place(self.peer, f'taken-{position}'), text)
        if is_new:
            record.highest, record.chain = position, chain_after(record.chain, text)
        elif is_changed:
            record.chain = self.chain_fetched()

    def file_of(self, position: int) -> Path:
        """The file of a notice that was not imported."""
        return self.refused / f'{self.peer:02}-{position}'

    def write_result(self, position: int, of: Waiting) -> None:
        """What became of a position. What was not imported waits, and is kept. What is delivered
        out of turn leaves those before it to their turn."""
        record, file = self.record, self.file_of(position)
        if of['became'] == 'accepted':
            file.unlink(missing_ok=True)
            record.waiting.pop(str(position), None)
        else:
            write_whole(file, self.text_at(position) or '')
            record.waiting[str(position)] = of
        record.settled.pop(str(position), None)
        record.cursor += position == record.cursor + 1
        self.write()

    def settle(self, position: int) -> None:
        """The operator has seen to it: it waits no more, and is never delivered again."""
        self.record.settled[str(position)] = self.record.waiting.pop(str(position))
        self.file_of(position).unlink(missing_ok=True)
        self.write()

    def bytes_waiting(self) -> int:
        return sum(file.stat().st_size for file in self.refused.glob(f'{self.peer:02}-*'))

    def last_imported(self) -> Imported | None:
        """The last notice that was imported; None where there is none."""
        for position in range(self.record.cursor, 0, -1):
            if not self.is_apart(position):
                return Imported(position, self.text_at(position))
        return None

    def imported_texts(self) -> Iterator[str]:
        """The texts of all that was imported, as they were fetched."""
        for position in range(1, self.record.highest + 1):
            if not self.is_apart(position) and (text := self.text_at(position)):
                yield text

    def state_for_peer(self) -> Incoming:
        """What we show the peer about its own notices."""
        record = self.record
        refused = {position: Fate(became=of['became'], settled=is_settled)
                   for is_settled, some in ((False, record.waiting), (True, record.settled))
                   for position, of in some.items()}
        return Incoming(generation=record.seen, highest=record.highest, chain=record.chain,
                        refused=refused)
