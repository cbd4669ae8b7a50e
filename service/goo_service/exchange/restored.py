"""Which generation of our registry this is, and how a registry that went back to a copy becomes
whole again.

FOLDER/generation.json has the generation: 1, and one more for each time that the registry went back
to a copy. FOLDER/restored.json is written when it does (copies/restore.py, or exchange
--generation). While it is there nothing is published, nothing is imported but what a lost export
needs, and the peers, who see the new generation, take nothing from us. Each of them shows which
notices of ours it has. All of these have to be in our registry again, byte for byte: which are not
is told, with the request to send. Then restored.json goes.
"""
import shutil
from collections.abc import Iterable
from collections.abc import Iterator
from pathlib import Path
from typing import Any

from goo_service.common.files import write_whole
from goo_service.exchange.common import Again
from goo_service.exchange.common import Notice
from goo_service.exchange.common import Refused
from goo_service.exchange.common import Span
from goo_service.exchange.common import chain_of
from goo_service.exchange.common import compact
from goo_service.exchange.common import log
from goo_service.exchange.common import parse_notice
from goo_service.exchange.common import read_object
from goo_service.exchange.common import read_text
from goo_service.exchange.inbox import now
from goo_service.exchange.ours import Ours
from goo_service.exchange.outbox import overlap
from goo_service.exchange.states import Known
from goo_service.exchange.states import MOST_COUNT
from goo_service.exchange.visit import Visit

ADVICE = 'remove it and say exchange --generation N, one more than the last that our peers know'


class Generation:
    """The two files."""

    def __init__(self, folder: Path) -> None:
        self.file, self.restored = folder / 'generation.json', folder / 'restored.json'
        self.known = self.number_in(self.file)
        self.to_be = self.number_in(self.restored)
        if self.to_be is not None and self.members().get('done'):
            self.finish()

    def members(self) -> dict[str, Any]:
        """What restored.json has."""
        return read_object(self.restored) or {}

    def number_in(self, file: Path) -> int | None:
        """The generation that a file has; None where there is no file."""
        try:
            of = read_object(file)
        except Again as why:
            raise Again(f'{why}; {ADVICE}') from why
        if of is None:
            return None
        number = of.get('generation')
        if type(number) is not int or not 0 < number < MOST_COUNT:
            raise Again(f'{file} is damaged: it has no generation; {ADVICE}')
        return number

    @property
    def number(self) -> int | None:
        """Ours, or the one that it is to be; None where neither is known."""
        return self.known if self.to_be is None else max(self.to_be, (self.known or 0) + 1)

    def write(self, file: Path, **members: object) -> None:
        write_whole(file, compact(members) + '\n')

    def begin(self, number: int) -> None:
        """By the operator's word: this registry went back to a copy, and is of this generation
        now."""
        if number <= (self.known or 0):
            raise ValueError(f'our registry is of generation {self.known} already')
        self.write(self.restored, generation=number, copy=None, time=now())
        self.to_be = number

    def begin_first(self) -> None:
        """There was no other before."""
        if self.number is not None:
            raise ValueError(f'our registry is of generation {self.number} already')
        self.write(self.file, generation=1)
        self.known = 1

    def left_out(self) -> list[int]:
        """The peers that nothing is waited for, by the operator's word."""
        if self.to_be is None:
            raise ValueError('our registry did not go back to a copy, or is whole again: nothing '
                             'is waited for')
        return list(self.members().get('without', []))

    def leave_out(self, peer: int) -> None:
        """Nothing is waited for from one peer more."""
        without = sorted({*self.left_out(), peer})
        self.write(self.restored, **{**self.members(), 'without': without})

    def is_shown(self) -> bool:
        """Whether the peers could see this generation before this run."""
        return bool(self.members().get('shown'))

    def note_shown(self) -> None:
        self.write(self.restored, **{**self.members(), 'shown': True})

    def finish(self) -> None:
        """Whole again. The first line makes sure that it stays so where this is cut off."""
        number = self.number
        self.write(self.restored, generation=number, done=True)
        self.write(self.file, generation=number)
        self.restored.unlink()
        self.known, self.to_be = number, None


class Restoring:
    """One run of a registry that went back to a copy."""

    def __init__(self, ours: Ours, visits: list[Visit], without: Iterable[int]) -> None:
        self.ours, self.visits, self.without = ours, visits, set(without)
        self.wanted: dict[int, Notice] = {}
        """By number: the notices that have to be in our registry again."""
        self.heard = set(self.without)
        self.left: list[str] = []

    def leave(self, text: str) -> None:
        self.left.append(text)
        log(text)

    def fetch_wanted(self, visit: Visit) -> None:
        """Notes which notices of ours a peer has."""
        if visit.code in self.without or visit.opened is None:
            return
        known = visit.inbox.known
        if known.get('generation') != self.ours.generation:
            raise Again('it has not told yet which notices of ours it has, since we went back to a '
                        f'copy and are of generation {self.ours.generation}')
        highest = known['highest']
        if self.ours.outbox.chain(visit.code, highest) == known['chain']:
            texts = [notice.text for notice in self.ours.outbox.of(visit.code)[:highest] if notice]
        else:
            texts = self.fetch_ours(visit, known)
        for text in texts:
            notice = parse_notice(text)
            self.wanted[notice.number] = notice
        self.heard.add(visit.code)

    def fetch_ours(self, visit: Visit, known: Known) -> list[str]:
        """What a peer has of ours, read from there: each text was signed by us, and the chain over
        them is the one that it showed."""
        folder = self.ours.folder / 'lost' / f'{visit.code:02}'
        texts: list[str] = []
        visit.peer.begin()
        for position in range(1, known['highest'] + 1):
            file = folder / str(position)
            text = read_text(file) or visit.peer.fetch_ours(position, self.ours.key.public)
            write_whole(file, text)
            texts.append(text)
        if chain_of(texts) != known['chain']:
            shutil.rmtree(folder)
            raise Again('the notices of ours that it shows are not those that it told')
        return texts

    def want_published(self) -> None:
        """Of a registry that tells nothing, all that was published for it is taken to be there."""
        telling = {visit.code for visit in self.visits} - self.without
        for notice in self.ours.outbox.sent:
            if notice.addressee not in telling:
                self.wanted[notice.number] = notice

    def lacking(self) -> list[int]:
        """The numbers that our registry lacks, up to the last one wanted. It is told where it has
        another notice under a number."""
        lacking = []
        for number in range(1, max(self.wanted, default=0) + 1):
            text, wanted = self.ours.registry.notice(number), self.wanted.get(number)
            if text is None:
                lacking.append(number)
            elif wanted and text != wanted.text:
                self.leave(f'notice {number} of our registry is not the one that registry '
                           f'{wanted.addressee} has: go back to the copy once more, and send that '
                           'export first')
        return lacking

    def spans_of(self, lacking: list[int]) -> Iterator[Span]:
        """What lost exports need and nobody holds here."""
        for number in lacking:
            notice = self.wanted.get(number)
            if notice and self.ours.registry.holder_of(notice.parts[0].first) is None:
                yield from (part.span for part in notice.parts)

    def import_needed(self, visit: Visit, lacking: list[int]) -> None:
        """Imports what a lost export needs: certificates that had come in since the copy."""
        spans = list(self.spans_of(lacking))
        if not spans or visit.state is None or visit.opened is None:
            return
        visit.peer.begin()
        for position in range(1, visit.state['outbox']['highest'] + 1):
            text = visit.inbox.text_at(position) or visit.peer.fetch_notice(position).text
            notice = parse_notice(text)
            needed = [bool(overlap(spans, part)[0]) for part in notice.parts]
            if any(needed) and all(is_needed or part.origin == visit.code
                                   for is_needed, part in zip(needed, notice.parts)):
                self.import_one(visit, notice)

    def import_one(self, visit: Visit, notice: Notice) -> None:
        try:
            if self.ours.registry.import_notice(notice) == 'accepted':
                visit.log(f'notice {notice.number}: accepted, {notice.count} certificates, which a '
                          'lost export needs')
        except Refused as refusal:
            visit.log(f'notice {notice.number}: refused, {refusal}, and a lost export needs it')

    def leave_lacking(self, lacking: list[int]) -> None:
        """Which exports have to be sent again, with the very requests."""
        published = {notice.number: notice for notice in self.ours.outbox.sent}
        for number in lacking:
            if notice := self.wanted.get(number) or published.get(number):
                self.leave(f'notice {number} to registry {notice.addressee} is not in our '
                           f'registry, and has to be sent again: {self.request_of(notice)}')
            else:
                self.leave(f'notice {number} is not in our registry, and nobody has it: another '
                           'export has to take this number')

    def request_of(self, notice: Notice) -> str:
        """The command that sends an export again."""
        first, last = notice.parts[0].first, notice.parts[-1].last
        held = self.ours.registry.holder_of(first)
        if held is None:
            return (f'certificates {first:014} to {last:014}, which nobody holds here yet; another '
                    'request comes first')
        key = f'restored-{self.ours.generation}-{notice.number}'
        body = compact({
            'command': 'export', 'key': key, 'giver': held.account, 'peer': notice.addressee,
            'account': notice.account, 'first': f'{first:014}', 'last': f'{last:014}'})
        return (f"curl -sS {self.ours.registry.curl_words()} -H 'GOO-Caller: {held.holder}' "
                f"-H 'GOO-Role: full' -d '{body}'")

    def is_whole(self) -> bool:
        """Whether each peer has shown what it has of ours, and our registry lacks none of it."""
        return not self.left and all(visit.code in self.heard for visit in self.visits)

    def is_there(self, notice: Notice) -> bool:
        return self.ours.registry.notice(notice.number) == notice.text

    def finish(self, generation: Generation) -> None:
        """All is there again: what was published and is not in our registry goes aside, and all
        that has come is delivered anew."""
        aside = self.ours.folder / f'before-{generation.number}'
        for peer in self.ours.outbox.notices:
            self.ours.outbox.set_aside(peer, self.is_there, aside)
        for visit in self.visits:
            if visit.opened:
                visit.opened.begin_anew()
        shutil.rmtree(self.ours.folder / 'lost', ignore_errors=True)
        generation.finish()
        log('our registry has all notices that the others have of it, and is of generation '
            f"{generation.number}. The exchange goes on; each peer's operator releases it there: "
            f'exchange --accept-generation {self.ours.code} {generation.number}')
