"""What is done with one peer in one run. Nothing of it waits for another peer."""
import contextlib
from collections.abc import Callable

from goo_service.exchange.accounts import Kept
from goo_service.exchange.common import Again
from goo_service.exchange.common import MOST
from goo_service.exchange.common import Notice
from goo_service.exchange.common import Refused
from goo_service.exchange.common import log
from goo_service.exchange.common import parse_notice
from goo_service.exchange.energy import Energy
from goo_service.exchange.inbox import Inbox
from goo_service.exchange.ours import Ours
from goo_service.exchange.outbox import doubt_about
from goo_service.exchange.peer import Peer
from goo_service.exchange.states import State
from goo_service.exchange.states import Waiting

MOST_WAITING, MOST_BYTES_WAITING = 100, 8 * 1048576
PASSING = ('UnknownAccount', 'AccountClosed', 'UnknownPeer')
"""Refusals whose reason goes away when something is registered here: such notices are delivered
once more in each run."""


class Stopped(Exception):
    """Nothing more is done with this peer until an operator has done something."""


class Visit:
    """One peer, its state, and what is left undone with it."""

    def __init__(self, ours: Ours, peer: Peer) -> None:
        self.ours, self.peer, self.code = ours, peer, peer.code
        self.state: State | None = None
        self.opened: Inbox | None = None
        """None where its record can't be read."""
        self.left: list[str] = []
        self.energy: Energy | None = None

    @property
    def inbox(self) -> Inbox:
        """What we know of the peer. Again where its record can't be read."""
        if self.opened is None:
            raise Again(self.left[0] if self.left else 'its record is not read')
        return self.opened

    def log(self, text: str) -> None:
        log(f'registry {self.code}, {text}')

    def leave(self, text: str) -> None:
        """Notes and logs something that is left undone."""
        self.left.append(text)
        log(f'registry {self.code}: {text}')

    def attempt(self, step: Callable[[], None]) -> None:
        """Runs a step; what it leaves undone is noted."""
        try:
            step()
        except (Again, OSError) as why:
            self.leave(f'{why}; tried again in the next run')
        except Stopped as why:
            self.leave(str(why))
        except Exception:
            self.leave('a fault of the exchange itself')
            raise

    def open(self) -> None:
        self.opened = Inbox(self.ours.folder, self.ours.outbox, self.code)

    def fetch_state(self) -> None:
        self.peer.begin()
        self.state = self.peer.fetch_state(self.ours.code)
        if self.opened:
            self.opened.update(self.state)

    # ---------------------------------------------------------------- its notices for us

    def collect(self) -> None:
        """Delivers what waits and may go in now, then what has come for us."""
        if self.opened is None:
            return
        for step in (self.deliver_again, self.verify_last, self.fetch, self.fetch_accounts,
                     self.log_waiting, self.log_ours):
            self.attempt(step)
        self.peer.close()

    def deliver_again(self) -> None:
        """Delivers what was refused for a reason that goes away."""
        for position, of in self.inbox.in_order():
            if of['became'].removeprefix('refused: ').split()[0] in PASSING:
                self.deliver(position, self.inbox.text_at(position) or '', of['released'])

    def verify_last(self) -> None:
        """What was imported last is in our registry; else all is delivered anew."""
        last = self.inbox.last_imported()
        if last is None:
            return
        if last.text is None:
            self.inbox.begin_anew()
            self.log('what was fetched from it is lost: all its notices are delivered anew')
            return
        notice = parse_notice(last.text)
        found = self.ours.registry.certificate(notice.parts[0].first)
        seen = f'{last.position} {found["place"]} {found.get("act", 0)}' if found else ''
        if found and (seen == self.inbox.record.proved or self.is_known(notice)):
            self.inbox.record.proved = seen
            self.inbox.write()
            return
        self.inbox.begin_anew()
        self.leave(f'our registry does not have its notice {notice.number}, which was imported: is '
                   'it an older copy? All its notices are delivered anew')

    def is_known(self, notice: Notice) -> bool:
        try:
            return self.ours.registry.import_notice(notice) == 'repeated'
        except Refused:
            return False

    def verify_state(self, state: State) -> None:
        """Stops where the peer is not as we know it."""
        record, shown = self.inbox.record, state['outbox']
        release = ('Nothing is taken from it until you release it, once its operator says that all '
                   f'is in order: exchange --accept-generation {self.code} {state["generation"]}')
        if state['restoring']:
            raise Stopped('it has gone back to a copy and is not whole again; nothing is taken '
                          'from it until it is')
        if state['generation'] != record.generation:
            raise Stopped(f'it is of generation {state["generation"]}, and we knew generation '
                          f'{record.generation}: it went back to a copy. {release}')
        if shown['highest'] < record.highest:
            raise Stopped(f'it shows {shown["highest"]} notices for us and has shown '
                          f'{record.highest}. {release}')
        if shown['highest'] == record.highest and shown['chain'] != record.chain:
            self.find_changed()
        if record.changed:
            raise Stopped(f'its notice at position {record.changed} is no more the one that we '
                          f'fetched there. {release}')

    def find_changed(self) -> None:
        """Notes the first position where it shows another text than we have fetched."""
        record = self.inbox.record
        for position in range(1, record.highest + 1):
            if self.peer.fetch_notice(position).text != self.inbox.text_at(position):
                record.changed = str(position)
                break
        else:
            record.chain = self.inbox.chain_fetched()
        self.inbox.write()

    def fetch(self) -> None:
        """Fetches and delivers one notice after another, up to the last that its state has."""
        if self.state is None:
            return
        inbox = self.inbox
        self.peer.begin()
        self.verify_state(self.state)
        highest, cursor = self.state['outbox']['highest'], inbox.record.cursor
        for position in range(cursor + 1, min(highest, cursor + MOST) + 1):
            if len(inbox.waiting) >= MOST_WAITING or inbox.bytes_waiting() >= MOST_BYTES_WAITING:
                raise Stopped(f'{len(inbox.waiting)} of its notices wait to be settled; no more '
                              'are taken until some are')
            found = self.peer.fetch_notice(position)
            if inbox.is_settled(position, found.text):
                inbox.record.cursor = position
                inbox.write()
                continue
            was_imported = inbox.was_imported(position, found.text)
            inbox.write_fetched(position, found.text, found.signature)
            self.deliver(position, found.text, was_imported)
        self.verify_state(self.state)

    def fetch_accounts(self) -> None:
        """Keeps the accounts that it publishes, or that it publishes none."""
        if self.state is None:
            return
        self.peer.begin()
        kept, shown = Kept(self.ours.folder, self.code), self.peer.fetch_accounts(self.ours.code)
        kept.write(shown)

    def deliver(self, position: int, text: str, is_released: bool = False) -> None:
        """Imports a notice that was fetched, and notes what became of it."""
        before = self.inbox.waiting.get(str(position))
        of = Waiting(number=None, became='', why='', released=is_released)
        try:
            notice = parse_notice(text)
            of['number'] = notice.number
            of['why'] = self.reason_to_hold(notice, is_released)
            of['became'] = self.import_or_hold(notice, position, of['why'])
        except Refused as refusal:
            of['became'] = f'refused: {refusal}'
            if not before or before['became'] != of['became']:
                self.log(f'notice {of["number"] or "?"} (position {position}): refused, {refusal}; '
                         f'kept in {self.inbox.refused}')
        self.inbox.write_result(position, of)

    def reason_to_hold(self, notice: Notice, is_released: bool) -> str:
        """Why a notice is held; nothing where it is not."""
        if notice.sender != self.code:
            raise Refused('WrongSender')
        return '' if is_released else self.doubt_about(notice)

    def import_or_hold(self, notice: Notice, position: int, why: str) -> str:
        """Imports a notice where nothing speaks against it: `held` where something does."""
        if why:
            self.log(f'notice {notice.number} (position {position}): held, since {why}. Once you '
                     f'know that it is right: exchange --release {self.code} {position}')
            return 'held'
        outcome = self.ours.registry.import_notice(notice)
        self.log(f'notice {notice.number}: {outcome}, {notice.count} certificates')
        self.energy_of_imported().add(notice)
        return 'accepted'

    def doubt_about(self, notice: Notice) -> str:
        """Why a notice is held, by all that we have sent up to now, published or not, and by what
        devices can make."""
        sent = list(self.ours.outbox.sent)
        while text := self.ours.registry.notice(sent[-1].number + 1 if sent else 1):
            sent.append(parse_notice(text))
        return (doubt_about(notice, self.code, self.ours.code, sent)
                or self.energy_of_imported().doubt_about(notice))

    def energy_of_imported(self) -> Energy:
        """The certificates of each lot of the peer's own devices that were imported up to now."""
        if self.energy is None:
            self.energy = Energy(self.code)
            for text in self.inbox.imported_texts():
                with contextlib.suppress(Refused):      # a file that was damaged since
                    self.energy.add(parse_notice(text))
        return self.energy

    def log_waiting(self) -> None:
        """Leaves what waits for the operator."""
        for position, of in self.inbox.in_order():
            why = f', since {of["why"]}' if of['why'] else ''
            self.leave(f'notice {of["number"] or "?"} (position {position}) waits: '
                       f'{of["became"]}{why}')

    # ---------------------------------------------------------------- our notices for it

    def log_ours(self) -> None:
        """Leaves what became of ours there, where somebody has to see to it."""
        known, outbox = self.inbox.known, self.ours.outbox
        if not known:
            return
        if known['generation'] > self.ours.generation:
            self.leave(f'it knows generation {known["generation"]} of ours, and we are of '
                       f'{self.ours.generation}: say exchange --generation '
                       f'{known["generation"] + 1} if our registry went back to a copy')
        elif known['highest'] and outbox.chain(self.code, known['highest']) != known['chain']:
            self.leave(f'it has {known["highest"]} notices of ours, and they are not those that we '
                       'published: is our registry an older copy? Then say exchange --generation '
                       f'{self.ours.generation + 1}')
        for position, of in sorted((int(at), of) for at, of in known['refused'].items()):
            if not of['settled']:
                ours = outbox.of(self.code)[position - 1:position]
                number = ours[0].number if ours and ours[0] else '?'
                self.leave(f'our notice {number} (position {position}) waits there: '
                           f'{of["became"]}')
