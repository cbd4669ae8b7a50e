"""What is shown of a run: our state for each peer, signed, and state.json for the programs of this
host."""
import json
from collections.abc import Iterator
from typing import Any

from goo_service.common.files import write_whole
from goo_service.exchange.accounts import Kept
from goo_service.exchange.common import Again
from goo_service.exchange.common import Notice
from goo_service.exchange.common import Refused
from goo_service.exchange.common import compact
from goo_service.exchange.common import parse_notice
from goo_service.exchange.common import read_text
from goo_service.exchange.inbox import Inbox
from goo_service.exchange.inbox import now
from goo_service.exchange.ours import Ours
from goo_service.exchange.states import Incoming
from goo_service.exchange.states import Known
from goo_service.exchange.states import Record
from goo_service.exchange.states import State
from goo_service.exchange.visit import Visit

Row = dict[str, Any]
NOTHING = Incoming(generation=0, highest=0, chain='', refused={})


def write_states(ours: Ours, visits: list[Visit]) -> None:
    """Our state for each peer, where it has changed."""
    inboxes = {visit.code: visit.opened for visit in visits}
    for peer in sorted({*inboxes, *ours.outbox.notices}):
        inbox = inboxes.get(peer)
        if peer in inboxes and inbox is None:
            continue            # what we have of it isn't known: it goes by what we showed last
        text = compact(state_of(ours, peer, inbox.state_for_peer() if inbox else NOTHING))
        if read_text(ours.outbox.place(peer, 'state')) != text:
            ours.outbox.write(peer, 'state', text)


def state_of(ours: Ours, peer: int, incoming: Incoming) -> State:
    """What we show to a peer."""
    highest = ours.outbox.highest(peer)
    chain = ours.outbox.chain(peer, highest) or ''
    return State(sender=ours.code, addressee=peer, generation=ours.generation,
                 restoring=ours.restoring, outbox={'highest': highest, 'chain': chain},
                 inbox=incoming)


def row_of(position: int, notice: Notice | None, became: str, is_settled: bool = True) -> Row:
    """One notice, as state.json has it."""
    row: Row = {'position': position, 'number': None, 'became': became, 'settled': is_settled}
    if notice:
        parts = [{'first': f'{part.first:014}', 'last': f'{part.last:014}'}
                 for part in notice.parts]
        row.update(number=notice.number, account=notice.account, certificates=notice.count,
                   parts=parts)
    return row


def sent_rows(ours: Ours, peer: int, known: Known) -> Iterator[Row]:
    """What we sent to a peer, each with what became of it there."""
    for position, notice in enumerate(ours.outbox.of(peer), 1):
        has_come = position <= known.get('highest', 0)
        of = known.get('refused', {}).get(str(position))
        if of:
            yield row_of(position, notice, of['became'], of['settled'])
        else:
            yield row_of(position, notice, 'accepted' if has_come else 'published', has_come)


def received_rows(inbox: Inbox) -> Iterator[Row]:
    """What a peer sent to us, each with what became of it here."""
    record = inbox.record
    for position in range(1, record.highest + 1):
        try:
            notice = parse_notice(inbox.text_at(position) or '')
        except (Refused, Again):
            notice = None
        of = record.waiting.get(str(position)) or record.settled.get(str(position))
        became = 'accepted' if position <= record.cursor else 'fetched'
        row = row_of(position, notice, of['became'] if of else became,
                     str(position) not in record.waiting)
        yield {**row, 'why': of['why'] if of else ''}


def write_report(ours: Ours, visits: list[Visit], left: list[str]) -> None:
    """FOLDER/state.json, whole or not at all."""
    by_code = {visit.code: visit for visit in visits}
    peers = [peer_of(ours, peer, by_code.get(peer))
             for peer in sorted({*by_code, *ours.outbox.notices})]
    report = {'registry': ours.code, 'generation': ours.generation, 'restoring': ours.restoring,
              'written': now(), 'trouble': left, 'peers': peers}
    write_whole(ours.folder / 'state.json', json.dumps(report, indent=1, sort_keys=True) + '\n')


def peer_of(ours: Ours, peer: int, visit: Visit | None) -> Row:
    """One peer, as state.json has it."""
    inbox = visit.opened if visit else None
    of = inbox.record if inbox else Record()
    return {'registry': peer, 'generation': of.generation, 'contact': of.contact or None,
            'trouble': visit.left if visit else [], 'sent': list(sent_rows(ours, peer, of.told)),
            'received': list(received_rows(inbox)) if inbox else [],
            'accounts': Kept(ours.folder, peer).read()}
