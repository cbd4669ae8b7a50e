"""The rules on certificates that go to another registry and come from one."""
from collections.abc import Iterator
from collections.abc import Sequence
from typing import Any

from goo_service.rules.certificates import EXPORTED
from goo_service.rules.certificates import Run
from goo_service.rules.certificates import absent
from goo_service.rules.certificates import join_runs
from goo_service.rules.commands import Command
from goo_service.rules.commands import ISSUER
from goo_service.rules.commands import compact
from goo_service.rules.lots import ELECTRICITY
from goo_service.rules.lots import Lot
from goo_service.rules.refusals import Again
from goo_service.rules.refusals import least
from goo_service.rules.refusals import must
from goo_service.rules.refusals import must_none
from goo_service.rules.replies import Answer
from goo_service.rules.state import State

MOST_PARTS = 100


def add_peer(state: State, caller: str, of: Command) -> Answer:
    must(caller == ISSUER, 'NotAllowed')
    must(of['peer'] not in state.peers and of['peer'] != state.code, 'PeerExists')
    state.peers.add(of['peer'])
    return 1, 0, 0, 0


def export(state: State, caller: str, of: Command) -> Answer:
    must(caller == state.holder_of(of['giver']), 'NotAllowed')
    must(of['peer'] in state.peers, 'UnknownPeer')
    runs = state.tradable(int(of['first']), int(of['last']), of['giver'])
    parts = join_runs(run[:3] for run in runs)
    must(len(parts) <= MOST_PARTS, 'TooManyParts')
    act = state.number('notice')
    text = notice_text(state.code, of['peer'], act, of['account'], parts)
    state.sent[act] = (of['giver'], text)
    return 8, act, state.certificates.move(runs, EXPORTED, act), 0


def import_notice(state: State, caller: str, of: Command) -> Answer:
    notice = of['notice']
    source, text = (notice['sender'], notice['number']), compact(notice)
    count = sum(int(part['last']) - int(part['first']) + 1 for part in notice['parts'])
    answer = 9, count, 0, 0
    must(caller == ISSUER, 'NotAllowed')
    must(notice['addressee'] == state.code, 'WrongRegistry')
    must(notice['sender'] in state.peers, 'UnknownPeer')
    if state.taken.get(source) == text:
        raise Again(answer)
    must(source not in state.taken, 'NoticeConflict')
    state.must_be_open(notice['account'])
    for first, last, lot in arriving_parts(state, notice['parts']):
        state.bring(first, last, lot, notice['account'])
    state.taken[source] = text
    return answer


def arriving_parts(state: State, parts: list[dict[str, Any]]) -> list[tuple[int, int, Lot]]:
    """The range and the lot of each part of a notice, where all may come in."""
    arriving = [(int(part['first']), int(part['last']), Lot.parse(part['lot']))
                for part in parts]
    met = [(*each, state.certificates.within(*each[:2])) for each in arriving]
    must(not any(lot.is_over(state.today) for _, _, lot in arriving), 'Stale')
    must_none(least(number for first, last, lot, runs in met if lot.origin == state.code
                    for number in absent(runs, first, last)), 'UnknownNumber')
    must_none(least(number for *_, runs in met for number, _, _, place in runs
                    if place.kind != EXPORTED), 'NumberTaken')
    must_none(least(number for first, _, lot, runs in met
                    for number in differing_numbers(state, first, lot, runs)), 'LotDiffers')
    return arriving


def differing_numbers(state: State, first: int, lot: Lot, runs: list[Run]) -> Iterator[int]:
    """The numbers of a part whose lot, or whose own content, is known to be another."""
    if state.lots.get(lot.key, lot) != lot:
        yield first
    yield from (number for number, _, known, _ in runs if known != lot)


def notice_text(sender: int, addressee: int, number: int, account: int,
                parts: Sequence[tuple[Any, ...]]) -> str:
    """The text of a notice; its version is 2 where a lot has another carrier than electricity."""
    version = 2 if any(lot.carrier != ELECTRICITY for *_, lot in parts) else 1
    stated = [{member: value for member, value in lot._asdict().items()
               if version == 2 or member != 'carrier'} for *_, lot in parts]
    ranges = [{'first': f'{first:014}', 'last': f'{last:014}', 'lot': lot}
              for (first, last, _), lot in zip(parts, stated)]
    return compact({'sender': sender, 'addressee': addressee, 'number': number, 'account': account,
                    'version': version, 'parts': ranges})
