"""A run of the exchange: with all peers at the same time, so that none waits for another."""
import argparse
import functools
import threading
from collections.abc import Callable

from goo_service.exchange import accounts
from goo_service.exchange import orders
from goo_service.exchange.common import Again
from goo_service.exchange.common import log
from goo_service.exchange.ours import Ours
from goo_service.exchange.peer import Peer
from goo_service.exchange.report import write_report
from goo_service.exchange.report import write_states
from goo_service.exchange.restored import Generation
from goo_service.exchange.restored import Restoring
from goo_service.exchange.visit import Visit


def with_each(visits: list[Visit], step: Callable[[Visit], None]) -> None:
    """A step with all peers at the same time."""
    threads = [threading.Thread(target=visit.attempt, args=(functools.partial(step, visit),))
               for visit in visits]
    for thread in threads:
        thread.start()
    for thread in threads:
        thread.join()


def is_known(ours: Ours, visits: list[Visit], generation: Generation,
             given: argparse.Namespace) -> bool:
    """Whether it is known which generation our registry is of. Else the operator has to say it."""
    if given.new:
        generation.begin_first()
    elif given.generation:
        generation.begin(given.generation)
    elif generation.number is None:
        if has_exchanged(ours, visits):
            log(f'{ours.folder} is new, and our registry has exchanged notices before. Did it go '
                'back to a copy? Then say: exchange --generation 2 (one more than its last one, '
                'which its peers know). If it never exchanged anything by this program, say: '
                'exchange --new')
            return False
        generation.begin_first()
    ours.generation, ours.restoring = generation.number or 0, generation.to_be is not None
    return not ours.restoring or generation.is_shown() or is_newer(ours, visits, generation)


def has_exchanged(ours: Ours, visits: list[Visit]) -> bool:
    """Whether our registry exchanged notices of which the folder knows nothing."""
    if any(ours.outbox.notices.values()):
        return False
    known = any(visit.state and visit.state['inbox']['generation'] for visit in visits)
    return bool(known or ours.registry.notice(1) or ours.registry.has_foreign())


def is_newer(ours: Ours, visits: list[Visit], generation: Generation) -> bool:
    """Whether no peer knows the generation that our registry is to be of."""
    without = generation.left_out()
    known = max((visit.inbox.known.get('generation', 0) for visit in visits
                 if visit.opened and visit.code not in without), default=0)
    if known >= ours.generation:
        log(f'our registry is to be of generation {ours.generation}, and a peer knows generation '
            f'{known} of it already: say exchange --generation {known + 1}')
        return False
    return True


def restore(ours: Ours, visits: list[Visit], generation: Generation) -> list[str]:
    """One step towards a whole registry; what is left on our side."""
    restoring = Restoring(ours, visits, generation.left_out())
    log(f'our registry went back to a copy, and is of generation {ours.generation}: nothing new is '
        'published until it has again what the others have of it')
    with_each(visits, restoring.fetch_wanted)
    restoring.want_published()
    lacking = restoring.lacking()
    if lacking:
        with_each(visits, lambda visit: restoring.import_needed(visit, lacking))
    restoring.leave_lacking(lacking)
    if restoring.is_whole():
        restoring.finish(generation)
        ours.restoring = False
        return []
    return restoring.left


def publish(ours: Ours, anew: bool) -> list[str]:
    """Publishes our notices; what is left."""
    for file in ours.outbox.damaged_files():
        log(f'{file} is damaged or not signed: made anew from our registry')
    for line in ours.outbox.publish(ours.registry, anew):
        log(line)
    return [f'{file} is no notice of our registry: take it away'
            for file in ours.outbox.damaged_files()]


def exchange(ours: Ours, visits: list[Visit], generation: Generation) -> list[str]:
    """Publishes ours and collects theirs. What is left beside what is left with peers."""
    was_restoring = ours.restoring
    if ours.restoring:
        left = restore(ours, visits, generation)
        if ours.restoring:
            return left
    ahead = ours.outbox.is_ahead_of(ours.registry)
    if ahead:
        ours.restoring = True
        log(f'notice {ahead} was published and our registry does not have it: is the database an '
            f'older copy? Then say exchange --generation {ours.generation + 1}; nothing is '
            'published or imported')
        return [f'notice {ahead} is lost']
    left = publish(ours, was_restoring)
    left += accounts.publish(ours.directory, ours.outbox, [visit.code for visit in visits])
    if not was_restoring:
        with_each(visits, Visit.collect)
    return left


def exchange_or_leave(ours: Ours, visits: list[Visit], generation: Generation) -> list[str]:
    """The same. What keeps us from publishing is left for the next run."""
    try:
        return exchange(ours, visits, generation)
    except (Again, OSError) as why:
        log(f'publishing: {why}; tried again in the next run')
        return [str(why)]


def run(ours: Ours, peers: list[Peer], given: argparse.Namespace) -> int:
    """Does what was ordered, shows it to peers and to this host; the exit status."""
    generation = Generation(ours.folder)
    visits = [Visit(ours, peer) for peer in peers]
    for visit in visits:
        visit.attempt(visit.open)
    ours.generation, ours.restoring = generation.number or 0, generation.to_be is not None
    left: list[str] = []
    if orders.is_given(given):
        orders.carry_out(given, ours, visits)
    else:
        if given.without:
            generation.leave_out(given.without)
        with_each(visits, Visit.fetch_state)
        if not is_known(ours, visits, generation, given):
            return 1
        left = exchange_or_leave(ours, visits, generation)
    if ours.generation:
        write_states(ours, visits)
        if generation.to_be is not None:
            generation.note_shown()
        write_report(ours, visits, left)
    return 1 if left or any(visit.left for visit in visits) else 0
