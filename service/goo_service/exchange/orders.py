"""What an operator orders by the words of the command. ValueError where an order does not fit."""
import argparse

from goo_service.exchange.ours import Ours
from goo_service.exchange.states import Waiting
from goo_service.exchange.visit import Visit


def visit_of(visits: list[Visit], code: int) -> Visit:
    """The visit of a registry whose record can be read."""
    visit = next((visit for visit in visits if visit.code == code), None)
    if visit is None:
        raise ValueError(f'registry {code} has no section in the configuration')
    if visit.opened is None:
        raise ValueError(visit.left[0])
    return visit


def waiting_at(visit: Visit, position: int) -> Waiting:
    """The notice that waits at a position."""
    if str(position) not in visit.inbox.waiting:
        raise ValueError(f'no notice of registry {visit.code} waits at position {position}')
    return visit.inbox.waiting[str(position)]


def release(visits: list[Visit], code: int, position: int) -> None:
    """Imports a notice that is held."""
    visit = visit_of(visits, code)
    if waiting_at(visit, position)['became'] != 'held':
        raise ValueError(f'the notice of registry {code} at position {position} is not held')
    visit.attempt(lambda: visit.deliver(position, visit.inbox.text_at(position) or '', True))


def settle(visits: list[Visit], code: int, position: int) -> None:
    """A notice waits no more, and is not imported."""
    visit = visit_of(visits, code)
    of = waiting_at(visit, position)
    visit.inbox.settle(position)
    visit.log(f'notice {of["number"] or "?"} (position {position}): settled, {of["became"]}')


def deliver_refused(visit: Visit) -> None:
    """Delivers what was refused once more."""
    for position, of in visit.inbox.in_order():
        if of['became'] != 'held':
            visit.attempt(lambda position=position, of=of: visit.deliver(   # type: ignore[misc]
                position, visit.inbox.text_at(position) or '', of['released']))


def accept_generation(visits: list[Visit], code: int, number: int) -> None:
    """A registry that went back to a copy is in order again."""
    visit = visit_of(visits, code)
    if number != visit.inbox.record.seen:
        raise ValueError(f'registry {code} showed generation {visit.inbox.record.seen} last')
    if visit.inbox.known.get('restoring'):
        raise ValueError(f'registry {code} is not whole again: wait until it is')
    visit.inbox.accept(number)
    visit.log(f'generation {number} is accepted; the next run reads all its notices anew')


def is_given(given: argparse.Namespace) -> bool:
    """Whether there is an order, after which no run follows."""
    return bool(given.release or given.settle or given.accept_generation or given.again)


def carry_out(given: argparse.Namespace, ours: Ours, visits: list[Visit]) -> None:
    """Carries out an order, and shows what waits then."""
    ours.restoring = ours.restoring or ours.outbox.is_ahead_of(ours.registry) is not None
    if ours.restoring and (given.release or given.again):
        raise ValueError('our registry went back to a copy and is not whole again: nothing is '
                         'imported until it is')
    opened = [visit for visit in visits if visit.opened]
    if given.release:
        release(visits, *given.release)
    elif given.settle:
        settle(visits, *given.settle)
    elif given.accept_generation:
        accept_generation(visits, *given.accept_generation)
    elif given.again:
        for visit in opened:
            deliver_refused(visit)
    for visit in opened:
        visit.log_waiting()
