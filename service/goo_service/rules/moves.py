"""The rules on transfer, cancellation and withdrawal, and on expiry as the date moves."""
from goo_service.rules.certificates import CANCELLED
from goo_service.rules.certificates import EXPIRED
from goo_service.rules.certificates import HELD
from goo_service.rules.certificates import Run
from goo_service.rules.certificates import WITHDRAWN
from goo_service.rules.commands import Command
from goo_service.rules.commands import ISSUER
from goo_service.rules.days import is_past
from goo_service.rules.lots import Lot
from goo_service.rules.refusals import must
from goo_service.rules.replies import Answer
from goo_service.rules.state import State


def transfer(state: State, caller: str, of: Command) -> Answer:
    must(caller == state.holder_of(of['giver']), 'NotAllowed')
    must(of['giver'] != of['taker'], 'SameAccount')
    state.must_be_open(of['taker'])
    runs = state.tradable(int(of['first']), int(of['last']), of['giver'])
    return 4, state.certificates.move(runs, HELD, account=of['taker']), 0, 0


def cancel(state: State, caller: str, of: Command) -> Answer:
    must(caller == state.holder_of(of['account']), 'NotAllowed')
    must(of['use_first'] <= of['use_last'], 'UsePeriod')
    first, last = int(of['first']), int(of['last'])
    runs = state.held_runs(first, last, of['account'])
    act = state.number('cancellation')
    state.cancellations[act] = (of['account'], first, last, of['beneficiary'], of['use_first'],
                                of['use_last'], state.today)
    return 5, act, state.certificates.move(runs, CANCELLED, act), 0


def withdraw(state: State, caller: str, of: Command) -> Answer:
    must(caller == ISSUER, 'NotAllowed')
    first, last = int(of['first']), int(of['last'])
    act = withdraw_runs(state, state.held_runs(first, last), first, last, of['reason'])
    return 6, act, last - first + 1, 0


def withdraw_runs(state: State, runs: list[Run], first: int, last: int, reason: str) -> int:
    """Withdraws certificates; the number of the act."""
    act = state.number('withdrawal')
    state.withdrawals[act] = (first, last, reason, state.today)
    state.certificates.move(runs, WITHDRAWN, act)
    return act


def advance(state: State, caller: str, of: Command) -> Answer:
    must(caller == ISSUER, 'NotAllowed')
    must(of['day'] > state.today, 'DateBackwards')
    state.today = of['day']
    over = [deadline for deadline in state.expiring if is_past(deadline, state.today)]
    # nothing with these deadlines can come in any more
    brought = [span for deadline in over for span in state.expiring.pop(deadline)]
    return 7, sum(expire(state, *span) for span in brought), 0, 0


def expire(state: State, first: int, last: int, lot: Lot) -> int:
    """Has the certificates of a lot expire that are held; how many they are."""
    held = [run for run in state.certificates.within(first, last)
            if run[2] == lot and run[3].kind == HELD]
    return state.certificates.move(held, EXPIRED)
