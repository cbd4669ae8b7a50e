"""The rules on devices, on what they produced, and on its correction."""
from typing import Any

from goo_service.rules.commands import Command
from goo_service.rules.commands import ISSUER
from goo_service.rules.days import hours
from goo_service.rules.days import is_past
from goo_service.rules.days import months_after
from goo_service.rules.lots import ELECTRICITY
from goo_service.rules.lots import Lot
from goo_service.rules.lots import MWH
from goo_service.rules.lots import PLANT
from goo_service.rules.lots import SERIALS
from goo_service.rules.moves import withdraw_runs
from goo_service.rules.refusals import least
from goo_service.rules.refusals import must
from goo_service.rules.refusals import must_none
from goo_service.rules.replies import Answer
from goo_service.rules.state import State

MOST_SERIAL = SERIALS - 1


def register_device(state: State, caller: str, of: Command) -> Answer:
    must(caller == ISSUER, 'NotAllowed')
    must(of['device'] not in state.devices, 'DeviceExists')
    state.must_be_open(of['account'])
    state.devices[of['device']] = {
        'carrier': ELECTRICITY, **of, 'last_day': None, 'carry': 0, 'declared': 0, 'less': 0,
        'issued': 0, 'corrected': 0}
    return 1, 0, 0, 0


def declare(state: State, caller: str, of: Command) -> Answer:
    must(caller == ISSUER, 'NotAllowed')
    must(of['device'] in state.devices, 'UnknownDevice')
    device, net = state.devices[of['device']], of['gross_wh'] - of['aux_wh']
    must_be_declarable(state, device, of)
    first_day, last_day = of['first_day'], of['last_day']
    due, carry = divmod(device['carry'] + net, MWH)
    serial = state.number('serial', due, MOST_SERIAL)
    state.declarations.append((of['device'], first_day, last_day, of['gross_wh'], of['aux_wh']))
    state.left[of['device'], first_day] = net
    device.update(last_day=last_day, carry=carry, declared=device['declared'] + net,
                  issued=device['issued'] + due)
    if due == 0:
        return 3, carry, 0, 0
    first = state.code * SERIALS + serial
    plant = {member: device[member] for member in (*PLANT, 'carrier')}
    lot = Lot(origin=state.code, device=of['device'], first_day=first_day, last_day=last_day,
              issued_on=state.today, **plant)
    state.bring(first, first + due - 1, lot, device['account'])
    return 3, carry, first, first + due - 1


def must_be_declarable(state: State, device: dict[str, Any], of: Command) -> None:
    """The checks of a declaration, once its device is known."""
    first_day, last_day = of['first_day'], of['last_day']
    state.must_be_open(device['account'])
    must(first_day <= last_day and first_day[:7] == last_day[:7], 'PeriodSpan')
    must(last_day < state.today, 'FuturePeriod')
    must(first_day >= device['commissioned'], 'BeforeCommissioning')
    must(device['last_day'] is None or first_day > device['last_day'], 'PeriodOrder')
    must(not is_past(months_after(last_day, 18), state.today), 'Stale')
    must(of['gross_wh'] >= of['aux_wh'], 'AuxExceedsGross')
    must(of['gross_wh'] <= device['capacity_w'] * hours(first_day, last_day), 'OverCapacity')


def correct(state: State, caller: str, of: Command) -> Answer:
    must(caller == ISSUER, 'NotAllowed')
    must(of['device'] in state.devices, 'UnknownDevice')
    device, less = state.devices[of['device']], of['less_wh']
    period = of['device'], of['first_day']
    must(period in state.left, 'UnknownDeclaration')
    must(less <= state.left[period], 'OverCorrected')
    excess, carry = -((device['carry'] - less) // MWH), (device['carry'] - less) % MWH
    first, last = (int(of['first']), int(of['last'])) if of['first'] else (1, 0)
    must(last - first + 1 == excess, 'WrongCount')
    act = 0
    if excess:
        must_none(least(number for number, _, lot, _ in state.known_runs(first, last)
                        if (lot.origin, lot.device) != (state.code, of['device'])),
                  'OtherDevice')
        act = withdraw_runs(state, state.held_runs(first, last), first, last, of['reason'])
    state.left[period] -= less
    state.corrections.append((*period, less, act))
    device.update(carry=carry, less=device['less'] + less,
                  corrected=device['corrected'] + excess)
    return 10, carry, excess, act
