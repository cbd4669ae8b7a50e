"""The rules on holders and their accounts."""
from goo_service.rules.certificates import HELD
from goo_service.rules.certificates import Place
from goo_service.rules.commands import Command
from goo_service.rules.commands import ISSUER
from goo_service.rules.refusals import must
from goo_service.rules.replies import Answer
from goo_service.rules.state import State


def open_holder(state: State, caller: str, of: Command) -> Answer:
    must(caller == ISSUER, 'NotAllowed')
    must(of['holder'] not in state.holders and of['holder'] != ISSUER, 'HolderExists')
    state.holders[of['holder']] = of['name']
    return 1, 0, 0, 0


def open_account(state: State, caller: str, of: Command) -> Answer:
    must(caller == ISSUER, 'NotAllowed')
    must(of['holder'] in state.holders, 'UnknownHolder')
    number = state.number('account')
    state.accounts[number] = (of['holder'], 0)
    return 2, number, 0, 0


def close_account(state: State, caller: str, of: Command) -> Answer:
    account = of['account']
    must(caller in (ISSUER, state.holder_of(account)), 'NotAllowed')
    state.must_be_open(account)
    must(state.certificates.counts[Place(HELD, account, 0)] == 0, 'AccountNotEmpty')
    state.accounts[account] = (state.accounts[account][0], 1)
    return 1, 0, 0, 0
