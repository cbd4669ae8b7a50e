"""Prints the request lines of one kind: what comes before, and then N requests of that kind, each of which a new registry answers as it should.

usage: python3 bench/kinds.py KIND N      (N up to 20; with 0 only what comes before)

The kinds are the thirteen commands, `repeat` (a transfer under its key again) and `refuse` (a transfer that is not the caller's to ask for).
"""
import sys

from workloads import ISSUING_BODY, certificate, device_number, line, months, registration

MOST = 20
LOT = {'capacity_w': 2_000_000, 'commissioned': '2020-06-15', 'country': 'DE', 'issued_on': '2024-03-01', 'origin': 9, 'site': 'South',
       'source': 'F01010100', 'support': 'none', 'tech': 'T010000'}


def before():
    """Two holders with an account each, a device, its June, twenty accounts that nobody needs, and another registry."""
    for code in ('SUN', 'VOLT'):
        yield line(ISSUING_BODY, command='open_holder', holder=code, key=f'h{code}', name=f'Holder {code}')
        yield line(ISSUING_BODY, command='open_account', holder=code, key=f'a{code}')
    yield registration(device_number(1), 'r1', 2_000_000)
    yield list(months(device_number(1), 1))[5]
    for number in range(MOST):
        yield line(ISSUING_BODY, command='open_account', holder='SUN', key=f'spare{number}')
    yield line(ISSUING_BODY, command='add_peer', key='peer9', peer=9)


def transfer(at, key, caller='SUN'):
    """Ten certificates from the midst of what the first account holds, so that a row is cut in three."""
    return line(caller, command='transfer', first=certificate(20 * at + 10), giver=1, key=key, last=certificate(20 * at + 19), taker=2)


def declaration(at):
    if at < 6:
        return list(months(device_number(1), 1))[at + 6]
    return line(ISSUING_BODY, aux_wh=0, command='declare', device=device_number(1), first_day=f'2025-01-{at:02d}', gross_wh=12_345_678,
                key=f'd2.{at}', last_day=f'2025-01-{at:02d}')


def notice(at):
    lot = dict(LOT, device=device_number(900 + at), first_day='2024-01-01', last_day='2024-01-31')
    part = {'first': f'09{10 * at + 1:012d}', 'last': f'09{10 * at + 10:012d}', 'lot': lot}
    return {'account': 1, 'addressee': 7, 'number': at + 1, 'parts': [part], 'sender': 9, 'version': 1}


KINDS = {
    'open_holder': lambda at: line(ISSUING_BODY, command='open_holder', holder=f'NEW{at}', key=f'n{at}', name=f'Holder {at}'),
    'open_account': lambda at: line(ISSUING_BODY, command='open_account', holder='SUN', key=f'n{at}'),
    'close_account': lambda at: line(ISSUING_BODY, account=3 + at, command='close_account', key=f'n{at}'),
    'register_device': lambda at: registration(device_number(100 + at), f'n{at}', 2_000_000),
    'declare': declaration,
    'correct': lambda at: line(ISSUING_BODY, command='correct', device=device_number(1), first=certificate(20 * at + 10), first_day='2024-06-01', key=f'n{at}',
                               last=certificate(20 * at + 19), less_wh=10_000_000, reason='meter read twice'),
    'transfer': lambda at: transfer(at, f'n{at}'),
    'cancel': lambda at: line('SUN', account=1, beneficiary='Town hall', command='cancel', first=certificate(20 * at + 10), key=f'n{at}',
                              last=certificate(20 * at + 19), use_first='2024-06-01', use_last='2024-06-30'),
    'withdraw': lambda at: line(ISSUING_BODY, command='withdraw', first=certificate(20 * at + 10), key=f'n{at}', last=certificate(20 * at + 19),
                                reason='meter read twice'),
    'advance': lambda at: line(ISSUING_BODY, command='advance', day=f'2025-03-{at + 2:02d}', key=f'n{at}'),
    'add_peer': lambda at: line(ISSUING_BODY, command='add_peer', key=f'n{at}', peer=20 + at),
    'export': lambda at: line('SUN', account=5, command='export', first=certificate(20 * at + 10), giver=1, key=f'n{at}',
                              last=certificate(20 * at + 19), peer=9),
    'import': lambda at: line(ISSUING_BODY, command='import', key=f'n{at}', notice=notice(at)),
    'repeat': lambda at: transfer(MOST, 'again'),
    'refuse': lambda at: transfer(at, f'n{at}', 'VOLT'),
}


def lines(kind, count):
    yield from before()
    if kind == 'repeat':
        yield transfer(MOST, 'again')
    for at in range(count):
        yield KINDS[kind](at)


if __name__ == '__main__':
    if len(sys.argv) != 3 or sys.argv[1] not in KINDS or int(sys.argv[2]) > MOST:
        sys.exit(__doc__)
    for request in lines(sys.argv[1], int(sys.argv[2])):
        print(request)
