"""Prints the request lines of a workload, deterministic by its seed. Each request is one that a new registry accepts.

usage: python3 bench/workloads.py (declarations|trades|devices|table|rows|runs) N

declarations: devices, each with the twelve months of 2024 declared, N lines in all.
trades:       1,200,000 certificates of one lot, N transfers of random sub-ranges of at most 51 among 50 accounts, and then
              a cancellation for every tenth of them.
devices:      what a registry needs before a table of N rows.
table:        such a table as CSV: the twelve months of 2024 of each of these devices.
rows:         the rows of that table as request lines.
runs:         certificates of one lot, every second of which goes to another account: N runs in the first account; ten of them to a third one.
"""
import calendar
import json
import random
import sys

ACCOUNTS = 50
CERTIFICATES = 1_200_000
TEN = 10
"""Runs of the third account, whatever the others have."""
ISSUING_BODY = 'ISSUER'


def line(caller, **fields):
    """One request as the program reads it."""
    return f'{caller} {json.dumps(fields, separators=(",", ":"))}'


def device_number(index):
    """A GSRN with its check digit: weights 3, 1, 3, 1, .. from the right."""
    digits = f'50000000{index:09d}'
    total = sum(int(digit) * (3 if place % 2 == 0 else 1) for place, digit in enumerate(reversed(digits)))
    return digits + str(-total % 10)


def certificate(serial):
    return f'07{serial:012d}'


def registration(device, key, capacity_w):
    return line(ISSUING_BODY, account=1, capacity_w=capacity_w, command='register_device', commissioned='2020-06-15', country='DE',
                device=device, key=key, site='North', source='F01010100', support='none', tech='T010000')


def holders(count):
    for number in range(1, count + 1):
        yield line(ISSUING_BODY, command='open_holder', holder=f'H{number}', key=f'h{number}', name=f'Holder {number}')
        yield line(ISSUING_BODY, command='open_account', holder=f'H{number}', key=f'a{number}')


def months(device, index, most=12):
    """The twelve months of 2024 of one device, 1,234 certificates and a carry each."""
    for month in range(1, most + 1):
        last = calendar.monthrange(2024, month)[1]
        yield line(ISSUING_BODY, aux_wh=0, command='declare', device=device, first_day=f'2024-{month:02d}-01',
                   gross_wh=1_234_567_891, key=f'd{index}.{month}', last_day=f'2024-{month:02d}-{last}')


def declarations(count):
    yield from holders(1)
    for index in range(1, count // 13 + 1):
        device = device_number(index)
        yield registration(device, f'r{index}', 2_000_000)
        yield from months(device, index)


def trades(count):
    chance = random.Random(7)
    yield from holders(ACCOUNTS)
    device = device_number(1)
    yield registration(device, 'r', 100_000_000_000)
    yield line(ISSUING_BODY, aux_wh=0, command='declare', device=device, first_day='2025-01-01', gross_wh=CERTIFICATES * 1_000_000,
               key='d', last_day='2025-01-31')
    rows = [(1, CERTIFICATES, 1)]
    for number in range(count):
        place = chance.randrange(len(rows))
        row_first, row_last, giver = rows[place]
        first = chance.randint(row_first, row_last)
        last = chance.randint(first, min(row_last, first + 50))
        taker = chance.randint(1, ACCOUNTS)
        taker = taker % ACCOUNTS + 1 if taker == giver else taker
        yield line(f'H{giver}', command='transfer', first=certificate(first), giver=giver, key=f't{number}',
                   last=certificate(last), taker=taker)
        rows[place:place + 1] = [row for row in ((row_first, first - 1, giver), (first, last, taker), (last + 1, row_last, giver))
                                 if row[0] <= row[1]]
    for number in range(count // 10):
        first, last, account = rows.pop(chance.randrange(len(rows)))
        yield line(f'H{account}', account=account, beneficiary='Town hall', command='cancel', first=certificate(first),
                   key=f'c{number}', last=certificate(last), use_first='2025-01-01', use_last='2025-01-31')


def devices(rows):
    yield from holders(1)
    for index in range(1, rows // 12 + 2):
        yield registration(device_number(index), f'r{index}', 2_000_000)


def table(rows):
    yield 'key,device,first_day,last_day,gross_wh,aux_wh'
    for row in range(rows):
        index, month = row // 12 + 1, row % 12 + 1
        last = calendar.monthrange(2024, month)[1]
        yield f'd{index}.{month},{device_number(index)},2024-{month:02d}-01,2024-{month:02d}-{last},1234567891,0'


def rows_as_lines(rows):
    for index in range(rows // 12 + 1):
        yield from months(device_number(index + 1), index + 1, min(12, rows - 12 * index))


def runs(count):
    yield from holders(3)
    device = device_number(1)
    yield registration(device, 'r', 100_000_000_000)
    yield line(ISSUING_BODY, aux_wh=0, command='declare', device=device, first_day='2025-01-01', gross_wh=2 * count * 1_000_000, key='d', last_day='2025-01-31')
    for index in range(count):
        number = certificate(2 * index + 2)
        yield line('H1', command='transfer', first=number, giver=1, key=f't{index}', last=number, taker=3 if index < TEN else 2)


WORKLOADS = {'declarations': declarations, 'trades': trades, 'devices': devices, 'table': table, 'rows': rows_as_lines, 'runs': runs}

if __name__ == '__main__':
    if len(sys.argv) != 3 or sys.argv[1] not in WORKLOADS:
        sys.exit(__doc__)
    for request in WORKLOADS[sys.argv[1]](int(sys.argv[2])):
        print(request)
