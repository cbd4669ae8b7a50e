#!/usr/bin/python3
"""What goo-people costs in front of the log: processor time of the question who is there, and requests a second through the front door.

usage: python3 bench/people.py [REQUESTS]

A house of service/tests/house.py stands on this machine with its limits opened, and `ab` of apache2-utils asks it through TLS, over 16 connections that go on: a file behind the sign-in, which costs
nginx and the question alone, a read of the registry, and a write, which the gate judges, with a session and with a token each. Beside it the file way, where nginx compares a password once in half a
minute. The processor time is that of all processes of goo-people-who, of goo-people-gate, of nginx and of `ab`, by /proc. The first line is the question alone, in one process.
"""
import os
import re
import subprocess
import sys
import time
from pathlib import Path

HERE = Path(__file__).resolve().parent
sys.dont_write_bytecode = True
sys.path[:0] = [str(HERE.parent / part) for part in ('service/tests', 'tools/lib', 'service')]
from client import basic
from goo_service.people import who
from house import House

AT_ONCE = 16
PATHS = {'a file': '/openapi.yaml', 'a read': '/v1/certificates/1', 'a write': '/v1/requests'}
PARTS = 'who', 'gate', 'nginx'
WRITE = b'{"command":"open_holder","key":"bench","holder":"BENCH","name":"Bench"}'
TICK = os.sysconf('SC_CLK_TCK')


def spent(processes):
    """Processor seconds of these processes and of those that they have started."""
    total = 0
    for number in processes:
        fields = Path(f'/proc/{number}/stat').read_text().rpartition(')')[2].split()
        total += int(fields[11]) + int(fields[12])
    return total / TICK


def asked(house, path, count, *fields):
    """Requests a second, and processor milliseconds a request of each part and of ab. What is written is the same each time: the registry repeats its answer."""
    parts = {name: house.parts[name].processes() for name in PARTS if name in house.parts}
    before = {name: spent(numbers) for name, numbers in parts.items()}
    words = [word for field in fields for word in ('-H', field)]
    if path == PATHS['a write']:
        (body := house.folder / 'write').write_bytes(WRITE)
        words += ['-p', str(body), '-T', 'application/json']
    begun, ab = time.monotonic(), os.times().children_user + os.times().children_system
    done = subprocess.run(['ab', '-q', '-k', '-l', '-n', str(count), '-c', str(AT_ONCE), *words, f'https://localhost:{house.port}{path}'], capture_output=True, text=True, check=True)
    seconds, ab = time.monotonic() - begun, os.times().children_user + os.times().children_system - ab
    refused = re.search(r'Non-2xx responses: +(\d+)', done.stdout)
    if refused and path != PATHS['a read']:
        sys.exit(f'{refused[1]} of {count} were not answered: {done.stdout}')
    return count / seconds, *(1000 * (spent(parts[name]) - before[name]) / count if name in parts else None for name in PARTS), 1000 * ab / count


def row(name, what, found):
    rate, *costs, ab = found
    told = ' | '.join('' if cost is None else f'{cost:.2f}' for cost in costs)
    print(f'| {name} | {what} | {rate:,.0f} | {told} | {sum(cost or 0 for cost in costs):.2f} | {ab:.2f} |', flush=True)


def alone(house, name, shown, count):
    """The question in this process: the smallest of ten runs."""
    door, best = who.Door(house.people.path), 1e9
    for _ in range(10):
        begun = time.process_time()
        for _ in range(count // 10):
            door.answer(who.Asked.of({**shown, 'GOO-Method': 'GET'}))
        best = min(best, (time.process_time() - begun) / (count // 10))
    print(f'the question alone, in one process, by a {name}: {1000 * best:.3f} ms of processor time')


def main():
    count = int(sys.argv[1]) if len(sys.argv) > 1 else 4000
    print(f'load {os.getloadavg()[0]:.1f} at the beginning, {os.cpu_count()} processors')
    with House(people=True, rate=10_000) as house:
        office, token = house.people.sign_in('office'), house.users['office']
        cookie = f'__Host-goo={office.cookie}'
        ways = {'session': (f'Cookie: {cookie}', f'GOO-CSRF: {office.csrf}'), 'token': (f'Authorization: Bearer {token}',)}
        alone(house, 'session', {'Cookie': cookie}, count)
        alone(house, 'token', {'Authorization': f'Bearer {token}'}, count)
        print('\n| Signed in by | Asks for | a second | goo-people-who, ms a request | goo-people-gate, ms | nginx, ms | these together, ms | ab, ms |\n|---|---|---|---|---|---|---|---|')
        for name, fields in ways.items():
            for what, path in PATHS.items():
                row(name, what, asked(house, path, count, *fields))
    with House(rate=10_000) as house:
        field = f'Authorization: Basic {basic("office", house.users["office"])}'
        for what, path in PATHS.items():
            row('a password of the files', what, asked(house, path, count, field))


if __name__ == '__main__':
    main()
