"""Connections a second of `goo serve`, beside the plain registry in Rust as a server (plain.rs), asked by wrk.

usage: python3 bench/connections.py [SECONDS]

One client of wrk asks for SECONDS (2) for each of: `GET /v1/certificates/..` and `POST /v1/requests`, each of these a new holder under a key of its own, with the
registry in memory, on tmpfs and on a disk. goo serves a connection a request. The other server is asked in the same way, and then with connections that go on. The three take turns,
three times; of each the best counts. All of it stays on 127.0.0.1.
"""
import json
import os
import re
import select
import shutil
import subprocess
import sys
from contextlib import contextmanager

from measured import NEW, PROGRAM, goo, head, machine, peak, ratio, room, row, rust, say, usable
from client import CLOSE, answered, free_port, post

HEAD = ['Connections', 'Where', 'goo: a second', 'Processor seconds per 1,000', 'Peak MB', 'Rust: a second', 'Ratio', 'Processor seconds per 1,000', 'Ratio',
        'Rust, connections that go on: a second', 'Ratio']
WORKS = [('look', 'memory'), ('request', 'memory'), ('request', 'tmpfs'), ('request', 'disk')]
TURNS = 3
DEVICE = '500000000000000012'
BEGINNING = [
    {'command': 'open_holder', 'holder': 'SUN', 'key': 'a1', 'name': 'Sun Power'},
    {'command': 'open_account', 'holder': 'SUN', 'key': 'a2'},
    {'command': 'register_device', 'account': 1, 'capacity_w': 2_000_000, 'commissioned': '2020-06-15', 'country': 'DE', 'device': DEVICE, 'key': 'a3',
     'site': 'North field', 'source': 'F01010100', 'support': 'none', 'tech': 'T010000'},
    {'command': 'declare', 'aux_wh': 0, 'device': DEVICE, 'first_day': '2025-01-01', 'gross_wh': 1_000_000_000, 'key': 'a4', 'last_day': '2025-01-31'},
]
SCRIPTS = {'look': '''
function request()
  return wrk.format("GET", "/v1/certificates/07000000000001", {["GOO-Caller"] = "SUN", ["Connection"] = CONNECTION})
end
''', 'request': '''
local number = 0
function request()
  number = number + 1
  local body = string.format('{"command":"open_holder","holder":"H%d","key":"h%d","name":"Holder"}', number, number)
  return wrk.format("POST", "/v1/requests", {["GOO-Caller"] = "ISSUER", ["Connection"] = CONNECTION}, body)
end
'''}


def begin(port):
    """Asks for what a registry begins with."""
    for body in BEGINNING:
        status, _, answer = answered(port, post(json.dumps(body), more=[CLOSE]))
        if (status, b'"outcome":"accepted"' in answer) != (200, True):
            sys.exit(f'{body} was answered {status} {answer!r}')


def asked_by_wrk(port, kind, connection, seconds, folder):
    """How many requests wrk had answered, and how many a second; each answer has status 200."""
    script = folder / 'script.lua'
    script.write_text(SCRIPTS[kind].replace('CONNECTION', json.dumps(connection)), encoding='utf-8')
    words = ['wrk', '--threads', '1', '--connections', '1', '--duration', f'{seconds}s', '--script', str(script), f'http://127.0.0.1:{port}']
    told = subprocess.run(words, capture_output=True, text=True, timeout=seconds + 60, check=True).stdout
    count, rate = re.search(r'(\d+) requests in', told), re.search(r'Requests/sec: +([\d.]+)', told)
    if not count or not rate or 'Non-2xx' in told:
        sys.exit(f'wrk told {told}')
    return int(count[1]), float(rate[1])


@contextmanager
def serving(words, spent):
    """A server that says on its first line when it listens; in the end adds its processor seconds and its peak memory in MB to a list."""
    server = subprocess.Popen(words, stdout=subprocess.PIPE)
    try:
        if not select.select([server.stdout], [], [], 30)[0] or not server.stdout.readline().startswith(b'listening'):
            sys.exit(f'{words} does not listen')
        yield
    finally:
        memory = peak(server.pid)
        server.kill()
        server.stdout.close()
        _, status, used = os.wait4(server.pid, 0)
        server.returncode = os.waitstatus_to_exitcode(status)
        spent += [used.ru_utime + used.ru_stime, memory]


def measured(words, port, kind, connection, seconds, folder):
    """Requests a second of a server, its processor seconds for a thousand of them, and its peak memory in MB."""
    spent = []
    with serving(words, spent):
        begin(port)
        count, rate = asked_by_wrk(port, kind, connection, seconds, folder)
    return rate, 1_000 * spent[0] / count, spent[1]


def of_goo(place, kind, seconds, folder):
    path, port = folder / 'registry', free_port()
    where = ['--memory', *NEW]
    if place != 'memory':
        goo('init', '--db', path, *NEW)
        where = ['--db', path]
    return measured([PROGRAM, 'serve', *map(str, where), '--port', str(port), '--count', '1000000'], port, kind, 'close', seconds, folder)


def of_rust(place, kind, connection, seconds, folder):
    port = free_port()
    return measured([*rust(), *([] if place == 'memory' else [str(folder / 'rust')]), '--serve', str(port)], port, kind, connection, seconds, folder)[:2]


def measure(kind, place, seconds):
    turns = []
    for _ in range(TURNS):
        with room(place) as folder:
            rate, spent, memory = of_goo(place, kind, seconds, folder)
        others = []
        for connection in ('close', 'keep-alive') if rust() else ():
            with room(place) as folder:
                other, taken = of_rust(place, kind, connection, seconds, folder)
                others += [other, -taken]
        turns.append((rate, -spent, -memory, *others))
    rate, spent, memory, *others = (max(column) for column in zip(*turns))
    row([f'{kind}s', place, f'{rate:,.0f}', f'{-spent:.3f}', f'{-memory:.0f}', *beside_rust(rate, spent, *others)])


def beside_rust(rate, spent, *others):
    """The cells of the other server: its rate and its processor seconds, and those of goo beside them; then its rate over connections that go on. Seconds are negative here."""
    if not others:
        return [''] * 6
    closing, taken, going_on, _ = others
    return [f'{closing:,.0f}', ratio(rate, closing), f'{-taken:.3f}', ratio(spent, taken), f'{going_on:,.0f}', ratio(rate, going_on)]


def main(seconds=2):
    if not shutil.which('wrk'):
        say('no wrk: connections are not measured')
        return
    for kind, place in WORKS:
        if usable(place):
            measure(kind, place, seconds)


if __name__ == '__main__':
    if len(sys.argv) > 2 or not all(word.isdigit() for word in sys.argv[1:]):
        sys.exit(__doc__)
    print(f'{machine()}\n')
    head(HEAD)
    main(*map(int, sys.argv[1:]))
