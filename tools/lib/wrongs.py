"""Stand-ins for the registry's program, each with one thing wrong: for tools/trials/wrong-programs.

Each function below is one wrong thing. Its mark says what it changes and which tool has to catch it:

- `outcome`: the text of an outcome, of a line or over HTTP;
- `request`: a command, before the program reads it;
- `text`: a statement, an audit, a document, a notice or a certificate that is shown;
- `response`: the bytes of an answer over HTTP;
- `program`: anything else; the function runs the program itself.
"""
import os
import re
import sys

WRONG = {}
"""Each wrong thing by its name: its kind, its function and the command line of the tool that catches it."""
TOUCHED = {'outcome': ('run', 'serve'), 'request': ('run', 'serve'), 'text': ('statement', 'audit', 'serve'), 'response': ('serve',)}
"""The commands that a kind of wrong thing changes. All others are the program's own."""
BY_CHANCE = 'hostile-bytes --quick --seed 1 --only'
CASES, TABLES = 'on-a-file --only cases/one-run', 'on-a-file --only tables/every-row'
REFUSED, ACCEPTED = b'"outcome":"refused"', b'{"outcome":"accepted"'


def wrong(kind, catcher):
    """Marks a function as a wrong thing of a kind, which this tool has to catch."""
    def mark(function):
        WRONG[function.__name__.replace('_', '-')] = kind, function, catcher.split()
        return function
    return mark


def numbers(command):
    """How many certificates the range of a command has."""
    return int(command['last']) - int(command['first']) + 1


# Outcomes

@wrong('outcome', f'{BY_CHANCE} histories')
def a_closed_trade_is_accepted(text):
    return ACCEPTED + b',"reply":{"count":1}}' if b'"code":18,' in text else text


@wrong('outcome', f'{BY_CHANCE} histories')
def not_held_is_told_as_unknown(text):
    return text.replace(b'"code":17,"name":"NotHeld"', b'"code":16,"name":"UnknownNumber"')


@wrong('outcome', f'{BY_CHANCE} histories')
def a_refused_number_is_one_too_high(text):
    return re.sub(rb'"number":"(\d{14})"', lambda found: b'"number":"%014d"' % (int(found[1]) + 1), text)


@wrong('outcome', f'{BY_CHANCE} requests')
def a_refused_number_is_one_too_high_over_http(text):
    return a_refused_number_is_one_too_high(text)


@wrong('outcome', 'worked-requests')
def every_refusal_is_accepted(text):
    return ACCEPTED + b',"reply":{}}' if REFUSED in text else text


@wrong('outcome', 'worked-requests')
def a_repeat_is_told_as_new(text):
    return text.replace(b'"outcome":"repeated"', b'"outcome":"accepted"')


@wrong('outcome', 'worked-requests')
def the_first_digits_of_a_count_are_exchanged(text):
    return re.sub(rb'("(?:count|carry)":)(\d)(\d)', rb'\1\3\2', text)


@wrong('outcome', f'{BY_CHANCE} bodies')
def a_wrong_value_is_told_as_a_wrong_shape(text):
    return text.replace(b'"fault":"Field"', b'"fault":"Shape"')


# Requests

@wrong('request', f'{BY_CHANCE} histories')
def a_fifth_of_transfers_is_refused(command):
    if command['command'] == 'transfer' and int(command['first']) % 5 == 3:
        command['first'] = command['last'] = '07999999999998'


@wrong('request', CASES)
def many_certificates_go_to_another_account(command):
    if command['command'] == 'transfer' and numbers(command) >= 50 and command['giver'] == 1:
        command['taker'] = 3 if command['taker'] == 2 else 2


@wrong('request', 'storms --quick --only disk/lines/kill')
def of_a_hundred_certificates_one_stays(command):
    if command['command'] == 'transfer' and numbers(command) == 100:
        command['last'] = f'{int(command["last"]) - 1:014}'


@wrong('request', 'worked-requests')
def a_watt_hour_is_lost(command):
    if command['command'] == 'declare' and command['gross_wh'] % 1000 == 999:
        command['gross_wh'] -= 1


@wrong('request', CASES)
def the_date_is_a_day_late(command):
    if command['command'] == 'advance':
        import datetime
        command['day'] = (datetime.date.fromisoformat(command['day']) + datetime.timedelta(1)).isoformat()


@wrong('request', f'{BY_CHANCE} notices')
def gas_comes_in_as_hydrogen(command):
    for part in command['notice']['parts'] if command['command'] == 'import' else ():
        if part['lot'].get('carrier') == 'gas':
            part['lot']['carrier'] = 'hydrogen'


@wrong('request', TABLES)
def a_reason_is_not_kept(command):
    if command['command'] in ('withdraw', 'correct'):
        command['reason'] = 'x'


@wrong('request', TABLES)
def a_beneficiary_is_not_kept(command):
    if command['command'] == 'cancel':
        command['beneficiary'] = 'x'


@wrong('request', f'{BY_CHANCE} lines')
def a_key_of_three_letters_is_cut(command):
    if len(command['key']) == 3:
        command['key'] = command['key'][:2]


# Texts

@wrong('text', 'over-http --only cases/memory')
def a_statement_lacks_its_last_run(text):
    return without_run(text, -1, 1)


@wrong('text', f'{BY_CHANCE} histories')
def a_long_statement_lacks_a_run(text):
    return without_run(text, 2, 5)


@wrong('text', 'on-a-file --only texts/statements-of-many-rows')
def a_statement_of_two_pages_lacks_a_run(text):
    return without_run(text, 258, 515)


def without_run(text, at, least):
    """A statement of so many runs at least without one of them."""
    lines = text.split(b'\n')
    runs = [place for place, line in enumerate(lines) if re.match(rb'\d{14} \d{14} ', line)]
    if text.startswith(b'STATEMENT') and len(runs) >= least:
        del lines[runs[at]]
    return b'\n'.join(lines)


@wrong('text', f'{BY_CHANCE} histories')
def a_statement_counts_nothing_exported(text):
    return re.sub(rb'(?m)^exported \d+$', b'exported 0', text) if text.startswith(b'STATEMENT') else text


@wrong('text', f'{BY_CHANCE} histories')
def an_audit_is_one_too_high(text):
    return re.sub(rb'(?m)^(\d{18} \d+ \d+) (\d+)', lambda found: found[1] + b' %d' % (int(found[2]) + 1), text)


@wrong('text', 'on-a-file --only cases/audit')
def an_audit_lacks_its_last_device(text):
    return re.sub(rb'\d{18}( \d+){5}\n\Z', b'', text) if text.count(b'\n') > 1 else text


@wrong('text', 'over-http --only cases/memory --only openapi')
def a_document_has_another_period(text):
    return re.sub(rb'(?m)^period .*$', b'period 2025-01-01 2025-01-01', text)


@wrong('text', 'over-http --only openapi')
def a_notice_goes_to_another_account(text):
    return re.sub(rb'^\{"account":(\d+),"addressee"', lambda found: b'{"account":%d,"addressee"' % (int(found[1]) + 1), text)


@wrong('text', 'over-http --only openapi')
def a_held_certificate_is_shown_as_expired(text):
    return re.sub(rb'"place":"held"\}$', b'"place":"expired"}', text)


@wrong('response', 'over-http --only openapi')
def a_refusal_has_status_200(answer):
    return answer.replace(b'HTTP/1.1 409 Conflict', b'HTTP/1.1 200 OK', 1)


# The program

@wrong('program', CASES)
def the_last_line_is_answered_and_not_kept(real, words):
    return without_last(real, words, 'run', b'\n')


@wrong('program', f'{BY_CHANCE} tables')
def the_last_row_is_answered_and_not_kept(real, words):
    return without_last(real, words, 'declare', b'\r\n')


def without_last(real, words, command, ends):
    """Answers over a copy of the file, and gives the file itself all lines but the last."""
    import shutil
    import tempfile
    if words[:1] != [command] or '--db' not in words or not os.path.isfile(words[words.index('--db') + 1]):
        os.execv(real, [real, *words])
    file, given = words[words.index('--db') + 1], sys.stdin.buffer.read()
    with tempfile.TemporaryDirectory() as place:
        copy = shutil.copy(file, f'{place}/copy')
        came = ran(real, [copy if word == file else word for word in words], given)
    ran(real, words, given.rstrip(ends).rpartition(b'\n')[0] + b'\n')
    return shown(came)


@wrong('program', CASES)
def every_run_ends_with_status_0(real, words):
    status, out, told = ran(real, words, sys.stdin.buffer.read())
    return shown((0 if status == 1 else status, out, told))


@wrong('program', TABLES)
def a_row_is_written_otherwise(real, words):
    if words[:1] != ['run'] or '--db' not in words:
        os.execv(real, [real, *words])
    import sqlite3
    came = ran(real, words, sys.stdin.buffer.read())
    with sqlite3.connect(words[words.index('--db') + 1]) as database:
        database.execute('UPDATE cancellation SET use_last = use_first')
    database.close()
    return shown(came)


@wrong('program', 'damaged-tables --quick --seed 1 --only cells')
def damage_is_passed_over(real, words):
    if words[:1] not in (['audit'], ['statement'], ['run']):
        os.execv(real, [real, *words])
    status, out, told = ran(real, words, sys.stdin.buffer.read() if words[:1] == ['run'] else b'')
    return shown((0, out, b'') if told == b'goo: damaged\n' else (status, out, told))


@wrong('program', CASES)
def init_is_no_command(real, words):
    if words[:1] == ['init']:
        return shown((2, b'', b'goo: no such command\n'))
    return os.execv(real, [real, *words])


@wrong('program', 'storms --quick --only disk/lines/power')
def nothing_is_synced(real, words):
    library = os.path.join(os.path.dirname(os.path.realpath(sys.argv[0])), 'nosync.so')
    os.environ['LD_PRELOAD'] = ':'.join(filter(None, [library, os.environ.get('LD_PRELOAD')]))
    return os.execv(real, [real, *words])


NO_SYNC = 'int fsync(int file) { (void)file; return 0; }\nint fdatasync(int file) { (void)file; return 0; }\n'
"""The library of a machine on which nothing is synced."""


# The stand-in

def ran(real, words, given):
    """Runs the program to its end; it ends with the stand-in."""
    import subprocess
    done = subprocess.run(['setpriv', '--pdeathsig', 'KILL', real, *words], input=given, capture_output=True, check=False)
    return done.returncode, done.stdout, done.stderr


def shown(came):
    """Prints what came, and gives the status, or ends by the same signal."""
    status, out, told = came
    sys.stdout.buffer.write(out)
    sys.stdout.buffer.flush()
    sys.stderr.buffer.write(told)
    sys.stderr.buffer.flush()
    if status < 0:
        os.kill(os.getpid(), -status)
    return status


def changed_body(body, function):
    """The body of a request with its command changed; as it is where it can't be read."""
    import json
    try:
        command = json.loads(body)
        function(command)
    except (ValueError, TypeError, KeyError, AttributeError):
        return body
    return json.dumps(command, ensure_ascii=False).encode()


def changed_line(line, function):
    """The same of a line."""
    caller, space, body = line.partition(b' ')
    return caller + space + changed_body(body, function) if space else line


def with_length(head, body):
    """Bytes with a head that tells how long the body is."""
    return re.sub(rb'(?i)(content-length): *\d+', rb'\1: %d' % len(body), head) + b'\r\n\r\n' + body


def changed_request(request, function):
    """The bytes of a connection with its command changed."""
    head, end, body = request.partition(b'\r\n\r\n')
    is_one = head.startswith(b'POST /v1/requests ') and re.search(rb'(?i)content-length: *%d\b' % len(body), head)
    return with_length(head, changed_body(body, function)) if is_one else request


def changed_answer(answer, kind, function):
    """The bytes of an answer with what is wrong."""
    if kind == 'response':
        return function(answer)
    head, end, body = answer.partition(b'\r\n\r\n')
    is_outcome = b'"outcome":"' in body[:120] or b'"fault":"' in body[:20]
    new = function(body) if end and is_outcome == (kind == 'outcome') else body
    if new == body:
        return answer
    line = b'HTTP/1.1 200 OK' if new.startswith(ACCEPTED) else head.split(b'\r\n')[0]
    return with_length(line + head[head.find(b'\r\n'):], new)


def whole_request(stream):
    """The bytes of a request, up to its end or that of the stream."""
    request = b''
    while part := stream.recv(65536):
        request += part
        head, end, body = request.partition(b'\r\n\r\n')
        length = re.search(rb'(?i)\r\ncontent-length: *(\d{1,9})\b', head)
        if end and len(body) >= (int(length[1]) if length else 0):
            break
    return request


def relayed(stream, port, kind, function):
    """Hands a connection on to the program, with what is wrong. By sockets of its own: a stand-in begins hundreds of times, and loads no module that it can do without."""
    import socket
    try:
        with stream, socket.create_connection(('127.0.0.1', port)) as inner:
            request = whole_request(stream)
            inner.sendall(changed_request(request, function) if kind == 'request' else request)
            inner.shutdown(socket.SHUT_WR)
            answer = b''.join(iter(lambda: inner.recv(65536), b''))
            stream.sendall(changed_answer(answer, kind, function) if kind != 'request' else answer)
    except OSError:     # one of the two has gone
        pass


def serve(real, words, kind, function):
    """Serves at the port that is asked for, in front of the program at another one."""
    import signal
    import socket
    import subprocess
    import threading
    at = words.index('--port') + 1
    outer = socket.create_server(('127.0.0.1', int(words[at])), backlog=128)
    with socket.create_server(('127.0.0.1', 0)) as free:
        port = free.getsockname()[1]
    process = subprocess.Popen(['setpriv', '--pdeathsig', 'KILL', real, *words[:at], str(port), *words[at + 1:]], stdout=subprocess.PIPE)
    signal.signal(signal.SIGTERM, lambda *_: process.terminate())
    sys.stdout.buffer.write(process.stdout.readline().replace(b':%d' % port, b':' + words[at].encode()))
    sys.stdout.buffer.flush()

    def accept():
        while True:
            stream = outer.accept()[0]
            relays.append(threading.Thread(target=relayed, args=(stream, port, kind, function)))
            relays[-1].start()

    relays = []
    threading.Thread(target=accept, daemon=True).start()
    status = process.wait()
    for relay in relays:
        relay.join(2)
    sys.stdout.flush()
    os._exit(status if status >= 0 else 128 - status)


def stand_in(name, real, words):
    """Runs the program with one thing wrong, or with nothing wrong where no name is given; gives the exit status."""
    kind, function, _ = WRONG.get(name, ('outcome', lambda text: text, None))
    if kind == 'program':
        return function(real, words)
    if not words or words[0] not in TOUCHED[kind] or '--help' in words:
        os.execv(real, [real, *words])
    if words[0] == 'serve':
        serve(real, words, kind, function)
    given = sys.stdin.buffer.read() if words[0] == 'run' else b''
    if kind == 'request':
        given = b'\n'.join(changed_line(line, function) for line in given.split(b'\n'))
    status, out, told = ran(real, words, given)
    if kind == 'outcome':
        out = b'\n'.join(function(line) if line else line for line in out.split(b'\n'))
        status = int(REFUSED in out or b'"unreadable"' in out) if status in (0, 1) else status
    return shown((status, function(out) if kind == 'text' else out, told))
