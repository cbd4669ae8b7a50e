"""What bytes state by docs/FORMATS.md, read here a second time and apart from the program: JSON, bodies, notices, tables, heads of requests.

For tools/trials/hostile-bytes and tools/trials/damaged-tables, which compare the program's answers with these. Standard library alone.
"""
import calendar
import json
import re

CERTIFICATE = 1_000_000
SERIALS = 10 ** 12
LAST_ACT = 999_999_999
MOST_WH = 10 ** 15
MOST_WATTS = 10 ** 11
MOST_DEPTH = 127
MOST_HEAD, MOST_FIELDS, MOST_BODY = 8192, 32, 1_048_576
MOST_INPUT = 16_777_216
ISSUER = 'ISSUER'
ELECTRICITY = 'electricity'


# Texts and numbers

def is_word(pattern, most):
    """A reader that takes texts of ASCII of this pattern, and of at most so many bytes."""
    shape = re.compile(pattern)
    return lambda text: len(text.encode('utf-8', 'surrogatepass')) <= most and shape.fullmatch(text) is not None


is_holder = is_word('[A-Z0-9-]+', 16)
is_key = is_word('[A-Za-z0-9_.:-]+', 40)
is_country = is_word('[A-Z]{2}', 2)
is_tech = is_word('T[0-9]{6}', 7)
is_source = is_word('F[0-9]{8}', 9)
is_support = is_word('none|investment|production|both', 10)
is_carrier = is_word('electricity|gas|hydrogen|heating-cooling', 15)


def is_name(text):
    """1 to 64 bytes of text without control characters, and with no space at either end."""
    size = len(text.encode('utf-8', 'surrogatepass'))
    bad = any(ord(letter) < 32 or 127 <= ord(letter) < 160 or 0xD800 <= ord(letter) < 0xE000 for letter in text)
    return 1 <= size <= 64 and not bad and text[0] != ' ' and text[-1] != ' '


def with_check_digit(digits):
    """The device number of these seventeen digits."""
    return f'{digits}{-sum(int(digit) * (3, 1)[place % 2] for place, digit in enumerate(reversed(digits))) % 10}'


def is_gsrn(text):
    """Eighteen digits, the last one GS1's check digit."""
    if not re.fullmatch('[0-9]{18}', text):
        return False
    return (sum(int(digit) * (3, 1)[place % 2] for place, digit in enumerate(text[16::-1])) + int(text[17])) % 10 == 0


def day_in(text):
    """The year, the month and the day of 1900-01-01 to 2099-12-31, or None."""
    if not re.fullmatch('[0-9]{4}-[0-9]{2}-[0-9]{2}', text):
        return None
    year, month, day = int(text[:4]), int(text[5:7]), int(text[8:])
    good = 1900 <= year <= 2099 and 1 <= month <= 12 and 1 <= day <= calendar.monthrange(year, month)[1]
    return (year, month, day) if good else None


def is_day(text):
    """Whether it is the text of a day."""
    return day_in(text) is not None


def months_after(text, months):
    """The day so many months after, as a text; None after 2099."""
    year, month, day = day_in(text)
    year, month = divmod(year * 12 + month - 1 + months, 12)
    return f'{year}-{month + 1:02}-{min(day, calendar.monthrange(year, month + 1)[1]):02}' if year <= 2099 else None


def is_number(value):
    """Whether it is the number of a certificate: a code of 1 to 99, a serial of at least 1."""
    return 1 <= value // SERIALS <= 99 and value % SERIALS >= 1


def number_in(text):
    """The number of a certificate that fourteen digits state, or None."""
    return int(text) if re.fullmatch('[0-9]{14}', text) and is_number(int(text)) else None


def is_range(first, last):
    """Whether two numbers begin and end a range: in this order, and of one registry."""
    return is_number(first) and is_number(last) and first <= last and first // SERIALS == last // SERIALS


def within(low, high):
    """A reader of integers between two limits."""
    return lambda value: low <= value <= high


is_code, is_account, is_wh, is_watts = within(1, 99), within(1, LAST_ACT), within(0, MOST_WH), within(1, MOST_WATTS)


# JSON, as serde_json reads it

class Fault(Exception):
    """Bytes that state nothing; the word that tells why."""


NUMBER = re.compile(r'(-?)(0|[1-9][0-9]*)(\.[0-9]+)?([eE][+-]?[0-9]+)?')
PLAIN = re.compile(r'[^"\\\x00-\x1f]*')
HEX = re.compile('[0-9a-fA-F]{4}')
SHORT = {'"': '"', '\\': '\\', '/': '/', 'b': '\b', 'f': '\f', 'n': '\n', 'r': '\r', 't': '\t'}


class Json:
    """One reading of a text from its beginning to its end."""

    def __init__(self, text):
        self.text, self.at = text, 0

    def need(self, good):
        """Ends the reading where something isn't as it must be."""
        if not good:
            raise Fault('NotJson')

    def peek(self):
        """The next letter that is no white space, or nothing."""
        while self.at < len(self.text) and self.text[self.at] in ' \t\n\r':
            self.at += 1
        return self.text[self.at:self.at + 1]

    def whole(self):
        """The one value of the text."""
        value = self.value(0)
        self.need(self.peek() == '')
        return value

    def value(self, depth):
        """The next value, so deep inside others."""
        begins = self.peek()
        if begins == '"':
            return self.string()
        if begins in ('[', '{'):
            self.need(depth < MOST_DEPTH)
            self.at += 1
            return self.items(depth + 1) if begins == '[' else self.members(depth + 1)
        for word, value in (('null', None), ('true', True), ('false', False)):
            if self.text.startswith(word, self.at):
                self.at += len(word)
                return value
        return self.number()

    def number(self):
        """An int where it is a whole one of 64 bits, else a float."""
        found = NUMBER.match(self.text, self.at)
        self.need(found)
        self.at = found.end()
        sign, digits, point, exponent = found.groups()
        if not point and not exponent and len(digits) <= 20:
            value = int(digits)
            if value < 2 ** 64 if not sign else 0 < value <= 2 ** 63:
                return -value if sign else value
        value = float(found[0])
        self.need(abs(value) != float('inf'))
        return value

    def string(self):
        """A string; halves of a pair of surrogates alone are none."""
        self.at += 1
        parts = []
        while True:
            found = PLAIN.match(self.text, self.at)
            parts.append(found[0])
            self.at = found.end()
            mark = self.text[self.at:self.at + 2]
            if mark.startswith('"'):
                self.at += 1
                return ''.join(parts)
            self.need(len(mark) == 2 and mark[0] == '\\')
            self.at += 2
            parts.append(self.escaped() if mark[1] == 'u' else SHORT.get(mark[1], ''))
            self.need(parts[-1] != '')

    def escaped(self):
        """The letter of \\uXXXX, or of two of them."""
        code = self.four()
        if 0xD800 <= code < 0xDC00:
            self.need(self.text.startswith('\\u', self.at))
            self.at += 2
            low = self.four()
            self.need(0xDC00 <= low < 0xE000)
            return chr(0x10000 + (code - 0xD800) * 1024 + low - 0xDC00)
        self.need(not 0xDC00 <= code < 0xE000)
        return chr(code)

    def four(self):
        """What four hexadecimal digits state."""
        found = HEX.match(self.text, self.at)
        self.need(found)
        self.at += 4
        return int(found[0], 16)

    def items(self, depth):
        """The items of an array whose bracket was read."""
        found = []
        if self.peek() == ']':
            self.at += 1
            return found
        while True:
            found.append(self.value(depth))
            mark = self.peek()
            self.need(mark and mark in ',]')
            self.at += 1
            if mark == ']':
                return found

    def members(self, depth):
        """The members of an object whose brace was read; the last value of a key counts."""
        found = {}
        mark = self.peek()
        if mark == '}':
            self.at += 1
            return found
        while True:
            self.need(self.peek() == '"')
            key = self.string()
            self.need(self.peek() == ':')
            self.at += 1
            found[key] = self.value(depth)
            mark = self.peek()
            self.need(mark and mark in ',}')
            self.at += 1
            if mark == '}':
                return found


def json_in(data):
    """The value that bytes spell; Fault('NotJson')."""
    try:
        text = data.decode('utf-8')
    except UnicodeDecodeError:
        raise Fault('NotJson') from None
    return Json(text).whole()


def compact(value):
    """The one text of a value without floats: no spaces, keys in byte order."""
    return json.dumps(value, ensure_ascii=False, separators=(',', ':'), sort_keys=True)


# Commands and notices

LOT = {'capacity_w': is_watts, 'commissioned': is_day, 'country': is_country, 'device': is_gsrn, 'first_day': is_day, 'issued_on': is_day, 'last_day': is_day,
       'origin': is_code, 'site': is_name, 'source': is_source, 'support': is_support, 'tech': is_tech}
CARRIED_LOT = {**LOT, 'carrier': is_carrier}
"""A lot that states its carrier."""
COMMANDS = {
    'open_holder': {'holder': is_holder, 'name': is_name},
    'open_account': {'holder': is_holder},
    'close_account': {'account': is_account},
    'register_device': {'device': is_gsrn, 'account': is_account, 'country': is_country, 'site': is_name, 'tech': is_tech, 'source': is_source,
                        'capacity_w': is_watts, 'commissioned': is_day, 'support': is_support},
    'declare': {'device': is_gsrn, 'first_day': is_day, 'last_day': is_day, 'gross_wh': is_wh, 'aux_wh': is_wh},
    'correct': {'device': is_gsrn, 'first_day': is_day, 'less_wh': is_wh, 'first': None, 'last': None, 'reason': is_name},
    'transfer': {'giver': is_account, 'taker': is_account, 'first': None, 'last': None},
    'cancel': {'account': is_account, 'first': None, 'last': None, 'beneficiary': is_name, 'use_first': is_day, 'use_last': is_day},
    'withdraw': {'first': None, 'last': None, 'reason': is_name},
    'advance': {'day': is_day},
    'add_peer': {'peer': is_code},
    'export': {'giver': is_account, 'peer': is_code, 'account': is_account, 'first': None, 'last': None},
    'import': {'notice': None},
}
MAY_LACK = {'register_device': {'carrier': is_carrier}}
"""What a body of a command may leave out."""
INTEGERS = {'account', 'capacity_w', 'gross_wh', 'aux_wh', 'less_wh', 'giver', 'taker', 'peer', 'origin', 'sender', 'addressee', 'number', 'version'}
PLACES = ('held', 'cancelled', 'expired', 'withdrawn', 'exported')
NOTICE = {'sender': is_code, 'addressee': is_code, 'number': is_account, 'account': is_account, 'version': within(1, 2)}


def is_integer(value):
    """Whether JSON has a whole number here (Python takes a truth value for one too)."""
    return isinstance(value, int) and not isinstance(value, bool)


def need_shape(value, names):
    """An object of just these members, each a string or an integer as its name says; `notice`, `parts` and `lot` are looked at by others."""
    if not isinstance(value, dict) or set(value) != set(names):
        raise Fault('Shape')
    for name in names:
        kind = is_integer if name in INTEGERS else (lambda one: isinstance(one, str))
        if name not in ('notice', 'parts', 'lot') and not kind(value[name]):
            raise Fault('Shape')


def need_fields(value, readers):
    """Each value is one that its reader takes, and `first` and `last` are a range; both empty they are none, where a correction needs none."""
    for name, takes in readers.items():
        if takes is not None and not takes(value[name]):
            raise Fault('Field')
    if 'first' in value and not (value.get('command') == 'correct' and value['first'] == value['last'] == ''):
        ends = number_in(value['first']), number_in(value['last'])
        if None in ends or not is_range(*ends):
            raise Fault('Field')


def members_of(lot, version=None):
    """What a lot has to state in a notice of a version; where there is no such version it may state its carrier or not."""
    is_carried = {1: False, 2: True}.get(version, isinstance(lot, dict) and 'carrier' in lot)
    return CARRIED_LOT if is_carried else LOT


def need_notice_shape(value):
    """The shape of a notice, of its parts and of their lots."""
    need_shape(value, [*NOTICE, 'parts'])
    if not isinstance(value['parts'], list):
        raise Fault('Shape')
    for part in value['parts']:
        need_shape(part, ['first', 'last', 'lot'])
        need_shape(part['lot'], members_of(part['lot'], value['version']))


def is_lot(lot):
    """Whether the days of a lot are in order."""
    first, last = lot['first_day'], lot['last_day']
    return lot['commissioned'] <= first <= last < lot['issued_on'] and first[:7] == last[:7]


def lot_key(lot):
    """What a lot is known by."""
    return lot['origin'], lot['device'], lot['first_day']


def need_notice_fields(value):
    """The values of a notice of that shape, and its rules."""
    need_fields(value, NOTICE)
    known, before = {}, 0
    for part in value['parts']:
        need_fields(part, {})
        need_fields(part['lot'], members_of(part['lot']))
        first, last, lot = int(part['first']), int(part['last']), part['lot']
        if not is_lot(lot) or first // SERIALS != lot['origin'] or first <= before or known.setdefault(lot_key(lot), lot) != lot:
            raise Fault('Field')
        before = last
    if value['sender'] == value['addressee'] or not 1 <= len(value['parts']) <= 100:
        raise Fault('Field')


def without_electricity(value):
    """A lot or a registration without its carrier where that is electricity."""
    return {name: one for name, one in value.items() if (name, one) != ('carrier', ELECTRICITY)}


def written(notice):
    """A notice as it is written: of electricity alone in version 1."""
    parts = [{**part, 'lot': without_electricity(part['lot'])} for part in notice['parts']]
    return notice if any('carrier' in part['lot'] for part in parts) else {**notice, 'version': 1, 'parts': parts}


def notice_in(data):
    """The notice that bytes state; Fault with the word that tells why there is none."""
    value = json_in(data)
    need_notice_shape(value)
    need_notice_fields(value)
    if compact(written(value)).encode() != data:
        raise Fault('Canonical')
    return value


def body_in(data):
    """The key and the command that a body states, as the command's one text has it; Fault."""
    value = json_in(data)
    if not isinstance(value, dict) or not isinstance(value.get('command'), str) or value['command'] not in COMMANDS:
        raise Fault('Shape')
    may_lack = MAY_LACK.get(value['command'], {})
    readers = {**COMMANDS[value['command']], **{name: takes for name, takes in may_lack.items() if name in value}}
    need_shape(value, ['key', 'command', *readers])
    if 'notice' in readers:
        need_notice_shape(value['notice'])
        need_notice_fields(value['notice'])
        value['notice'] = written(value['notice'])
    need_fields(value, readers)
    if not is_key(value['key']):
        raise Fault('Field')
    return value['key'], without_electricity({name: one for name, one in value.items() if name != 'key'})


def ascii_of(data):
    """Bytes as a text whose letters are the bytes, for readers of ASCII."""
    return data.decode('latin-1')


def line_in(line):
    """The caller, the key and the command that a line states; Fault."""
    caller, space, body = line.partition(b' ')
    if not space or not is_holder(ascii_of(caller)):
        raise Fault('Caller')
    return (ascii_of(caller), *body_in(body))


def lines_in(data):
    """The lines of an input that are answered."""
    return [line for line in data.split(b'\n') if line]


# Tables of declarations, in the default dialect of the csv crate

HEADER = [b'key', b'device', b'first_day', b'last_day', b'gross_wh', b'aux_wh']


def records_in(data):
    """The records of a table: each a list of fields. Blank lines are passed over."""
    data = data[3:] if data.startswith(b'\xef\xbb\xbf') else data
    records, fields, field, state = [], [], bytearray(), 'record'
    for byte in data:
        if state == 'record':
            if byte in b'\r\n':
                continue
            state = 'field'
        if state == 'quoted':
            if byte == 34:
                state = 'closed'
            else:
                field.append(byte)
        elif byte == 34 and state in ('field', 'closed'):
            field += b'"' if state == 'closed' else b''
            state = 'quoted'
        elif byte == 44:
            fields.append(bytes(field))
            field, state = bytearray(), 'field'
        elif byte in b'\r\n':
            records.append([*fields, bytes(field)])
            fields, field, state = [], bytearray(), 'record'
        else:
            field.append(byte)
            state = 'plain'
    return records if state == 'record' else [*records, [*fields, bytes(field)]]


def is_csv_wh(text):
    """1 to 16 digits, at most 10^15."""
    return re.fullmatch('[0-9]{1,16}', text) is not None and int(text) <= MOST_WH


def row_in(fields):
    """The key and the declaration that a row states, or None."""
    readers = [is_key, is_gsrn, is_day, is_day, is_csv_wh, is_csv_wh]
    texts = [ascii_of(field) for field in fields]
    if len(texts) != 6 or not all(takes(text) for takes, text in zip(readers, texts)):
        return None
    return texts[0], {'command': 'declare', 'device': texts[1], 'first_day': texts[2], 'last_day': texts[3], 'gross_wh': int(texts[4]), 'aux_wh': int(texts[5])}


def table_in(data):
    """What each row of a table states, None for one that states nothing; None for a table without its header."""
    records = records_in(data)
    return [row_in(fields) for fields in records[1:]] if records[:1] == [HEADER] else None


# Heads of requests, as httparse reads them

START = re.compile(rb"(?:\r?\n)*([!#$%&'*+.^_`|~0-9A-Za-z-]+) ([^\x00-\x20\x7f]+) HTTP/1\.([01])\r?\n")
FIELD = re.compile(rb"([!#$%&'*+.^_`|~0-9A-Za-z-]+):([^\x00-\x08\x0a-\x1f\x7f]*)\r?\n")
END = re.compile(rb'\r?\n')


class Head:
    """A request's head and the bytes after it."""

    def __init__(self, method, target, minor, fields, rest):
        self.method, self.target, self.minor, self.fields, self.rest = method, target, minor, fields, rest

    def values(self, name):
        """The values of all fields of a name."""
        return [value for key, value in self.fields if key.lower() == name]


def head_in(data):
    """The head that bytes begin with, or None."""
    start = START.match(data)
    if not start:
        return None
    try:
        start[2].decode('utf-8')
    except UnicodeDecodeError:
        return None
    at, fields = start.end(), []
    while not (end := END.match(data, at)):
        field = FIELD.match(data, at)
        if not field:
            return None
        fields.append((field[1], field[2].strip(b' \t')))
        at = field.end()
    if end.end() > MOST_HEAD or len(fields) > MOST_FIELDS:
        return None
    return Head(start[1], start[2], start[3], fields, data[end.end():])


ROUTES = [
    (rb'/v1/requests', 'POST', 'requests', None), (rb'/v1/declarations', 'POST', 'declarations', None), (rb'/v1/audit', 'GET', 'audit', None),
    (rb'/v1/accounts/([^/]+)/statement', 'GET', 'statement', 9), (rb'/v1/certificates/([^/]+)', 'GET', 'certificate', 14),
    (rb'/v1/cancellations/([^/]+)', 'GET', 'cancellation', 9), (rb'/v1/notices/([^/]+)', 'GET', 'notice', 9),
]


def names_something(part, digits):
    """Whether the part of a path is an account's, an act's or a certificate's number."""
    text = ascii_of(part)
    return number_in(text) is not None if digits == 14 else re.fullmatch('[0-9]{1,9}', text) is not None and int(text) > 0


class Asked:
    """What a whole request asks for: a route's own answer, or a status that was decided before it."""

    def __init__(self, status=None, allow=None, is_head=False, route=None, caller=None, body=b'', part=None):
        self.status, self.allow, self.is_head, self.route, self.caller, self.body, self.part = status, allow, is_head, route, caller, body, part


def request_in(data):
    """What all the bytes of a connection ask for, by the table of docs/FORMATS.md."""
    head = head_in(data)
    if head is None:
        return Asked(400)
    is_head = head.method == b'HEAD'
    hosts, lengths = head.values(b'host'), head.values(b'content-length')
    if len(hosts) > 1 or (head.minor == b'1' and not hosts):
        return Asked(400, is_head=is_head)
    if head.values(b'transfer-encoding'):
        return Asked(501, is_head=is_head)
    if len(lengths) > 1 or lengths and not re.fullmatch(rb'[0-9]{1,19}', lengths[0]):
        return Asked(400, is_head=is_head)
    length = int(lengths[0]) if lengths else 0
    if length > MOST_BODY:
        return Asked(413, is_head=is_head)
    if len(head.rest) < length:
        return Asked(400, is_head=is_head)
    return routed(head, head.rest[:length], is_head)


def routed(head, body, is_head):
    """The same from the target on."""
    met = [(found, *rest) for pattern, *rest in ROUTES if (found := re.fullmatch(pattern, head.target, re.S)) and b'?' not in head.target]
    if not met:
        return Asked(404, is_head=is_head)
    found, method, route, digits = met[0]
    if head.method != method.encode():
        return Asked(405, allow=method, is_head=is_head)
    callers = head.values(b'goo-caller')
    if len(callers) != 1 or not is_holder(ascii_of(callers[0])):
        return Asked(403, is_head=is_head)
    if digits and not names_something(found[1], digits):
        return Asked(404, is_head=is_head)
    return Asked(route=route, caller=ascii_of(callers[0]), body=body, part=found[1] if digits else None)


# Command lines, as clap reads them for plain commands

OPTIONS = {'init': ['db', 'code', 'today', 'next-serial'], 'run': ['db', 'code', 'today', 'next-serial'], 'declare': ['db'], 'statement': ['db'],
           'audit': ['db'], 'serve': ['db', 'code', 'today', 'next-serial', 'port', 'count']}
"""The options of each command that take a value; `run` and `serve` take `--memory` besides, and `statement` a word."""


class Task:
    """What a command line asks for; `file` is None for a registry in memory."""

    def __init__(self, command, file, values):
        self.command, self.file = command, file
        self.account, self.port, self.count = values.get('account'), values.get('port'), values.get('count')
        self.code, self.today, self.next_serial = values.get('code'), values.get('today'), values.get('next-serial', 1)

    def __str__(self):
        return self.command


LIMITS = {'account': within(1, LAST_ACT), 'port': within(1, 65535), 'count': within(0, 10 ** 9), 'code': within(1, 99), 'next-serial': within(1, SERIALS - 1)}


def value_in(name, text):
    """What the text of an option states; Fault where that is nothing."""
    if name == 'today':
        value = text if is_day(text) else None
    else:
        value = int(text) if re.fullmatch('[0-9]+', text) and LIMITS[name](int(text)) else None
    if value is None:
        raise Fault('Usage')
    return value


def words_in(words, command):
    """The texts of the options of a command by name, and its words; Fault where one isn't among them, comes twice or lacks its value."""
    given, alone, left = {}, [], list(words)
    while left:
        word = left.pop(0)
        if word == '--':
            return given, alone + left
        name, has_value, value = word.removeprefix('--').partition('=')
        if not word.startswith('-') or word == '-':
            alone.append(word)
            continue
        is_flag = name == 'memory' and command in ('run', 'serve')
        if not word.startswith('--') or name in given or not is_flag and name not in OPTIONS[command] or is_flag and has_value:
            raise Fault('Usage')
        if not is_flag and not has_value:
            if not left or left[0].startswith('-') and left[0] != '-':
                raise Fault('Usage')
            value = left.pop(0)
        given[name] = value
    return given, alone


def asked_in(command, words):
    """What the words after a command ask for; Fault."""
    given, alone = words_in(words, command)
    is_in_memory = given.pop('memory', None) is not None
    if command == 'statement' and len(alone) == 1:
        given['account'] = alone.pop()
    wanted = {'statement': {'account'}, 'serve': {'port', 'count'}}.get(command, set())
    wanted = wanted | ({'code', 'today'} if is_in_memory or command == 'init' else set()) | (set() if is_in_memory else {'db'})
    if alone or not wanted <= set(given) <= wanted | ({'next-serial'} if 'code' in wanted else set()):
        raise Fault('Usage')
    file = given.pop('db', None)
    return Task(command, file, {name: value_in(name, text) for name, text in given.items()})


def task_in(words):
    """The task that the words of a command line ask for, or None: a usage error."""
    try:
        command, *others = [word.decode('utf-8') for word in words]
        return asked_in(command, others) if command in OPTIONS else None
    except (Fault, UnicodeDecodeError, ValueError):
        return None
