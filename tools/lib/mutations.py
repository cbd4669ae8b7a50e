"""Valid texts of the registry, and what chance makes of them: for tools/trials/hostile-bytes.

A World makes valid requests that a small registry mostly accepts, each under a key of its own. A Mutator changes bytes, cuts, doubles, inserts,
joins two texts, or puts another token of the grammar in the place of one.
"""
import json
import re
from datetime import date, timedelta

from readings import with_check_digit

CODE, TODAY = 7, '2025-03-01'
OWN = CODE * 10 ** 12


def gsrn(number):
    """The device number of seventeen digits that end in this one, with its check digit."""
    return with_check_digit(f'5{number:016}')


DEVICES = [gsrn(1), gsrn(2), gsrn(3)]
OTHERS = {DEVICES[2]: {'carrier': 'hydrogen'}}
"""What devices state of their carrier, where that isn't electricity."""
THEIRS = ['electricity', 'gas', 'heating-cooling']
"""The carriers of the same devices in other registries."""
PLANT = {'capacity_w': 10 ** 11, 'commissioned': '2020-06-15', 'country': 'DE', 'site': 'North field', 'source': 'F01010100', 'support': 'none', 'tech': 'T010000'}
HOLDERS = ['SUN', 'VOLT', 'WIND']
OWNERS = {1: 'SUN', 2: 'VOLT', 3: 'SUN', 4: 'WIND'}
NAMES = ['Sun Power', 'Bäckerei Müller', 'a', 'Ω' * 32, 'quote " and \\', '☃ and 𝄞', 'x' * 64]


def lot(origin, device, first='2025-01-01', last='2025-01-31', **other):
    """A lot of a registry."""
    return {**PLANT, 'origin': origin, 'device': device, 'first_day': first, 'last_day': last, 'issued_on': '2025-03-01', **other}


def part(first, count, of):
    """A part of a notice."""
    return {'first': f'{first:014}', 'last': f'{first + count - 1:014}', 'lot': of}


def text_of(caller, command, key):
    """A line: the caller and the body."""
    return f'{caller} {json.dumps({**command, "key": key}, ensure_ascii=False)}'.encode()


def of(word, **members):
    """A command."""
    return {'command': word, **members}


def ends(first, count):
    """The members `first` and `last` of a range of own certificates."""
    return {'first': f'{OWN + first:014}', 'last': f'{OWN + first + count - 1:014}'}


def base():
    """The first requests of each registry: all are accepted, each table gets a row, and something expires."""
    commands = [('ISSUER', of('open_holder', holder=holder, name=name)) for holder, name in zip(HOLDERS, NAMES)]
    commands += [('ISSUER', of('open_account', holder=holder)) for holder in OWNERS.values()]
    commands += [('ISSUER', of('register_device', device=device, account=account, **PLANT, **OTHERS.get(device, {}))) for device, account in zip(DEVICES, (1, 2, 1))]
    commands += [('ISSUER', of('declare', device=device, first_day='2024-09-01', last_day='2024-09-30', gross_wh=600_500_000, aux_wh=250_000)) for device in DEVICES]
    commands += [('ISSUER', of('add_peer', peer=9)), ('ISSUER', of('add_peer', peer=8)),
                 ('SUN', of('transfer', giver=1, taker=2, **ends(100, 50))),
                 ('SUN', of('cancel', account=1, beneficiary='Bäckerei Müller', use_first='2024-01-01', use_last='2024-12-31', **ends(1, 10))),
                 ('ISSUER', of('withdraw', reason='meter read twice', **ends(11, 5))),
                 ('ISSUER', of('correct', device=DEVICES[0], first_day='2024-09-01', less_wh=1_000_000, reason='meter read twice', **ends(16, 1)))]
    return [text_of(caller, command, f'b{number}') for number, (caller, command) in enumerate(commands)]


class World:
    """A source of valid requests for a registry after `base`. What it knows of the registry is a guess: not all are accepted."""

    def __init__(self, chance):
        self.chance, self.count, self.notices, self.brought = chance, 0, 0, []
        self.days = {device: date(2024, 10, 1) for device in DEVICES}
        self.day = date(2025, 3, 1)
        self.kinds = {'open_holder': 2, 'open_account': 2, 'close_account': 1, 'register_device': 2, 'declare': 6, 'correct': 5, 'transfer': 8, 'cancel': 5,
                      'withdraw': 3, 'advance': 0.3, 'add_peer': 1, 'export': 5, 'import': 5}

    def key(self):
        """A key that was not given before."""
        self.count += 1
        return f'm{self.count}'

    def line(self, kinds=None):
        """The next request as a line."""
        kind = self.chance.choices(kinds or list(self.kinds), None if kinds else list(self.kinds.values()))[0]
        caller, command = getattr(self, kind)()
        return text_of(caller, command, self.key())

    def a_range(self):
        """A few certificates that stand near one another, at times those of another registry."""
        count = self.chance.choice([1, 1, 2, 5, 10])
        if self.brought and self.chance.randrange(4) == 0:
            return ends(self.chance.choice(self.brought)[1] - OWN + self.chance.randrange(4), count)
        return ends(self.chance.randrange(1, 1790), count)

    def an_account(self):
        """An account and its holder."""
        return self.chance.choice(list(OWNERS.items()))

    def open_holder(self):
        """A holder more."""
        return 'ISSUER', of('open_holder', holder=f'H{self.chance.randrange(10 ** 6)}', name=self.chance.choice(NAMES))

    def open_account(self):
        """An account more."""
        return 'ISSUER', of('open_account', holder=self.chance.choice(HOLDERS))

    def close_account(self):
        """An account less."""
        return self.chance.choice(['ISSUER', 'SUN']), of('close_account', account=self.chance.randrange(3, 12))

    def register_device(self):
        """A device more, of any carrier or of electricity that isn't written."""
        carrier = self.chance.choice([None, None, 'electricity', 'gas', 'hydrogen', 'heating-cooling'])
        return 'ISSUER', of('register_device', device=gsrn(self.chance.randrange(10 ** 15)), account=self.an_account()[0], **({'carrier': carrier} if carrier else {}),
                            **{**PLANT, 'site': self.chance.choice(NAMES), 'support': self.chance.choice(['none', 'investment', 'production', 'both'])})

    def a_day(self):
        """A device and the next day that it has not declared."""
        device = self.chance.choice(DEVICES)
        day = self.days[device]
        self.days[device] = day + timedelta(1)
        return device, day.isoformat()

    def declare(self):
        """What a device made on its next day."""
        device, day = self.a_day()
        gross = self.chance.choice([0, 1, 999_999, 1_000_000, 3_333_333])
        return 'ISSUER', of('declare', device=device, first_day=day, last_day=day, gross_wh=gross, aux_wh=gross // 4)

    def correct(self):
        """Less of what a device made in September, or on the day that it declared last: certificates of its own for full MWh, and none for less than one."""
        place, full = self.chance.randrange(len(DEVICES)), self.chance.choice([0, 0, 1, 2])
        first = self.chance.choice([date(2024, 9, 1)] * 3 + [self.days[DEVICES[place]] - timedelta(1)])
        numbers = ends(600 * place + self.chance.randrange(20, 590), full) if full else {'first': '', 'last': ''}
        return 'ISSUER', of('correct', device=DEVICES[place], first_day=first.isoformat(), less_wh=full * 10 ** 6 or self.chance.choice([0, 1, 1000]),
                            reason=self.chance.choice(NAMES), **numbers)

    def transfer(self):
        """Certificates from one account to another, at times those of a notice from the account that got them."""
        (giver, holder), (taker, _) = self.chance.sample(list(OWNERS.items()), 2)
        if self.brought and self.chance.randrange(2) == 0:
            giver, first, count = self.chance.choice(self.brought)
            return OWNERS[giver], of('transfer', giver=giver, taker=taker, **ends(first - OWN, self.chance.randrange(1, count + 1)))
        return holder, of('transfer', giver=giver, taker=taker, **self.a_range())

    def cancel(self):
        """Certificates used."""
        account, holder = self.an_account()
        return holder, of('cancel', account=account, beneficiary=self.chance.choice(NAMES), use_first='2024-01-01', use_last='2024-12-31', **self.a_range())

    def withdraw(self):
        """Certificates taken back."""
        return 'ISSUER', of('withdraw', reason=self.chance.choice(NAMES), **self.a_range())

    def advance(self):
        """A later day; at times one after which trade is closed, or certificates have expired."""
        self.day += timedelta(self.chance.choice([1, 1, 7, 31, 120, 240]))
        return 'ISSUER', of('advance', day=self.day.isoformat())

    def add_peer(self):
        """A registry more."""
        return 'ISSUER', of('add_peer', peer=self.chance.randrange(1, 100))

    def export(self):
        """Certificates sent away."""
        account, holder = self.an_account()
        return holder, of('export', giver=account, peer=self.chance.choice([8, 9]), account=self.chance.randrange(1, 9), **self.a_range())

    def notice(self):
        """A notice of another registry, of one to three parts of certificates that it issued: of version 1, or of version 2 and each of a carrier of its own."""
        self.notices += 1
        sender = self.chance.choice([8, 9])
        serial = sender * 10 ** 12 + 1000 * self.notices
        month, version = self.chance.choice([1, 1, 2, 2, *range(1, 13)]), self.chance.choice([1, 2])
        carriers = [{'carrier': carrier} if version == 2 else {} for carrier in THEIRS]
        account = self.chance.choice([1, 2, 3])
        # the first months of 2024 are past trade when the registry begins
        parts = [part(serial + 100 * place, self.chance.randrange(1, 99),
                      lot(sender, DEVICES[place], f'2024-{month:02}-01', f'2024-{month:02}-{20 + self.notices % 8}', **carriers[place]))
                 for place in range(self.chance.choice([1, 1, 2, 3]))]
        self.brought += [(account, int(each['first']), int(each['last']) - int(each['first']) + 1) for each in parts]
        return of('import', notice={'sender': sender, 'addressee': CODE, 'number': self.notices, 'account': account, 'version': version,
                                    'parts': parts})

    def imports(self):
        """An import by the issuing body."""
        return 'ISSUER', self.notice()

    def table(self, rows):
        """A table of declarations."""
        lines = ['key,device,first_day,last_day,gross_wh,aux_wh']
        for _ in range(rows):
            device, day = self.a_day()
            gross = self.chance.choice([0, 1, 999_999, 1_000_000, 3_333_333])
            cells = [self.key(), device, day, day, str(gross), str(gross // 4)]
            lines.append(','.join(f'"{cell}"' if self.chance.randrange(12) == 0 else cell for cell in cells))
        return (self.chance.choice(['\n', '\n', '\r\n']).join(lines) + self.chance.choice(['\n', ''])).encode()


setattr(World, 'import', World.imports)


# Tokens

JSON_TOKEN = re.compile(rb'"(?:[^"\\]|\\.)*"|-?[0-9.eE+]+|true|false|null|[\[\]{}:,]| +')
JSON_TOKENS = [
    b'{', b'}', b'[', b']', b':', b',', b'null', b'true', b'false', b'""', b'0', b'-0', b'1', b'-1', b'1.0', b'1e0', b'1E400', b'1e-400', b'01', b'.5', b'5.', b'+1',
    b'18446744073709551615', b'18446744073709551616', b'-9223372036854775808', b'-9223372036854775809', b'999999999', b'1000000000', b'1' * 400, b'{}', b'[]',
    b'"\\u0000"', b'"\\ud800"', b'"\\udc00\\ud800"', b'"\\ud834\\udd1e"', b'"\\u004"', b'"\\x"', b'"\t"', b'"\xff"', b'"\xed\xa0\x80"', b'"\xc2\x85"', b'"\x7f"',
    b'" a"', b'"a "', b'"a\\u00a0"', b'NaN', b'Infinity', b'//', b'/**/', b'\xef\xbb\xbf', b'\x0c', b'\xa0', b'\r', b'\t', b'\n', b' ',
    b'"command"', b'"key"', b'"notice"', b'"k\\u0065y"', b'"first"', b'"last"', b'"account"', b'"holder"', b'"advance"', b'"import"', b'"ISSUER"', b'"none"',
    b'"both"', b'"correct"', b'"less_wh"', b'"reason"', b'"carrier"', b'"electricity"', b'"gas"', b'"hydrogen"', b'"heating-cooling"', b'"carrier":"gas",', b'"version"',
    b'"2025-02-29"', b'"2024-02-29"', b'"1899-12-31"', b'"1900-01-01"', b'"2099-12-31"', b'"2100-01-01"', b'"2025-3-01"', b'"07000000000000"', b'"07000000000001"',
    b'"00000000000001"', b'"99999999999999"', b'"7000000000001"', b'"500000000000000013"', b'"' + b'x' * 65 + b'"', b'"' + b'k' * 41 + b'"', b'2', b'7', b'9', b'99',
    b'100',
]
CSV_TOKEN = re.compile(rb'[^,\r\n"]+|[,\r\n"]')
CSV_TOKENS = [b',', b'"', b'""', b'\n', b'\r', b'\r\n', b'\xef\xbb\xbf', b' ', b'\t', b'\0', b'0', b'1', b'-1', b'1.0', b'1000000000000000', b'1000000000000001',
              b'0000000000000001',
              b'00000000000000001', b'10000000000000000', b'key', b'aux_wh', b'2025-02-29', b'2100-01-01', b'500000000000000013', b"'", b';', b'#', b'\xff',
              b'k' * 41]
HTTP_TOKEN = re.compile(rb'[A-Za-z0-9_-]+|[^A-Za-z0-9_-]')
HTTP_TOKENS = [b'GET', b'POST', b'HEAD', b'PUT', b'OPTIONS', b'HTTP', b'1.0', b'1.1', b'2', b' ', b'\t', b'\r\n', b'\n', b'\r', b'\r\n\r\n', b'\n\n', b':', b'/',
               b'?', b'%31', b'#',
               b'Host', b'host', b'GOO-Caller', b'goo-caller', b'Content-Length', b'Content-Length: 0\r\n', b'Transfer-Encoding: chunked\r\n', b'Host: y\r\n',
               b'Expect: 100-continue\r\n',
               b'ISSUER', b'SUN', b'NOBODY', b'0', b'1', b'00000000000000000000', b'1048576', b'1048577', b'9999999999999999999', b'18446744073709551616', b'-1',
               b'\0', b'\x7f', b'\xff',
               b'\xc3\xa4', b'(', b'/v1/audit', b'/v1/requests', b'requests', b'notices', b'accounts', b'statement', b'07000000000001', b'000000001', b'0000000001',
               b'v1', b'X: ' + b'x' * 300]


class Mutator:
    """Changes texts of one grammar; `others` are valid texts to take pieces from."""

    def __init__(self, chance, token, tokens):
        self.chance, self.token, self.tokens, self.others = chance, token, tokens, []
        self.ways = [self.changed, self.changed, self.cut, self.ended, self.doubled, self.inserted, self.spliced, self.exchanged, self.exchanged, self.swapped,
                     self.alike, self.alike, self.alike, self.spaced]

    def mutated(self, text):
        """The text changed once, or at times a few times more."""
        self.others = [*self.others[-30:], text]
        for _ in range(self.chance.choice([1, 1, 1, 1, 1, 1, 2, 3])):
            text = self.chance.choice(self.ways)(text)
        return text

    def place(self, text):
        """A place between two bytes of a text."""
        return self.chance.randrange(len(text) + 1)

    def slice(self, text):
        """Where a short piece of a text begins and ends; at times a long one."""
        first = self.place(text)
        return first, min(len(text), first + self.chance.choice([1, 1, 2, 3, 5, 8, 20, len(text)]))

    def changed(self, text):
        """Another byte, often one that differs by a bit or by one."""
        if not text:
            return text
        at = self.chance.randrange(len(text))
        byte = self.chance.choice([text[at] ^ 1 << self.chance.randrange(8), text[at] + 1 & 255, text[at] - 1 & 255, self.chance.randrange(256)])
        return text[:at] + bytes([byte]) + text[at + 1:]

    def cut(self, text):
        """A piece less."""
        first, last = self.slice(text)
        return text[:first] + text[last:]

    def ended(self, text):
        """A proper prefix, or a proper end."""
        at = self.place(text)
        return self.chance.choice([text[:at], text[:at], text[at:]])

    def doubled(self, text):
        """A piece twice."""
        first, last = self.slice(text)
        return text[:last] + text[first:]

    def inserted(self, text):
        """Some bytes more, or a token."""
        at = self.place(text)
        more = self.chance.choice([self.chance.randbytes(self.chance.randrange(1, 5)), self.chance.choice(self.tokens)])
        return text[:at] + more + text[at:]

    def spliced(self, text):
        """The beginning of one text and the end of another."""
        other = self.chance.choice(self.others)
        return text[:self.place(text)] + other[self.place(other):]

    def exchanged(self, text):
        """Another token of the grammar, or of another text, in the place of one."""
        found = list(self.token.finditer(text))
        if not found:
            return text
        old = self.chance.choice(found)
        theirs = [each[0] for each in self.token.finditer(self.chance.choice(self.others))] or self.tokens
        new = self.chance.choice([self.chance.choice(self.tokens), self.chance.choice(theirs)])
        return text[:old.start()] + new + text[old.end():]

    def swapped(self, text):
        """Two tokens of the text in one another's place."""
        found = list(self.token.finditer(text))
        if len(found) < 2:
            return text
        one, two = sorted(self.chance.sample(found, 2), key=lambda each: each.start())
        return text[:one.start()] + two[0] + text[one.end():two.start()] + one[0] + text[two.end():]

    def alike(self, text):
        """Another digit or letter of its kind in the place of one."""
        found = [at for at, byte in enumerate(text) if chr(byte).isalnum() and byte < 128]
        if not found:
            return text
        at = self.chance.choice(found)
        kind = next(kind for kind in (b'0123456789', b'abcdefghijklmnopqrstuvwxyz', b'ABCDEFGHIJKLMNOPQRSTUVWXYZ') if text[at] in kind)
        return text[:at] + bytes([self.chance.choice(kind)]) + text[at + 1:]

    def spaced(self, text):
        """White space beside a token, or a letter of a string spelled by its number: mostly the same value."""
        found = list(self.token.finditer(text))
        if not found:
            return text
        one = self.chance.choice(found)
        letters = [at for at in range(one.start(), one.end()) if chr(text[at]).isalpha() and text[at] < 128]
        if one[0].startswith(b'"') and letters and self.chance.randrange(2):
            at = self.chance.choice(letters)
            return text[:at] + b'\\u%04x' % text[at] + text[at + 1:]
        at = self.chance.choice([one.start(), one.end()])
        return text[:at] + self.chance.choice([b' ', b'\t', b'\r', b'  ']) + text[at:]
