"""What the gate reads is what the registry reads: the same bodies are sent to both.

The registry says 400 of what it cannot read. The gate has to read all else as it is, or say that it
is doubtful: else a request would pass a limit that nobody has held it against.
"""
import json
import random
from collections.abc import Iterator

from gate_stage import cancel
from gate_stage import close
from gate_stage import declare
from gate_stage import export
from gate_stage import text
from gate_stage import transfer
from gate_stage import withdraw
from goo_service.people import asked
from house import House
from test_people_judge import DOUBLED
from test_people_judge import SPELLED
from test_people_judge import UNREAD

COUNT = 400
REQUESTS = [transfer('k', 9), cancel('k', 9), export('k', 9), close('k'), withdraw('k', 9),
            declare('k')]
PARTS = [b' ', b'\t', b'\n', b'\r', b'\x0b', b'\x00', b'\xa0', b'\xff', b'"', b'\\', b'\\u0031',
         b'\\u00', b'\\ud800', b'{', b'}', b'[', b']', b',', b':', b'0', b'1', b'-', b'.', b'e0',
         b'E1', b'null', b'true', b'NaN', b'Infinity', b'1e999', b'\xef\xbb\xbf', b'/**/',
         b'"giver": 2', b'"account": 2', b'"command": "export"', b'"key": "x"', b'"first": ""']


def mutated(seed: int) -> bytes:
    """A request with some bytes taken out, put in, or swapped."""
    by, body = random.Random(seed), bytearray(text(random.Random(seed).choice(REQUESTS)))
    for _ in range(by.choice((1, 1, 1, 2, 3))):
        at = by.randrange(len(body) + 1)
        end = at + by.choice((0, 0, 1, 1, 2, 5))
        body[at:end] = by.choice((b'', by.choice(PARTS), bytes(body[at:at + 9])))
    return bytes(body)


def respelled(seed: int) -> bytes:
    """A request of the same members, spelled in another way, or with one of them twice."""
    by = random.Random(seed)
    members = list(by.choice(REQUESTS).items())
    if by.random() < 0.4:
        name, value = by.choice(members)
        other = by.choice((value, 3, '07000000000002', 'export', 'other'))
        members.insert(by.randrange(len(members) + 1), (name, other))
    by.shuffle(members)
    spelled = [f'{escaped(by, json.dumps(name))}{by.choice(" :")}:{by.choice((" ", ""))}'
               f'{escaped(by, json.dumps(value))}'.replace('::', ':') for name, value in members]
    return ('{' + f'{by.choice((",", " , "))}'.join(spelled) + '}').encode()


def escaped(by: random.Random, quoted: str) -> str:
    """A text in quotes with a letter of it as its number."""
    if not quoted.startswith('"') or len(quoted) < 3 or by.random() < 0.5:
        return quoted
    at = by.randrange(1, len(quoted) - 1)
    return f'{quoted[:at]}\\u{ord(quoted[at]):04x}{quoted[at + 1:]}'


def bodies() -> Iterator[bytes]:
    yield from (*UNREAD, *DOUBLED, *SPELLED)
    for seed in range(COUNT):
        yield mutated(seed)
        yield respelled(seed)


def test_what_the_gate_cannot_read_the_registry_cannot_read(house: House) -> None:
    """And of what the registry reads the gate has command, account and certificates, or doubts."""
    read = refused = doubted = 0
    for body in bodies():
        line = asked.line_of(body)
        answer = house.ask_log('SUN', 'POST', '/v1/requests', body, user='anna')
        if line.is_doubtful:
            doubted += 1
        elif not line.command:
            refused += 1
            assert answer.status == 400, (body, answer.text)
        elif answer.status != 400:
            read += 1
            members = json.loads(body)
            assert line.command == members['command'] and line.key == members['key']
            if line.command in asked.GIVERS:
                assert line.account == members[asked.GIVERS[line.command]]
    assert min(read, refused, doubted) > 50, (read, refused, doubted)
