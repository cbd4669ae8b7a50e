"""Entries of the log of requests, and their outcomes, as lines of text.

docs/REPLICAS.md describes both forms. An entry is one line of JSON, {"entry":{..},"mac":".."}: the
request as it came, who sent it and when, and the hash of the entry before. Its own hash is the
SHA-256 of that line without the line end. `mac` is the HMAC-SHA-256 of the text of "entry", by a
key that replicas alone can read. A line of the archive is an entry's line with one more member,
"outcome".

Every line is in one form: members in the order written here, no spaces, UTF-8. So the same entry
has one text and one hash.
"""
import base64
import datetime
import functools
import hashlib
import hmac
import json
import re
from pathlib import Path
from typing import Any
from typing import NamedTuple
from typing import cast

NO_CHAIN = '-'
"""The chain of outcomes before entry 1."""
PLAIN = ('/v1/requests', 200)
"""The route and the status of a request that was accepted, or repeated."""
SHORT = 4096
"""Bytes of a body that is text whatever its length in JSON."""
SET_ASIDE = 500
"""The status of an entry that the registry could not decide. It changed nothing."""


class Broken(Exception):
    """An entry or a line that is not what it has to be. The text names the entry."""


class Entry(NamedTuple):
    """One request in the log. The members of its line stand in this order."""

    n: int
    """1, 2, 3 and so on."""
    prev: str
    """The hash of entry n - 1; of entry 1 the origin, a number by chance."""
    time: str
    """UTC by the clock of the host that took the request: 2026-03-01T09:00:00.123456Z"""
    host: str
    """The replica that took the request."""
    user: str
    """Who signed in; empty for the registry's own agents."""
    address: str
    """Where the request came from; empty for the registry's own agents."""
    role: str
    """full, reads or declares."""
    caller: str
    """The holder's code, or ISSUER."""
    method: str
    """POST; VERSION for an entry that moves the version, which its body names."""
    route: str
    """/v1/requests or /v1/declarations; empty for VERSION."""
    version: str
    """Of the program that applies this entry."""
    id: str
    """By chance. The replica finds the request that waits for this entry."""
    body: bytes
    """Exactly as it came."""
    way: str = ''
    """How the user signed in: session, token NAME, certificate, password. In the line it stands
    behind the user; it is left out where it is empty."""
    confirmed: str = ''
    """The second user, who confirmed what waited for him. In the line it stands behind `way`; it
    is left out where it is empty."""


class Outcome(NamedTuple):
    """What an entry came to."""

    status: int
    """Of HTTP: 200, 400, 403, 409; 500 for an entry that was set aside."""
    body: bytes
    """The answer's."""
    chain: str
    """The hash of this outcome and of the chain before: replicas compare it."""


class Record(NamedTuple):
    """One line of the archive."""

    entry: Entry
    outcome: Outcome
    hash: str
    """Of the entry."""


def now() -> str:
    """The time by this host's clock, as entries have it."""
    moment = datetime.datetime.now(datetime.timezone.utc)
    return moment.isoformat(timespec='microseconds')[:26] + 'Z'


def read_key(path: str | Path) -> bytes:
    """The key of the keyed hash: the bytes of a file, without white space around them."""
    key = Path(path).read_bytes().strip()
    if len(key) < 16:
        raise Broken(f'{path}: a key has at least 16 bytes')
    return key


# ------------------------------------------------------------------ one entry as a line

TEXT_OF = json.JSONEncoder(ensure_ascii=False, separators=(',', ':')).encode


def quote(text: object) -> str:
    """A text as TEXT_OF writes it, in less time."""
    return cast(str, json.encoder.encode_basestring(text))      # type: ignore[attr-defined]


def compact(value: object) -> bytes:
    return TEXT_OF(value).encode()


def body_member(body: bytes) -> str:
    """The body as text where it is UTF-8, else in base64; so is a long one that is shorter so."""
    try:
        text = quote(body.decode())
        if len(body) < SHORT or len(text.encode()) <= 4 * len(body) // 3:
            return f'"body":{text}'
    except UnicodeDecodeError:
        pass
    return f'"body64":"{base64.b64encode(body).decode()}"'


def body_of(name: str, text: str) -> bytes:
    """The body in a member of either name."""
    return base64.b64decode(text, validate=True) if name == 'body64' else text.encode()


AROUND = len('{"entry":},"mac":""}') + 64
"""Bytes of a line beside head and body of its entry."""
MAY_LACK = ('way', 'confirmed')
"""Members that a line has where they say something. Lines of before there were any are as ever."""
FIRST, BODY = Entry._fields.index('user') + 1, Entry._fields.index('body')
LEADING, REST = list(Entry._fields[:FIRST]), list(Entry._fields[FIRST:BODY])
FORM = ('{"n":%d,' + ','.join([f'"{name}":%s' for name in LEADING[1:]]) + '%s,'
        + ','.join([f'"{name}":%s' for name in REST]) + ',')


def entry_line(entry: Entry, key: bytes, member: bytes = b'') -> bytes:
    """The line of an entry, without its line end.

    `member` is what `body_member` makes of the body, as bytes, where that is known.
    """
    text = head_of(entry) + (member or body_member(entry.body).encode()) + b'}'
    return b'{"entry":' + text + b',"mac":"' + mac(text, key).encode() + b'"}'


def head_of(entry: Entry) -> bytes:
    """The members before the body."""
    leading, rest = map(quote, entry[1:FIRST]), map(quote, entry[FIRST:BODY])
    return (FORM % (entry.n, *leading, optional_members(entry), *rest)).encode()


def optional_members(entry: Entry) -> str:
    """Those members that a line may lack, as far as they say something."""
    way, confirmed = entry.way, entry.confirmed
    return ((f',"way":{quote(way)}' if way else '')
            + (f',"confirmed":{quote(confirmed)}' if confirmed else ''))


def length(entry: Entry, member: bytes) -> int:
    """The bytes of an entry's line, without its line end."""
    return len(head_of(entry)) + len(member) + AROUND


@functools.lru_cache(4)
def new_mac(key: bytes) -> hmac.HMAC:
    """A keyed hash over nothing yet: to begin one costs as much as a short text."""
    return hmac.new(key, digestmod='sha256')


def mac(text: bytes, key: bytes) -> str:
    made = new_mac(key).copy()
    made.update(text)
    return made.hexdigest()


def hash_of(line: bytes) -> str:
    return hashlib.sha256(line).hexdigest()


def fingerprint(caller: str, route: str, body: bytes) -> str:
    """By what a request is known that was set aside, whenever it comes again."""
    return hashlib.sha256(f'{caller} {route} '.encode() + body).hexdigest()


BEGIN, MIDDLE = b'{"entry":', b'},"mac":"'
"""A quote inside a text is escaped, so the second stands in a line once."""


class Parts(NamedTuple):
    """A line cut where its parts meet."""

    text: bytes
    """Of the entry."""
    mac: str
    rest: bytes


def parts(line: bytes) -> Parts:
    at = line.find(MIDDLE)
    if at < 0 or not line.startswith(BEGIN):
        raise Broken(f'a line that is no entry: {line[:80]!r}')
    end = at + len(MIDDLE) + 64
    return Parts(line[len(BEGIN):at + 1], line[at + len(MIDDLE):end].decode('latin-1'), line[end:])


def read_entry(line: bytes, key: bytes | None = None) -> Entry:
    """The entry of a line of the log. With a key its keyed hash is checked."""
    text, stated, rest = parts(line)
    if rest != b'"}':
        raise Broken(f'a line that is no entry: {line[:80]!r}')
    return entry_in(text, stated, key)


def entry_in(text: bytes, stated: str, key: bytes | None) -> Entry:
    """The entry of its text and of the keyed hash that its line states."""
    try:
        members: dict[str, Any] = json.loads(text.decode())
        if key is not None and not hmac.compare_digest(mac(text, key), stated):
            raise Broken(f"entry {members['n']}: its keyed hash is wrong: "
                         'no replica with this key wrote it')
        *names, last = members
        more = {name: members[name] for name in MAY_LACK if name in members}
        is_whole = [*names, last.removesuffix('64')] == [*LEADING, *more, *REST, 'body']
        if not is_whole or type(members['n']) is not int or '' in more.values():
            raise Broken(f"entry {members['n']}: its members are {[*names, last]}")
        values = [members[name] for name in (*LEADING, *REST)]
        may_lack = [more.get(name, '') for name in MAY_LACK]
        return Entry(*[*values, body_of(last, members[last]), *may_lack])
    except (KeyError, TypeError, ValueError, AttributeError, RecursionError) as fault:
        raise Broken(f'a line that is no entry: {text[:80]!r}') from fault


# ------------------------------------------------------------------ outcomes

ROW = re.compile(rb'(?m)^(\d+ )(?:(?:accepted|repeated)|(refused) \d+)$')


def comparable(route: str, status: int, body: bytes) -> bytes:
    """What of an outcome is the same in every replica.

    An entry that was applied twice is `repeated` and not `accepted`, and a refused row of a table
    may get another number.
    """
    if route == '/v1/declarations':
        body = ROW.sub(rb'\1\2', body)
    else:
        body = body.replace(b'"outcome":"repeated"', b'"outcome":"accepted"')
    return b'%d ' % status + body


def outcome_after(route: str, status: int, body: bytes, chain: str) -> Outcome:
    """The outcome of an entry, after the chain of the outcomes before it."""
    after = hashlib.sha256(chain.encode() + comparable(route, status, body)).hexdigest()
    return Outcome(status, body, after)


def archive_line(line: bytes, outcome: Outcome) -> bytes:
    """The archive's line, with its line end."""
    text = (f',"outcome":{{"status":{outcome.status},{body_member(outcome.body)},'
            f'"chain":"{outcome.chain}"}}}}\n')
    return line[:-1] + text.encode()


OUTCOME = b'","outcome":'


def read_record(line: bytes, key: bytes | None = None) -> Record:
    """The record of a line of the archive, without its line end. Another form is refused."""
    text, stated, rest = parts(line)
    if not rest.startswith(OUTCOME) or not rest.endswith(b'}'):
        raise Broken(f'a line that is no record: {line[:80]!r}')
    entry = entry_in(text, stated, key)
    try:
        members = json.loads(rest[len(OUTCOME):-1])
        if compact(members) != rest[len(OUTCOME):-1] or compact(json.loads(text)) != text:
            raise Broken(f'entry {entry.n}: its line is not in the form of the archive')
        name = 'body' if 'body' in members else 'body64'
        outcome = Outcome(members['status'], body_of(name, members[name]), members['chain'])
    except (KeyError, TypeError, ValueError, AttributeError, RecursionError) as fault:
        raise Broken(f'entry {entry.n}: its line lacks members') from fault
    return Record(entry, outcome, hash_of(line[:-len(rest)] + b'"}'))
