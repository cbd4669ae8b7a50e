"""The lines of log and archive, by what docs/REPLICAS.md says of them and not by our own reader.

Python's json, hashlib and hmac read what we write, and write what we read.
"""
import base64
import hashlib
import hmac
import json
import re
from collections.abc import Iterator
from pathlib import Path
from typing import Any

import pytest
from goo_service.log import reader
from goo_service.log import entries
from goo_service.log.archive import Archive
from goo_service.log.archive import compress
from goo_service.log.entries import Broken
from goo_service.log.entries import Entry
from goo_service.log.messages import Frames
from goo_service.log.messages import frame_of
from hypothesis import given
from hypothesis import strategies as some

KEY = b'a key of sixteen bytes or more'
MEMBERS = ['n', 'prev', 'time', 'host', 'user', 'address', 'role', 'caller', 'method', 'route',
           'version', 'id']
"""In the order of the table in docs/REPLICAS.md. The body follows."""
MAY_LACK = ('way', 'confirmed')
"""They stand behind the user, where they say something."""
TEXT = some.text(some.characters(blacklist_categories=('Cs',)), max_size=20)
BODY = some.one_of(some.binary(max_size=60), TEXT.map(str.encode),
                   some.binary(min_size=1, max_size=9).map(lambda part: part * 900))
ENTRY = some.builds(Entry, some.integers(1, 10 ** 12), *[TEXT] * 11, BODY, TEXT, TEXT)
PLAIN = (b'{"outcome":"accepted","reply":{}}', b'{"outcome":"repeated","reply":{}}')


def compact(value: object) -> str:
    return json.dumps(value, ensure_ascii=False, separators=(',', ':'))


def body_in(members: dict[str, Any]) -> bytes:
    """The body of an entry or an outcome, in either of its two forms."""
    if 'body64' in members:
        return base64.b64decode(members['body64'])
    return str(members['body']).encode()


def stated(entry: Entry) -> dict[str, Any]:
    """The members of an entry but for its body, as the document has them."""
    values = dict(zip(MEMBERS, entry))
    more = {name: getattr(entry, name) for name in MAY_LACK if getattr(entry, name)}
    return {name: value for before in MEMBERS for name, value in (
        {before: values[before], **(more if before == 'user' else {})}).items()}


# ------------------------------------------------------------------ one entry

@given(ENTRY)
def test_an_entry_s_line_is_the_one_that_is_described(entry: Entry) -> None:
    line = entries.entry_line(entry, KEY)
    read = json.loads(line)
    assert list(read) == ['entry', 'mac']
    assert list(read['entry'].items())[:-1] == list(stated(entry).items())
    assert body_in(read['entry']) == entry.body
    text = compact(read['entry'])
    assert line.decode() == compact(read)               # without spaces, and nothing is escaped
    assert read['mac'] == hmac.new(KEY, text.encode(), 'sha256').hexdigest()
    assert entries.hash_of(line) == hashlib.sha256(line).hexdigest()
    assert len(line) == entries.length(entry, entries.body_member(entry.body).encode())


@given(ENTRY, some.booleans())
def test_a_line_that_another_program_wrote_is_read(entry: Entry, in_base64: bool) -> None:
    try:
        text = None if in_base64 else entry.body.decode()
    except UnicodeDecodeError:
        text = None
    body = ({'body': text} if text is not None
            else {'body64': base64.b64encode(entry.body).decode()})
    inner = compact({**stated(entry), **body})
    mac = hmac.new(KEY, inner.encode(), 'sha256').hexdigest()
    assert entries.read_entry(f'{{"entry":{inner},"mac":"{mac}"}}'.encode(), KEY) == entry


@given(ENTRY, some.data())
def test_a_line_with_another_byte_is_no_entry(entry: Entry, data: some.DataObject) -> None:
    line = bytearray(entries.entry_line(entry, KEY))
    line[data.draw(some.integers(0, len(line) - 1))] ^= 1 << data.draw(some.integers(0, 7))
    with pytest.raises(Broken):
        entries.read_entry(bytes(line), KEY)


@given(ENTRY)
def test_another_key_or_half_a_line_is_refused(entry: Entry) -> None:
    line = entries.entry_line(entry, KEY)
    with pytest.raises(Broken, match=f'entry {entry.n}: its keyed hash is wrong'):
        entries.read_entry(line, KEY + b'.')
    assert entries.read_entry(line) == entry            # without a key it is not looked at
    for part in (line[:-1], line[:len(line) // 2], line + b'}', b''):
        with pytest.raises(Broken):
            entries.read_entry(part, KEY)


BEFORE = (b'{"n":7,"prev":"p","time":"t","host":"h","user":"anna","address":"a","role":"full",'
          b'"caller":"SUN","method":"POST","route":"/v1/requests","version":"1.0","id":"i",'
          b'"body":"{}"}')
"""The text of an entry as it was before entries named a way and a second user."""


def test_a_line_of_before_stays_byte_for_byte() -> None:
    mac = hmac.new(KEY, BEFORE, 'sha256').hexdigest().encode()
    line = b'{"entry":' + BEFORE + b',"mac":"' + mac + b'"}'
    entry = entries.read_entry(line, KEY)
    assert (entry.way, entry.confirmed, entry.user) == ('', '', 'anna')
    assert entries.entry_line(entry, KEY) == line
    more = entries.entry_line(entry._replace(way='token nightly', confirmed='ben'), KEY)
    assert b'"user":"anna","way":"token nightly","confirmed":"ben","address":"a"' in more


@pytest.mark.parametrize('change', ['swapped', 'left out', 'added', 'a text for n', 'no way',
                                    'a way behind the role', 'confirmed before the way'])
def test_members_in_another_form_are_refused(change: str) -> None:
    members: dict[str, Any] = dict(zip(MEMBERS, (3, *'abcdefghijk'))) | {'body': 'x'}
    user, rest = dict(list(members.items())[:5]), dict(list(members.items())[5:])
    if change == 'swapped':
        members = {'prev': 'a', **members}
    elif change == 'left out':
        del members['role']
    elif change == 'added':
        members = {'more': 1, **members}
    elif change == 'no way':
        members = {**user, 'way': '', **rest}
    elif change == 'a way behind the role':
        members = {**user, 'address': 'a', 'role': 'full', 'way': 'session', **rest}
    elif change == 'confirmed before the way':
        members = {**user, 'confirmed': 'ben', 'way': 'session', **rest}
    else:
        members['n'] = '3'
    inner = compact(members)
    mac = hmac.new(KEY, inner.encode(), 'sha256').hexdigest()
    with pytest.raises(Broken):
        entries.read_entry(f'{{"entry":{inner},"mac":"{mac}"}}'.encode(), KEY)


# ------------------------------------------------------------------ outcomes, and their chain

@given(ENTRY, some.sampled_from([200, 400, 403, 409, 500]), BODY, TEXT)
def test_a_record_s_line_is_the_entry_s_with_the_outcome(entry: Entry, status: int, body: bytes,
                                                         chain: str) -> None:
    line = entries.entry_line(entry, KEY)
    outcome = entries.outcome_after(entry.route, status, body, chain)
    archived = entries.archive_line(line, outcome)
    read = json.loads(archived)
    assert list(read) == ['entry', 'mac', 'outcome'] and archived.endswith(b'}\n')
    assert archived.startswith(line[:-1]) and archived.decode() == compact(read) + '\n'
    assert list(read['outcome'])[::2] == ['status', 'chain']
    assert read['outcome']['status'] == status and body_in(read['outcome']) == body
    record = entries.read_record(archived[:-1], KEY)
    assert record == (entry, outcome, hashlib.sha256(line).hexdigest())


def test_the_chain_leaves_out_what_replicas_may_differ_in() -> None:
    """An entry that was applied twice is `repeated`; a refused row may get another number."""
    chain = 64 * 'a'
    for route, one, other in (
            ('/v1/requests', *PLAIN),
            ('/v1/declarations', b'2 accepted\n3 refused 11\n', b'2 repeated\n3 refused 9\n')):
        assert (entries.outcome_after(route, 200, one, chain).chain
                == entries.outcome_after(route, 200, other, chain).chain)
    kept = [('/v1/requests', 200, PLAIN[0]), ('/v1/requests', 409, PLAIN[0]),
            ('/v1/requests', 200, b'{"outcome":"accepted","reply":{"account":1}}'),
            ('/v1/declarations', 200, b'2 accepted\n'), ('/v1/declarations', 200, b'2 refused 1\n'),
            ('/v1/declarations', 200, b'3 accepted\n'), ('/v1/declarations', 200, b'2 accepted')]
    made = {entries.outcome_after(*each, chain).chain for each in kept}
    assert len(made) == len(kept)                       # and nothing else
    assert entries.outcome_after(*kept[0], 64 * 'b').chain not in made
    assert entries.outcome_after(*kept[0], chain).chain == hashlib.sha256(
        chain.encode() + b'200 ' + PLAIN[0]).hexdigest()


def made_archive(folder: Path, count: int, month: str = '03') -> list[bytes]:
    """The lines of an archive of so many entries, made as the document says."""
    prev, chain = 64 * '0', '-'
    lines = []
    for n in range(1, count + 1):
        entry = Entry(n, prev, f'2026-{month}-01T00:00:00.000000Z', 'h', 'u', 'a', 'full', 'SUN',
                      'POST', '/v1/requests', 'v', f'{n}', b'{"n":%d}' % n)
        line, body = entries.entry_line(entry, KEY), b'{"outcome":"accepted","n":%d}' % n
        chain = hashlib.sha256(chain.encode() + b'200 ' + body).hexdigest()
        prev = hashlib.sha256(line).hexdigest()
        outcome = {'status': 200, 'body': body.decode(), 'chain': chain}
        lines.append(line[:-1] + b',"outcome":' + compact(outcome).encode() + b'}\n')
    folder.mkdir(exist_ok=True)
    (folder / f'2026-{month}.jsonl').write_bytes(b''.join(lines))
    return lines


def numbers(folder: Path, after: int = 0) -> Iterator[int]:
    return (record.entry.n for record in reader.read_archive(folder, after, KEY))


def test_an_archive_is_read_from_any_entry_on(tmp_path: Path) -> None:
    lines = made_archive(tmp_path, 30)
    (tmp_path / '2026-03.jsonl').write_bytes(b''.join(lines[:4]))
    (tmp_path / '2026-04.jsonl').write_bytes(b''.join(lines[4:]))
    for _ in range(2):                                  # the finished month is packed then
        for after in (0, 1, 3, 4, 5, 29, 30, 31):
            assert list(numbers(tmp_path, after)) == list(range(after + 1, 31)), after
        compress(tmp_path)
        assert (tmp_path / '2026-03.jsonl.gz').exists()
    assert Archive(tmp_path, KEY).last == entries.read_record(lines[-1][:-1], KEY)


@pytest.mark.parametrize('change', ['removed', 'swapped', 'twice', 'another outcome',
                                    'another log', 'without the key'])
def test_a_chain_that_does_not_hold_is_told_by_its_entry(tmp_path: Path, change: str) -> None:
    lines = made_archive(tmp_path, 9)
    at = {'removed': 6, 'swapped': 6, 'twice': 5}.get(change, 5)
    if change == 'removed':
        del lines[4]
    elif change == 'swapped':
        lines[4], lines[5] = lines[5], lines[4]
    elif change == 'twice':
        lines.insert(5, lines[4])
    elif change == 'another outcome':
        lines[4] = lines[4].replace(b'\\"accepted\\",\\"n\\":5', b'\\"accepted\\",\\"n\\":6')
    elif change == 'another log':
        lines[4:] = made_archive(tmp_path / 'other', 9, '04')[4:]
    else:
        lines[4] = re.sub(rb'"mac":"(..)', b'"mac":"00', lines[4])
    (tmp_path / '2026-03.jsonl').write_bytes(b''.join(lines))
    with pytest.raises(Broken, match=f'entry {at}'):
        list(numbers(tmp_path))
    assert list(numbers_before(tmp_path)) == [1, 2, 3, 4, 5][:5 if change == 'twice' else 4]


def numbers_before(folder: Path) -> Iterator[int]:
    """What was read before the fault."""
    try:
        yield from numbers(folder)
    except Broken:
        return


# ------------------------------------------------------------------ the two processes

MESSAGE = some.tuples(some.sampled_from(['apply', 'place', 'go']),
                      some.lists(some.one_of(some.binary(max_size=9), TEXT, some.integers())))


@given(some.lists(MESSAGE, max_size=6), some.integers(1, 40))
def test_messages_come_whole_however_they_are_cut(messages: list[tuple[str, list[object]]],
                                                  size: int) -> None:
    text = b''.join(frame_of(*message) for message in messages)
    frames = Frames()
    parts = [text[at:at + size] for at in range(0, len(text), size)]
    assert [message for part in parts for message in frames.add(part)] == messages
