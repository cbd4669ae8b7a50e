"""What somebody without the key puts into log or archive; bodies of any bytes; the place's file.

A line that was changed at any one bit is in test_log.py.
"""
import json
import os
import tempfile
from collections.abc import Iterator
from pathlib import Path

import client
import pytest
from alone import Alone
from goo_service.log import reader
from goo_service.log import entries
from goo_service.log import file_store
from goo_service.log import position
from goo_service.log.archive import Archive
from goo_service.log.archive import compress
from hypothesis import given
from hypothesis import settings
from hypothesis import strategies
from house import House
from calls import read_answer
from test_log import KEY
from test_log import archive_of
from test_log import entry_of
from test_log import lines_of
from test_log import log_of


def test_an_entry_by_another_key_is_not_taken(tmp_path: Path) -> None:
    folder = tmp_path / 'log'
    file = log_of(folder, 3)
    *_, (_, last) = lines_of(3)
    entry = entry_of(4, entries.hash_of(last), b'{}')
    forged = entries.entry_line(entry, b'another key of someone')
    file.write_bytes(file.read_bytes() + forged + b'\n')
    with pytest.raises(entries.Broken, match='keyed hash'):
        file_store.FileStore(folder, KEY)


def hashed_anew(text: bytes) -> bytes:
    """An archive whose hashes somebody has made anew, all of them, without the key."""
    before, lines = '', []
    for line in text.splitlines():
        members = json.loads(line)
        members['entry']['prev'] = before or members['entry']['prev']
        plain = entries.compact({'entry': members['entry'], 'mac': members['mac']})
        before = entries.hash_of(plain)
        lines.append(plain[:-1] + b',"outcome":' + entries.compact(members['outcome']) + b'}\n')
    return b''.join(lines)


CHANGES = {'a request': (b'"a5\\', b'"b5\\'),
           'an outcome': (b'{\\"account\\":5}', b'{\\"account\\":6}')}


@pytest.mark.parametrize('what', CHANGES)
def test_a_change_is_told_by_its_number_whatever_was_hashed_anew(tmp_path: Path, what: str) -> None:
    file = archive_of(tmp_path / 'archive', 9)
    right, wrong = CHANGES[what]
    text = file.read_bytes()
    assert text.count(right) == 1
    for changed in (text.replace(right, wrong), hashed_anew(text.replace(right, wrong))):
        file.write_bytes(changed)
        with pytest.raises(entries.Broken, match='entry 5'):
            list(reader.read_archive(file.parent, 0, KEY))
    file.write_bytes(hashed_anew(text))
    assert len(list(reader.read_archive(file.parent, 0, KEY))) == 9, 'nothing was changed here'


@settings(max_examples=40, deadline=None)
@given(strategies.lists(strategies.binary(max_size=300), min_size=2, max_size=8),
       strategies.integers(1, 7))
def test_bodies_of_any_bytes_come_back_over_months(bodies: list[bytes], turn: int) -> None:
    """Read from each entry on, also with the first months compressed."""
    with tempfile.TemporaryDirectory() as place:
        folder = Path(place)
        archive, prev, chain = Archive(folder), 64 * '0', entries.NO_CHAIN
        for n, body in enumerate(bodies, 1):
            month = '2026-02-28' if n <= turn else '2026-03-01'
            entry = entry_of(n, prev, body)._replace(time=f'{month}T09:00:00.{n:06}Z')
            line = entries.entry_line(entry, KEY)
            outcome = entries.outcome_after(entry.route, 200, b'{}', chain)
            archive.add(line, entry, outcome)
            prev, chain = entries.hash_of(line), outcome.chain
        archive.sync()
        assert archive.file is not None
        os.close(archive.file)
        for _ in range(2):
            for after in range(len(bodies) + 1):
                read = list(reader.read_archive(folder, after, KEY))
                assert [record.entry.body for record in read] == bodies[after:]
            compress(folder)


SYNCED = strategies.lists(strategies.booleans(), max_size=6)


@settings(max_examples=200, deadline=None)
@given(SYNCED, strategies.binary(min_size=1, max_size=511))
def test_a_place_that_is_lost_while_it_is_written_leaves_the_one_before(synced: list[bool],
                                                                        junk: bytes) -> None:
    """Of two slots one is on the disk for certain; the other one has these bytes then."""
    with tempfile.TemporaryDirectory(dir='/dev/shm') as folder:
        path = Path(folder) / 'place'
        position.begin(path, 5, 64 * 'a')
        place, sure = position.Place(path), 5
        for n, is_synced in enumerate(synced, 6):
            place.record(n, 64 * 'b', 64 * 'c')
            if is_synced:
                place.sync()
                sure = n
        os.pwrite(place.file, junk, position.SLOT * place.slot)
        place.close()
        now = position.Place(path)
        assert now.n == sure
        now.record(sure + 1, 64 * 'd', '-')
        now.close()
        last = position.Place(path)
        assert last.n == sure + 1
        last.close()


# ------------------------------------------------------------------ what is no entry

@pytest.fixture
def log(tmp_path: Path) -> Iterator[Alone]:
    with Alone(tmp_path) as standing:
        yield standing


def test_two_callers_or_two_users_are_none(log: Alone) -> None:
    body = b'{"command":"open_account","key":"k","holder":"C0"}'
    before = len(log.records())
    assert log.send(body, caller='ISSUER\r\nGOO-Caller: C0').status == 403
    assert log.send(body, GOO_User='anna\r\nGOO-User: bela').status == 403
    assert len(log.records()) == before and log.registry.asked == []


ODD = (b'{"command":"declare","key":"a"}', b'{"command":"open_account","command":"declare"}',
       b'[' * 2000, b'')


@pytest.mark.parametrize('body', ODD)
def test_a_role_that_declares_sends_declarations_alone(log: Alone, body: bytes) -> None:
    """A body that could be read as two commands is none of them."""
    status = log.send(body, GOO_Role='declares').status
    assert (status == 200) == (body == ODD[0])
    assert len(log.registry.asked) == (body == ODD[0])


@pytest.mark.parametrize(('method', 'path'), [
    ('GET', '/'), ('GET', '/v1/requests'), ('PUT', '/v1/audit'), ('DELETE', '/v1/requests'),
    ('POST', '/v1/requests?a'), ('POST', '/v1/requests/'), ('GET', '/v1/accounts/1/statement'),
    ('GET', '/v1/accounts/x/statement'), ('POST', '/v1/audit')])
def test_what_is_no_entry_is_answered_by_the_registry(house: House, method: str, path: str) -> None:
    before = house.entry()
    lines = [client.CLOSE, 'Content-Length: 0']
    sent = client.request(method, path, 'ISSUER', lines, 'goo', b'')
    own = read_answer(client.answered(house.registry_port, sent))
    came = house.ask_log('ISSUER', method, path)
    assert (came.status, came.body) == (own.status, own.body)
    assert house.entry() == before
