"""What the log takes in (log/bounds.py): each bound at its edge, and what reading costs."""
import csv
import datetime
import gc
import io
import json
import random
import time
from pathlib import Path

import pytest

from goo_service.log import bounds
from goo_service.log.closed import read_closed

TODAY = datetime.date(2026, 3, 1)
HEADER = b'key,device,first_day,last_day,gross_wh,aux_wh\n'
MEGABYTE = 1_048_576


def request_of(size: int, command: str) -> bytes:
    """A request of so many bytes; `reason` fills it up."""
    bare = len(json.dumps({'command': command, 'key': 'a', 'reason': ''}))
    return json.dumps({'command': command, 'key': 'a', 'reason': 'x' * (size - bare)}).encode()


def status_of(found: bounds.Refusal | None) -> int | None:
    return found.status if found else None


def refused(caller: str, body: bytes, confirmed: str = '') -> int | None:
    return status_of(bounds.of_request(caller, body, bounds.Host(TODAY, confirmed)))


# ------------------------------------------------------------------ tables

@pytest.mark.parametrize('end', [b'\n', b'\r\n', b'\r'])
@pytest.mark.parametrize(('count', 'status'), [(20_999, None), (21_000, None), (21_001, 413)])
def test_a_table_has_at_most_21000_rows(end: bytes, count: int, status: int | None) -> None:
    for last in (end, b''):
        table = HEADER.strip() + end + end.join([b'a'] * count) + last
        found = bounds.of_table(table)
        assert status_of(found) == status
    assert not found or found.error == 'the table has 21001 rows; at most 21000 are taken'


def test_rows_are_counted_as_the_csv_module_counts_them() -> None:
    chance = random.Random(5)
    for _ in range(300):
        text = ''.join(chance.choice(['a', ',', '\n', '\r\n', '\n\n', '1']) for _ in range(60))
        read = [row for row in csv.reader(io.StringIO(text, newline='')) if row]
        assert bounds.rows(text.encode()) == max(0, len(read) - 1), text


def test_a_body_of_rows_with_keys_of_four_letters_is_within_the_bound() -> None:
    row = b'%04x,500000000000000012,2025-02-01,2025-02-14,5,0\n'
    table = HEADER + b''.join([row % n for n in range(30_000)])
    assert bounds.of_table(table[:MEGABYTE]) is None


# ------------------------------------------------------------------ requests

@pytest.mark.parametrize(('caller', 'command', 'size', 'status'), [
    ('SUN', 'cancel', 65_536, None), ('SUN', 'cancel', 65_537, 413),
    ('ISSUER', 'correct', 65_536, None), ('ISSUER', 'correct', 65_537, 413),
    ('ISSUER', 'import', 65_537, None), ('ISSUER', 'import', MEGABYTE, None),
    ('SUN', 'import', 65_537, 413),
])
def test_the_length_of_a_request(caller: str, command: str, size: int, status: int | None) -> None:
    body = request_of(size, command)
    assert len(body) == size
    assert refused(caller, body) == status


@pytest.mark.parametrize('body', [
    b'{"command":"import","command":"cancel","reason":"' + b'x' * 70_000 + b'"}',
    b'{"command":"import",' + b' ' * 70_000, b'\xff' * 70_000, b'[' * 70_000,
    b'["import"]' + b' ' * 70_000, b'{"command":{"import":1}}' + b' ' * 70_000,
])
def test_a_long_body_that_is_no_import_is_refused(body: bytes) -> None:
    assert refused('ISSUER', body) == 413


def test_the_length_of_any_body() -> None:
    assert bounds.of_length(MEGABYTE) is None
    assert status_of(bounds.of_length(MEGABYTE + 1)) == 413


# ------------------------------------------------------------------ the date

@pytest.mark.parametrize(('day', 'confirmed', 'status'), [
    ('2026-02-28', '', None), ('2026-03-01', '', None), ('2026-03-02', '', 403),
    ('2036-01-01', '', 403), ('2036-01-01', '2036-01-01', None), ('2036-01-01', '2036-01-02', 403),
    ('2036-01-02', '2036-01-01', 403), ('2036', '', None), ('2036-1-1', '', None), ('', '', None),
])
def test_a_move_past_the_host_s_day_is_confirmed(day: str, confirmed: str,
                                                 status: int | None) -> None:
    body = f'{{"command":"advance","day":"{day}","key":"a"}}'.encode()
    assert refused('ISSUER', body, confirmed) == status


@pytest.mark.parametrize('body', [
    rb'{"command":"advance","day":"2036-01-01","key":"a"}',
    rb'{"\u0063ommand":"\u0061dvance","d\u0061y":"203\u0036-01-01","key":"a"}',
    rb'{"command":"declare","day":"2026-01-01","command":"advance","day":"2036-01-01"}',
    rb' {"key":{"command":"declare"},"day":"2036-01-01" , "command" : "advance"}',
    b'{"command":"advance","day":"2036-01-01","key":' + b'9' * 60_000 + b'}',
    b'{"command":"advance","day":"2036-01-01","key":' + b'[' * 120 + b']' * 120 + b'}',
    b'{"command":"advance","day":"2036-01-01","key":1e999}',
])
def test_no_spelling_of_such_a_move_goes_by(body: bytes) -> None:
    """The registry reads JSON as docs/FORMATS.md says: the last of two members counts."""
    found = bounds.of_request('ISSUER', body, bounds.Host(TODAY))
    assert status_of(found) == 403
    assert found and '2036-01-01' in found.error and '2026-03-01' in found.error


@pytest.mark.parametrize(('body', 'status'), [
    (b'{"command":"import","notice":{"sender":8}}', 403),
    (b'{"notice":{"sender":9,"sender":8},"command":"import"}', 403),
    (b'{"command":"import","notice":{"sender":80}}', None),
    (b'{"command":"import","notice":{"sender":[8]}}', None),
    (b'{"command":"import","notice":8}', None),
    (b'{"command":"add_peer","peer":8}', None)])
def test_a_closed_registry_sends_nothing_more(tmp_path: Path, body: bytes,
                                              status: int | None) -> None:
    path = tmp_path / 'closed-registries'
    host = bounds.Host(TODAY, '', read_closed(path))
    assert bounds.of_request('ISSUER', body, host) is None
    path.write_text('08 Registry of before, since 2025-03-01\n\n# none\n')
    host = bounds.Host(TODAY, '', read_closed(path))
    found = bounds.of_request('ISSUER', body, host)
    assert status_of(found) == status and (not found or 'registry 8 is closed' in found.error)


# ------------------------------------------------------------------ a holder's day

@pytest.mark.parametrize(('caller', 'sent', 'by_user', 'size', 'most'), [
    ('SUN', 67_108_863, 0, 1, None), ('SUN', 67_108_864, 0, 1, 67_108_864),
    ('SUN', 67_108_000, 0, 1_000, 67_108_864), ('SUN', 0, 16_777_215, 1, None),
    ('SUN', 16_777_216, 16_777_216, 1, 16_777_216), ('ISSUER', 99_999_999, 99_999_999, 9, None),
])
def test_the_bytes_of_a_holder_and_of_a_user_in_a_day(caller: str, sent: int, by_user: int,
                                                      size: int, most: int | None) -> None:
    """Whoever has used up his own bytes leaves three quarters of them to his colleagues."""
    evening = datetime.datetime(2026, 3, 1, 22, 58, 59)
    found = bounds.of_day(caller, sent, by_user, size, evening)
    assert status_of(found) == (429 if most else None)
    if found:
        assert found.fields == {'Retry-After': '3661'}
        assert caller in found.error and f'at most {most} bytes' in found.error


def test_a_day_is_over_in_a_second_at_least() -> None:
    assert bounds.seconds_left(datetime.datetime(2026, 3, 1, 23, 59, 59, 999_999)) == 1
    assert bounds.seconds_left(datetime.datetime(2026, 3, 1)) == 86_400


# ------------------------------------------------------------------ what is said, and what it costs

def test_a_refusal_is_json() -> None:
    found = bounds.of_table(HEADER + b'a\n' * 30_000)
    assert found and found.fields == {}
    assert json.loads(found.body) == {'error': 'the table has 30000 rows; at most 21000 are taken'}


LONG = {
    'open lists': b'[' * MEGABYTE, 'open objects': b'{"a":' * (MEGABYTE // 5),
    'numbers': b'[' + b'1,' * 524_000 + b'1]', 'lists': b'[' + b'[],' * 349_000 + b'1]',
    'objects': b'[' + b'{"":0},' * 149_000 + b'1]', 'digits': b'9' * MEGABYTE,
    'escapes': b'["' + rb'\u0041' * 174_000 + b'"]', 'blank': b'\n' * MEGABYTE,
    'chance': random.Random(1).randbytes(MEGABYTE), 'rows': b'a\n' * (MEGABYTE // 2),
}


@pytest.mark.parametrize('name', LONG)
def test_a_megabyte_is_read_in_a_moment(name: str) -> None:
    """Nothing else is done meanwhile. Half a second of a processor is several times what it takes.
    What other tests have left in memory is not looked through by the collector meanwhile."""
    gc.freeze()
    try:
        began = time.process_time()
        assert refused('ISSUER', LONG[name]) == 413
        bounds.of_table(LONG[name])
        assert time.process_time() - began < 0.5
    finally:
        gc.unfreeze()
