"""The book of acts: whatever a user may send leaves a book, in proportion to what was sent."""
import collections
import datetime
import random
import threading
from pathlib import Path
from typing import Any

import pytest
import readings
from goo_service.common import tables
from goo_service.records import table_rows
from made_book import DEVICE
from made_book import HEADER
from made_book import OWN
from made_book import PLANT
from made_book import Made
from mutations import gsrn
from mutations import lot
from mutations import part
from goo_service.records.queue import Ahead
from goo_service.rules.commands import ISSUER

MOST = 1_048_576
"""Bytes of one request, by docs/FORMATS.md."""


@pytest.fixture
def made(tmp_path: Path) -> Made:
    """A small country and its book."""
    begun = Made(tmp_path)
    begun.country()
    return begun


OTHER = gsrn(86)


def row(key: str, month: int, gross: int = 1, device: str = DEVICE) -> bytes:
    return f'{key},{device},2025-{month:02}-01,2025-{month:02}-28,{gross},0\n'.encode()


# ------------------------------------------------------------ rows, as the program reads them

def test_tables_are_read_as_the_documents_say() -> None:
    chance = random.Random(86)
    pieces = [b'"', b',', b'\r', b'\n', b'a', b'""', b'\xef\xbb\xbf', b'\0', b' ', b'b"', b'\xff']
    for _ in range(20_000):
        table = b''.join(chance.choices(pieces, k=chance.randrange(12)))
        assert list(tables.records_in(table)) == readings.records_in(table), table


DIGITS = b'9' * 5000
LONGEST = {
    'one field': b'a' * (MOST - len(HEADER)),
    'one field in quotes': b'"' + b'a' * (MOST - len(HEADER) - 1),
    'a field of quotes': b'"' * (MOST - len(HEADER)),
    'one row of many fields': b',' * (MOST - len(HEADER)),
    'more digits than Python turns into a number': row('d', 2).replace(b',1,', b',%b,' % DIGITS),
    'every byte value': b''.join(b'%b,"%b"\n' % ((bytes([value]),) * 2) for value in range(256)),
    'a field that csv refuses': b'a' * 131_073 + b',b\n',
}


@pytest.mark.parametrize('rows', LONGEST.values(), ids=LONGEST.keys())
def test_no_row_ends_the_book(made: Made, rows: bytes) -> None:
    report = made.send_table('SUN', HEADER + rows)
    assert report.count(b'unreadable') == report.count(b'\n') > 0
    unreadable = made.acts(outcome='unreadable')
    assert sum(act['rows'] for act in unreadable) == report.count(b'\n')
    made.must('VOLT', 'close_account', account=2)
    assert made.acts()[0]['kind'] == 'closing'


# ------------------------------------------------------------ what a table leaves

FEW = 1.5
"""A book grows by no more than this for each byte of a table that changes nothing."""


def grown(made: Made, send: object) -> int:
    before = made.size()
    assert callable(send)
    send()
    return made.size() - before


def test_a_table_of_unreadable_rows_is_one_act(made: Made) -> None:
    count = (MOST - len(HEADER)) // 2
    table = HEADER + b'a\n' * count
    report = b''.join(b'%d unreadable\n' % line for line in range(1, count + 1))
    record = made.record('SUN', '/v1/declarations', table, 200, report)
    assert grown(made, lambda: made.take(record)) < len(table) / 20
    act, = made.acts(outcome='unreadable')
    assert (act['kind'], act['rows'], act['line']) == ('issue', count, 1)
    assert (act['lines'], act['caller'], act['entry']) == (f'1-{count}', 'SUN', record.entry.n)


def test_a_holders_table_of_refused_rows_is_one_act(made: Made) -> None:
    rows = [row(f'r{line}', 2) for line in range(20_000)]
    size = grown(made, lambda: made.send_table('SUN', HEADER + b''.join(rows)))
    assert size < sum(map(len, rows)) / 20
    act, = made.acts(outcome='refused')
    assert (act['refusal'], act['rows'], act['lines']) == ('NotAllowed', 20_000, '1-20000')


def test_small_tables_of_a_holder_leave_no_more_than_they_are(made: Made) -> None:
    tables_sent = [HEADER + row(f's{at}', 2) * 20 for at in range(200)]
    sent = grown(made, lambda: [made.send_table('VOLT', table) for table in tables_sent])
    assert sent < FEW * sum(map(len, tables_sent))


def test_refused_rows_of_the_issuing_body_are_acts_of_their_own(made: Made) -> None:
    made.must(ISSUER, 'register_device', **{**PLANT, 'device': OTHER})
    rows = b'no row\n'.join(row(key, month, 1, OTHER) for key, month in zip('abcd', (2, 1, 3, 1)))
    report = made.send_table(ISSUER, HEADER + rows)
    assert report.decode().split() == [
        '1', 'accepted', '2', 'unreadable', '3', 'refused', '11', '4', 'unreadable',
        '5', 'accepted', '6', 'unreadable', '7', 'refused', '11']
    acts = made.acts(entry=made.last)[::-1]
    told = [(act['line'], act['rows'], act['outcome'], act['refusal'], act['key']) for act in acts]
    assert told == [
        (1, 1, 'accepted', None, 'a'), (3, 1, 'refused', 'PeriodOrder', 'b'),
        (5, 1, 'accepted', None, 'c'), (7, 1, 'refused', 'PeriodOrder', 'd'),
        (2, 3, 'unreadable', None, None)]
    assert acts[-1]['lines'] == '2,4,6'
    assert {act['device'] for act in acts[:-1]} == {OTHER}


def test_the_later_ones_of_many_refused_rows_are_told_together(made: Made) -> None:
    count = table_rows.OWN_ACTS + 500
    made.send_table(ISSUER, HEADER + b''.join(row(f'm{line}', 1) for line in range(count)))
    refused = made.items(ISSUER, 'acts', outcome='refused')
    assert len(refused) == table_rows.OWN_ACTS + 1
    assert sum(act['rows'] for act in refused) == count
    assert refused[0]['lines'] == f'{table_rows.OWN_ACTS + 1}-{count}'


def test_lines_of_one_act_are_few(made: Made) -> None:
    pairs = b''.join(row(f'l{line}', 4) + b'a\n' for line in range(300))
    made.send_table('SUN', HEADER + pairs)
    for act in made.acts(entry=made.last):
        assert act['rows'] == 300
        assert act['lines'].count(',') == table_rows.SPANS - 1


# ------------------------------------------------------------ what a range through many lots leaves

DAYS = [datetime.date(2025, 2, 1) + datetime.timedelta(at) for at in range(300)]
LOTS = [(OWN + 301 + 2 * at, OWN + 302 + 2 * at) for at in range(len(DAYS))]
"""Each day's two certificates of OTHER."""
FOREIGN = 9 * 10 ** 12 + 1
"""A certificate of another registry, which came while these were issued."""


@pytest.fixture
def many(made: Made) -> Made:
    """The same with a device that declares each day, so that each two numbers are a lot."""
    made.must(ISSUER, 'register_device', **{**PLANT, 'device': OTHER})
    made.must(ISSUER, 'add_peer', peer=9)
    came = part(FOREIGN, 5, lot(9, gsrn(99), '2025-06-01', '2025-06-30', issued_on='2025-07-02'))
    notice = {'sender': 9, 'addressee': 7, 'number': 1, 'account': 1, 'version': 1, 'parts': [came]}
    for day in DAYS:
        if day == DAYS[150]:
            made.must(ISSUER, 'import', notice=notice)
        made.must(ISSUER, 'declare', device=OTHER, first_day=day.isoformat(), gross_wh=2_000_000,
                  last_day=day.isoformat(), aux_wh=0)
    return made


def transfer(made: Made, giver: int, first: int, last: int) -> dict[str, Any]:
    made.must(('SUN', 'VOLT')[giver - 1], 'transfer', giver=giver, taker=3 - giver,
              first=f'{first:014}', last=f'{last:014}')
    return dict(made.asked(ISSUER, f'/records/v1/acts/{made.writer.acts}')[1])


def there_and_back(made: Made) -> None:
    for _ in range(20):
        for giver in (1, 2):
            made.must(('SUN', 'VOLT')[giver - 1], 'transfer', giver=giver, taker=3 - giver,
                      first=f'{LOTS[0][0]:014}', last=f'{LOTS[-1][1]:014}')


def test_a_range_through_many_lots_leaves_little(many: Made) -> None:
    assert grown(many, lambda: there_and_back(many)) < 40 * 2_000


@pytest.mark.parametrize(('first', 'last'), [
    (LOTS[0][0], LOTS[-1][1]), (LOTS[0][1], LOTS[-1][0]), (LOTS[7][1], LOTS[9][0]),
    (LOTS[7][1], LOTS[10][0]), (LOTS[7][0], LOTS[8][1]), (LOTS[5][0], LOTS[5][0]),
    (OWN + 290, LOTS[40][0])])
def test_an_act_has_the_ranges_of_each_lot(many: Made, first: int, last: int) -> None:
    act = transfer(many, 1, first, last)
    december = [(OWN + 201, OWN + 300)]
    wanted = [(max(first, begin), min(last, end)) for begin, end in december + LOTS
              if begin <= last and end >= first]
    shown = [(int(span['first']), int(span['last']), span['count']) for span in act['ranges']]
    assert shown == [(begin, end, end - begin + 1) for begin, end in wanted]
    assert (act['count'], act['ranges_in_all']) == (last - first + 1, len(wanted))
    listed = many.acts()[0]
    assert (listed['count'], listed['ranges_in_all']) == (act['count'], len(wanted))
    assert listed['ranges'] == act['ranges'][:20]


def test_each_certificate_has_its_own_life(many: Made) -> None:
    spans = [(LOTS[0][1], LOTS[-1][0]), (LOTS[3][0], LOTS[200][1]), (LOTS[50][1], LOTS[50][1])]
    givers = (1, 2, 1)
    acts = [transfer(many, giver, *span)['id'] for giver, span in zip(givers, spans)]
    numbers = {number for at in (0, 1, 2, 3, 4, 49, 50, 51, 200, 201, 298, 299)
               for number in LOTS[at]}
    for number in sorted(numbers):
        life = many.asked(ISSUER, f'/records/v1/certificates/{number}')[1]['life']
        wanted = [act for act, (first, last) in zip(acts, spans) if first <= number <= last]
        assert [act['id'] for act in life if act['kind'] == 'transfer'] == wanted
        assert life[0]['kind'] == 'issue'
    foreign = many.asked(ISSUER, f'/records/v1/certificates/{FOREIGN}')[1]['life']
    assert [act['kind'] for act in foreign] == ['import']


def foreign_part(first: int, month: int) -> dict[str, Any]:
    """Two certificates of a lot of that month, of another registry."""
    of = lot(9, gsrn(98), f'2025-{month:02}-01', f'2025-{month:02}-28', issued_on='2026-01-02')
    return dict(part(FOREIGN + first, 2, of))


def test_foreign_lots_that_came_in_parts_are_told_one_by_one(many: Made) -> None:
    for number, parts in enumerate([[(100, 6), (200, 7), (300, 8), (400, 9), (500, 10)],
                                    [(20, 6), (22, 7), (24, 8), (26, 9), (28, 10)]], 2):
        notice = {'sender': 9, 'addressee': 7, 'number': number, 'account': 1, 'version': 1,
                  'parts': [foreign_part(*one) for one in parts]}
        many.must(ISSUER, 'import', notice=notice)
    act = transfer(many, 1, FOREIGN + 20, FOREIGN + 29)
    assert [int(span['first']) - FOREIGN for span in act['ranges']] == [20, 22, 24, 26, 28]
    assert len({span['lot'] for span in act['ranges']}) == 5
    for number, kinds in ((21, 2), (25, 2), (101, 1), (301, 1)):
        life = many.asked(ISSUER, f'/records/v1/certificates/{FOREIGN + number}')[1]['life']
        assert len(life) == kinds


def test_each_account_has_its_part_of_a_range(many: Made) -> None:
    """A withdrawal goes over the accounts of two holders: each sees what it took of him."""
    transfer(many, 1, LOTS[20][0], LOTS[29][1])
    many.must(ISSUER, 'withdraw', first=f'{LOTS[10][0]:014}', last=f'{LOTS[39][1]:014}',
              reason='meter read twice')
    number = many.writer.acts
    for viewer, lots in (('VOLT', range(20, 30)), (ISSUER, range(10, 40)),
                         ('SUN', [*range(10, 20), *range(30, 40)])):
        act = many.asked(viewer, f'/records/v1/acts/{number}')[1]
        assert [int(span['first']) for span in act['ranges']] == [LOTS[at][0] for at in lots]
        whole, = many.items(viewer, 'withdrawals')
        assert whole['count'] == 2 * len(lots)


def test_statistics_are_of_each_lot(many: Made) -> None:
    first, last = LOTS[10][1], LOTS[99][0]
    many.must('SUN', 'cancel', account=1, first=f'{first:014}', last=f'{last:014}',
              beneficiary='Rathaus', use_first='2025-01-01', use_last='2025-12-31')
    months = collections.Counter(
        DAYS[at].isoformat()[:7] for at, numbers in enumerate(LOTS) for number in numbers
        if first <= number <= last)
    told = {row['production']: row['cancelled']
            for row in many.items(ISSUER, 'statistics', by='production') if row['cancelled']}
    assert told == months


# ------------------------------------------------------------ requests of any bytes

SMALL = [bytes([value]) * 3 for value in range(256)] + [
    b'\xef\xbb\xbf{}', b'{"a":NaN}', b'{"command":["cancel"],"key":{}}', b'{"a":1e999}',
    b'{"command":"open_holder","key":"\\ud800"}', '{"command":"cancel","key":"k"}'.encode('utf-16')]
LONG = [b'[' * (MOST // 2), b'{"command":' * 90_000, b'"' + b'\\u0000' * 170_000 + b'"',
        b'9' * MOST, b'{"command":"cancel","key":"%b"}' % (b'k' * 1_000_000)]
BODIES = [*SMALL, *LONG]


def test_no_request_ends_the_book(made: Made) -> None:
    for body in SMALL:
        assert made.send_body('SUN', body)['outcome'] == 'unreadable'
    wrong = b'{"fault":"NotJson","outcome":"unreadable"}'
    tried = [*((body, 400, wrong, 'full') for body in LONG),
             *((body, 500, b'Set aside\n', 'full') for body in BODIES),
             *((body, 403, b'Forbidden\n', 'reads') for body in BODIES)]

    def take_all() -> None:
        for body, status, answer, role in tried:
            made.take(made.record('SUN', '/v1/requests', body, status, answer, role=role))

    assert grown(made, take_all) < 600 * len(tried)
    counts = {outcome: len(made.acts(outcome=outcome))
              for outcome in ('unreadable', 'set aside', 'refused')}
    assert counts == dict.fromkeys(('unreadable', 'set aside', 'refused'), len(BODIES))


LETTERS = [chr(code) for code in (0x20, 0x21, 0x22, 0x27, 0x2c, 0x3d, 0x5c, 0x7e, 0xa0, 0xad, 0xdf,
                                  0x130, 0x300, 0x5d0, 0x200b, 0x202e, 0x2028, 0xd7ff, 0xe000,
                                  0xfeff, 0xfffd, 0xffff, 0x1f600, 0x10ffff)]


def test_accepted_names_of_any_letters_are_kept(made: Made) -> None:
    chance, names = random.Random(7), list[str]()
    while len(names) < 150:
        name = ''.join(chance.choices(LETTERS, k=chance.randint(1, 16)))
        if readings.is_name(name):
            names.append(name)
    for at, name in enumerate(names):
        made.must(ISSUER, 'open_holder', holder=f'N{at}', name=name)
    kept = {item['code']: item['name'] for item in made.items(ISSUER, 'holders')}
    assert [kept[f'N{at}'] for at in range(len(names))] == names
    assert [act['note'] for act in made.acts()[:len(names)]] == names[::-1]
    found = made.acts(q=names[5])
    assert names[5] in {act['note'] for act in found}


def test_a_table_that_was_set_aside_is_told_so(made: Made) -> None:
    made.take(made.record(ISSUER, '/v1/declarations', HEADER, 500, b'Set aside\n'))
    assert made.acts()[0]['outcome'] == 'set aside'


# ------------------------------------------------------------ what waits

def test_what_is_read_ahead_is_bounded_by_its_bytes() -> None:
    ahead: Ahead[int] = Ahead(100)
    most = []

    def read() -> None:
        for thing, size in enumerate((10, 90, 200, 1, 99, 1)):
            ahead.put(thing, size)
            most.append(ahead.size)

    reader = threading.Thread(target=read)
    reader.start()
    reader.join(0.2)
    assert ahead.size == 100
    assert [ahead.get(5) for _ in range(6)] == [0, 1, 2, 3, 4, 5]
    reader.join(5)
    assert max(most) <= 200
    assert ahead.get(0.01) is None
