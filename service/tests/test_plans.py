"""Tables of transfers and cancellations before they are sent, by the route that looks at them: the
file's form, faults by row and field, pairs, what was sent before, and the documents."""
import csv
import io
import json
import zipfile
from pathlib import Path
from typing import Any

import openpyxl  # type: ignore[import]
import pytest
from goo_service.records import plan_file
from goo_service.records import plan_words
from goo_service.rules.commands import ISSUER
from made_book import DEVICE
from made_book import OWN
from made_book import Made

CANCEL = 'beneficiary,quantity,use_first,use_last,tech,country,month,device\n'
USED = '2025-01-01,2025-12-31'


class Asked(Made):
    """SUN holds 100 of January, June and December of 2025; VOLT has account 2."""

    def plan(self, body: bytes | str, command: str = 'cancel', account: int = 1,
             caller: str = 'SUN', user: str = 'anna') -> tuple[int, Any]:
        client = self.client()
        body = body.encode() if isinstance(body, str) else body
        answer = client.post('/records/v1/plan', data=body,
                             query_string={'command': command, 'account': account},
                             headers={'GOO-Caller': caller, 'GOO-User': user})
        return answer.status_code, answer.get_json()

    def told(self, body: bytes | str, **given: Any) -> Any:
        status, answer = self.plan(body, **given)
        assert status == 200, answer
        return answer

    def faults(self, body: bytes | str, **given: Any) -> list[tuple[int, str, str]]:
        return [(of['row'], of['field'], of['kind']) for of in self.told(body, **given)['faults']]

    def send(self, *words: Any, **more: Any) -> Any:
        return super().send(*words, **more)

    def carry_out(self, plan: Any) -> None:
        """Sends the requests of a plan, with their keys."""
        for of in plan['rows']:
            for part, span in enumerate(of['ranges'], 1):
                fields = {name: of[name] for name in ('beneficiary', 'use_first', 'use_last')}
                self.must('SUN', 'cancel', key=f't.{plan["digest"]}.{of["row"]}.{part}',
                          account=1, **fields, **span)


@pytest.fixture
def made(tmp_path: Path) -> Asked:
    begun = Asked(tmp_path)
    begun.country()
    return begun


def table(*rows: str, head: str = CANCEL) -> str:
    return head + ''.join(f'{row}\n' for row in rows)


def test_a_table_is_planned_the_oldest_first(made: Asked) -> None:
    told = made.told(table(f'Bäckerei,150,{USED},,,,',
                           f'Żółw,40,{USED},T010000,DE,2025-12,{DEVICE}'))
    assert told['faults'] == [] and told['sent'] == []
    first, second = told['rows']
    assert first['ranges'] == [{'first': f'{OWN + 1:014}', 'last': f'{OWN + 150:014}'}]
    assert (first['beneficiary'], first['count'], first['wanted']) == ('Bäckerei', 150, 150)
    assert first['produced'] == ['2025-01-01', '2025-06-28']
    assert second['ranges'] == [{'first': f'{OWN + 201:014}', 'last': f'{OWN + 240:014}'}]
    assert told['requests'] == 2


def test_what_is_short_is_told_by_row_and_field(made: Asked) -> None:
    answer = made.told(table(f'A,250,{USED},,,,', f'B,60,{USED},,,,', f'C,1,{USED},T02*,,,',
                             f'D,1,{USED},,,2024-01,'))
    told = [(of['row'], of['field'], of['kind'], of['there'], of['wanted'])
            for of in answer['faults']]
    assert told == [(2, 'quantity', 'short', 50, 60), (3, 'tech', 'none', 0, 1),
                    (4, 'month', 'none', 0, 1)]


@pytest.mark.parametrize(('row', 'fault'), [
    (f',5,{USED},,,,', ('beneficiary', 'needed')), ('A,5,,2025-12-31,,,,', ('use_first', 'needed')),
    (f'A,0,{USED},,,,', ('quantity', 'number')), (f'A,1.5,{USED},,,,', ('quantity', 'number')),
    (f'A,-1,{USED},,,,', ('quantity', 'number')), (f'A,,{USED},,,,', ('quantity', 'both')),
    (f'A,=1+1,{USED},,,,', ('quantity', 'formula')),
    ('A,5,2025-13-01,2025-12-31,,,,', ('use_first', 'day')),
    ('A,5,2025-12-31,2025-01-01,,,,', ('use_last', 'order')),
    (f'A,5,{USED},solar,,,', ('tech', 'code')), (f'A,5,{USED},,Germany,,', ('country', 'code')),
    (f'A,5,{USED},,,March,', ('month', 'month')), (f'A,5,{USED},,,,5E17', ('device', 'code')),
    (f'{"x" * 65},5,{USED},,,,', ('beneficiary', 'name')),
    (f'"a\tb",5,{USED},,,,', ('beneficiary', 'name')),
    (f'A,5,{USED},,,,,more', ('row', 'longer')), ('\nA,5', None)])
def test_a_field_that_cannot_be_read_is_told(made: Asked, row: str,
                                             fault: tuple[str, str] | None) -> None:
    faults = made.faults(table(row))
    if fault:
        assert (1, *fault) in faults
    else:
        assert faults


def test_forms_that_spreadsheets_have(made: Asked) -> None:
    """German heads and days, semicolons, a byte order mark, separators; the same content."""
    plain = made.told(table(f'A,150,{USED},,,,'))
    german = '\ufeffKunde;Menge;Verbrauch ab;Verbrauch bis;Land\r\nA;150;1.1.2025;31.12.2025;\r\n'
    assert made.told(german)['digest'] == plain['digest']
    assert made.told(german)['rows'] == plain['rows']
    tabs = made.told(german.replace(';', '\t'))
    assert (tabs['digest'], tabs['rows']) == (plain['digest'], plain['rows'])
    assert plan_words.whole_of('1,200') == plan_words.whole_of('1.200') == 1200
    assert plan_words.month_of('01.03.2025') == plan_words.month_of('2025-03') == '2025-03'


def test_ranges_in_place_of_a_quantity(made: Asked) -> None:
    head = 'beneficiary,ranges,use_first,use_last\n'
    span = f'{OWN + 5:014}-{OWN + 9:014} {OWN + 20:014}'
    told = made.told(table(f'A,{span},{USED}', head=head))
    assert told['faults'] == [] and [of['count'] for of in told['rows']] == [6]
    gone = table(f'A,{OWN + 299:014}-{OWN + 302:014},{USED}', f'B,{span},{USED}',
                 f'C,{OWN + 9:014},{USED}', f'D,7-9,{USED}', head=head)
    assert made.faults(gone) == [(1, 'ranges', 'not_held'), (3, 'ranges', 'twice'),
                                 (4, 'ranges', 'ranges')]


@pytest.mark.parametrize(('body', 'kind'), [
    (b'', 'empty'), (b'\n\n', 'empty'), (CANCEL.encode(), 'empty'), (b'\xff\xfe', 'encoding'),
    (b'a\0b', 'encoding'), (CANCEL.encode() + b'A,5\n' * 1001, 'rows'),
    (b'PK\x03\x04 no zip', 'xlsx'), (b'"' + b'x' * 5000 + b'"\n', 'field')])
def test_a_file_that_is_no_table_is_told(made: Asked, body: bytes, kind: str) -> None:
    assert made.faults(body) == [(0, 'file', kind)]


def test_columns_are_told_by_name(made: Asked) -> None:
    answer = made.told('beneficiary,colour,quantity,Menge\nA,red,5,5\n')
    assert [(of['kind'], of['value']) for of in answer['faults']] == [
        ('column', 'colour'), ('column_twice', 'quantity'), ('column_twice', 'Menge'),
        ('column_lacks', 'use_first'), ('column_lacks', 'use_last')]


# ------------------------------------------------------------ transfers

TRANSFER = 'account,holder,quantity,country\n'


def test_a_table_of_transfers_names_the_takers(made: Asked) -> None:
    told = made.told(table('2,VOLT,30,DE', '2,volt,40,', head=TRANSFER), command='transfer')
    assert told['faults'] == []
    assert [(of['account'], of['holder'], of['name'], of['count']) for of in told['rows']] == [
        (2, 'VOLT', 'Volt', 30), (2, 'VOLT', 'Volt', 40)]


def test_wrong_pairs_of_a_table_are_told_up_to_a_bound(made: Asked) -> None:
    """Three are looked at; then no more, in this table and in the next question."""
    body = table('2,VOLT,1,', '2,SUN,1,', '3,VOLT,1,', '4,VOLT,1,', '5,VOLT,1,', '1,SUN,1,',
                 head=TRANSFER)
    assert made.faults(body, command='transfer')[:4] == [
        (2, 'holder', 'pair'), (3, 'holder', 'pair'), (4, 'holder', 'pair'),
        (5, 'holder', 'unseen')]
    assert made.faults(body, command='transfer')[-1] == (6, 'account', 'same')


def test_who_may_plan_what(made: Asked) -> None:
    body = table(f'A,5,{USED},,,,')
    assert made.plan(body, caller='VOLT')[0] == made.plan(body, account=7)[0] == 404
    assert made.plan(body, caller=ISSUER)[0] == 404
    assert made.plan(body, command='export')[0] == 400
    assert made.plan(b'x' * (2 ** 20 + 1))[0] == 413


def test_what_trade_no_longer_takes_is_not_planned(made: Asked) -> None:
    """On 2026-02-15 the trade of January 2025 is closed, and it can still be cancelled."""
    made.must(ISSUER, 'advance', day='2026-02-15')
    body = table('2,VOLT,201,', head=TRANSFER)
    assert made.faults(body, command='transfer') == [(1, 'quantity', 'short')]
    assert made.faults(table(f'A,201,{USED},,,,')) == []


# ------------------------------------------------------------ spreadsheets

def spreadsheet(*rows: tuple[object, ...]) -> bytes:
    book = openpyxl.Workbook()
    for row in rows:
        book.active.append(row)
    made = io.BytesIO()
    book.save(made)
    return made.getvalue()


HEAD = ('beneficiary', 'quantity', 'use_first', 'use_last')


def test_a_spreadsheet_is_as_its_csv(made: Asked) -> None:
    import datetime
    day = datetime.datetime(2025, 1, 1), datetime.date(2025, 12, 31)
    told = made.told(spreadsheet(HEAD, ('A', 150.0, *day)))
    assert told['faults'] == []
    assert told['digest'] == made.told(table(f'A,150,{USED},,,,'))['digest']


def test_no_formula_is_computed(made: Asked) -> None:
    body = spreadsheet(HEAD, ('A', '=100+50', '2025-01-01', '2025-12-31'))
    assert made.faults(body) == [(1, 'quantity', 'formula')]


def changed(body: bytes, name: str, text: bytes) -> bytes:
    """A spreadsheet with another part."""
    made = io.BytesIO()
    with zipfile.ZipFile(io.BytesIO(body)) as old, zipfile.ZipFile(made, 'w', 8) as new:
        for part in old.infolist():
            new.writestr(part.filename, text if part.filename == name else old.read(part))
    return made.getvalue()


def test_a_spreadsheet_that_grows_is_refused(made: Asked) -> None:
    good, sheet = spreadsheet(HEAD, ('A', 5, *USED.split(','))), 'xl/worksheets/sheet1.xml'
    assert made.faults(changed(good, sheet, b' ' * (5 << 20))) == [(0, 'file', 'xlsx_large')]
    bomb = (b'<!DOCTYPE x [<!ENTITY a "aaaaaaaaaa"><!ENTITY b "&a;&a;&a;&a;">]>'
            b'<worksheet>&b;</worksheet>')
    assert made.faults(changed(good, sheet, bomb)) == [(0, 'file', 'xlsx')]
    assert made.faults(changed(good, sheet, bomb.decode().encode('utf-16'))) == [
        (0, 'file', 'xlsx')]
    assert made.faults(changed(good, sheet, b'<worksheet>')) == [(0, 'file', 'xlsx')]
    assert made.faults(good[:-40]) == [(0, 'file', 'xlsx')]
    many = spreadsheet(HEAD, *[('A', 1, *USED.split(','))] * 1001)
    assert made.faults(many) == [(0, 'file', 'rows')]


def test_a_sheet_that_claims_a_million_rows_is_read_to_its_end(made: Asked) -> None:
    good, sheet = spreadsheet(HEAD, ('A', 5, *USED.split(','))), 'xl/worksheets/sheet1.xml'
    with zipfile.ZipFile(io.BytesIO(good)) as archive:
        text = archive.read(sheet)
    claims = text.replace(b'ref="A1:D2"', b'ref="A1:XFD1048576"')
    assert claims != text
    assert made.faults(changed(good, sheet, claims)) == []


def test_without_the_library_a_spreadsheet_is_told(made: Asked,
                                                   monkeypatch: pytest.MonkeyPatch) -> None:
    monkeypatch.setattr(plan_file, 'openpyxl', None)
    assert made.faults(spreadsheet(HEAD)) == [(0, 'file', 'xlsx_none')]


# ------------------------------------------------------------ sent, and sent again

def test_a_table_that_was_sent_is_told_and_planned_no_more(made: Asked) -> None:
    body = table(f'A,150,{USED},,,,', f'B,40,{USED},,,,')
    told = made.told(body)
    made.carry_out(told)
    again = made.told(body)
    assert again['digest'] == told['digest'] and again['rows'] == []
    assert [(of['row'], of['numbers']) for of in again['sent']] == [(1, [1]), (2, [2])]
    other = made.told(body.replace('150', '60'))
    assert other['digest'] != told['digest'] and other['sent'] == []
    noted = made.told(body.replace('device', 'device,reference').replace(',,,,', ',,,,,April'))
    assert noted['digest'] != told['digest'] and noted['sent'] == []


def test_keys_are_of_content_account_and_act(made: Asked) -> None:
    made.must(ISSUER, 'open_account', holder='SUN')
    body = table(f'A,5,{USED},,,,')
    assert made.told(body)['digest'] != made.told(body, account=3)['digest']
    assert len(f't.{made.told(body)["digest"]}.1000.4000') <= 40


def test_each_row_has_its_document_and_all_are_in_a_zip(made: Asked) -> None:
    """The texts are the registry's own, which the list of cancellations shows too."""
    body = table(f'Bäckerei & Söhne,150,{USED},,,,', f'=Rathaus,40,{USED},,,,',
                 f'Żółw,3,{USED},,,,')
    made.carry_out(told := made.told(body))
    client = made.client()
    answer = client.get('/records/v1/papers', query_string={'table': told['digest']},
                        headers={'GOO-Caller': 'SUN'})
    assert (answer.status_code, answer.content_type) == (200, 'application/zip')
    with zipfile.ZipFile(io.BytesIO(answer.get_data())) as archive:
        names = archive.namelist()
        texts = {name: archive.read(name).decode('utf-8-sig') for name in names}
    assert names == ['0001-Bäckerei-Söhne.txt', '0002-Rathaus.txt', '0003-Żółw.txt',
                     'documents.csv']
    listed = list(csv.DictReader(io.StringIO(texts['documents.csv'])))
    assert [of['beneficiary'] for of in listed] == ['Bäckerei & Söhne', "'=Rathaus", 'Żółw']
    for of in listed:
        assert of['code'] in texts[of['file']] and texts[of['file']].startswith('CANCELLATION ')
    for number in (1, 2, 3):
        own = made.asked('SUN', f'/records/v1/cancellations/{number}')[1]['text']
        assert own in ''.join(texts.values())
    verified = client.get('/verify', query_string={'number': listed[0]['number'],
                                                   'code': listed[0]['code']})
    assert verified.get_json()['valid'] is True
    for caller, digest, status in (('VOLT', told['digest'], 404), ('SUN', 'x' * 20, 404),
                                   ('SUN', '../../x', 400), ('SUN', '', 400)):
        found = client.get('/records/v1/papers', query_string={'table': digest},
                           headers={'GOO-Caller': caller})
        assert found.status_code == status, json.dumps([caller, digest])
