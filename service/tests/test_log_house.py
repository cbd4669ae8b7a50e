"""The log in the standing service: bounds, roles, the date, and a second one by mistake."""
import datetime
import json
import subprocess
from pathlib import Path
from typing import Any

from goo_service.log import reader
from goo_service.log import entries
import pytest
from door import SERVICE
from calls import Answer
from house import House
from service_commands import command

HEADER = b'key,device,first_day,last_day,gross_wh,aux_wh\n'
TODAY = datetime.date.today().isoformat()
TOMORROW = (datetime.date.today() + datetime.timedelta(1)).isoformat()


def archived(house: House) -> list[entries.Record]:
    return list(reader.read_archive(house.state / 'archive'))


def error_of(answer: Answer) -> str:
    assert answer.fields['content-type'].startswith('application/json') and answer.entry is None
    return str(answer.json['error'])


def test_the_largest_table_that_is_taken_and_the_next_starts(own_house: House) -> None:
    """Each row is unreadable, so the answer is many times the table. All parts start after it."""
    table = HEADER + b'a\n' * 21_000
    answer = own_house.ask('meter', 'POST', '/v1/declarations', table)
    assert answer.status == 200 and answer.text.count('unreadable') == 21_000
    taken = answer.entry
    answer = own_house.ask('meter', 'POST', '/v1/declarations', table + b'a\n')
    assert answer.status == 413 and '21001' in error_of(answer)
    assert archived(own_house)[-1].entry.n == taken
    for part in ('log', 'records'):
        own_house.restart(part)
    own_house.wait_for_book(taken)
    assert own_house.send('office', 'open_holder', holder='A', name='A').entry == taken + 1


def test_the_date_moves_past_the_host_s_day_by_the_operator_alone(own_house: House) -> None:
    own_house.make_country()
    before = own_house.entry()
    body = json.dumps({'command': 'advance', 'day': TOMORROW, 'key': 'a'})
    for confirmed in ('', TOMORROW):
        fields: dict[str, Any] = {'GOO_Confirm': confirmed} if confirmed else {}
        answer = own_house.ask('office', 'POST', '/v1/requests', body, **fields)
        assert answer.status == 403 and TOMORROW in error_of(answer)
    assert own_house.entry() == before
    for words, status in (((TODAY, '--confirm', TODAY), 0), ((TOMORROW,), 1),
                          ((TOMORROW, '--confirm', TOMORROW), 0)):
        done = own_house.run(*command('goo-advance', SERVICE), *words,
                             '--door', own_house.folder / 'door.sock', check=False)
        assert done.returncode == status, done
    assert own_house.entry() == before + 2
    assert f'date {TOMORROW}\n' in own_house.ask('office', 'GET', '/v1/accounts/1/statement').text


@pytest.mark.parametrize('role', ['', 'reads', 'nothing'])
def test_a_write_without_its_role_is_no_entry(house: House, role: str) -> None:
    before, body = house.entry(), '{"command":"open_holder","key":"r","holder":"R","name":"R"}'
    assert house.ask('audit', 'POST', '/v1/requests', body).status == 403
    answer = house.ask_log('ISSUER', 'POST', '/v1/requests', body, role=role, user='paula')
    assert answer.status == 403 and (role or 'reads') in error_of(answer)
    assert house.entry() == before
    assert f'paula ({role or "reads"}) POST /v1/requests' in house.said('log')
    assert house.ask_log('ISSUER', 'GET', '/v1/audit', role='').status == 200


def test_a_second_log_started_by_mistake_changes_nothing(own_house: House) -> None:
    """Over the same folders, while the first one takes requests."""
    own_house.make_country()
    words = own_house.parts['log'].words()
    door = str(own_house.folder / 'door.sock')
    assert door in words
    other = [str(own_house.folder / 'other.sock') if word == door else word for word in words]
    for _ in range(8):
        second = subprocess.Popen(other, stderr=subprocess.PIPE, text=True)
        assert own_house.send('office', 'open_account', holder='SUN').status == 200
        said = second.communicate(timeout=30)[1]
        assert second.returncode == 1 and 'another program' in said
    files = sorted(Path(own_house.state).rglob('*'))
    assert not [path for path in files if path.suffix == '.cut']
    done = own_house.log_words('verify')
    assert done.returncode == 0, done
    own_house.restart('log')
    assert own_house.send('office', 'open_account', holder='SUN').status == 200
