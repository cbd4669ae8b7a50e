"""docs/MIGRATING.md played: an old registry is brought over, in the order of the weekend.

The commands are the blocks of the document. The tables are made (old_registry.py): small, and as of
the host's day. In the end all of it is taken back, and brought over once more.
"""
import contextlib
import datetime
import json
import os
import re
import signal
import subprocess
from pathlib import Path
from typing import Any

import old_registry
import pytest
from host import OLD
from host import TODAY
from host import add_user
from host import at_door
from host import by_socket
from host import comes
from host import copies
from host import install
from host import is_well
from host import journal
from host import play
from host import script
from host import set_up
from host import shell
from host import start

FOLDER = Path('/root/migration')
CLOSED_ON = TODAY - datetime.timedelta(1)
SIZE = old_registry.Size(holders=12, devices=24)
SETTINGS = old_registry.SETTINGS.replace(old_registry.DATE, str(TODAY)).replace(
    old_registry.CLOSED_ON, str(CLOSED_ON))
PROGRESS = r'(?m)^[\d,]+ done, [\d,]+ left, [\d.,]+ a second, ends at \w+ [\d:]+$'
PAPER = b'%PDF-1.7 the last statement'


@pytest.fixture(scope='module')
def kept() -> dict[str, str]:
    """What a later test needs of an earlier one: the copy of Friday."""
    return {}


def write_tables() -> None:
    """The tables as of today: the first period is of five months ago."""
    months = TODAY.year * 12 + TODAY.month - 1 - 5
    old_registry.write(FOLDER, 4, SIZE, SETTINGS, (months // 12, months % 12 + 1))
    (FOLDER / 'documents').mkdir(exist_ok=True)
    (FOLDER / 'documents/last.pdf').write_bytes(PAPER)
    (FOLDER / 'tables/documents.csv').write_text(
        'file,holder,about\nlast.pdf,H00001,The last statement\n', encoding='utf-8')


def answered() -> int:
    """How many requests of the plan are answered, as the run has noted."""
    with contextlib.suppress(FileNotFoundError):
        return int(json.loads((FOLDER / 'sent').read_text(encoding='utf-8'))['requests'])
    return 0


def steps_of(command: str, holder: str = '') -> list[dict[str, Any]]:
    """The requests of the plan with a command: of a holder, or all of them."""
    lines = (FOLDER / 'plan.jsonl').read_text(encoding='utf-8').splitlines()
    steps = [dict(json.loads(line)) for line in lines]
    return [step for step in steps if step['body']['command'] == command
            and holder in ('', step['holder'])]


def first_import() -> object:
    """A notice of the old registry that has come in."""
    return steps_of('import')[0]['body']


def certificate() -> tuple[str, str]:
    """Status and text of the first certificate of the stock."""
    first = old_registry.read_tables(FOLDER)['stock'][0][0]
    return at_door('office', f'/v1/certificates/{first}')


# ------------------------------------------------------------------ before

def test_a_registry_is_set_up() -> None:
    done = install(OLD)
    assert done.returncode == 0, done.stderr[-900:]
    done = set_up()
    assert done.returncode == 0 and is_well(), (done, journal('goo-replica'))


def test_a_fault_of_the_tables_is_told_by_its_name() -> None:
    FOLDER.mkdir()
    write_tables()
    path = FOLDER / 'tables/stock.csv'
    text = path.read_text(encoding='utf-8')
    path.write_text(text.replace('08000000000001', 'SOLD', 1), encoding='utf-8')
    done = shell(script('The tables are checked', 0))
    assert done.returncode == 1 and '[number stock 1]' in done.stdout, done
    planned = shell(script('The plan is rehearsed', 0, DATE=str(TODAY)))
    assert planned.returncode == 3 and '1 faults stand' in planned.stderr, planned


def test_the_tables_are_checked() -> None:
    write_tables()
    assert 'nothing stands in the way' in play('The tables are checked')


def test_the_plan_is_rehearsed_and_its_result_recounted() -> None:
    printed = play('The plan is rehearsed', DATE=str(TODAY))
    assert '\nno difference\n' in printed and ' hold, 0 broken' in printed, printed
    assert certificate()[0] == '404', 'the running registry knows nothing of it'


# ------------------------------------------------------------------ the weekend

def test_the_move_is_cut_off_and_goes_on(kept: dict[str, str]) -> None:
    text = script('The move', 0)
    with subprocess.Popen(['bash', '-euo', 'pipefail', '-c', text], cwd='/root', text=True,
                          stdout=subprocess.PIPE, stderr=subprocess.STDOUT,
                          start_new_session=True) as move:
        moved = comes(answered, 200)
        os.killpg(move.pid, signal.SIGKILL)
        printed = move.communicate()[0]
    kept['friday'] = copies()[0].name
    count = len((FOLDER / 'plan.jsonl').read_text(encoding='utf-8').splitlines())
    assert moved and kept['friday'] in printed and 0 < answered() < count, printed
    printed = shell(text.splitlines()[-1]).stdout
    assert re.search(PROGRESS, printed), printed
    assert f'all {count:,} requests are answered as planned' in printed, printed


def test_the_comparison_finds_none_and_the_protocol_is_signed() -> None:
    printed = play('The comparison', 0)
    assert '\nno difference\n' in printed, printed
    said = json.loads((FOLDER / 'protocol.json').read_text(encoding='utf-8'))
    assert said['differences'] == 0 and said['rows left out'] == {}
    assert said['plan']['requests'] == said['plan']['answered'] == answered()


def test_the_auditor_verifies_it_without_the_registry() -> None:
    public = shell('openssl pkey -in /etc/goo/exchange.key -pubout | sed -n 2p').stdout.strip()
    printed = play('What the auditor reads', 0, PUBLISHED=public)
    assert 'Signature Verified Successfully' in printed, printed
    said = (FOLDER / 'protocol.json').read_text(encoding='utf-8')
    hashes = re.findall('(?m)^([0-9a-f]{64})  ', printed)
    assert len(hashes) == 14 and all(found in said for found in hashes), printed
    assert 'all files are those' in play('What the auditor reads', 1, PUBLISHED=public)
    other = shell('openssl genpkey -algorithm ed25519 | openssl pkey -pubout | sed -n 2p').stdout
    done = shell(script('What the auditor reads', 0, PUBLISHED=other.strip()))
    assert done.returncode and 'Verified Successfully' not in done.stdout, done


def test_the_old_registry_is_closed() -> None:
    assert '"repeated"' in by_socket('root', '/v1/requests', first_import())
    play('The old registry is closed', 0)
    assert comes(lambda: 'registry 8 is closed' in by_socket('root', '/v1/requests',
                                                             first_import()))


def test_a_holder_sees_its_document_and_another_holder_does_not() -> None:
    assert '1 documents are new' in play('The documents', 0)
    for user, holder in (('anna', 'H00001'), ('bela', 'H00002')):
        assert add_user(user, holder).returncode == 0
    path = '/records/v1/attachments'
    assert comes(lambda: '"last.pdf"' in at_door('anna', path)[1]), at_door('anna', path)
    assert at_door('anna', f'{path}/1')[1] == PAPER.decode()
    assert at_door('bela', path)[0] == '200' and '"last.pdf"' not in at_door('bela', path)[1]
    assert at_door('bela', f'{path}/1')[0] == '404'


def test_the_book_of_acts_has_what_came_in() -> None:
    """What a holder holds by month, beside the tables."""
    tables = old_registry.read_tables(FOLDER)
    own = {row[0] for row in tables['accounts'] if row[1] == 'H00001'}
    wanted = sum(int(row[1]) - int(row[0]) + 1 for row in tables['stock'] if row[6] in own)
    assert comes(lambda: held_by('anna') == wanted), (held_by('anna'), wanted)


def held_by(user: str) -> int:
    """The certificates that a user's holder holds, by the records."""
    status, text = at_door(user, '/records/v1/holdings?by=month')
    return sum(item['count'] for item in json.loads(text)['items']) if status == '200' else 0


def test_an_enquiry_by_either_number() -> None:
    number = old_registry.read_tables(FOLDER)['stock'][0][1]
    printed = play('An enquiry by a number', OLD=number, NUMBER=number)
    assert printed.count(f'{number}\n  in the old registry: ') == 2, printed


# ------------------------------------------------------------------ back, and once more

def test_before_the_first_trade_all_of_it_is_taken_back(kept: dict[str, str]) -> None:
    row = 'The way back before the first trade'
    assert certificate()[0] == '200'
    assert start('goo-backup'), journal('goo-backup')
    assert '\nno difference\n' in play(row, 0)
    play(row, 1, COPY=kept['friday'])
    assert is_well() and certificate()[0] == '404'
    assert at_door('office', '/v1/audit') == ('200', '')
    assert not answered() and not re.search('^08', Path(
        '/etc/goo/closed-registries').read_text(encoding='utf-8'))


def test_it_is_brought_over_once_more() -> None:
    printed = play('The move', 0)
    assert 'requests are answered as planned' in printed, printed
    assert '\nno difference\n' in play('The comparison', 0)


def test_after_the_first_act_the_way_back_is_refused() -> None:
    """A holder cancels a certificate of its first account."""
    account = steps_of('open_account', 'H00001')[0]['reply']['account']
    row = next(row for row in old_registry.read_tables(FOLDER)['stock'] if row[6] == 'A-1')
    body = {'command': 'cancel', 'key': 'first', 'account': account, 'beneficiary': 'Bakery',
            'first': row[0], 'last': row[0], 'use_first': str(CLOSED_ON.replace(day=1)),
            'use_last': str(CLOSED_ON)}
    status, text = at_door('anna', '/v1/requests', body)
    assert status == '200', text
    done = shell(script('The way back before the first trade', 0))
    assert done.returncode == 1 and row[0] in done.stdout, done


def test_what_was_forgotten_comes_in_by_one_more_notice() -> None:
    body = json.loads(json.dumps(first_import()))
    part = body['notice']['parts'][0]
    number = f'{old_registry.CODE:02}900000000001'
    body['notice'] = {**body['notice'], 'number': 900,
                      'parts': [{**part, 'first': number, 'last': number}]}
    body['key'] = 'forgotten'
    play('The old registry is closed', 0)
    assert comes(lambda: 'registry 8 is closed' in by_socket('root', '/v1/requests', body))
    assert shell('goo-migrate close migration --open').returncode == 0
    assert comes(lambda: '"accepted"' in by_socket('root', '/v1/requests', body))
