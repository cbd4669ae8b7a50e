"""Registries 7 and 9 over connections that fail, and what an operator meets after that.

Holders of both export, transfer and cancel by chance, and the issuing bodies withdraw and lower
declarations, while each registry runs its exchange again and again. Of three imports that an
exchange sends to its own registry one is lost, before the registry has it or on the way back, and
one arrives twice, by chance; of three connections to the other's front door one breaks. What
registry 7 issues is of hydrogen, and what 9 issues of electricity. Each test goes on from the one
before.
"""
import base64
import collections
import hashlib
import json
import random
import shutil
import subprocess
import tempfile
from collections.abc import Iterator
from dataclasses import dataclass
from typing import Any

import pytest
from bodies import CARRIERS
from bodies import DRAINS
from bodies import HOLDERS
from bodies import Body
from bodies import Done
from bodies import Run
from bodies import assert_recounted
from bodies import drain
from bodies import homes
from front import Front
from readings import compact

pytestmark = pytest.mark.slow
ROUNDS = 15
KINDS = {'export': 60, 'away': 4, 'transfer': 20, 'cancel': 6, 'withdraw': 3, 'correct': 4}
"""What is done, and how often of a hundred times."""


@dataclass
class Two:
    """Both registries, and the chance by which all goes."""

    seven: Body
    nine: Body
    chance: random.Random

    @property
    def both(self) -> list[Body]:
        return [self.seven, self.nine]


@pytest.fixture(scope='module')
def two(pytestconfig: pytest.Config) -> Iterator[Two]:
    seed = pytestconfig.getoption('--seed')
    print(f'seed {seed}')
    with (Front(rate=500, code=7) as one, Front(rate=500, code=9) as other):
        seven, nine = Body(one, seed + 1), Body(other, seed + 2)
        seven.begin(9, 8)
        nine.begin(7)
        seven.meets(nine)
        nine.meets(seven)
        yield Two(seven, nine, random.Random(seed))


def test_before_anything_was_exchanged_both_begin_by_themselves(two: Two) -> None:
    for body in two.both:
        body.exchange()
    texts = [(body.state / 'generation.json').read_text() for body in two.both]
    assert [json.loads(text) for text in texts] == [{'generation': 1}] * 2


# ------------------------------------------------------------------ the rounds

def few_of(runs: list[Run], chance: random.Random, most: int) -> tuple[int, dict[str, str]]:
    """A few certificates of one run: their account, and the first and the last."""
    first, last, account, _ = chance.choice(runs)
    low = chance.randint(first, last)
    high = min(last, low + chance.randint(0, most))
    return account, {'first': f'{low:014}', 'last': f'{high:014}'}


def act(body: Body, peer: int, chance: random.Random) -> str:
    """What a holder does with a few of his certificates, or the issuing body with some held."""
    held = body.held()
    own = [run for run in held if run[0] // 10**12 == body.code]
    if not held:
        return ''
    weights = [0 if what == 'correct' and not own else weight for what, weight in KINDS.items()]
    what, = chance.choices(list(KINDS), weights)
    account, numbers = few_of(own, chance, 8) if what == 'correct' else few_of(held, chance, 60)
    holder = HOLDERS[account - 1]
    if what in ('export', 'away'):
        peer = 8 if what == 'away' and body.code == 7 else peer
        done = body.does(holder, 'export', giver=account, peer=peer,
                         account=chance.randint(1, 2), **numbers)
    elif what == 'transfer':
        done = body.does(holder, 'transfer', giver=account, taker=3 - account, **numbers)
    elif what == 'cancel':
        done = body.does(holder, 'cancel', account=account, beneficiary='Bakery',
                         use_first='2025-01-01', use_last='2025-01-31', **numbers)
    elif what == 'withdraw':
        done = body.does('ISSUER', 'withdraw', reason='meter read twice', **numbers)
    else:
        done = body.lower(**numbers)
    assert done['outcome'] == 'accepted', (what, numbers, done)
    return what


def exchanged(body: Body) -> Done:
    """A run over failing connections: it ends by 0 or 1."""
    run = body.exchange()
    assert run.returncode in (0, 1), run
    return run


def test_no_certificate_is_at_home_in_both_after_any_round(two: Two) -> None:
    seven, nine, chance = two.seven, two.nine, two.chance
    seven.does('SUN', 'export', giver=1, peer=8, account=1, first='07000000000001',
               last='07000000000005')
    for body in two.both:
        lowered = body.lower(f'{body.code:02}000000000006', f'{body.code:02}000000000010')
        assert lowered['reply'] == {'carry': 200_033, 'count': 5, 'withdrawal': 1}
    done = collections.Counter[str]()
    for _ in range(ROUNDS):
        for body, peer in ((seven, 9), (nine, 7)):
            done.update(act(body, peer, chance) for _ in range(chance.randint(1, 5)))
        for body in chance.sample(two.both, 2):
            exchanged(body)
        assert not {number: places for number, places in homes(two.both).items()
                    if len(places) > 1}
    assert len(done) > 3
    for _ in range(DRAINS):
        runs = [exchanged(body) for body in two.both]
        if all(run.returncode == 0 and not run.stdout for run in runs):
            break
    assert all(run.returncode == 0 for run in runs), runs


def test_some_were_lost_some_came_twice_and_connections_broke(two: Two) -> None:
    for body in two.both:
        assert body.fates
        count = body.fates.count
        assert len(count) == 4 and min(count.values()) >= 2 and body.wire.broken >= 5, count


def test_each_certificate_that_was_issued_is_in_one_place(two: Two) -> None:
    found, away = homes(two.both), two.seven.under_way(8)
    assert away, 'some are on the way to a third registry'
    issued = {body.code * 10**12 + number for body in two.both
              for number in range(1, body.issued() + 1)}
    assert set(found) == issued
    assert not {number: places for number, places in found.items()
                if len(places) != (0 if number in away else 1)}
    abroad = [number for number, places in found.items()
              if places and places[0][0] != number // 10**12]
    assert len(abroad) > 20


def test_each_certificate_is_of_its_own_carrier_wherever_it_is(two: Two) -> None:
    found = homes(two.both)
    for number, places in found.items():
        for body in (body for body in two.both if body.code in [code for code, _ in places]):
            text = body.ask('ISSUER', 'GET', f'/v1/certificates/{number:014}')[1]
            assert (json.loads(text)['lot'].get('carrier')
                    == CARRIERS[number // 10**12].get('carrier')), (number, body.code)
    assert [number for number in two.nine.under_way(7)
            if number // 10**12 == 7 and [code for code, _ in found[number]] == [7]], (
                'some of hydrogen went out and came back')


def test_notices_of_electricity_alone_are_of_version_1_and_all_others_of_version_2(
        two: Two) -> None:
    kinds = collections.Counter[tuple[object, ...]]()
    for notice in (*two.seven.notices(), *two.nine.notices()):
        stated = {part['lot'].get('carrier') for part in notice['parts']}
        kinds[notice['version'], 'hydrogen' in stated, 'electricity' in stated,
              None in stated] += 1
    known = {(1, False, False, True), (2, True, False, False), (2, True, True, False)}
    assert set(kinds) <= known and len(kinds) > 1, kinds


def test_the_recount_of_both_finds_nothing(two: Two) -> None:
    assert_recounted(two.seven, two.nine)


# ------------------------------------------------------------------ what an operator meets

def test_a_lost_state_file_has_all_delivered_anew_and_repeated(two: Two) -> None:
    before = [body.texts() for body in two.both]
    (two.seven.state / 'inbox/09.json').unlink()
    told = ''
    for _ in range(DRAINS):
        run = two.seven.exchange()
        told += run.stdout
        if run.returncode == 0 and not run.stdout:
            break
    assert run.returncode == 0 and ' repeated, ' in told and ' accepted, ' not in told, told
    assert before == [body.texts() for body in two.both]


def outbox(body: Body) -> dict[str, str]:
    return {str(path.relative_to(body.state)): path.read_text()
            for path in body.state.glob('outbox/*/[0-9]*')}


def test_a_lost_outbox_is_made_again_as_it_was(two: Two) -> None:
    texts, before = outbox(two.nine), [body.texts() for body in two.both]
    shutil.rmtree(two.nine.state / 'outbox')
    for _ in range(DRAINS):
        if two.nine.exchange().returncode == 0:
            break
    assert texts and texts == outbox(two.nine)
    assert before == [body.texts() for body in two.both]


def test_an_export_to_an_account_that_is_not_there_waits_until_it_is(two: Two) -> None:
    """It is told on both sides."""
    seven, nine = two.seven, two.nine
    number = seven.some(1)
    text = f'{number:014}'
    seven.does('SUN', 'export', giver=1, peer=9, account=3, first=text, last=text)
    seven.until('published')
    run = nine.until('refused')
    kept = list((nine.state / 'refused').glob('*'))
    assert run.returncode == 1 and 'UnknownAccount' in run.stdout and len(kept) == 1, run
    run = nine.exchange()
    assert run.returncode == 1 and 'waits: refused: UnknownAccount' in run.stdout, run
    assert list((nine.state / 'refused').glob('*')) == kept
    run = seven.until('waits there')
    row = seven.sent_row(9, text)
    assert run.returncode == 1 and 'refused: UnknownAccount' in run.stdout, run
    assert (row['became'], row['settled']) == ('refused: UnknownAccount', False)
    nine.does('ISSUER', 'open_account', holder='SUN')
    run = nine.until('registry 7, notice')
    assert ' 1 certificates' in run.stdout and not list((nine.state / 'refused').glob('*')), run
    assert nine.holder_of(number) == 3
    drain(seven, nine)
    row = seven.sent_row(9, text)
    assert (row['became'], row['settled']) == ('accepted', True)


def test_wrong_passwords_and_a_registry_that_is_down_are_told_and_nothing_is_lost(
        two: Two) -> None:
    seven, nine = two.seven, two.nine
    number = seven.export(9, seven.some(2), 1, giver=2)
    seven.until('published')
    nine.meets(seven, password='wrong')
    assert nine.until('answered 401').returncode == 1
    nine.meets(seven, user='nemo')
    run = nine.until('no outbox of ours')
    assert run.returncode == 1 and 'no outbox of ours' in run.stdout, run
    nine.meets(seven)
    nine.front.stop('registry')
    run = nine.until('our registry: no answer')
    assert run.returncode == 1 and 'our registry: no answer' in run.stdout, run
    nine.front.start('registry')
    run = nine.until('registry 7, notice')
    assert 'certificates' in run.stdout and nine.holder_of(number) == 2, run


def test_back_from_a_copy_that_lacks_a_request_it_is_told_and_goes_on(two: Two) -> None:
    seven, nine = two.seven, two.nine
    copy, number = nine.copy(), nine.some(1)
    nine.export(7, number, 1)
    nine.until('published')
    seven.until('registry 9, notice')
    nine.back_to(copy)
    run = nine.until('older copy')
    assert run.returncode == 1 and 'older copy' in run.stdout, run
    nine.export(7, number, 1)
    assert all(run.returncode == 0 for run in drain(seven, nine))


# ------------------------------------------------------------------ what is forged

def sign(body: Body, text: str) -> str:
    with tempfile.NamedTemporaryFile() as file:
        file.write(text.encode())
        file.flush()
        raw = subprocess.run(['openssl', 'pkeyutl', '-sign', '-rawin', '-inkey', body.key, '-in',
                              file.name], check=True, capture_output=True).stdout
    return base64.b64encode(raw).decode()


def forge(body: Body, peer: int, text: str) -> int:
    """Puts a text into an outbox as its owner could, with signature and state; the position."""
    box = body.state / f'outbox/{peer:02}'
    texts = {int(file.name): file.read_text() for file in box.glob('[0-9]*')
             if file.name.isdigit() and file.name != '0'}
    position = max(texts, default=0) + 1
    texts[position] = text
    (box / str(position)).write_text(text)
    (box / f'{position}.sig').write_text(sign(body, text))
    chain = ''
    for at in sorted(texts):
        chain = hashlib.sha256((chain + texts[at]).encode()).hexdigest()
    told = {**json.loads((box / 'state').read_text()),
            'outbox': {'highest': len(texts), 'chain': chain}}
    (box / 'state').write_text(compact(told))
    (box / 'state.sig').write_text(sign(body, compact(told)))
    return position


def in_anothers_name(notice: dict[str, Any]) -> str:
    part = notice['parts'][0]
    part.update(first='08000000000001', last='08000000000009', lot={**part['lot'], 'origin': 8})
    notice.update(sender=8, addressee=7, number=1, account=1, parts=[part])
    return str(compact(notice))


def test_a_notice_in_anothers_name_and_no_notice_are_told_kept_and_not_imported(
        two: Two) -> None:
    seven, nine = two.seven, two.nine
    notice = json.loads(seven.ask('ISSUER', 'GET', '/v1/notices/1')[1])
    places = [forge(nine, 7, in_anothers_name(notice)), forge(nine, 7, 'no notice')]
    told, before = '', seven.texts()
    for _ in range(DRAINS):
        told += seven.exchange().stdout
        if 'WrongSender' in told and 'NotANotice' in told:
            break
    refused = seven.state / 'refused'
    assert {path.name for path in refused.glob('*')} == {f'09-{place}' for place in places}, told
    assert 'WrongSender' in told and 'NotANotice' in told and before == seven.texts()
    for place in places:
        seven.until('settled', '--settle', 9, place)
    assert not list(refused.glob('*')) and seven.until('').returncode == 0
