"""Lists of the records through the front door, page by page, and the public check of documents.

What has to be in a list is what the test itself sent.
"""
from collections.abc import Iterator
from dataclasses import dataclass
from dataclasses import field
from typing import Any

import pytest
from calls import Country
from house import House
from made_book import page_parameter
from mutations import gsrn

COUNT = 7
"""Of each kind, so that pages end within a list, at its end and just behind it."""
LIMITS = (1, 2, 3, COUNT - 1, COUNT, COUNT + 1, 1000)
ALPHABET = 'ABCDEFGHIJKLMNOPQRSTUVWXYZ0123456789'


@dataclass
class Sent:
    """What was sent to a house: the keys of its requests, and what was made."""

    house: House
    country: Country
    keys: list[str] = field(default_factory=list)
    cancellations: list[int] = field(default_factory=list)
    accounts: list[int] = field(default_factory=list)
    devices: list[str] = field(default_factory=list)

    def must(self, user: str, command: str, **members: Any) -> Any:
        self.keys.append(f'list-{len(self.keys)}')
        return self.house.must(user, command, key=self.keys[-1], **members)

    def pages(self, user: str, name: str, limit: int, **given: object) -> list[Any]:
        """All items of a list, page by page."""
        found: list[Any] = []
        more = ''
        asked = '&'.join(f'{word}={value}' for word, value in given.items())
        while True:
            path = f'/records/v1/{name}?limit={limit}&{asked}{more}'.replace('&&', '&').rstrip('&')
            answer = self.house.ask(user, 'GET', path)
            assert answer.status == 200, answer
            items = answer.json['items']
            assert len(items) <= limit
            found += items
            following = answer.json.get('next')
            if not following:
                return found
            more = f'&{page_parameter(name)}={following}'


@pytest.fixture(scope='module')
def sent() -> Iterator[Sent]:
    with House() as house:
        made = Sent(house, house.make_country())
        for at in range(COUNT):
            span = {word: f'{made.country.first + at:014}' for word in ('first', 'last')}
            reply = made.must('anna', 'cancel', account=made.country.sun, beneficiary=f'B{at}',
                              use_first='2025-01-01', use_last='2025-01-31', **span)
            made.cancellations.append(reply['cancellation'])
            holder = ('SUN', 'VOLT')[at % 2]
            made.accounts.append(made.must('office', 'open_account', holder=holder)['account'])
            made.devices.append(gsrn(300 + at))
            made.must('office', 'register_device', account=made.country.sun, country='DE',
                      device=made.devices[-1], site='East', tech='T010000', source='F01010100',
                      support='none', capacity_w=2_000_000_000, commissioned='2020-06-15')
            made.must('office', 'declare', device=made.devices[-1], first_day='2025-01-01',
                      last_day='2025-01-31', gross_wh=1_000_000, aux_wh=0)
        house.wait_for_book()
        yield made


@pytest.mark.parametrize('limit', LIMITS)
def test_acts_go_through_all_pages(sent: Sent, limit: int) -> None:
    keys = [act['key'] for act in sent.pages('office', 'acts', limit)]
    assert keys[:len(sent.keys)] == sent.keys[::-1]
    assert len(keys) == len(set(keys))
    own = [act['key'] for act in sent.pages('anna', 'acts', limit, kind='cancellation')]
    assert own == [key for at, key in enumerate(sent.keys) if at % 4 == 0][::-1]


@pytest.mark.parametrize('limit', LIMITS)
def test_lists_go_through_all_pages(sent: Sent, limit: int) -> None:
    shown = [row['number'] for row in sent.pages('office', 'cancellations', limit)]
    assert shown == sent.cancellations[::-1]
    shown = [row['number'] for row in sent.pages('office', 'accounts', limit)]
    assert shown == [sent.country.sun, sent.country.volt, *sent.accounts]
    shown = [row['gsrn'] for row in sent.pages('office', 'devices', limit)]
    assert shown == sorted([*sent.devices, sent.country.device])
    shown = [row['device'] for row in sent.pages('anna', 'declarations', limit)]
    assert shown == [*sent.devices[::-1], sent.country.device]
    shown = [row['code'] for row in sent.pages('office', 'holders', limit)]
    assert sorted(shown) == ['SUN', 'VOLT']


@pytest.mark.parametrize('limit', LIMITS)
def test_holdings_add_up_over_all_pages(sent: Sent, limit: int) -> None:
    rows = sent.pages('anna', 'holdings', limit, by='device')
    assert {row['device']: row['count'] for row in rows} == {
        sent.country.device: 100 - COUNT, **dict.fromkeys(sent.devices, 1)}
    assert len(rows) == COUNT + 1


def test_a_holder_sees_what_is_its_own(sent: Sent) -> None:
    assert not sent.pages('bela', 'cancellations', 100)
    accounts = [row['number'] for row in sent.pages('bela', 'accounts', 100)]
    assert accounts == [sent.country.volt, *sent.accounts[1::2]]
    assert not sent.pages('bela', 'devices', 100)


# -------------------------------------------------------------------- the public check

def is_valid(sent: Sent, number: int, code: str) -> bool:
    """What anybody is told of a number and a code."""
    answer = sent.house.ask(None, 'GET', f'/verify?number={number}&code={code}')
    assert (answer.status, answer.json['valid']) in ((200, True), (404, False)), answer
    return bool(answer.json['valid'])


def code_of(sent: Sent, number: int) -> str:
    return str(sent.house.ask('anna', 'GET', f'/records/v1/cancellations/{number}').json['code'])


def test_a_code_counts_whole_and_for_its_own_document(sent: Sent) -> None:
    codes = {number: code_of(sent, number) for number in sent.cancellations}
    assert len(set(codes.values())) == COUNT
    for number, code in codes.items():
        assert [of for of in codes if is_valid(sent, of, code)] == [number]


def test_no_part_of_a_code_is_enough(sent: Sent) -> None:
    """It has 16 letters and digits, by docs/RECORDS.md."""
    number = sent.cancellations[0]
    code = code_of(sent, number).replace('-', '')
    assert len(code) == 16
    assert is_valid(sent, number, code) and is_valid(sent, number, code.lower())
    for count in range(16):
        assert not is_valid(sent, number, code[:count]), count
        assert not is_valid(sent, number, code[16 - count:]), count
    assert not is_valid(sent, number, f'{code}A')


def test_each_letter_of_a_code_counts(sent: Sent) -> None:
    number = sent.cancellations[-1]
    code = code_of(sent, number).replace('-', '')
    for at, letter in enumerate(code):
        other = ALPHABET[(ALPHABET.index(letter) + 1) % len(ALPHABET)]
        assert not is_valid(sent, number, code[:at] + other + code[at + 1:]), at
