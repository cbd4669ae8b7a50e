"""Documents of cancellations: the records tell what the registry itself tells, to whom it tells it.

Expected are the registry's own text, and what the test sent.
"""
from dataclasses import dataclass

import pytest
from house import House


@dataclass(frozen=True)
class Used:
    """A cancellation of anna's, whose beneficiary is neither holder nor user."""

    number: int
    first: str
    last: str
    beneficiary: str = 'Bäckerei Müller, "Süd"'
    use_first: str = '2025-02-01'
    use_last: str = '2025-02-28'


@pytest.fixture(scope='module')
def used(house: House) -> Used:
    country = house.make_country()
    first, last = f'{country.last - 9:014}', f'{country.last - 5:014}'
    made = Used(0, first, last)
    reply = house.must('anna', 'cancel', account=country.sun, first=first, last=last,
                       beneficiary=made.beneficiary, use_first=made.use_first,
                       use_last=made.use_last)
    house.wait_for_book()
    return Used(reply['cancellation'], first, last)


def test_the_text_is_the_registrys_own(house: House, used: Used) -> None:
    own = house.ask('anna', 'GET', f'/v1/cancellations/{used.number}')
    assert own.status == 200 and f'beneficiary {used.beneficiary}\n' in own.text
    for path in (f'cancellations/{used.number}', f'documents?numbers={used.number}'):
        assert house.ask('anna', 'GET', f'/records/v1/{path}').json['text'] == own.text
    code = house.ask('anna', 'GET', f'/records/v1/cancellations/{used.number}').json['code']
    public = house.ask(None, 'GET', f'/verify?number={used.number}&code={code}')
    assert public.json['text'] == own.text


def test_the_facts_are_what_was_sent(house: House, used: Used) -> None:
    of = house.ask('anna', 'GET', f'/records/v1/documents?numbers={used.number}').json['items'][0]
    assert [of[name] for name in ('beneficiary', 'use_first', 'use_last', 'holder', 'name')] == [
        used.beneficiary, used.use_first, used.use_last, 'SUN', 'SUN']
    assert (of['count'], of['registry'], of['number']) == (5, 7, used.number)
    assert [(lot['first'], lot['last'], lot['count']) for lot in of['lots']] == [
        (used.first, used.last, 5)]


@pytest.mark.parametrize('path', ['cancellations/{}', 'documents?numbers={}'])
def test_who_reads_a_document(house: House, used: Used, path: str) -> None:
    """The issuing body and the account's holder, as in the registry itself."""
    statuses = [house.ask(user, 'GET', f'/records/v1/{path.format(used.number)}').status
                for user in ('office', 'anna', 'bela', 'nemo', None)]
    assert statuses == [200, 200, 404, 403, 401]
    assert house.ask('bela', 'GET', f'/v1/cancellations/{used.number}').status in (403, 404)
