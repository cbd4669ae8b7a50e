"""The records of acts in the standing service."""
import signal

from house import House
from made_book import HEADER


def make_document(house: House) -> dict[str, str]:
    """A cancellation, by its number and its check code."""
    country = house.make_country()
    number = f'{country.first:014}'
    made = house.must('anna', 'cancel', key='records-c', account=country.sun, first=number,
                      last=number, beneficiary='Rathaus', use_first='2025-01-01',
                      use_last='2025-12-31')
    house.wait_for_book()
    shown = house.ask('anna', 'GET', f'/records/v1/cancellations/{made["cancellation"]}').json
    return {'number': str(shown['number']), 'code': shown['code']}


def test_the_public_check_waits_for_no_question(house: House) -> None:
    """Whatever holds up those who answer users, a document is checked."""
    of = make_document(house)
    path = f'/verify?number={of["number"]}&code={of["code"]}'
    assert house.ask(None, 'GET', path).json['valid']
    house.parts['web'].send(signal.SIGSTOP)
    try:
        assert house.ask(None, 'GET', path, patience=10).json['valid']
        wrong = house.ask(None, 'GET', f'{path[:-1]}{"A" if path[-1] != "A" else "B"}', patience=10)
        assert (wrong.status, wrong.json['valid']) == (404, False)
    finally:
        house.parts['web'].send(signal.SIGCONT)


def test_the_book_goes_on_after_the_longest_field(house: House) -> None:
    for table in (HEADER + b'a' * 131_073 + b'\n', HEADER + b'"' * 5000 + b'\n' + b',' * 200_000):
        assert house.ask('anna', 'POST', '/v1/declarations', table).status == 200
    answer = house.send('office', 'open_holder', holder='AFTER', name='After')
    assert answer.status == 200
    house.wait_for_book(answer.entry)
    assert house.ask('office', 'GET', '/records/v1/acts').json['items'][0]['holder'] == 'AFTER'


def test_a_file_comes_whole_through_the_front_door(house: House) -> None:
    house.make_country()
    house.wait_for_book()
    answer = house.ask('office', 'GET', '/records/v1/acts?format=csv')
    assert answer.status == 200
    assert answer.fields['content-type'] == 'text/csv; charset=utf-8'
    lines = answer.text.split('\r\n')
    acts = house.ask('office', 'GET', '/records/v1/acts?limit=1000').json['items']
    assert len(lines) == len(acts) + 2
    assert lines[1].startswith(f'{acts[0]["id"]},')
