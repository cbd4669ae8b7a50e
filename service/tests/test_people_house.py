"""goo-people in front of a registry: nginx, who is there, sign-in, the log behind it."""
import functools
import json
from collections.abc import Iterator
from typing import Any

import pytest
from goo_service.people import users
from goo_service.people.acts import ROOT
from goo_service.people.store import changing
from goo_service.people.users import New
from house import House
from house_people import word_of
from service_commands import command

AUDIT = '/v1/audit'
HOLDER = {'command': 'open_holder', 'key': 'people-1', 'holder': 'WIND', 'name': 'Wind Power'}


@pytest.fixture(scope='module')
def house() -> Iterator[House]:
    with House(people=True) as made:
        yield made


def test_a_session_reads_and_writes(house: House) -> None:
    office = house.people.sign_in('office')
    assert office.ask('GET', AUDIT).status == 200
    answer = office.ask('POST', '/v1/requests', json.dumps(HOLDER))
    assert (answer.status, answer.json['outcome']) == (200, 'accepted')
    anna = house.people.sign_in('anna')
    assert anna.ask('GET', AUDIT).status == 403


def test_a_request_without_its_word_changes_nothing(house: House) -> None:
    office = house.people.sign_in('office')
    before = house.entry()
    body = json.dumps({**HOLDER, 'key': 'people-2', 'holder': 'EVIL'})
    for word in ('', 'x', house.people.sign_in('office').csrf):
        answer = office.ask('POST', '/v1/requests', body, GOO_CSRF=word)
        assert (answer.status, answer.json['error']) == (403, 'this is not allowed')
    assert house.entry() == before


def test_a_token_signs_in_as_bearer_and_as_a_password(house: House) -> None:
    token = house.users['office']
    assert house.ask('office', 'GET', AUDIT).status == 200
    assert house.ask(None, 'GET', AUDIT, Authorization=f'Bearer {token}').status == 200
    assert house.ask('anna', 'GET', AUDIT, password=token).status == 401
    assert house.ask('office', 'GET', AUDIT, password=word_of('office')).status == 401


def test_nothing_of_what_is_shown_goes_further_in(house: House) -> None:
    """Neither a token nor a cookie comes to the log or the records, nor the fields of a visitor."""
    anna = house.people.sign_in('anna')
    answer = anna.ask('GET', '/records/v1/status', GOO_Caller='ISSUER', GOO_Hold='s1',
                      GOO_User='office', GOO_Accounts='')
    assert (answer.status, answer.json['caller']) == (200, 'SUN')


def test_a_stranger_gets_the_page_of_sign_in_and_a_program_json(house: House) -> None:
    page = house.ask(None, 'GET', '/', Accept='text/html,*/*')
    assert page.status == 401 and 'www-authenticate' not in page.fields
    assert page.fields['content-type'].startswith('text/html') and b'sign-in.js' in page.body
    assert "script-src 'self'" in page.fields['content-security-policy']
    program = house.ask(None, 'GET', AUDIT)
    assert (program.status, 'nobody is signed in' in program.json['error']) == (401, True)


def test_a_cookie_is_for_this_host_and_no_script(house: House) -> None:
    answer = house.people.post('sign-in', {'user': 'bela', 'password': word_of('bela'),
                                           'code': house.people.code('bela')})
    assert answer.status == 200 and len(answer.cookies['__Host-goo']) == 43


def test_a_cookie_that_was_planted_is_never_signed_in(house: House) -> None:
    """A session before the sign-in, of nobody or of another user, is not the one after it."""
    anna = house.people.sign_in('anna').cookie
    for planted in ('A' * 43, anna):
        body = json.dumps({'user': 'bela', 'password': word_of('bela'),
                           'code': house.people.code('bela')})
        answer = house.ask(None, 'POST', '/people/v1/sign-in', body,
                           Content_Type='application/json', Cookie=f'__Host-goo={planted}')
        assert answer.status == 200 and answer.cookies['__Host-goo'] != planted
    for cookie, status, user in (('A' * 43, 401, None), (anna, 200, 'anna')):
        me = house.ask(None, 'GET', '/people/v1/me', Cookie=f'__Host-goo={cookie}')
        assert (me.status, me.json.get('user')) == (status, user)


def test_a_certificate_signs_in_beside_sessions() -> None:
    """`ssl_verify_client optional`: whoever has no certificate signs in by the page."""
    with House(people=True, parts=('web', 'nginx'), certificates=True, changes=[
            ('# ssl_verify_client      on;', '# ssl_verify_client      optional;')]) as house:
        with house.people.open() as db, changing(db):
            users.make(db, ROOT, New('CN=office,O=Trial', 'ISSUER', 'officer',
                                     source='certificate'))
        asked = functools.partial(house.ask, None, 'GET', AUDIT)
        assert asked(certificate='office').status == 200
        assert asked(certificate='anna').status == 401, 'no user has this name'
        assert asked().status == 401
        assert asked(certificate='office', Cookie='goo_signed_out=yes').status == 401
        assert asked(GOO_Subject='CN=office,O=Trial').status == 401
        assert house.people.sign_in('office').ask('GET', AUDIT).status == 200


def test_a_page_of_another_site_signs_nobody_in(house: House) -> None:
    body = json.dumps({'user': 'bela', 'password': word_of('bela')})
    foreign: tuple[dict[str, Any], ...] = ({'Origin': 'https://evil.example'},
                                           {'Sec_Fetch_Site': 'cross-site'})
    for fields in foreign:
        answer = house.ask(None, 'POST', '/people/v1/sign-in', body,
                           Content_Type='application/json', **fields)
        assert answer.status == 403


def test_a_body_of_people_is_small(house: House) -> None:
    assert house.people.post('sign-in', {'user': 'x' * 65536}).status == 413


def test_the_log_of_the_front_door_names_the_user(house: House) -> None:
    house.people.sign_in('anna').ask('GET', '/records/v1/status')
    house.ask('anna', 'GET', '/records/v1/status', password='goo_' + 'x' * 43)
    lines = (house.folder / 'front-door.log').read_text().splitlines()
    named = [json.loads(line) for line in lines if '/records/v1/status' in line][-2:]
    assert [(of['user'], of['caller'], of['status']) for of in named] == [
        ('anna', 'SUN', '200'), ('', '', '401')]
    whole = (house.folder / 'front-door.log').read_text()
    assert 'goo_' not in whole and '__Host' not in whole


def test_a_user_who_ends_is_out_at_once(house: House) -> None:
    house.people.make_user('dora', 'SUN')
    dora = house.people.sign_in('dora')
    assert dora.ask('GET', '/records/v1/status').status == 200
    house.run(*command('goo-people', house.service), '--file', house.people.path, 'user', 'end',
              'dora')
    assert dora.ask('GET', '/records/v1/status').status == 401
    assert house.ask('dora', 'GET', '/records/v1/status').status == 401


def test_who_is_started_again_and_sessions_go_on(house: House) -> None:
    anna = house.people.sign_in('anna')
    house.kill('who')
    answer = anna.ask('GET', '/records/v1/status')
    assert (answer.status, 'again' in answer.json['error']) == (503, True)
    house.start('who')
    assert anna.ask('GET', '/records/v1/status').status == 200
