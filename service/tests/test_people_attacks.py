"""The attack list on people, each tried through nginx at a house, and each refused.

What is tried is what SECURITY.md says of goo-people: a stolen cookie, a stolen token, a guessed
code, a replayed confirmation, a participant's administrator gone bad, and strangers who count.
"""
import json
import statistics
import time
from collections.abc import Iterator
from dataclasses import dataclass
from typing import Any

import pytest
from goo_service.people import fresh
from goo_service.people.passwords import Passwords
from goo_service.people.store import changing
from calls import Answer
from calls import Country
from house import House
from house_people import Signed
from house_people import word_of

STATUS, AUDIT, REQUESTS = '/records/v1/status', '/v1/audit', '/v1/requests'
GOOD = 'a word of many letters'
READS = [{'account': 0, 'reads': True}]
WANTED = {'mail': 'nina@sun.example', 'language': 'en', 'access': READS}


@pytest.fixture(scope='module')
def house() -> Iterator[House]:
    with House(people=True) as made:
        made.make_country()
        made.wait_for_book()
        for name, administrator in (('ada', True), ('alma', False)):
            made.people.make_user(name, 'SUN', administrator=administrator)
        made.people.make_user('vera', 'VOLT', administrator=True)
        yield made


@pytest.fixture(autouse=True)
def forgotten(house: House) -> None:
    """Nothing failed before: delays of one test hold up no other."""
    with house.people.open() as db, changing(db):
        db.execute('DELETE FROM delay')
        db.execute('DELETE FROM known_place')


def by_cookie(house: House, cookie: str, path: str = STATUS) -> int:
    return house.ask(None, 'GET', path, Cookie=f'__Host-goo={cookie}').status


def rows(house: House, statement: str, *values: object) -> list[dict[str, Any]]:
    with house.people.open() as db:
        return [dict(row) for row in db.execute(statement, values)]


def kept(house: House) -> list[list[dict[str, Any]]]:
    """Who may do what, and what each may act by."""
    return [rows(house, f'SELECT * FROM {table} ORDER BY 1')
            for table in ('user', 'access', 'invitation', 'factor', 'token', 'hook', 'rule')]


def sign_in(house: House, name: str, password: str, code: str | None = None,
            **fields: Any) -> Answer:
    body = json.dumps({'user': name, 'password': password, 'code': code})
    return house.ask(None, 'POST', '/people/v1/sign-in', body, Content_Type='application/json',
                     **fields)


# -------------------------------------------------------------------- cookies

def test_a_planted_cookie_is_never_signed_in(house: House) -> None:
    """Fixation: the cookie that came with a sign-in is not that of the session."""
    planted = 'A' * 43
    answer = sign_in(house, 'anna', word_of('anna'), house.people.code('anna'),
                     Cookie=f'__Host-goo={planted}')
    assert answer.status == 200 and answer.cookies['__Host-goo'] != planted
    assert by_cookie(house, planted) == 401
    first = house.people.sign_in('anna')
    again = sign_in(house, 'anna', word_of('anna'), house.people.code('anna'),
                    Cookie=f'__Host-goo={first.cookie}')
    assert again.cookies['__Host-goo'] != first.cookie


def test_a_foreign_page_changes_nothing(house: House) -> None:
    """CSRF: without the word, with that of another session, from another origin."""
    ada, other = house.people.sign_in('ada'), house.people.sign_in('anna')
    before, entry = rows(house, 'SELECT * FROM invitation'), house.entry()
    holder = json.dumps({'command': 'open_holder', 'key': 'csrf-1', 'holder': 'EVIL', 'name': 'x'})
    office = house.people.sign_in('office')
    for fields in ({'GOO_CSRF': ''}, {'GOO_CSRF': other.csrf}, {'GOO_CSRF': 'x' * 40},
                   {'Origin': 'https://evil.example'}, {'Sec_Fetch_Site': 'cross-site'}):
        for path, of, body in (('/people/v1/users/invite', ada, json.dumps(WANTED)),
                               ('/people/v1/sign-out-everywhere', ada, '{}'),
                               (REQUESTS, office, holder)):
            answer = of.ask('POST', path, body, **{'Content_Type': 'application/json', **fields})
            assert answer.status == 403, (path, fields)
    assert rows(house, 'SELECT * FROM invitation') == before and house.entry() == entry
    assert by_cookie(house, ada.cookie) == 200


def test_a_stolen_cookie_is_nothing_after_sign_out(house: House) -> None:
    anna, other = house.people.sign_in('anna'), house.people.sign_in('anna')
    assert anna.post('sign-out').status == 200
    assert by_cookie(house, anna.cookie) == 401 and by_cookie(house, other.cookie) == 200
    assert anna.ask('POST', '/people/v1/me/password', '{}').status == 401
    last = house.people.sign_in('anna')
    assert other.post('sign-out-everywhere').status == 200
    assert [by_cookie(house, of.cookie) for of in (other, last)] == [401, 401]


def test_a_new_password_ends_the_sessions_of_whoever_stole_one(house: House) -> None:
    house.people.make_user('dina', 'SUN')
    thief, dina = house.people.sign_in('dina'), house.people.sign_in('dina')
    changed = dina.post('me/password', {'old': word_of('dina'), 'new': GOOD})
    assert changed.status == 200, changed.text
    assert [by_cookie(house, of.cookie) for of in (thief, dina)] == [401, 200]


def test_a_stolen_cookie_gives_nobody_access(house: House) -> None:
    """What changes who may do what asks for a second factor of now. The password is asked for a new
    password, so that the cookie alone takes nothing over."""
    ada = house.people.sign_in('ada')
    with house.people.open() as db, changing(db):
        db.execute('UPDATE session SET begun = begun - ?', (fresh.LASTS + 1,))
    before = kept(house)
    acts: list[tuple[str, dict[str, Any]]] = [
        ('users/invite', WANTED), ('users/alma/access', {'access': READS}),
        ('users/alma/end', {}), ('users/alma/reset', {}), ('me/factors/totp', {'name': 'mine'}),
        ('me/tokens', {'name': 'mine', 'reads': True, 'ends': int(time.time()) + 999}),
        ('me/hooks', {'url': 'https://thief.example/'}),
        ('me/mail', {'language': 'en', 'address': 'thief@evil.example'}),
        ('me/password', {'old': 'a guess of it', 'new': GOOD})]
    for path, members in acts:
        assert ada.post(path, members).status in (401, 403), path
    assert kept(house) == before


# -------------------------------------------------------------------- codes and tokens

def test_a_code_is_taken_once(house: House) -> None:
    code = house.people.code('anna')
    assert sign_in(house, 'anna', word_of('anna'), code).status == 200
    again = sign_in(house, 'anna', word_of('anna'), code)
    assert (again.status, again.cookies.get('__Host-goo')) == (401, None)


def test_a_guesser_of_codes_is_slowed(house: House) -> None:
    """Whoever has the password tries five codes, and then waits twice as long each time."""
    code, waits = house.people.code('bela'), []
    wrong = f'{(int(code) + 1) % 10 ** 6:06}'
    for _ in range(8):
        assert sign_in(house, 'bela', word_of('bela'), wrong).status == 401
        waits.append(max(of['until'] - of['seen'] for of in rows(
            house, "SELECT until, seen FROM delay WHERE key LIKE 'code%'")))
        with house.people.open() as db, changing(db):
            db.execute('UPDATE delay SET until = min(until, seen)')      # and waits no longer here
    assert [max(0, wait) for wait in waits] == [0, 0, 0, 0, 0, 2, 4, 8]
    with house.people.open() as db, changing(db):
        db.execute("UPDATE delay SET until = seen + 300 WHERE key LIKE 'code%'")
    told = sign_in(house, 'bela', word_of('bela'), code)
    assert told.status == 429 and 200 < int(told.fields['retry-after']) <= 300


def test_a_token_is_nothing_after_it_is_revoked(house: House) -> None:
    anna = house.people.sign_in('anna')
    made = anna.post('me/tokens', {'name': 'erp', 'reads': True, 'declares': False,
                                   'trades': False, 'ends': int(time.time()) + 3600})
    assert made.status == 200, made.text
    bearer: dict[str, Any] = {'Authorization': f'Bearer {made.json["token"]}'}
    assert house.ask(None, 'GET', STATUS, **bearer).status == 200
    [number] = [of['id'] for of in anna.get('me')['tokens'] if of['name'] == 'erp']
    assert anna.post(f'me/tokens/{number}/revoke').status == 200
    assert house.ask(None, 'GET', STATUS, **bearer).status == 401
    assert house.ask('anna', 'GET', STATUS, password=made.json['token']).status == 401


def test_a_stolen_token_manages_nobody(house: House) -> None:
    """Nor does it make tokens, nor change the password; it does what it was made for."""
    token: dict[str, Any] = {'Authorization': f'Bearer {house.users["ada"]}',
                             'Content_Type': 'application/json'}
    for path in ('users/invite', 'users/alma/access', 'me/tokens', 'me/password', 'rules',
                 'sign-out-everywhere'):
        answer = house.ask(None, 'POST', f'/people/v1/{path}', json.dumps(WANTED), **token)
        assert answer.status == 403, path
    assert house.ask(None, 'GET', '/people/v1/users', **token).status == 403


# -------------------------------------------------------------------- strangers who count

def test_a_sign_in_tells_no_user_by_its_text(house: House) -> None:
    told = {(of.status, of.body, of.fields.get('set-cookie'), tuple(sorted(of.fields)))
            for of in (sign_in(house, 'anna', 'wrong but long enough'),
                       sign_in(house, 'nobody', 'wrong but long enough'),
                       sign_in(house, 'registry09', 'wrong but long enough'),
                       sign_in(house, 'anna', word_of('anna'), '000000'))}
    assert len(told) == 1


def test_a_sign_in_tells_no_user_by_its_time(house: House) -> None:
    """The medians differ by less than what one comparison varies by itself. Passwords are kept at
    the cost of an installed host."""
    before = [(of['password'], of['id']) for of in rows(house, 'SELECT * FROM user')]
    kept = Passwords().hash(GOOD)
    with house.people.open() as db, changing(db):
        db.execute("UPDATE user SET password = ? WHERE role <> 'peer'", (kept,))
    names = ('anna', 'bela', 'office', 'second', 'audit', 'meter', 'alma')
    took: dict[bool, list[float]] = {True: [], False: []}
    sign_in(house, 'warm', 'wrong but long enough')
    for turn in range(2):
        for at, name in enumerate(names):
            for known in (True, False):
                begun = time.monotonic()
                asked = name if known else f'nobody-{turn}-{at}'
                assert sign_in(house, asked, 'wrong but long enough').status == 401
                took[known].append(time.monotonic() - begun)
    with house.people.open() as db, changing(db):
        db.executemany('UPDATE user SET password = ? WHERE id = ?', before)
    there, absent = statistics.median(took[True]), statistics.median(took[False])
    assert abs(there - absent) < 0.25 * max(there, absent), took


def test_an_invitation_tells_nothing_by_guesses(house: House) -> None:
    told = {house.people.post('accept', {'invitation': text}).body
            for text in ('x' * 43, 'short', '../../etc', "' OR 1 --")}
    assert len(told) == 1


def test_nobody_is_flooded_with_invitations(house: House) -> None:
    vera = house.people.sign_in('vera')
    told = [vera.post('users/invite', {**WANTED, 'mail': f'n{at}@volt.example'}).status
            for at in range(25)]
    assert told == [200] * 20 + [429] * 5
    assert len(rows(house, "SELECT * FROM mail WHERE address LIKE '%@volt.example'")) == 20
    [one] = {of['caller'] for of in rows(house, "SELECT * FROM invitation WHERE caller = 'VOLT'")}
    assert one == 'VOLT'


# -------------------------------------------------------------------- a participant's administrator

@pytest.fixture
def ada(house: House) -> Signed:
    return house.people.sign_in('ada')


def test_an_administrator_gives_no_more_than_his_holder_has(house: House, ada: Signed) -> None:
    before = kept(house)
    volt = [{'account': 2, 'reads': True, 'trades': True}]          # account 2 is VOLT's
    rule = {'caller': '*', 'command': 'transfer', 'above': 1, 'days': 7}
    acts: list[tuple[str, dict[str, Any], int]] = [
        ('users/invite', {**WANTED, 'caller': 'VOLT'}, 403),
        ('users/invite', {**WANTED, 'caller': 'ISSUER', 'role': 'officer', 'access': []}, 403),
        ('users/invite', {**WANTED, 'role': 'officer'}, 400),
        ('users/invite', {**WANTED, 'access': volt}, 404),
        ('users/alma/access', {'access': volt}, 404),
        ('users/bela/access', {'access': READS}, 404),
        ('users/bela/end', {}, 404), ('users/office/reset', {}, 404),
        ('users/ada/access', {'access': READS}, 403), ('users/ADA/end', {}, 403),
        ('rules', rule, 403), ('rules', {**rule, 'caller': 'VOLT'}, 403)]
    for path, members, status in acts:
        answer = ada.post(path, members)
        assert answer.status == status, (path, answer.text)
    assert kept(house) == before


def test_what_an_administrator_gone_bad_has_left_ends_with_him(house: House) -> None:
    house.people.make_user('bad', 'SUN', administrator=True)
    bad, office = house.people.sign_in('bad'), house.people.sign_in('office')
    secret = bad.post('users/invite', {**WANTED, 'administrator': True}).json['secret']
    assert office.post('users/bad/end').status == 200
    assert by_cookie(house, bad.cookie) == 401
    assert house.ask('bad', 'GET', STATUS).status == 401
    taken = house.people.post('accept', {'invitation': secret, 'name': 'straw', 'password': GOOD})
    assert taken.status == 404 and rows(house, "SELECT * FROM user WHERE name = 'straw'") == []
    acts = [of['kind'] for of in office.get('acts?limit=50')['acts'] if of['user'] == 'bad']
    assert 'invited' in acts


def test_a_reset_gives_its_link_to_the_user_alone(house: House, ada: Signed) -> None:
    house.people.make_user('rita', 'SUN')
    with house.people.open() as db, changing(db):
        db.execute("UPDATE user SET mail = 'rita@sun.example' WHERE name = 'rita'")
    answer = ada.post('users/rita/reset')
    assert (answer.status, answer.json) == (200, {})
    [mail] = rows(house, "SELECT * FROM mail WHERE address = 'rita@sun.example'")
    assert 'accept.html#' in mail['body']
    assert 'accept.html#' not in json.dumps(ada.get('invitations'))


# -------------------------------------------------------------------- access, and four eyes

@dataclass(frozen=True)
class Ask:
    """A transfer of SUN's certificates, one after another."""

    house: House
    country: Country
    left: Iterator[int]

    def __call__(self, of: Signed, count: int, key: str, giver: int | None = None) -> Answer:
        first = [next(self.left) for _ in range(count)][0]
        body = {'command': 'transfer', 'key': key, 'giver': giver or self.country.sun,
                'taker': self.country.volt, 'first': f'{first:014}',
                'last': f'{first + count - 1:014}'}
        return of.ask('POST', REQUESTS, json.dumps(body), Content_Type='application/json')


@pytest.fixture(scope='module')
def ask(house: House) -> Ask:
    country = house.make_country()
    return Ask(house, country, iter(range(country.first, country.last + 1)))


def test_a_user_of_one_account_asks_nothing_of_another(house: House, ask: Ask) -> None:
    other = int(house.enter('ISSUER', 'open_account', 'attack-account', holder='SUN')['account'])
    house.people.make_user('olaf', 'SUN', account=other)
    olaf, before = house.people.sign_in('olaf'), house.entry()
    refused = ask(olaf, 1, 'attack-1')
    assert refused.status == 403 and house.entry() == before
    assert olaf.ask('GET', f'/v1/accounts/{ask.country.sun}/statement').status in (403, 404)
    assert olaf.ask('GET', f'/v1/accounts/{other}/statement').status == 200
    assert str(ask.country.device) not in olaf.ask('GET', '/records/v1/holdings').text


def test_nobody_confirms_his_own(house: House, ask: Ask) -> None:
    with house.people.open() as db, changing(db):
        db.execute("INSERT OR REPLACE INTO rule VALUES ('SUN', 'transfer', 10, 7)")
    anna, before = house.people.sign_in('anna'), house.entry()
    waits = ask(anna, 11, 'attack-2')
    assert (waits.status, waits.json['outcome']) == (202, 'waiting')
    number = waits.json['number']
    for of in (anna, house.people.sign_in('anna')):             # nor by a second session of his
        answer = of.post(f'waiting/{number}/confirm', {'code': house.people.code('anna')})
        assert answer.status == 403
    bela = house.people.sign_in('bela')
    for act in ('confirm', 'refuse', 'withdraw'):
        assert bela.post(f'waiting/{number}/{act}').status == 404
    assert house.entry() == before


def test_a_confirmation_counts_once(house: House, ask: Ask) -> None:
    """Sent again, by the same user or side by side, it moves nothing more."""
    anna, alma = house.people.sign_in('anna'), house.people.sign_in('alma')
    number = ask(anna, 12, 'attack-3').json['number']
    before = house.entry()
    first = alma.post(f'waiting/{number}/confirm')
    assert first.status == 200 and json.loads(first.json['answer'])['outcome'] == 'accepted'
    entry = house.entry()
    assert entry == before + 1
    again = alma.post(f'waiting/{number}/confirm')
    assert again.status == 409 and house.entry() == entry


def test_an_old_code_confirms_nothing(house: House, ask: Ask) -> None:
    anna, alma = house.people.sign_in('anna'), house.people.sign_in('alma')
    number = ask(anna, 11, 'attack-4').json['number']
    code = house.people.code('alma')
    with house.people.open() as db, changing(db):
        db.execute('UPDATE session SET begun = begun - ?', (fresh.LASTS + 1,))
    assert alma.post(f'waiting/{number}/confirm').status == 403
    assert alma.post(f'waiting/{number}/confirm', {'code': code}).status == 200
    number = ask(anna, 11, 'attack-5').json['number']
    assert alma.post(f'waiting/{number}/confirm', {'code': code}).status == 403


def test_an_administrator_gone_bad_takes_no_rule_away_alone(house: House, ada: Signed) -> None:
    with house.people.open() as db, changing(db):
        db.execute("INSERT OR REPLACE INTO rule VALUES ('SUN', 'cancel', 10, 7)")
    before = rows(house, 'SELECT * FROM rule')
    for above in (None, 10 ** 9):
        loose = ada.post('rules', {'caller': 'SUN', 'command': 'cancel', 'above': above,
                                   'days': 7})
        assert loose.status in (202, 409), loose.text
    [number] = [of['number'] for of in ada.get('waiting')['items']
                if of['state'] == 'waiting' and of['target'] == '/people/v1/rules']
    assert ada.post(f'waiting/{number}/confirm').status == 403
    assert rows(house, 'SELECT * FROM rule') == before
