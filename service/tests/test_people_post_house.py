"""A whole house: a request through the front door becomes a mail and a webhook; what waits for a
second user and a sign-in from a new place are told; a provider signs a user in, through nginx."""
import http.client
import json
import threading
from collections.abc import Iterator
from pathlib import Path
from typing import Any
from urllib.parse import urlsplit

import pytest

from goo_service.people import hooks
from goo_service.people import users
from goo_service.people.acts import ROOT
from goo_service.people.store import changing
from goo_service.people.users import New
from calls import Answer
from calls import Country
from house import House
from oidc_provider import CLIENT
from oidc_provider import SECRET
from oidc_provider import Provider
from people_post import Mailer
from people_post import Post
from people_post import comes
from test_people_hooks import Receiver

BACK = '/people/v1/oidc/return'


@pytest.fixture(scope='module')
def house(tmp_path_factory: pytest.TempPathFactory) -> Iterator[House]:
    folder = tmp_path_factory.mktemp('oidc')
    with pytest.MonkeyPatch.context() as patch:
        patch.setenv('GOO_PEOPLE_OIDC', str(folder / 'people-oidc.conf'))
        patch.setenv('AUTHLIB_INSECURE_TRANSPORT', '1')
        with House(people=True) as made:
            made.users['settings'] = str(folder)
            yield made


@pytest.fixture(scope='module')
def country(house: House) -> Country:
    return house.make_country()


@pytest.fixture(scope='module')
def mailer() -> Iterator[Mailer]:
    standing = Mailer().start()
    yield standing
    standing.stop()


@pytest.fixture(scope='module')
def post(house: House, country: Country, mailer: Mailer,
         tmp_path_factory: pytest.TempPathFactory) -> Iterator[Post]:
    """`goo-people-post` over the file of the house, whose users have addresses."""
    made = Post(tmp_path_factory.mktemp('post'), mailer)
    made.state = house.people.path.parent
    made.lay(f'[mail]\nhost = 127.0.0.1\nport = {mailer.port}\nfrom = goo@registry.example\n'
             f'[records]\nsocket = {house.folder}/web.sock\n'
             '[hooks]\nnetworks = 127.0.0.0/8\nplain = yes\n')
    with house.people.open() as db, changing(db):
        db.execute("UPDATE user SET mail = name || '@example.org' WHERE role <> 'peer'")
        db.execute("UPDATE user SET language = 'de' WHERE name = 'bela'")
    house.wait_for_book()
    made.start()
    comes(lambda: 'are told' in made.text)
    yield made
    made.kill()


def test_a_transfer_comes_by_mail_and_by_webhook(house: House, country: Country, mailer: Mailer,
                                                 post: Post) -> None:
    with Receiver() as receiver:
        threading.Thread(target=receiver.serve_forever, daemon=True).start()
        with house.people.open() as db, changing(db):
            user = users.find(db, 'bela')
            assert user
            hooks.make(db, user.id, f'http://127.0.0.1:{receiver.port}/in', ['came_in'], True)
        anna = house.people.sign_in('anna')
        answer = anna.ask('POST', '/v1/requests', json.dumps({
            'command': 'transfer', 'key': 'post-1', 'giver': country.sun, 'taker': country.volt,
            'first': f'{country.first:014}', 'last': f'{country.first + 9:014}'}))
        assert answer.json['outcome'] == 'accepted'
        comes(lambda: [str(mail['Subject']) for mail in mailer.to('bela')]
              == ['Eingang: 10 Nachweise'])
        comes(lambda: 'Sent: 10 certificates' in mailer.subjects)
        comes(lambda: 'Sign-in from a new place' in mailer.subjects)
        comes(lambda: receiver.came)
    (_, fields, body), = receiver.came
    told = json.loads(body)
    assert (told['kind'], told['certificates'], told['entry']) == ('came_in', 10, answer.entry)
    assert told['id'] == fields['goo-delivery'] and told['accounts'] == [country.volt]
    for mail in mailer.came:
        assert f'{country.first:014}'[2:] not in mail.get_content()


def test_what_waits_for_a_second_user_is_told(house: House, country: Country, mailer: Mailer,
                                              post: Post) -> None:
    with house.people.open() as db, changing(db):
        db.execute("INSERT OR REPLACE INTO rule VALUES ('SUN', 'transfer', 5, 7)")
    house.people.make_user('dora', 'SUN')
    with house.people.open() as db, changing(db):
        db.execute("UPDATE user SET mail = 'dora@example.org' WHERE name = 'dora'")
    anna, dora = house.people.sign_in('anna'), house.people.sign_in('dora')
    answer = anna.ask('POST', '/v1/requests', json.dumps({
        'command': 'transfer', 'key': 'post-2', 'giver': country.sun, 'taker': country.volt,
        'first': f'{country.first + 20:014}', 'last': f'{country.first + 29:014}'}))
    assert answer.status == 202, answer.text
    number = answer.json['number']
    comes(lambda: 'A request waits for a second user' in
          [str(mail['Subject']) for mail in mailer.to('dora')])
    assert 'A request waits for a second user' not in [
        str(mail['Subject']) for mail in mailer.to('anna')]
    confirmed = dora.post(f'waiting/{number}/confirm')
    assert confirmed.status == 200, confirmed.text
    comes(lambda: f'Request {number} was confirmed' in
          [str(mail['Subject']) for mail in mailer.to('anna')])
    comes(lambda: 'Eingang: 10 Nachweise' in
          [str(mail['Subject']) for mail in mailer.to('bela')])


# ------------------------------------------------------------------ a provider, through nginx

@pytest.fixture
def provider(house: House) -> Iterator[Provider]:
    site = f'https://localhost:{house.port}'
    with Provider(f'{site}{BACK}') as standing:
        folder = Path(house.users['settings'])
        (folder / 'secret').write_text(SECRET)
        (folder / 'people-oidc.conf').write_text(
            f'[provider]\nissuer = {standing.issuer}\nclient = {CLIENT}\nsite = {site}\n'
            f'secret_file = {folder}/secret\nplain = yes\n')
        yield standing


def follow(location: str) -> str:
    """Where the provider sends the browser back to, below the house."""
    where = urlsplit(location)
    assert where.hostname and where.port
    connection = http.client.HTTPConnection(where.hostname, where.port, timeout=20)
    connection.request('GET', f'{where.path}?{where.query}')
    back = urlsplit(connection.getresponse().headers['Location'] or '')
    connection.close()
    return f'{back.path}?{back.query}'


def test_a_provider_signs_a_user_in_through_the_front_door(house: House,
                                                           provider: Provider) -> None:
    provider.user.name = 'eva'
    with house.people.open() as db, changing(db):
        users.make(db, ROOT, New('eva', 'ISSUER', 'auditor', source='oidc'))
    begun = house.ask(None, 'GET', '/people/v1/oidc/begin')
    assert begun.status == 302, begun.text
    step = begun.cookies['__Host-goo-step']
    path = follow(begun.fields['location'])
    assert refused(house.ask(None, 'GET', path)), 'a browser that began nothing'
    came = back(house, path, step)
    assert came.status == 200 and 'http-equiv="refresh"' in came.text, came.text
    cookie = came.cookies['__Host-goo']
    me = house.ask(None, 'GET', '/people/v1/me', Cookie=f'__Host-goo={cookie}').json
    assert (me['user'], me['role'], me['sessions'][0]['way']) == ('eva', 'auditor', 'oidc')
    assert house.ask(None, 'GET', '/v1/audit', Cookie=f'__Host-goo={cookie}').status == 200
    assert refused(back(house, path, step)), 'the same way back once more'


def back(house: House, path: str, step: str) -> Answer:
    """The browser as it comes from another site."""
    fields: dict[str, Any] = {'Cookie': f'__Host-goo-step={step}', 'Sec_Fetch_Site': 'cross-site',
                              'Sec_Fetch_Mode': 'navigate'}
    return house.ask(None, 'GET', path, **fields)


def refused(came: Answer) -> bool:
    return came.status == 403 and '__Host-goo' not in came.cookies


def test_an_invitation_comes_by_mail_and_lets_somebody_in(house: House, mailer: Mailer,
                                                          post: Post) -> None:
    office = house.people.sign_in('office')
    came = office.post('users/invite', {'mail': 'audit2@example.org', 'role': 'auditor',
                                        'language': 'de'})
    assert came.status == 200, came.text
    mail, = comes(lambda: mailer.to('audit2'))
    link = f'https://registry.example/accept.html#{came.json["secret"]}'
    assert link in mail.get_content().splitlines()
    accepted = house.people.post('accept', {'invitation': came.json['secret'], 'name': 'audit2',
                                            'password': 'a long word of the auditor'})
    assert accepted.status == 200, accepted.text
