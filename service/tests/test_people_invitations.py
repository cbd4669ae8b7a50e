"""Invitations: who makes which, their bounds, and the one use of a link."""
import sqlite3
import threading
from collections.abc import Iterator
from pathlib import Path
from typing import Any

import pytest
from goo_service.people import acceptance
from goo_service.people import acts
from goo_service.people import invitations
from goo_service.people import participants
from goo_service.people import store
from goo_service.people.participants import Conflict
from goo_service.people.participants import NotAllowed
from goo_service.people.participants import NotFound
from goo_service.people.participants import TooMany
from goo_service.people.participants import Unreadable
from hypothesis import given
from hypothesis import strategies as some
from participants_stage import add_user
from participants_stage import doer
from participants_stage import dumped
from participants_stage import people_of

OFFICER, SECOND = doer('olga', 'ISSUER'), doer('sven', 'ISSUER')
SUN, VOLT, ANNA = doer('ada', 'SUN'), doer('vera', 'VOLT'), doer('anna', 'SUN')
HASH = '$argon2id$v=19$m=65536,t=3,p=4$c2FsdA$aGFzaA'
READS = [{'account': 0, 'reads': True}]
Base = sqlite3.Connection


@pytest.fixture
def db(tmp_path: Path) -> Iterator[Base]:
    with people_of(tmp_path) as made:
        yield made


def wanted(**more: Any) -> invitations.Wanted:
    body = {'mail': 'new@sun.example', 'language': 'en', 'access': READS, **more}
    return invitations.parse_wanted('SUN', body)


def invite(db: Base, who: acts.Doer = SUN, **more: Any) -> invitations.Link:
    return invitations.invite(db, who, wanted(**more), lambda *_: None)


def accept(db: Base, link: invitations.Link, name: str = 'nina') -> str:
    acceptance.check_name(db, acceptance.offer_of(db, link.secret), name)
    return acceptance.accept(db, link.secret, name, HASH, '192.0.2.9')


def user(db: Base, name: str) -> sqlite3.Row:
    row: sqlite3.Row = db.execute('SELECT * FROM user WHERE name = ?', (name,)).fetchone()
    return row


def pass_seconds(monkeypatch: pytest.MonkeyPatch, seconds: int) -> None:
    later = store.now() + seconds
    for module in (invitations, acceptance, participants):
        monkeypatch.setattr(module, 'now', lambda: later)


# -------------------------------------------------------------------- the way of a link

def test_a_link_makes_the_user_that_it_offers(db: Base) -> None:
    link = invite(db, administrator=True)
    offer = acceptance.offer_of(db, link.secret)
    assert (offer.wanted.caller, offer.wanted.administrator, offer.name) == ('SUN', True, '')
    assert accept(db, link) == 'nina'
    made = user(db, 'nina')
    assert [made[name] for name in ('caller', 'role', 'administrator', 'mail', 'password')] == [
        'SUN', 'user', 1, 'new@sun.example', HASH]
    assert participants.access_of(db, made['id']) == [
        {'account': 0, 'reads': True, 'trades': False, 'cancels': False}]
    kinds = [(of['user'], of['kind']) for of in db.execute('SELECT * FROM act')]
    assert kinds == [('ada', 'invited'), ('nina', 'user_made')]


def test_the_file_has_no_secret_of_a_link(db: Base) -> None:
    link = invite(db)
    assert len(link.secret) == 43 and link.secret not in '\n'.join(dumped(db))


def test_a_link_works_once(db: Base) -> None:
    link = invite(db)
    accept(db, link)
    with pytest.raises(NotFound):
        acceptance.accept(db, link.secret, 'nora', HASH, '')
    assert user(db, 'nora') is None


def test_of_many_at_once_one_is_made(db: Base, tmp_path: Path) -> None:
    link, came = invite(db), []

    def take(at: int) -> None:
        own = store.open_file(tmp_path / 'people/people.db')
        try:
            came.append(acceptance.accept(own, link.secret, f'n{at}', HASH, ''))
        except NotFound:
            came.append('')
        finally:
            own.close()
    threads = [threading.Thread(target=take, args=(at,)) for at in range(8)]
    for thread in threads:
        thread.start()
    for thread in threads:
        thread.join()
    assert sorted(came)[:7] == [''] * 7 and sorted(came)[7]


def test_a_link_ends_after_seven_days(db: Base, monkeypatch: pytest.MonkeyPatch) -> None:
    link = invite(db)
    pass_seconds(monkeypatch, 7 * 86400 - 5)
    assert acceptance.offer_of(db, link.secret)
    pass_seconds(monkeypatch, 7 * 86400 + 5)
    with pytest.raises(NotFound):
        acceptance.accept(db, link.secret, 'nina', HASH, '')
    assert invitations.open_invitations(db, SUN) == []


@given(some.text(max_size=60))
def test_what_is_no_secret_offers_nothing(tmp_path_factory: pytest.TempPathFactory,
                                          text: str) -> None:
    path = tmp_path_factory.getbasetemp() / 'none/people.db'
    store.make_file(path)
    empty = store.open_file(path)
    with pytest.raises(NotFound) as found:
        acceptance.offer_of(empty, text)
    empty.close()
    assert str(found.value) == acceptance.GONE


def test_each_link_that_does_not_work_has_one_answer(db: Base,
                                                     monkeypatch: pytest.MonkeyPatch) -> None:
    used, revoked, ended = invite(db), invite(db), invite(db)
    accept(db, used)
    invitations.revoke(db, SUN, revoked.number)
    db.execute('UPDATE invitation SET ends = 5 WHERE id = ?', (ended.number,))
    told = set()
    for secret in (used.secret, revoked.secret, ended.secret, 'x' * 43, ''):
        with pytest.raises(NotFound) as found:
            acceptance.offer_of(db, secret)
        told.add(str(found.value))
    assert len(told) == 1


# -------------------------------------------------------------------- who invites whom

def test_an_administrator_invites_for_his_holder_alone(db: Base) -> None:
    before = dumped(db)
    for caller, role in (('VOLT', 'user'), ('ISSUER', 'officer'), ('ISSUER', 'second')):
        access = READS if role == 'user' else []
        with pytest.raises(NotAllowed):
            invite(db, caller=caller, role=role, access=access)
    assert dumped(db) == before
    assert invite(db, VOLT, caller='VOLT').number


@pytest.mark.parametrize('who', [ANNA, SECOND, doer('aud', 'ISSUER'), doer('nobody', 'SUN')])
def test_who_is_no_manager_invites_nobody(db: Base, who: acts.Doer) -> None:
    before = dumped(db)
    with pytest.raises(NotAllowed):
        invite(db, who)
    with pytest.raises(NotAllowed):
        invitations.reset(db, who, 'alma', lambda *_: None)
    assert dumped(db) == before


def test_an_officer_makes_the_first_administrator(db: Base) -> None:
    with pytest.raises(Conflict, match='SUN has an administrator'):
        invite(db, OFFICER, administrator=True)
    with pytest.raises(NotAllowed, match='by its own administrator'):
        invite(db, OFFICER, caller='GAS')
    link = invite(db, OFFICER, caller='GAS', administrator=True, access=[])
    with pytest.raises(Conflict, match='is invited already'):
        invite(db, OFFICER, caller='GAS', administrator=True)
    accept(db, link, 'gita')
    assert user(db, 'gita')['administrator'] == 1
    assert invite(db, doer('gita', 'GAS'), caller='GAS').number


def test_an_officer_replaces_an_administrator_who_left(db: Base) -> None:
    for name in ('ada', 'alma'):
        participants.end_user(db, OFFICER, name)
    link = invite(db, OFFICER, administrator=True)
    assert accept(db, link) == 'nina'
    with pytest.raises(Conflict, match='taken'):
        accept(db, invite(db, doer('nina', 'SUN')), 'Ada')      # a name stays with who had it


def test_an_officer_invites_the_body(db: Base) -> None:
    link = invite(db, OFFICER, caller='ISSUER', role='second', access=[])
    accept(db, link, 'Sara')
    assert (user(db, 'sara')['role'], user(db, 'sara')['caller']) == ('second', 'ISSUER')


@pytest.mark.parametrize('more', [
    {'caller': 'sun'}, {'caller': 1}, {'role': 'officer'}, {'role': 'peer'}, {'role': 'full'},
    {'caller': 'ISSUER', 'role': 'user', 'access': []},
    {'caller': 'ISSUER', 'role': 'officer', 'access': [], 'administrator': True},
    {'caller': 'ISSUER', 'role': 'officer'}, {'access': []}, {'access': None}, {'mail': 'nobody'},
    {'mail': 'a@b\nBcc: c@d'}, {'mail': 'a@b, c@d'}, {'mail': f'{"a" * 64}@{"b." * 99}c'},
    {'mail': None}, {'language': 'fr'}, {'language': None}, {'administrator': 'yes'}])
def test_an_invitation_of_another_form_is_refused(more: dict[str, Any]) -> None:
    with pytest.raises(Unreadable):
        wanted(**more)


# -------------------------------------------------------------------- bounds

def test_a_holder_has_twenty_open_invitations(db: Base) -> None:
    links = [invite(db) for _ in range(20)]
    with pytest.raises(TooMany, match='20 open'):
        invite(db)
    assert invite(db, VOLT, caller='VOLT')                    # others are not held up
    accept(db, links[0])
    assert invite(db)


def test_a_holder_has_fifty_in_a_day(db: Base, monkeypatch: pytest.MonkeyPatch) -> None:
    for _ in range(50):
        invitations.revoke(db, SUN, invite(db).number)
    with pytest.raises(TooMany, match='50 invitations'):
        invite(db)
    with pytest.raises(TooMany, match='50 invitations'):
        invitations.reset(db, SUN, 'anna', lambda *_: None)
    assert user(db, 'anna')['password'] is None
    pass_seconds(monkeypatch, 86401)
    assert invite(db)


def test_a_user_makes_two_hundred_in_a_day(db: Base) -> None:
    for at in range(200):
        invite(db, OFFICER, caller=f'H{at}', administrator=True)
    with pytest.raises(TooMany, match='you have made 200'):
        invite(db, OFFICER, caller='LAST', administrator=True)


def test_a_holder_has_five_hundred_users(db: Base) -> None:
    link = invite(db)
    for at in range(496):                                     # and three of before
        add_user(db, f'u{at}', 'SUN')
    with pytest.raises(TooMany, match='500 users and open'):
        invite(db)
    add_user(db, 'last', 'SUN')
    with pytest.raises(TooMany, match='500 users'):
        accept(db, link)


def test_no_bound_is_passed_side_by_side(db: Base, tmp_path: Path) -> None:
    made: list[int] = []

    def many() -> None:
        own = store.open_file(tmp_path / 'people/people.db')
        for _ in range(8):
            try:
                made.append(invite(own).number)
            except TooMany:
                break
        own.close()
    threads = [threading.Thread(target=many) for _ in range(4)]
    for thread in threads:
        thread.start()
    for thread in threads:
        thread.join()
    assert len(made) == 20


def test_names_can_not_be_counted_through(db: Base, monkeypatch: pytest.MonkeyPatch) -> None:
    offer = acceptance.offer_of(db, invite(db).secret)
    for _ in range(10):
        with pytest.raises(Conflict):
            acceptance.check_name(db, offer, 'bela')
    with pytest.raises(TooMany):
        acceptance.check_name(db, offer, 'bela')
    with pytest.raises(TooMany):
        acceptance.check_name(db, offer, 'free')
    pass_seconds(monkeypatch, 3601)
    acceptance.check_name(db, offer, 'free')


@pytest.mark.parametrize('name', ['', 'a b', 'a:b', '#a', 'ä', 'a\n', 'a' * 201])
def test_a_name_is_one_that_all_read_alike(db: Base, name: str) -> None:
    link = invite(db)
    with pytest.raises(Unreadable):
        acceptance.check_name(db, acceptance.offer_of(db, link.secret), name)
    with pytest.raises(Unreadable):
        acceptance.accept(db, link.secret, name, HASH, '')


# -------------------------------------------------------------------- taking back, and anew

def test_an_invitation_is_taken_back_by_its_holder_alone(db: Base) -> None:
    link = invite(db)
    for who in (VOLT, OFFICER):
        with pytest.raises(NotFound):
            invitations.revoke(db, who, link.number)
        assert invitations.open_invitations(db, who) == []
    [listed] = invitations.open_invitations(db, SUN)
    assert (listed['mail'], listed['made_by']) == ('new@sun.example', 'ada')
    invitations.revoke(db, doer('alma', 'SUN'), link.number)
    with pytest.raises(NotFound):
        accept(db, link)
    with pytest.raises(NotFound):
        invitations.revoke(db, SUN, link.number)


def test_who_lost_a_factor_gets_a_new_one_by_his_own_address(db: Base) -> None:
    """The link is told to the mail alone; password, factors and sessions are gone at once."""
    db.execute('INSERT INTO factor (user, kind, name, secret, counter, confirmed, made) '
               "VALUES (7, 'totp', 'phone', x'01', 0, 1, 1)")
    db.execute("INSERT INTO session VALUES (1, x'01', 7, 1, 1, 9999999999, '', '', 'password')")
    db.execute("UPDATE user SET password = 'old' WHERE name = 'anna'")
    links: list[invitations.Link] = []
    invitations.reset(db, SUN, 'anna', lambda _, link: links.append(link))
    [link] = links
    assert (link.mail, link.name) == ('anna@sun.example', 'anna')
    assert db.execute('SELECT count(*) AS n FROM factor').fetchone()['n'] == 0
    assert db.execute('SELECT count(*) AS n FROM session').fetchone()['n'] == 0
    assert user(db, 'anna')['password'] is None
    assert acceptance.accept(db, link.secret, 'other', HASH, '') == 'anna'
    assert user(db, 'anna')['password'] == HASH and user(db, 'other') is None


def test_a_reset_needs_an_address_and_a_newer_one_ends_the_older(db: Base) -> None:
    links: list[invitations.Link] = []
    for _ in range(2):
        invitations.reset(db, SUN, 'anna', lambda _, link: links.append(link))
    with pytest.raises(NotFound):
        acceptance.offer_of(db, links[0].secret)
    db.execute("UPDATE user SET mail = NULL WHERE name = 'alma'")
    with pytest.raises(Conflict, match='no mail address'):
        invitations.reset(db, SUN, 'alma', lambda *_: None)
    for name in ('bela', 'olga'):
        with pytest.raises(NotFound):
            invitations.reset(db, SUN, name, lambda *_: None)


def test_who_is_ended_is_not_made_anew_by_a_link(db: Base) -> None:
    links: list[invitations.Link] = []
    invitations.reset(db, SUN, 'anna', lambda _, link: links.append(link))
    participants.end_user(db, SUN, 'anna')
    with pytest.raises(NotFound):
        acceptance.accept(db, links[0].secret, 'anna', HASH, '')


def test_where_no_mail_can_be_queued_nothing_is_made(db: Base) -> None:
    def full(*_: object) -> None:
        raise sqlite3.OperationalError('database or disk is full')
    before = dumped(db)
    with pytest.raises(sqlite3.OperationalError):
        invitations.invite(db, SUN, wanted(), full)
    with pytest.raises(sqlite3.OperationalError):
        invitations.reset(db, SUN, 'anna', full)
    assert dumped(db) == before
