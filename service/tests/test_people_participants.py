"""Who manages which users: what an administrator gives, takes away, and cannot do."""
import sqlite3
from collections.abc import Iterator
from pathlib import Path
from typing import Any

import pytest
from goo_service.people import acts
from goo_service.people import participants
from goo_service.people.participants import Access
from goo_service.people.participants import NotAllowed
from goo_service.people.participants import NotFound
from goo_service.people.participants import Unreadable
from hypothesis import given
from hypothesis import strategies as some
from participants_stage import doer
from participants_stage import dumped
from participants_stage import people_of

EACH = Access(0, True, True, True)
READS = Access(7, True, False, False)
OFFICER, SECOND = doer('olga', 'ISSUER'), doer('sven', 'ISSUER')
SUN, VOLT, ANNA = doer('ada', 'SUN'), doer('vera', 'VOLT'), doer('anna', 'SUN')


@pytest.fixture
def db(tmp_path: Path) -> Iterator[sqlite3.Connection]:
    with people_of(tmp_path) as made:
        yield made


def names(found: list[dict[str, Any]]) -> list[str]:
    return sorted(of['name'] for of in found)


def told(db: sqlite3.Connection) -> list[tuple[str, str, str]]:
    return [(of['user'], of['kind'], of['about'])
            for of in db.execute('SELECT * FROM act ORDER BY id')]


def test_an_administrator_gives_access_by_account(db: sqlite3.Connection) -> None:
    participants.give(db, SUN, 'anna', (READS, Access(9, True, True, False)))
    assert participants.access_of(db, 7) == [
        {'account': 7, 'reads': True, 'trades': False, 'cancels': False},
        {'account': 9, 'reads': True, 'trades': True, 'cancels': False}]
    participants.give(db, SUN, 'anna', ())
    assert participants.access_of(db, 7) == []
    assert told(db) == [('ada', 'access_given', 'anna')] * 2


def test_an_administrator_makes_another_one(db: sqlite3.Connection) -> None:
    participants.give(db, SUN, 'anna', None, True)
    participants.give(db, ANNA, 'ada', (READS,))
    assert told(db) == [('ada', 'administrator_set', 'anna'), ('anna', 'access_given', 'ada')]
    participants.give(db, SUN, 'anna', None, True)
    assert len(told(db)) == 2                            # nothing changed, so nothing is told


@pytest.mark.parametrize('other', ['bela', 'vera', 'olga', 'sven', 'nobody', ''])
def test_users_of_others_are_not_there(db: sqlite3.Connection, other: str) -> None:
    """The answer is that of a name that nobody has."""
    before = dumped(db)
    for act in (lambda: participants.give(db, SUN, other, (EACH,)),
                lambda: participants.give(db, SUN, other, None, True),
                lambda: participants.end_user(db, SUN, other)):
        with pytest.raises(NotFound) as found:
            act()
        assert str(found.value) == f'there is no user {other} whom you manage'
    assert dumped(db) == before


@pytest.mark.parametrize('who', [SUN, OFFICER, doer('ADA', 'SUN')])
def test_nobody_manages_himself(db: sqlite3.Connection, who: acts.Doer) -> None:
    before = dumped(db)
    for act in (lambda: participants.give(db, who, who.user, (EACH,)),
                lambda: participants.end_user(db, who, who.user.upper())):
        with pytest.raises(NotAllowed, match='nobody manages himself'):
            act()
    assert dumped(db) == before


@pytest.mark.parametrize('who', [ANNA, SECOND, doer('aud', 'ISSUER'), doer('', 'SUN'),
                                 doer('nobody', 'SUN')])
def test_who_is_no_manager_changes_nothing(db: sqlite3.Connection, who: acts.Doer) -> None:
    before = dumped(db)
    for act in (lambda: participants.give(db, who, 'alma', (EACH,)),
                lambda: participants.end_user(db, who, 'alma'),
                lambda: participants.users_of(db, who)):
        with pytest.raises(NotAllowed):
            act()
    assert dumped(db) == before


def test_the_caller_of_the_file_counts_and_not_the_one_that_is_told(db: sqlite3.Connection) -> None:
    with pytest.raises(NotFound):
        participants.give(db, doer('ada', 'VOLT'), 'bela', (EACH,))


def test_a_user_of_the_body_has_no_access(db: sqlite3.Connection) -> None:
    with pytest.raises(NotAllowed, match='a role of the issuing body'):
        participants.give(db, OFFICER, 'sven', (EACH,))


def test_an_officer_manages_the_body_and_administrators(db: sqlite3.Connection) -> None:
    assert names(participants.users_of(db, OFFICER)) == [
        'ada', 'alma', 'aud', 'oleg', 'olga', 'sven', 'vera']
    assert names(participants.users_of(db, OFFICER, 'SUN')) == ['ada', 'alma', 'anna']
    assert names(participants.users_of(db, SUN, 'VOLT')) == ['ada', 'alma', 'anna']
    with pytest.raises(NotFound):
        participants.end_user(db, OFFICER, 'anna')
    participants.end_user(db, OFFICER, 'ada')
    participants.end_user(db, OFFICER, 'oleg')
    assert names(participants.users_of(db, OFFICER, 'SUN')) == ['alma', 'anna']


def test_a_list_has_no_secret(db: sqlite3.Connection) -> None:
    db.execute("UPDATE user SET password = '$argon2id$secret'")
    assert 'argon2' not in str(participants.users_of(db, OFFICER))
    assert [of['managed'] for of in participants.users_of(db, SUN)] == [False, True, True]


def test_an_ended_user_has_nothing_to_act_by(db: sqlite3.Connection) -> None:
    """A session, a token and a webhook end with him; his invitations are taken back."""
    db.execute("INSERT INTO session VALUES (1, x'01', 6, 1, 1, 9999999999, '', '', 'password')")
    db.execute('INSERT INTO token (hash, user, name, reads, declares, trades, made, ends) '
               "VALUES (x'01', 6, 'erp', 1, 0, 1, 1, 9999999999)")
    db.execute('INSERT INTO hook (caller, user, url, secret, kinds, made) '
               "VALUES ('SUN', 6, 'https://x.example', x'01', '', 1)")
    db.execute('INSERT INTO invitation (hash, caller, role, administrator, mail, language, access, '
               "made_by, made, ends) VALUES (x'02', 'SUN', 'user', 0, 'x@y', 'en', '[]', 6, 1, "
               '9999999999)')
    participants.end_user(db, SUN, 'alma')
    assert db.execute('SELECT count(*) AS n FROM session').fetchone()['n'] == 0
    for table in ('token', 'hook', 'invitation'):
        assert db.execute(f'SELECT revoked FROM {table}').fetchone()['revoked'] > 1
    row = db.execute("SELECT * FROM user WHERE name = 'alma'").fetchone()
    assert row['ended'] and not row['administrator']
    with pytest.raises(NotAllowed):
        participants.give(db, doer('alma', 'SUN'), 'anna', (EACH,))
    with pytest.raises(NotFound):
        participants.give(db, SUN, 'alma', (EACH,))
    assert told(db) == [('ada', 'user_ended', 'alma')]


def test_who_is_no_administrator_any_more_has_no_open_invitation(db: sqlite3.Connection) -> None:
    db.execute('INSERT INTO invitation (hash, caller, role, administrator, mail, language, access, '
               "made_by, made, ends) VALUES (x'02', 'SUN', 'user', 0, 'x@y', 'en', '[]', 6, 1, "
               '9999999999)')
    participants.give(db, SUN, 'alma', None, False)
    assert db.execute('SELECT revoked FROM invitation').fetchone()['revoked']


def test_acts_are_shown_by_caller(db: sqlite3.Connection) -> None:
    participants.give(db, SUN, 'anna', (READS,))
    participants.give(db, VOLT, 'bela', (READS,))
    seen = [[of['about'] for of in participants.acts_of(db, who, None, 10)]
            for who in (SUN, VOLT, OFFICER, doer('aud', 'ISSUER'))]
    assert seen == [['anna'], ['bela'], ['bela', 'anna'], ['bela', 'anna']]
    assert [of['about'] for of in participants.acts_of(db, OFFICER, 2, 10)] == ['anna']
    for who in (ANNA, SECOND):
        with pytest.raises(NotAllowed):
            participants.acts_of(db, who, None, 10)


# -------------------------------------------------------------------- what access may be

RIGHTS = some.dictionaries(some.sampled_from(participants.RIGHTS), some.booleans())
ROWS = some.lists(some.tuples(some.integers(0, 10 ** 9 - 1), RIGHTS), max_size=8,
                  unique_by=lambda row: str(row[0]))


@given(ROWS)
def test_a_row_reads_where_it_has_any_right(rows: list[tuple[int, dict[str, bool]]]) -> None:
    value = [{'account': account, **rights} for account, rights in rows]
    if not all(any(rights.values()) for _, rights in rows):
        with pytest.raises(Unreadable):
            participants.parse_access(value)
        return
    found = participants.parse_access(value)
    assert [of.account for of in found] == [account for account, _ in rows]
    assert all(of.reads for of in found)
    assert [(of.trades, of.cancels) for of in found] == [
        (rights.get('trades', False), rights.get('cancels', False)) for _, rights in rows]


JSON: Any = some.recursive(
    some.none() | some.booleans() | some.integers() | some.text(max_size=9) | some.floats(),
    lambda of: some.lists(of, max_size=4) | some.dictionaries(
        some.sampled_from(['account', *participants.RIGHTS, 'more']), of, max_size=4))


@given(JSON | some.lists(JSON, max_size=3))
def test_any_other_value_is_refused_by_its_name(value: Any) -> None:
    try:
        rows = participants.parse_access(value)
    except Unreadable as fault:
        assert str(fault).startswith('access: ')
    else:
        assert isinstance(value, list) and len(rows) == len(value)


@pytest.mark.parametrize('value', [
    [{'account': 1, 'reads': 1}], [{'account': True, 'reads': True}],
    [{'account': -1, 'reads': True}], [{'account': 10 ** 9, 'reads': True}],
    [{'account': 1, 'reads': True}] * 2, [{'account': 1.0, 'reads': True}],
    [{'account': 1, 'reads': True, 'administrator': True}],
    [{'account': at, 'reads': True} for at in range(201)]])
def test_access_of_another_form_is_refused(value: Any) -> None:
    with pytest.raises(Unreadable):
        participants.parse_access(value)
