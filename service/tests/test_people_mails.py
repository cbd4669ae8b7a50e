"""The queue of mails and their words: what is told to whom, once, and within which bounds."""
import email.message
import email.parser
import email.policy
import sqlite3
import string
import unicodedata
from collections.abc import Iterator
from pathlib import Path

import pytest
from hypothesis import example
from hypothesis import given
from hypothesis import strategies as st

from goo_service.people import mail_texts_de
from goo_service.people import mail_texts_en
from goo_service.people import mails
from goo_service.people import store
from goo_service.people.audience import confirmers
from goo_service.people.audience import readers
from goo_service.people.mail_address import is_address
from goo_service.people.mail_words import LANGUAGES
from goo_service.people.mail_words import SITE
from goo_service.people.mail_words import Words
from goo_service.people.mails import Notice
from people_file import add_user

FIELDS: dict[str, object] = {
    'certificates': 12000, 'accounts': [4, 2], 'day': '2026-03-31', 'time': 0,
    'numbers': (42, 170), 'peer': 9, 'number': 7, 'why': 'refused: UnknownAccount',
    'user': 'anna', 'net': '192.0.2.0/24', 'holder': 'SUN', 'secret': 'abc', 'count': 200}
SECRETS = {'invitation', 'reset'}
"""Texts with a link that lets somebody in."""


def names_in(text: str) -> set[str]:
    return {name for _, name, _, _ in string.Formatter().parse(text) if name}


@pytest.fixture
def db(tmp_path: Path) -> Iterator[sqlite3.Connection]:
    store.make_file(tmp_path / 'people.db')
    opened = store.open_file(tmp_path / 'people.db')
    yield opened
    opened.close()


# ------------------------------------------------------------------ words

def test_both_languages_have_each_text_with_the_same_fields() -> None:
    english, german = mail_texts_en, mail_texts_de
    assert english.TEXTS.keys() == german.TEXTS.keys()
    assert english.WORDS.keys() == german.WORDS.keys()
    assert len(english.MONTHS) == len(german.MONTHS) == 12
    for name, texts in english.TEXTS.items():
        for mine, other in zip(texts, german.TEXTS[name], strict=True):
            assert names_in(mine) == names_in(other), name
            assert mine != other, f'{name} is not translated'
    for name in ('DAY', 'MOMENT', 'FOOT'):
        assert names_in(getattr(english, name)) == names_in(getattr(german, name))


@pytest.mark.parametrize('language', LANGUAGES)
@pytest.mark.parametrize('name', mail_texts_en.TEXTS)
def test_no_text_has_a_field_that_a_stranger_could_misuse(language: str, name: str) -> None:
    used = set[str]().union(*map(names_in, LANGUAGES[language].TEXTS[name]))
    assert used <= {*FIELDS, 'site'}
    assert not used & {'first', 'last', 'ranges', 'beneficiary', 'key', 'token', 'password'}
    assert ('secret' in used) == (name in SECRETS)


def test_values_are_written_as_the_language_writes_them() -> None:
    english = Words('en').text('came_in', FIELDS, True)
    german = Words('de').text('came_in', FIELDS, True)
    assert english.subject == 'Came in: 12,000 certificates'
    assert 'Came in on 31 March 2026: 12,000 certificates, accounts 2, 4.' in english.body
    assert german.subject == 'Eingang: 12.000 Nachweise'
    assert 'Eingang am 31. März 2026: 12.000 Nachweise, Konten 2, 4.' in german.body
    assert '1 January 1970, 00:00 UTC' in Words('en').text('password', FIELDS, False).body
    one = {**FIELDS, 'certificates': 1, 'accounts': [4], 'numbers': (42, 42)}
    document = Words('en').text('document', one, True)
    assert ': 1 certificate of account 4.' in document.body
    assert document.body.count('42') == 1
    many: dict[str, object] = {**FIELDS, 'accounts': range(1, 22)}
    assert '21 accounts' in Words('en').text('came_in', many, True).body


HOSTILE = ('a\r\nBcc: x@example.org', f'{SITE}/evil', '\u202egpj.exe', 'a\u2028b', 'a\0b',
           'x' * 5000, '{site}{secret}', '%s', '\ud800')


@example('', 'en', 'waits')
@given(st.one_of(st.text(max_size=900), st.sampled_from(HOSTILE)),
       st.sampled_from(sorted(LANGUAGES)), st.sampled_from(['waits', 'invitation', 'new_place',
                                                            'notice_refused', 'confirmed']))
def test_no_value_makes_a_line_or_a_header(value: str, language: str, name: str) -> None:
    """A mail with any text in it has the lines of one with a plain text, and reads back."""
    texts = {field: value for field in ('user', 'why', 'net', 'holder')}
    hostile = Words(language).text(name, {**FIELDS, **texts}, True)
    plain = Words(language).text(name, FIELDS, True)
    assert len(hostile.body.splitlines()) == len(plain.body.splitlines())
    unseen = {letter for letter in hostile.body if unicodedata.category(letter)[0] == 'C'}
    assert unseen <= {'\n', SITE}
    assert hostile.body.count(SITE) == plain.body.count(SITE)
    assert hostile.subject.isprintable() and len(hostile.subject) <= 160
    message = email.message.EmailMessage(policy=email.policy.SMTP)
    message['Subject'] = hostile.subject
    message.set_content(hostile.body)
    read = email.parser.BytesParser(policy=email.policy.SMTP).parsebytes(message.as_bytes())
    assert isinstance(read, email.message.EmailMessage)
    assert read['Subject'] == hostile.subject
    assert read.get_content().splitlines() == hostile.body.splitlines()


# ------------------------------------------------------------------ addresses

GOOD = ('anna@example.org', 'a.b+c@sub.example.org', "o'hara@xn--bcher-kva.example")
BAD = ('', 'anna', 'anna@', '@example.org', 'anna@example', 'anna@example.org\n',
       'anna@example.org\r\nBcc: x@example.org', 'a b@example.org', 'a@b@example.org',
       '"a b"@example.org', 'anna@example.org,x@example.org', '<anna@example.org>',
       'anna@-example.org', 'anna@example-.org', '.anna@example.org', 'anna.@example.org',
       'a..b@example.org', 'jürgen@example.org', 'anna@exämple.org', '-anna@example.org',
       'anna@example.org ', 'anna@[127.0.0.1]', f'{"a" * 65}@example.org',
       f'a@{"b" * 64}.org', f'a@{"b." * 130}org')


def test_addresses_by_the_strict_form() -> None:
    assert [text for text in GOOD if not is_address(text)] == []
    assert [text for text in BAD if is_address(text)] == []


@given(st.text(max_size=300))
def test_whatever_is_an_address_is_one_word_of_ascii(text: str) -> None:
    if is_address(text):
        assert text.isascii() and text.isprintable() and text.count('@') == 1
        assert not set(text) & set(' \t\r\n,;:<>()[]"\\')


# ------------------------------------------------------------------ the queue

def waiting(db: sqlite3.Connection) -> list[tuple[str, str]]:
    return [(row['address'], row['subject']) for row in db.execute('SELECT * FROM mail '
                                                                   'ORDER BY id')]


CAME = Notice('came_in', 'entry 9', {'certificates': 3, 'accounts': [4], 'day': '2026-03-31'})


def test_a_happening_is_told_once(db: sqlite3.Connection) -> None:
    anna = add_user(db, 'anna', 'SUN', language='de')
    with store.changing(db):
        assert mails.tell(db, anna, CAME)
        assert not mails.tell(db, anna, CAME)
    assert waiting(db) == [('anna@example.org', 'Eingang: 3 Nachweise')]


def test_who_has_no_address_is_ended_or_has_it_off_gets_none(db: sqlite3.Connection) -> None:
    silent = add_user(db, 'silent', 'SUN', mail=None)
    gone = add_user(db, 'gone', 'SUN', ended=1)
    off = add_user(db, 'off', 'SUN')
    db.execute("INSERT INTO mail_off VALUES (?, 'came_in'), (?, 'password')", (off, off))
    for user in (silent, gone, off):
        assert not mails.tell(db, user, CAME)
    told = mails.tell(db, off, Notice('password', 'act 1', {'user': 'off', 'time': 0}))
    assert told, 'a change of a password can be switched off'


def test_a_user_gets_two_hundred_a_day_and_one_that_says_so(db: sqlite3.Connection) -> None:
    anna = add_user(db, 'anna', 'SUN')
    for number in range(250):
        told = mails.tell(db, anna, Notice('came_in', f'entry {number}', CAME.fields))
        assert told == (number < 200)
    assert mails.tell(db, anna, Notice('password', 'act 1', {'user': 'anna', 'time': 0}))
    kinds = [row['kind'] for row in db.execute('SELECT kind FROM mail ORDER BY id')]
    assert kinds == ['came_in'] * 200 + ['bound', 'password']
    db.execute('UPDATE mail SET made = made - 86400')
    assert mails.tell(db, anna, Notice('came_in', 'entry 300', CAME.fields)), 'the next day'


def invited(db: sqlite3.Connection, caller: str = 'SUN', to: str = 'new@example.org',
            for_user: int | None = None, ends: int | None = None) -> int:
    done = db.execute(
        'INSERT INTO invitation (hash, caller, role, administrator, mail, language, access, made, '
        "ends, for_user) VALUES (randomblob(32), ?, 'user', 0, ?, 'de', '[]', ?, ?, ?)",
        (caller, to, store.now(), ends or store.now() + 1000, for_user))
    assert done.lastrowid
    return done.lastrowid


def test_an_invitation_has_its_link_until_it_is_sent(db: sqlite3.Connection) -> None:
    mails.invite(db, invited(db), 'geheim')
    body, = db.execute('SELECT body FROM mail').fetchone()
    assert f'{SITE}/accept.html#geheim' in body and 'Benutzer von SUN' in body
    letter = mails.claim(db, 1, store.now())
    assert letter and letter.language == 'de'
    mails.mark_sent(db, 1, store.now())
    assert [row['body'] for row in db.execute('SELECT body FROM mail')] == ['']


@pytest.mark.parametrize('what', ['used', 'revoked', 'ended'])
def test_an_invitation_that_is_over_is_not_sent(db: sqlite3.Connection, what: str) -> None:
    number = invited(db, ends=1 if what == 'ended' else None)
    mails.invite(db, number, 'geheim')
    if what != 'ended':
        db.execute(f'UPDATE invitation SET {what} = 1')
    assert mails.claim(db, 1, store.now()) is None
    row = db.execute('SELECT given_up, body FROM mail').fetchone()
    assert row['given_up'] and row['body'] == ''


def test_invitations_are_bounded_by_holder_and_by_address(db: sqlite3.Connection) -> None:
    for number in range(50):
        mails.invite(db, invited(db, to=f'u{number}@example.org'), 'x')
    with pytest.raises(mails.TooMany):
        mails.invite(db, invited(db, to='one-more@example.org'), 'x')
    for number in range(5):
        mails.invite(db, invited(db, f'H{number}', 'New@example.org'), 'x')
    with pytest.raises(mails.TooMany):
        mails.invite(db, invited(db, 'H9', 'new@example.org'), 'x')
    with pytest.raises(ValueError):
        mails.invite(db, invited(db, 'H10', 'new@example.org\nBcc: x@example.org'), 'x')


def test_pauses_grow_and_end_after_five_days(db: sqlite3.Connection) -> None:
    anna = add_user(db, 'anna', 'SUN')
    mails.tell(db, anna, CAME)
    at, tries, pauses = store.now(), 0, []
    while mails.claim(db, 1, at):
        following, = db.execute('SELECT next FROM mail').fetchone()
        assert mails.due(db, following - 1, 9) == [] and mails.due(db, following, 9) == [1]
        pauses.append(following - at)
        at, tries = following, tries + 1
        assert tries < 100
    assert pauses[:4] == [60, 120, 240, 480] and max(pauses) == 4 * 3600
    assert 5 * 86400 < sum(pauses) <= 5 * 86400 + 4 * 3600
    assert db.execute('SELECT given_up FROM mail').fetchone()[0]


def test_the_id_of_a_message_is_that_of_its_row(db: sqlite3.Connection) -> None:
    anna, ben = add_user(db, 'anna', 'SUN'), add_user(db, 'ben', 'SUN')
    for user, cause in ((anna, 'entry 9'), (ben, 'entry 9'), (anna, 'entry 10')):
        mails.tell(db, user, Notice('came_in', cause, CAME.fields))
    ids = [letter.message_id for number in (1, 2, 3)
           if (letter := mails.claim(db, number, store.now()))]
    assert len(set(ids)) == 3
    again = mails.claim(db, 1, store.now())
    assert again and again.message_id == ids[0]


def test_a_happening_that_is_told_anew_has_the_id_of_before(db: sqlite3.Connection) -> None:
    """As after a file that went back to a copy."""
    anna = add_user(db, 'anna', 'SUN')
    mails.tell(db, anna, CAME)
    before = mails.claim(db, 1, store.now())
    db.execute('DELETE FROM mail')
    mails.tell(db, anna, Notice('came_in', 'entry 1', CAME.fields))
    mails.tell(db, anna, CAME)
    again = mails.claim(db, 2, store.now())
    assert before and again and before.message_id == again.message_id


def test_who_has_ended_gets_no_more(db: sqlite3.Connection) -> None:
    anna = add_user(db, 'anna', 'SUN')
    mails.tell(db, anna, CAME)
    db.execute('UPDATE user SET ended = 5')
    assert mails.claim(db, 1, store.now()) is None
    assert db.execute('SELECT given_up FROM mail').fetchone()[0]


def test_rows_are_kept_while_their_happening_could_come_again(db: sqlite3.Connection) -> None:
    anna = add_user(db, 'anna', 'SUN')
    for number in range(3):
        mails.tell(db, anna, Notice('came_in', f'entry {number}', CAME.fields))
    mails.mark_sent(db, 1, store.now())
    mails.mark_sent(db, 2, store.now())
    mails.prune(db, store.now() + 119 * 86400)
    assert len(waiting(db)) == 3
    db.execute('UPDATE mail SET made = made - 200 * 86400 WHERE id <> 2')
    mails.prune(db, store.now())
    assert [row['id'] for row in db.execute('SELECT id FROM mail ORDER BY id')] == [2, 3]


# ------------------------------------------------------------------ who is told

def test_readers_are_the_users_who_may_see_the_account(db: sqlite3.Connection) -> None:
    whole = add_user(db, 'whole', 'SUN', access=[(0, 1, 0, 0)])
    four = add_user(db, 'four', 'SUN', access=[(4, 0, 1, 0), (6, 0, 0, 1)])
    add_user(db, 'five', 'SUN', access=[(5, 1, 1, 1)])
    add_user(db, 'none', 'SUN', access=[(4, 0, 0, 0)])
    add_user(db, 'gone', 'SUN', access=[(0, 1, 1, 1)], ended=1)
    add_user(db, 'other', 'VOLT', access=[(0, 1, 1, 1)])
    found = readers(db, 'SUN', [4, 6, 7])
    assert found == {whole: frozenset((4, 6, 7)), four: frozenset((4, 6))}


def test_nobody_is_asked_to_confirm_his_own(db: sqlite3.Connection) -> None:
    anna = add_user(db, 'anna', 'SUN', access=[(0, 1, 1, 1)])
    ben = add_user(db, 'ben', 'SUN', access=[(0, 1, 0, 1)])
    add_user(db, 'reads', 'SUN', access=[(0, 1, 0, 0)])
    office = add_user(db, 'office', 'ISSUER', role='officer')
    second = add_user(db, 'second', 'ISSUER', role='second')
    add_user(db, 'audit', 'ISSUER', role='auditor')
    assert confirmers(db, 'SUN', anna) == [ben]
    assert confirmers(db, 'ISSUER', office) == [second]
