"""Texts without case and accents. What people type in place of a letter is as they type it."""
import pytest
from goo_service.records.folding import fold
from hypothesis import given
from hypothesis import strategies

SAME = [
    ('Żółw', 'żółw'), ('Żółw', 'ZOLW'), ('Żółw', 'zolw'), ('Łódź', 'lodz'),
    ('Ørsted', 'orsted'), ('Đakovo', 'dakovo'), ('Straße', 'STRASSE'), ('Œuvre', 'oeuvre'),
    ('Ærø', 'aero'), ('Işıl', 'isil'), ('İzmir', 'izmir'), ('DIYARBAKIR', 'Dıyarbakır'),
    ('Þór', 'thor'), ('Ħal', 'hal'), ('Müller', 'muller'), ('Gütersloh', 'GUTERSLOH'),
    ('Νηρέας', 'ΝΗΡΕΑΣ'), ('Νηρέας', 'νηρεας'), ('Ἀθῆναι', 'αθηναι'), ('ΐ', 'ι'),
    ('Ёлка', 'елка'), ('Чайковский', 'ЧАИКОВСКИИ'), ('Čačak', 'cacak'), ('Đurđevac', 'DURDEVAC'),
    ('Ștefan', 'Stefan'), ('Şule', 'sule'), ('Nguyễn', 'nguyen'), ('ﬁnance', 'FINANCE'),
    ('e\u0301tude', 'étude'), ('１２３', '123'), ('שָׁלוֹם', 'שלום'), ('مُحَمَّد', 'محمد')]


@pytest.mark.parametrize(('one', 'other'), SAME)
def test_texts_that_are_looked_for_alike(one: str, other: str) -> None:
    assert fold(one) == fold(other)


@pytest.mark.parametrize(('one', 'other'), [('Lodz', 'Lotz'), ('か', 'が'), ('Νηρέας', 'Νηρέα'),
                                            ('a b', 'ab')])
def test_other_texts_stay_other_texts(one: str, other: str) -> None:
    assert fold(one) != fold(other)


@given(strategies.text())
def test_a_folded_text_is_folded(text: str) -> None:
    assert fold(fold(text)) == fold(text)


@given(strategies.text(), strategies.text(max_size=3), strategies.text())
def test_a_part_of_a_text_is_found_in_it(before: str, part: str, after: str) -> None:
    """Unless a mark that the part begins with joins a letter before it: marks are no letters."""
    assert fold(part) in fold(before + part + after) or not fold(part).strip()
