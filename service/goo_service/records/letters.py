"""Characters that can't be seen, or that change where the other characters of a text stand.

In a document they are shown by their codes. The page does the same by `SPECIAL` of web/dom.js.
"""
import re
import unicodedata
from collections.abc import Iterator
from dataclasses import dataclass

CATEGORIES = {'Cc', 'Cf', 'Cn', 'Co', 'Cs', 'Zl', 'Zp'}
IGNORABLE = re.compile('[\u034f\u115f\u1160\u17b4\u17b5\u180b-\u180f\u3164\ufe00-\ufe0f\uffa0'
                       '\U000e0000-\U000e0fff]')
"""Default_Ignorable_Code_Point of Unicode, as far as its letters are of no category above."""
BLANK = '\u2800'


@dataclass(frozen=True)
class Piece:
    """A part of a text; a mark is the code of a character that must not act."""

    text: str
    is_mark: bool = False


def is_special(letter: str) -> bool:
    kind = unicodedata.category(letter)
    return (kind in CATEGORIES or kind == 'Zs' and letter != ' ' or letter == BLANK
            or IGNORABLE.match(letter) is not None)


def code_of(letter: str) -> str:
    return f'U+{ord(letter):04X}'


def pieces(text: str) -> Iterator[Piece]:
    """A text with the codes of its special characters in their place."""
    plain = ''
    for letter in text:
        if not is_special(letter):
            plain += letter
            continue
        if plain:
            yield Piece(plain)
        yield Piece(code_of(letter), True)
        plain = ''
    if plain:
        yield Piece(plain)


def render(text: str) -> str:
    """A text as it is read on paper."""
    return ''.join(piece.text for piece in pieces(text))


def special(text: str) -> list[str]:
    """The special characters of a text by their codes, each once."""
    return [code_of(letter) for letter in dict.fromkeys(text) if is_special(letter)]
