"""Texts as people look for them: without case, and without the marks on letters, in every script.

The book keeps each name folded, and each question is folded the same way before it is asked. So
`ZOLW` and `żółw` both find `Żółw`, and `ΝΗΡΕΑΣ` finds `Νηρέας`.
"""
import unicodedata

LETTERS = {
    'ł': 'l', 'ø': 'o', 'đ': 'd', 'ð': 'd', 'þ': 'th', 'ß': 'ss', 'æ': 'ae', 'œ': 'oe', 'ı': 'i',
    'ħ': 'h', 'ŧ': 't', 'ŋ': 'n', 'ĸ': 'k', 'ƀ': 'b', 'ǥ': 'g', 'ɨ': 'i', 'ŀ': 'l', 'ƶ': 'z',
    'ȷ': 'j', 'ɖ': 'd', 'ə': 'e', 'ſ': 's'}
"""Letters that Unicode does not take apart, and what people type in their place."""
TABLE = str.maketrans(LETTERS)
VOICED = ('\u3099', '\u309a')
"""Marks that make another letter of a letter of Japanese: these stay."""


def fold(text: str) -> str:
    """The text in small letters without marks. Folded once more it is the same."""
    if text.isascii():
        return text.lower()
    apart = unicodedata.normalize('NFKD', unicodedata.normalize('NFKD', text).casefold())
    bare = ''.join(letter for letter in apart
                   if letter in VOICED or not unicodedata.combining(letter))
    return bare.translate(TABLE)
