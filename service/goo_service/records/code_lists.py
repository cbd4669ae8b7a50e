"""The words of codes, by the issuing body's own list: `lists.js`, which the page reads too.

It is a module of constants: `export const NAME = {CODE: 'name', CODE: ['name', 'Name'], ..};`. A
name is one for all languages, or a pair: in English, in German.
"""
import re
from collections.abc import Mapping
from dataclasses import dataclass
from dataclasses import field
from pathlib import Path

SHIPPED = (Path(__file__).resolve().parents[3] / 'web/lists.js',
           Path('/usr/share/goo/web/lists.js'))
LARGEST = 1 << 20
"""Letters of the file that are read."""
LANGUAGES = ('en', 'de')
LISTS = {'country': 'COUNTRIES', 'tech': 'TECHNOLOGIES', 'source': 'SOURCES',
         'body': 'ISSUING_BODIES'}
COMMENT = re.compile(r"""('(?:[^'\\\n]|\\.)*'|"(?:[^"\\\n]|\\.)*")|//[^\n]*|/\*.*?\*/""", re.S)
STRING = r"""(?:'(?:[^'\\\n]|\\.)*'|"(?:[^"\\\n]|\\.)*")"""
ENTRY = re.compile(rf"""(?:(\w+)|['"]([^'"\n]+)['"])\s*:\s*(\[[^\]]*\]|{STRING})""")
ESCAPE = re.compile(r'\\(?:u\{([0-9a-fA-F]{1,6})\}|u([0-9a-fA-F]{4})|x([0-9a-fA-F]{2})|(.))', re.S)
GERMAN = dict(re.findall(r'([A-Z]{2}) (\S[^,]*)', (
    'AL Albanien, AT Österreich, BA Bosnien und Herzegowina, BE Belgien, BG Bulgarien, CH Schweiz, '
    'CY Zypern, CZ Tschechien, DE Deutschland, DK Dänemark, EE Estland, ES Spanien, FI Finnland, '
    'FR Frankreich, GB Vereinigtes Königreich, GE Georgien, GR Griechenland, HR Kroatien, '
    'HU Ungarn, IE Irland, IS Island, IT Italien, LI Liechtenstein, LT Litauen, LU Luxemburg, '
    'LV Lettland, MD Republik Moldau, ME Montenegro, MK Nordmazedonien, MT Malta, NL Niederlande, '
    'NO Norwegen, PL Polen, PT Portugal, RO Rumänien, RS Serbien, SE Schweden, SI Slowenien, '
    'SK Slowakei, UA Ukraine, XK Kosovo')))
"""Countries have one name in the list, which is English. The page has the German ones from the
browser."""


@dataclass(frozen=True)
class CodeLists:
    """The names of each code, by the list's name: one, or one in English and one in German."""

    names: Mapping[str, Mapping[str, tuple[str, ...]]] = field(default_factory=dict)

    def word(self, name: str, code: str, language: str) -> str:
        """The word of a code; empty where no list has it."""
        words = self.names.get(name, {}).get(code, ())
        if name == 'country' and len(words) == 1 and language == 'de':
            return GERMAN.get(code, words[0])
        at = LANGUAGES.index(language)
        return words[at] if at < len(words) else ''.join(words[:1])


def unescape(text: str) -> str:
    """A string of JavaScript without its quotes and escapes."""
    plain = {'n': '\n', 't': '\t', 'r': '\r', 'b': '\b', 'f': '\f', 'v': '\v', '0': '\0', '\n': ''}

    def letter(of: re.Match[str]) -> str:
        digits = of[1] or of[2] or of[3]
        if digits is None:
            return plain.get(of[4], of[4])
        number = int(digits, 16)
        return chr(number) if number < 0x110000 and not 0xD800 <= number < 0xE000 else '\ufffd'

    return ESCAPE.sub(letter, text[1:-1])


def read_lists(text: str) -> CodeLists:
    """The lists of a file. What is in no such form is left out: its codes then stand alone."""
    bare = COMMENT.sub(lambda of: of[1] or ' ', text[:LARGEST])
    found: dict[str, dict[str, tuple[str, ...]]] = {}
    for name, constant in LISTS.items():
        block = re.search(rf'\bconst {constant}\s*=\s*\{{(.*?)\}}\s*;', bare, re.S)
        found[name] = {plain or quoted: tuple(map(unescape, re.findall(STRING, names)))
                       for plain, quoted, names in ENTRY.findall(block[1] if block else '')}
    return CodeLists(found)


def lists_of(etc: Path) -> CodeLists:
    """The issuing body's own lists, else those that come with the page."""
    for path in (etc / 'lists.js', *SHIPPED):
        if path.is_file():
            return read_lists(path.read_text(encoding='utf-8', errors='replace'))
    return CodeLists()
