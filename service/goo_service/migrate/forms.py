"""The forms of values, as docs/FORMATS.md has them, and how the texts of an old table become them.

A reader gives the value, or raises Unfit with the reason.
"""
import re
from collections.abc import Callable
from decimal import Decimal
from decimal import InvalidOperation

from goo_service.people.declarations import is_day
from goo_service.people.declarations import is_gsrn

MOST_NAME = 64                      # bytes
MOST_WATTS = 10 ** 11
WATTS = {'W': 1, 'kW': 10 ** 3, 'MW': 10 ** 6}
DAYS = {
    'YYYY-MM-DD': r'(?P<year>\d{4})-(?P<month>\d{2})-(?P<day>\d{2})',
    'DD.MM.YYYY': r'(?P<day>\d{2})\.(?P<month>\d{2})\.(?P<year>\d{4})',
    'DD/MM/YYYY': r'(?P<day>\d{2})/(?P<month>\d{2})/(?P<year>\d{4})',
    'MM/DD/YYYY': r'(?P<month>\d{2})/(?P<day>\d{2})/(?P<year>\d{4})',
}
"""How an old table may write a day."""
SUPPORT = ('none', 'investment', 'production', 'both')
CARRIERS = ('electricity', 'gas', 'hydrogen', 'heating-cooling')
Reader = Callable[[str], str]


class Unfit(ValueError):
    """A text that is not of its form; the reason."""


def of_pattern(pattern: str, what: str) -> Reader:
    """A reader of the texts that a pattern fits as a whole."""
    shape = re.compile(pattern, re.ASCII)

    def read(text: str) -> str:
        if not shape.fullmatch(text):
            raise Unfit(f'{text[:40]!r} is not {what}')
        return text
    return read


def one_of(words: tuple[str, ...], what: str) -> Reader:
    """A reader of a few words."""
    return of_pattern('|'.join(map(re.escape, words)), f'{what} ({", ".join(words)})')


holder_code = of_pattern('[A-Z0-9-]{1,16}',
                         'a code of a holder: 1 to 16 of A-Z, 0-9 and -')
country = of_pattern('[A-Z]{2}', 'a country of two letters, such as DE')
technology = of_pattern('T[0-9]{6}', 'a technology: T and 6 digits')
source = of_pattern('F[0-9]{8}', 'an energy source: F and 8 digits')
support = one_of(SUPPORT, 'a kind of support')
carrier = one_of(CARRIERS, 'an energy carrier')
registry = of_pattern('0?[1-9]|[1-9][0-9]', 'a code of a registry: 1 to 99')


def device(text: str) -> str:
    """A device's GSRN (GS1): 18 digits, the last of which is the check digit."""
    if not is_gsrn(text):
        raise Unfit(f'{text[:40]!r} is not a GSRN: 18 digits, the last one the check digit')
    return text


def has_control(text: str) -> bool:
    """Whether a control character is in a text."""
    return any(ord(letter) < 32 or 127 <= ord(letter) < 160 for letter in text)


def name(text: str) -> str:
    """A name: at most 64 bytes in UTF-8, no control character, no space at either end."""
    if has_control(text) or text != text.strip(' ') or not text:
        raise Unfit(f'{text[:40]!r} has a control character, or a space at one end')
    size = len(text.encode())
    if size > MOST_NAME:
        raise Unfit(f'{text[:40]!r}.. has {size} bytes, and {MOST_NAME} at most can be kept; '
                    'say under [names] how it is shortened')
    return text


def day_reader(form: str) -> Reader:
    """A reader of days in the form of the old tables; a day is given as 2025-03-01."""
    shape = re.compile(DAYS[form], re.ASCII)

    def read(text: str) -> str:
        found = shape.fullmatch(text)
        day = '{year}-{month}-{day}'.format(**found.groupdict()) if found else ''
        if not is_day(day):
            raise Unfit(f'{text[:40]!r} is not a day from 1900 to 2099 in the form {form}')
        return day
    return read


def watts(text: str, unit: str) -> int:
    """A capacity in whole W, from 1 to 10^11."""
    try:
        given = Decimal(text) if re.fullmatch(r'[0-9]{1,15}(\.[0-9]{1,6})?', text) else None
        in_watts = given * WATTS[unit] if given is not None else Decimal(0)
    except InvalidOperation:
        in_watts = Decimal(0)
    if in_watts != int(in_watts) or not 1 <= in_watts <= MOST_WATTS:
        raise Unfit(f'{text[:40]!r} is not a capacity in {unit}, of 1 W to 10^11 W')
    return int(in_watts)


def carried_energy(text: str) -> int:
    """Energy in Wh that is no full certificate yet: below 1,000,000."""
    if not re.fullmatch('[0-9]{1,6}', text, re.ASCII):
        raise Unfit(f'{text[:40]!r} is not a carried energy: 0 to 999,999 Wh')
    return int(text)
