"""What a mail says: its subject and its body, in the language of its reader.

A value that came from anybody is cleaned before it stands in a text: no line end, no sign that
cannot be seen, no more letters than a bound. No field has the number of a certificate or the name
of a beneficiary.
"""
import datetime
import unicodedata
from collections.abc import Callable
from collections.abc import Mapping
from collections.abc import Sequence
from dataclasses import dataclass
from types import ModuleType
from typing import Any

from goo_service.people import mail_texts_de
from goo_service.people import mail_texts_en

LANGUAGES: Mapping[str, ModuleType] = {'en': mail_texts_en, 'de': mail_texts_de}
USUAL = 'en'
LONGEST, LONGEST_SUBJECT = 200, 160
MOST_ACCOUNTS = 20
"""Accounts that are told one by one."""
SITE = '\x1a'
"""Stands for the registry's address until the mail is sent. No cleaned value has it."""


@dataclass(frozen=True)
class Text:
    """A mail as it is kept until it is sent."""

    subject: str
    body: str


def clean(value: object, most: int = LONGEST) -> str:
    """A value on one line, without signs that cannot be seen or that turn the order of letters."""
    seen = ''.join(' ' if unicodedata.category(letter)[0] in 'CZ' else letter
                   for letter in str(value)[:most * 4])
    text = ' '.join(seen.split())
    return text if len(text) <= most else f'{text[:most - 1]}…'


@dataclass(frozen=True)
class Words:
    """One language."""

    language: str

    @property
    def name(self) -> str:
        return self.language if self.language in LANGUAGES else USUAL

    @property
    def of(self) -> ModuleType:
        return LANGUAGES[self.name]

    def word(self, name: str, **fields: object) -> str:
        return str(self.of.WORDS[name]).format(**fields)

    def count(self, number: Any) -> str:
        return f'{int(number):,}'.replace(',', self.of.NUMBERS[0])

    def certificates(self, number: Any) -> str:
        name = 'certificate' if int(number) == 1 else 'certificates'
        return self.word(name, count=self.count(number))

    def accounts(self, numbers: Any) -> str:
        given: Sequence[int] = sorted(numbers)
        if len(given) > MOST_ACCOUNTS:
            return self.word('many', count=self.count(len(given)))
        name = 'account' if len(given) == 1 else 'accounts'
        return self.word(name, accounts=', '.join(map(str, given)))

    def numbers(self, ends: Any) -> str:
        first, last = ends
        return self.word('number' if first == last else 'numbers', first=first, last=last)

    def day(self, day: Any) -> str:
        of = datetime.date.fromisoformat(str(day))
        return str(self.of.DAY).format(day=of.day, month=self.of.MONTHS[of.month - 1],
                                       year=of.year)

    def time(self, seconds: Any) -> str:
        of = datetime.datetime.fromtimestamp(int(seconds), datetime.UTC)
        return str(self.of.MOMENT).format(day=self.day(of.date()), clock=f'{of:%H:%M}')

    def field(self, name: str, value: object) -> str:
        """A field as it is written in this language."""
        forms: Mapping[str, Callable[[Any], str]] = {
            'count': self.count, 'certificates': self.certificates, 'accounts': self.accounts,
            'numbers': self.numbers, 'day': self.day, 'time': self.time}
        return clean(forms[name](value) if name in forms else value)

    def text(self, name: str, fields: Mapping[str, object], is_off_possible: bool) -> Text:
        """The mail of this name."""
        subject, body = self.of.TEXTS[name]
        said = {field: self.field(field, value) for field, value in fields.items()}
        whole = body + (self.of.OFF if is_off_possible else '')
        return Text(clean(subject.format(**said), LONGEST_SUBJECT),
                    whole.format(**said, site=SITE))

    def foot(self, body: str, site: str) -> str:
        return str(self.of.FOOT).format(body=clean(body), site=site)
