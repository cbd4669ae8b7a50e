"""Numbers of certificates in the form of the old registry, and as this registry writes them.

A certificate's number is the code of its registry times 10^12, and a serial. Where the old registry
numbered otherwise, migration.toml says where the counted digits stand in an old number.
Certificates of a third registry keep the number that their registry gave them.
"""
import re
from dataclasses import dataclass

from goo_service.migrate.settings import Settings
from goo_service.migrate.settings import pattern_of

SERIALS = 10 ** 12
MOST_DIGITS = 18
MOST_COUNT = SERIALS - 1
FOURTEEN = re.compile('(?!00)[0-9]{14}')
"""A number with the code of its registry in front."""


class NoRange(ValueError):
    """Two texts that are no range of certificates; `kind` is the kind of fault."""

    def __init__(self, kind: str, reason: str) -> None:
        super().__init__(reason)
        self.kind = kind


@dataclass(frozen=True)
class Certificate:
    """An old number: what stands around the counted digits, and what they state.

    `other` is the code of the registry that issued it, where that is not the old one.
    """

    series: str
    counted: int
    other: int | None = None


@dataclass(frozen=True)
class Range:
    """A range of old numbers. `first` is the new number of its first one; None until assigned."""

    series: str
    counted: int
    count: int
    first: int | None
    other: int | None = None


class Reader:
    """Reads numbers in the form that the settings state."""

    def __init__(self, settings: Settings) -> None:
        self.form, self.code = settings.numbers, settings.old_code
        own = f'{settings.old_code:02}([0-9]{{12}})'
        self.pattern = re.compile(own) if self.form == 'own' else pattern_of(settings)

    def certificate(self, text: str, registry: int | None = None) -> Certificate:
        """The certificate of an old number, and of a registry where its row names one.

        Else the registry is the old one; or the one whose code is in front, if the old registry
        numbers so too.
        """
        if registry is None and self.form == 'own' and FOURTEEN.fullmatch(text):
            registry = int(text[:2])
        if registry is None or registry == self.code:
            return self.own(text)
        return self.other(text, registry)

    def candidates(self, text: str) -> list[Certificate]:
        """The certificates that an old number may be. NoRange where it is none."""
        registries = [None, int(text[:2])] if FOURTEEN.fullmatch(text) else [None]
        found, reason = dict[Certificate, None](), None
        for registry in registries:
            try:
                found[self.certificate(text, registry)] = None
            except NoRange as fault:
                reason = reason or fault
        if reason and not found:
            raise reason
        return list(found)

    def other(self, text: str, registry: int) -> Certificate:
        """The certificate of another registry than the old one."""
        if not FOURTEEN.fullmatch(text) or int(text[:2]) != registry:
            raise NoRange('registry', f'{text[:40]!r} is no number of registry {registry:02}: '
                          '14 digits with its code in front')
        return Certificate(f'{registry:02}', int(text[2:]), registry)

    def own(self, text: str) -> Certificate:
        """The certificate of a number of the old registry itself."""
        found = self.pattern.fullmatch(text)
        if not found or not re.fullmatch(f'[0-9]{{1,{MOST_DIGITS}}}', found[1], re.ASCII):
            raise NoRange('number',
                          f'{text[:40]!r} is no number of the form {self.pattern.pattern}')
        around = f'{text[:found.start(1)]}#{len(found[1])}#{text[found.end(1):]}'
        series = around if self.form == 'assigned' else ''
        return Certificate(series, int(found[1]))

    def range(self, first: str, last: str, registry: int | None = None) -> Range:
        """The range of two old numbers."""
        begin, end = self.certificate(first, registry), self.certificate(last, registry)
        if begin.series != end.series or begin.counted > end.counted:
            raise NoRange('range', f'{first[:40]!r} to {last[:40]!r} is no range')
        count = end.counted - begin.counted + 1
        if self.form == 'assigned' and begin.other is None:
            if count > MOST_COUNT:
                raise NoRange('range', f'{first[:40]!r} to {last[:40]!r} has {count:,} numbers')
            return Range(begin.series, begin.counted, count, None)
        if not 1 <= begin.counted or end.counted > MOST_COUNT:
            raise NoRange('number', f'{last[:40]!r} has no serial from 1 to {MOST_COUNT}')
        code = begin.other or self.code
        return Range(begin.series, begin.counted, count, code * SERIALS + begin.counted,
                     begin.other)


def text_of(number: int) -> str:
    """The fourteen digits of a new number."""
    return f'{number:014}'
