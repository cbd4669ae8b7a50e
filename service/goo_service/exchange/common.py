"""What the modules of the exchange share: errors, files as they are read, the chain over texts, the
reading of a notice."""
import functools
import hashlib
import json
import os
import sys
from collections.abc import Iterable
from dataclasses import dataclass
from dataclasses import field
from pathlib import Path
from typing import Any

MOST = 10000
"""Notices of a run and a direction."""
LARGEST = 1048576
"""Bytes of an answer; no notice comes near."""
Span = tuple[int, int]
"""The first and the last of some numbers."""


class Again(Exception):
    """Something is left undone: it is told, and tried again in the next run."""


class Refused(Exception):
    """A notice that was not imported, by the name of the refusal."""


@dataclass(frozen=True)
class Part:
    """Certificates of one lot."""

    first: int
    last: int
    origin: int
    lot: Any = field(default_factory=dict)

    @property
    def span(self) -> Span:
        return self.first, self.last


@dataclass(frozen=True)
class Notice:
    """A notice as far as the exchange has to know it."""

    text: str
    sender: int
    addressee: int
    number: int
    account: int
    parts: list[Part]

    @property
    def count(self) -> int:
        return sum(part.last - part.first + 1 for part in self.parts)

    @property
    def is_whole(self) -> bool:
        """Whether it has parts, and numbers where it has to have them."""
        numbers = (self.sender, self.addressee, self.number, self.account,
                   *(part.origin for part in self.parts))
        return bool(self.parts) and all(type(number) is int for number in numbers)


def parse_notice(text: str) -> Notice:
    """The notice of this text. Refused where it is none."""
    try:
        of = json.loads(text)
        parts = [Part(int(part['first']), int(part['last']), part['lot']['origin'], part['lot'])
                 for part in of['parts']]
        notice = Notice(text, of['sender'], of['addressee'], of['number'], of['account'], parts)
    except (ValueError, TypeError, KeyError, RecursionError) as fault:
        raise Refused('NotANotice') from fault
    if not notice.is_whole:
        raise Refused('NotANotice')
    return notice


def log(text: str) -> None:
    """A line for the journal, whole also where several threads write. Where nobody reads any more,
    the work goes on to its end."""
    try:
        print(f'{text}\n', end='', flush=True)
    except BrokenPipeError:
        os.dup2(os.open(os.devnull, os.O_WRONLY), sys.stdout.fileno())


def read_text(path: Path) -> str | None:
    """The text of a file, to the byte; None where there is none."""
    try:
        return path.read_bytes().decode()
    except FileNotFoundError:
        return None
    except (OSError, UnicodeDecodeError) as fault:
        raise Again(f'{path} cannot be read: {fault}') from fault


def read_object(path: Path) -> dict[str, Any] | None:
    """The JSON object in a file; None where there is no such file."""
    text = read_text(path)
    if text is None:
        return None
    try:
        value = json.loads(text)
    except (ValueError, RecursionError) as fault:
        raise Again(f'{path} is damaged: {fault}') from fault
    if not isinstance(value, dict):
        raise Again(f'{path} is damaged: not an object')
    return value


def compact(value: object) -> str:
    """One JSON text for one value."""
    return json.dumps(value, sort_keys=True, separators=(',', ':'))


def chain_after(chain: str, text: str) -> str:
    """The chain over some texts, made longer by one."""
    return hashlib.sha256((chain + text).encode()).hexdigest()


def chain_of(texts: Iterable[str]) -> str:
    """The chain over these texts."""
    return functools.reduce(chain_after, texts, '')
