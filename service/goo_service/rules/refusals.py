"""The refusals, and the checks that raise them."""
from collections.abc import Iterable

from goo_service.rules.replies import Answer

REFUSALS = (
    'NotAllowed', 'KeyReused', 'UnknownHolder', 'HolderExists', 'UnknownAccount', 'AccountClosed',
    'AccountNotEmpty', 'DeviceExists', 'UnknownDevice', 'BeforeCommissioning', 'PeriodOrder',
    'PeriodSpan', 'AuxExceedsGross', 'OverCapacity', 'NumbersExhausted', 'UnknownNumber', 'NotHeld',
    'TradeClosed', 'SameAccount', 'DateBackwards', 'UnknownPeer', 'PeerExists', 'WrongRegistry',
    'NoticeConflict', 'NumberTaken', 'LotDiffers', 'Stale', 'FuturePeriod', 'UsePeriod',
    'TooManyParts', 'UnknownDeclaration', 'OverCorrected', 'WrongCount', 'OtherDevice')
"""The refusals by their codes, the first of which is 1 (docs/REGISTRY.md)."""


class Wrong(Exception):
    """A check that a request does not pass: the refusal's name.

    Where the refusal names one, also the least certificate at fault.
    """

    def __init__(self, refusal: str, number: int | None = None) -> None:
        super().__init__(refusal)
        self.refusal, self.number = refusal, number


class Again(Wrong):
    """A notice that was imported before, with the answer of that time."""

    def __init__(self, answer: Answer) -> None:
        super().__init__('NoticeConflict')
        self.answer = answer


def must(holds: object, refusal: str) -> None:
    if not holds:
        raise Wrong(refusal)


def must_none(least: int | None, refusal: str) -> None:
    """There is no certificate at fault, and so no least one."""
    if least is not None:
        raise Wrong(refusal, least)


def least(numbers: Iterable[int]) -> int | None:
    """The first of rising numbers, or None."""
    return next(iter(numbers), None)
