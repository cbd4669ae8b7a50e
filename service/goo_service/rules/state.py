"""What a registry knows, and the checks that several commands share."""
import collections
from collections.abc import MutableMapping
from typing import Any

from goo_service.rules.certificates import Certificates
from goo_service.rules.certificates import HELD
from goo_service.rules.certificates import Place
from goo_service.rules.certificates import Run
from goo_service.rules.certificates import absent
from goo_service.rules.lots import Lot
from goo_service.rules.refusals import least
from goo_service.rules.refusals import must
from goo_service.rules.refusals import must_none

MOST_ACT = 999_999_999


class State:
    """A registry as its requests leave it."""

    def __init__(self, code: int, begun: str, next_serial: int) -> None:
        self.code, self.today = code, begun
        self.next = {'serial': next_serial, 'account': 1, 'cancellation': 1, 'withdrawal': 1,
                     'notice': 1}
        self.certificates = Certificates()
        self.lots: dict[tuple[int, str, str], Lot] = {}
        self.expiring: dict[str | None, list[tuple[int, int, Lot]]] = collections.defaultdict(list)
        """The ranges that were issued or imported, by the last day on which they are held."""
        self.holders: dict[str, str] = {}
        self.accounts: dict[int, tuple[str, int]] = {}
        self.devices: dict[str, dict[str, Any]] = {}
        self.peers: set[int] = set()
        self.declarations: list[tuple[Any, ...]] = []
        self.corrections: list[tuple[Any, ...]] = []
        self.left: dict[tuple[str, str], int] = {}
        """Net production of a device's period, less its corrections."""
        self.cancellations: dict[int, tuple[Any, ...]] = {}
        self.withdrawals: dict[int, tuple[Any, ...]] = {}
        self.sent: dict[int, tuple[int, str]] = {}
        self.taken: MutableMapping[tuple[int, int], str] = {}

    def number(self, kind: str, count: int = 1, most: int = MOST_ACT) -> int:
        """The next number of a kind, of so many that are used."""
        number = self.next[kind]
        must(number + count - 1 <= most, 'NumbersExhausted')
        self.next[kind] += count
        return number

    def holder_of(self, account: int) -> str | None:
        return self.accounts[account][0] if account in self.accounts else None

    def must_be_open(self, account: int) -> None:
        must(account in self.accounts, 'UnknownAccount')
        must(not self.accounts[account][1], 'AccountClosed')

    def known_runs(self, first: int, last: int) -> list[Run]:
        """The runs of a range whose certificates are all known."""
        runs = self.certificates.within(first, last)
        must_none(least(absent(runs, first, last)), 'UnknownNumber')
        return runs

    def held_runs(self, first: int, last: int, by: int | None = None) -> list[Run]:
        """The same where all are held by this account, or by any."""
        runs = self.known_runs(first, last)
        must_none(least(number for number, _, _, place in runs
                        if place.kind != HELD or by not in (None, place.account)), 'NotHeld')
        return runs

    def tradable(self, first: int, last: int, by: int) -> list[Run]:
        """The same where each may still be traded."""
        runs = self.held_runs(first, last, by)
        must_none(least(number for number, _, lot, _ in runs if lot.is_closed(self.today)),
                  'TradeClosed')
        return runs

    def bring(self, first: int, last: int, lot: Lot, account: int) -> None:
        """Certificates that are now held by an account: issued, or imported.

        A lot has many ranges; of equal lots there is one in memory.
        """
        known = self.lots.get(lot.key)
        lot = known if known == lot else lot
        self.lots[lot.key] = lot
        self.expiring[lot.expires_on].append((first, last, lot))
        self.certificates.add(first, last, lot, Place(HELD, account, 0))
