"""Whose account it is: a directory of accounts, and whether an account and a holder's code fit.

What is transferred or exported can't be called back, and a number with one wrong digit is somebody
else's. So whoever gives says the code too, and both have to fit. The issuing body may keep the
directory to itself: then a pair is looked at all the same, and no name is told. Few wrong pairs of
a user are answered within a minute, so that nobody finds whose accounts there are by trying.
"""
import json
import re
import sqlite3
import threading
import time
from collections import deque
from collections.abc import Callable
from dataclasses import dataclass
from dataclasses import field
from pathlib import Path

from goo_service.records.questions import BadQuestion
from goo_service.records.questions import Given
from goo_service.records.questions import Listed
from goo_service.records.questions import NotFound
from goo_service.records.questions import Row
from goo_service.records.questions import Viewer
from goo_service.records.questions import number_of
from goo_service.records.questions import fetch_page
from goo_service.records.questions import rows_of

WRONG, SECONDS = 3, 60
"""Wrong pairs of a user that one process answers within so many seconds."""
USERS = 10_000
"""Users of whom wrong pairs are kept, at most."""
HOLDER = re.compile('[A-Z0-9-]{1,16}')
MOST_ACCOUNT = 999_999_999


class TooMany(Exception):
    """The user has asked about too many wrong pairs. After `wait` seconds he may ask again."""

    def __init__(self, wait: int) -> None:
        super().__init__(f'{WRONG} wrong pairs of account and holder came from this user within '
                         f'{SECONDS} s: ask again in {wait} s')
        self.wait = wait


@dataclass
class Tries:
    """The wrong pairs of each user within the last minute."""

    clock: Callable[[], float] = time.monotonic
    times: dict[str, 'deque[float]'] = field(default_factory=dict)
    lock: threading.Lock = field(default_factory=threading.Lock)

    def of(self, user: str) -> 'deque[float]':
        """Those of a user; older ones are gone."""
        times = self.times.get(user) or deque(maxlen=WRONG)
        while times and times[0] <= self.clock() - SECONDS:
            times.popleft()
        return times

    def check(self, user: str) -> None:
        """Raises TooMany where no further pair is looked at."""
        with self.lock:
            times = self.of(user)
            if len(times) == WRONG:
                raise TooMany(int(times[0] + SECONDS - self.clock()) + 1)

    def note(self, user: str) -> None:
        """Notes a wrong pair."""
        with self.lock:
            if len(self.times) >= USERS:
                self.times = {name: times for name in self.times if (times := self.of(name))}
            times = self.of(user)
            times.append(self.clock())
            self.times[user] = times


@dataclass(frozen=True)
class Pair:
    """An account and the code of its holder, here or at another registry."""

    account: int
    holder: str
    """Empty where it is asked whether a code is wanted: of another registry alone."""
    peer: int | None = None


def pair_of(given: Given) -> Pair:
    """The pair that is asked about."""
    account = number_of(given, 'account', MOST_ACCOUNT, 1)
    holder = ''.join((given.get('holder') or '').split()).upper()
    peer = number_of(given, 'peer', 99, 1)
    if account is None:
        raise BadQuestion('account is wanted')
    if not HOLDER.fullmatch(holder) and not (peer and not holder):
        raise BadQuestion(f'holder is {given.get("holder", "")[:40]!r}, and not the code of one')
    return Pair(account, holder, peer)


@dataclass
class Parties:
    """The directory of this registry, and those of others as the exchange has them."""

    exchange: Path
    is_shown: bool
    """Whether holders see the directory."""
    tries: Tries = field(default_factory=Tries)

    def directory(self, database: sqlite3.Connection, viewer: Viewer, given: Given) -> Listed:
        """Open accounts with their holders."""
        if not (self.is_shown or viewer.sees_all):
            raise NotFound('the issuing body shows no directory of accounts')
        return fetch_page(given, database, '''
            SELECT account.number AS account, account.holder, holder.name
            FROM account JOIN holder ON holder.code = account.holder
            WHERE NOT account.closed ORDER BY account.number''', ())

    def party(self, database: sqlite3.Connection, viewer: Viewer, given: Given, user: str) -> Row:
        """Whether an account and a code fit, and the holder's name as far as it is told. Of
        another registry that publishes no accounts nobody knows: `fits` is null."""
        self.tries.check(user)
        pair = pair_of(given)
        found = (self.here(database, viewer, pair) if pair.peer is None
                 else self.there(pair.peer, pair))
        if found['fits'] is False and pair.holder:
            self.tries.note(user)
        return {'account': pair.account, 'holder': pair.holder, 'peer': pair.peer, **found}

    def here(self, database: sqlite3.Connection, viewer: Viewer, pair: Pair) -> Row:
        found = rows_of(database, '''
            SELECT holder.name, account.closed FROM account
            JOIN holder ON holder.code = account.holder
            WHERE account.number = ? AND account.holder = ?''', (pair.account, pair.holder))
        if not found:
            return {'fits': False, 'name': None, 'closed': None}
        is_told = self.is_shown or viewer.sees_all or viewer.caller == pair.holder
        return {'fits': True, 'name': found[0]['name'] if is_told else None,
                'closed': bool(found[0]['closed'])}

    def there(self, peer: int, pair: Pair) -> Row:
        accounts = accounts_of(self.exchange, peer)
        if accounts is None:
            return {'fits': None, 'name': None, 'closed': None}
        name = next((of['name'] for of in accounts
                     if (of['account'], of['holder']) == (pair.account, pair.holder)), None)
        return {'fits': name is not None, 'name': name, 'closed': None}


def accounts_of(exchange: Path, peer: int) -> list[Row] | None:
    """The accounts that a peer publishes, as the exchange wrote them; None where it has none."""
    try:
        peers = json.loads(exchange.read_text(encoding='utf-8'))['peers']
        return next((of['accounts'] for of in peers if of['registry'] == peer), None)
    except (OSError, ValueError, KeyError, TypeError):
        return None
