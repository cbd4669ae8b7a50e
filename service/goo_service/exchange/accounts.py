"""The accounts that registries publish for each other, so that whoever exports sees whose account
he names: a file `accounts` in the outbox of a peer, signed as notices are.

An issuing body chooses whether it publishes them (`publish_accounts = yes` in exchange.conf). They
come from its records: number, holder's code and name of each open account. What a peer publishes is
read in each visit, up to a size and a number, and kept until it publishes another list or none.
"""
import json
import re
import urllib.parse
from collections.abc import Iterator
from collections.abc import Mapping
from dataclasses import dataclass
from pathlib import Path
from typing import Any
from typing import TypedDict

from goo_service.common.client import Client
from goo_service.common.client import NoAnswer
from goo_service.common.files import write_whole
from goo_service.exchange.common import Again
from goo_service.exchange.common import LARGEST
from goo_service.exchange.common import compact
from goo_service.exchange.common import read_text
from goo_service.exchange.outbox import Outbox

NAME = 'accounts'
"""The file in the outbox."""
MOST, PAGE = 20_000, 1000
"""Accounts of a registry, and of one answer of the records."""
PATIENCE = 20
"""Seconds that the records have for an answer."""
HOLDER = re.compile('[A-Z0-9-]{1,16}')
CONTROL = re.compile('[\0-\x1f\x7f-\x9f]')
NAME_BYTES = 64
SWITCH = {'yes': True, 'no': False}


class Account(TypedDict):
    """An account with its holder."""

    account: int
    holder: str
    name: str


def is_account(of: Any) -> bool:
    """Whether a JSON value is an account as the registry has them."""
    return (isinstance(of, dict) and set(of) == {'account', 'holder', 'name'}
            and type(of['account']) is int and 0 < of['account'] < 10 ** 9
            and isinstance(of['holder'], str) and bool(HOLDER.fullmatch(of['holder']))
            and isinstance(of['name'], str) and len(of['name'].encode()) <= NAME_BYTES
            and not CONTROL.search(of['name']))


def parse_accounts(text: str, sender: int, addressee: int) -> list[Account]:
    """The accounts in a text. Again where it is no list of this sender for this addressee."""
    try:
        of = json.loads(text)
        ends = of['sender'], of['addressee']
        found = of['accounts']
        is_good = (ends == (sender, addressee) and isinstance(found, list)
                   and len(found) <= MOST and all(map(is_account, found)))
    except (ValueError, TypeError, KeyError, RecursionError):
        is_good = False
    if not is_good:
        raise Again('what it shows as its accounts is none of its lists for us')
    return [Account(account=one['account'], holder=one['holder'], name=one['name'])
            for one in found]


@dataclass(frozen=True)
class Directory:
    """Our own accounts, as our records tell them to the issuing body."""

    client: Client

    @classmethod
    def of(cls, section: Mapping[str, str]) -> 'Directory | None':
        """By the section of our registry; None where it does not publish."""
        word = section.get('publish_accounts', 'no')
        if word not in SWITCH:
            raise ValueError(f'publish_accounts is {word!r}, and not yes or no')
        address = section.get('records', 'unix:/run/goo-records/web.sock')
        url = urllib.parse.urlsplit(address)
        if url.scheme != 'unix' or not url.path.startswith('/'):
            raise ValueError('our records are reached at unix:/PATH alone')
        client = Client(url.path, PATIENCE, LARGEST, {'GOO-Caller': 'ISSUER'})
        return cls(client) if SWITCH[word] else None

    def accounts(self) -> Iterator[Account]:
        """All of them, page by page."""
        offset: int | None = 0
        while offset is not None:
            try:
                answer = self.client.get(f'/records/v1/directory?limit={PAGE}&offset={offset}')
            except NoAnswer as fault:
                raise Again(f'our records: no answer: {fault}') from fault
            if answer.status != 200:
                raise Again(f'our records answered {answer.status}')
            page = json.loads(answer.text)
            yield from page['items']
            offset = page['next']


def publish(directory: Directory | None, outbox: Outbox, peers: list[int]) -> list[str]:
    """Shows our accounts to each peer, or none any more; what is left undone."""
    if directory is None:
        for peer in peers:
            outbox.remove(peer, NAME)
        return []
    try:
        accounts = list(directory.accounts())
        texts = {peer: compact({'sender': outbox.code, 'addressee': peer, 'accounts': accounts})
                 for peer in peers}
        if len(accounts) > MOST or any(len(text.encode()) > LARGEST for text in texts.values()):
            raise Again(f'{len(accounts)} accounts are more than a registry publishes: {MOST} in '
                        f'{LARGEST} bytes')
        for peer, text in texts.items():
            if read_text(outbox.place(peer, NAME)) != text:
                outbox.write(peer, NAME, text)
    except (Again, OSError) as why:
        return [f'our accounts are not published: {why}']
    return []


@dataclass(frozen=True)
class Kept:
    """The accounts that a peer published last, in a file of their own."""

    folder: Path
    peer: int

    @property
    def path(self) -> Path:
        return self.folder / 'inbox' / f'{self.peer:02}-accounts.json'

    def read(self) -> list[Account] | None:
        """What was kept; None where it publishes none, or what was kept is damaged."""
        try:
            found = json.loads(read_text(self.path) or 'null')
        except (Again, ValueError, RecursionError):
            return None
        return found if isinstance(found, list) and all(map(is_account, found)) else None

    def write(self, accounts: list[Account] | None) -> None:
        """Keeps what it publishes now."""
        if accounts is None:
            self.path.unlink(missing_ok=True)
        elif self.read() != accounts:
            write_whole(self.path, compact(accounts) + '\n')
