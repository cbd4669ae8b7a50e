"""What we show the peers: a folder of plain files for each, which nginx shows to that peer alone.

  1, 2, 3 ..      the notices for that registry, in the order of their numbers
  state           which of its generations we are, how many notices there are, and what became of
                  its own (inbox.py)
  taken-1 ..      its own notices, as we have them (inbox.py)
  accounts        our accounts with their holders, where we publish them (accounts.py)
  NAME.sig        the signature of the file NAME
"""
import bisect
import re
from collections.abc import Callable
from collections.abc import Iterable
from collections.abc import Iterator
from pathlib import Path
from typing import Protocol

from goo_service.common.files import write_whole
from goo_service.exchange.common import Again
from goo_service.exchange.common import MOST
from goo_service.exchange.common import Notice
from goo_service.exchange.common import Part
from goo_service.exchange.common import Refused
from goo_service.exchange.common import Span
from goo_service.exchange.common import chain_of
from goo_service.exchange.common import parse_notice
from goo_service.exchange.common import read_text

POSITION = re.compile('[1-9][0-9]{0,8}')


class Notices(Protocol):
    """Our registry, as far as its notices go."""

    def notice(self, number: int) -> str | None:
        """The text of a notice that was sent; None where there is none yet."""


class Signer(Protocol):
    """Our key."""

    def signature(self, text: str) -> str:
        """The signature of a text."""


class Outbox:
    """The notices that were published, by peer and position. A damaged file is None in the list of
    its peer."""

    def __init__(self, folder: Path, code: int, key: Signer) -> None:
        self.folder, self.code, self.key = folder, code, key
        peers = sorted(folder.glob('[0-9][0-9]')) if folder.is_dir() else []
        self.notices: dict[int, list[Notice | None]] = {
            int(peer.name): self.read_notices(peer) for peer in peers}
        self.sent: list[Notice] = []
        """All that were published, in the order of their numbers."""
        self.sort()

    def sort(self) -> None:
        found = (notice for notices in self.notices.values() for notice in notices if notice)
        self.sent = sorted(found, key=lambda notice: notice.number)

    def place(self, peer: int, name: object) -> Path:
        """The path of a file for a peer."""
        return self.folder / f'{peer:02}' / str(name)

    def read_notices(self, folder: Path) -> list[Notice | None]:
        there = {int(file.name) for file in folder.iterdir() if POSITION.fullmatch(file.name)}
        return [self.read_notice(folder / str(position))
                for position in range(1, max(there, default=0) + 1)]

    def read_notice(self, file: Path) -> Notice | None:
        """The notice in a file; None where it is damaged, or not for this folder."""
        try:
            notice = parse_notice(read_text(file) or '')
        except (Refused, Again):
            return None
        ends = notice.sender, notice.addressee
        is_ours = ends == (self.code, int(file.parent.name))
        return notice if is_ours and file.with_name(f'{file.name}.sig').exists() else None

    def of(self, peer: int) -> list[Notice | None]:
        """The notices for a peer, by position."""
        return self.notices.get(peer, [])

    def chain(self, peer: int, highest: int) -> str | None:
        """The chain over the texts for a peer up to a position; None where one isn't there."""
        texts = [notice.text for notice in self.of(peer)[:highest] if notice]
        return chain_of(texts) if len(texts) == highest else None

    def damaged_files(self) -> list[Path]:
        """The files that have to be written anew."""
        return [self.place(peer, position) for peer, notices in self.notices.items()
                for position, notice in enumerate(notices, 1) if notice is None]

    def is_ahead_of(self, registry: Notices) -> int | None:
        """The last number that was published, where our registry does not have that notice."""
        last = self.sent[-1] if self.sent else None
        return last.number if last and registry.notice(last.number) != last.text else None

    def write(self, peer: int, name: object, text: str) -> None:
        """A file for a peer, with its signature: the signature first, since a reader fetches it
        second."""
        write_whole(self.place(peer, f'{name}.sig'), self.key.signature(text))
        write_whole(self.place(peer, name), text)

    def remove(self, peer: int, name: object) -> None:
        """A file for a peer is there no more."""
        for file in (self.place(peer, name), self.place(peer, f'{name}.sig')):
            file.unlink(missing_ok=True)

    def highest(self, peer: int) -> int:
        """How many notices for a peer stand there in order."""
        notices = self.of(peer)
        return notices.index(None) if None in notices else len(notices)

    def publish(self, registry: Notices, anew: bool = False) -> Iterator[str]:
        """Puts each notice that isn't there yet into the folder of its addressee; a line for each.
        From the first one on where a file is damaged."""
        is_whole = not self.damaged_files() and not anew
        counts = {peer: len(notices) if is_whole else 0 for peer, notices in self.notices.items()}
        begin = 1 + (self.sent[-1].number if is_whole and self.sent else 0)
        for number in range(begin, begin + MOST):
            text = registry.notice(number)
            if text is None:
                return
            notice = parse_notice(text)
            counts[notice.addressee] = counts.get(notice.addressee, 0) + 1
            if self.write_notice(notice, counts[notice.addressee]):
                yield f'published notice {number} for registry {notice.addressee}'

    def write_notice(self, notice: Notice, position: int) -> bool:
        """Has a notice stand at its position; whether it did not before."""
        notices = self.notices.setdefault(notice.addressee, [])
        if position > len(notices):
            notices.append(None)
        known = notices[position - 1]
        if known and known.text != notice.text:
            place = self.place(notice.addressee, position)
            raise Again(f'notice {notice.number} is not the one that was published at {place}: is '
                        'the database an older copy?')
        if known:
            return False
        self.write(notice.addressee, position, notice.text)
        notices[position - 1] = notice
        bisect.insort(self.sent, notice, key=lambda notice: notice.number)
        return True

    def set_aside(self, peer: int, is_wanted: Callable[[Notice], bool], aside: Path) -> None:
        """Takes away, from the first on that is not wanted, what was published for a peer."""
        notices = self.of(peer)
        first = next((position for position, notice in enumerate(notices, 1)
                      if notice is None or not is_wanted(notice)), len(notices) + 1)
        for position in range(first, len(notices) + 1):
            for file in (self.place(peer, position), self.place(peer, f'{position}.sig')):
                if file.exists():
                    aside.mkdir(parents=True, exist_ok=True)
                    file.rename(aside / f'{peer:02}-{file.name}')
        del notices[first - 1:]
        self.sort()


def overlap(spans: Iterable[Span], part: Part) -> tuple[list[Span], list[Span]]:
    """What of some spans lies in a part, and what does not."""
    common: list[Span] = []
    rest: list[Span] = []
    for first, last in spans:
        low, high = max(first, part.first), min(last, part.last)
        if low > high:
            rest.append((first, last))
            continue
        common.append((low, high))
        rest += [(a, b) for a, b in ((first, low - 1), (high + 1, last)) if a <= b]
    return common, rest


def doubt_about(notice: Notice, sender: int, code: int, sent: list[Notice]) -> str:
    """Why a notice from a sender is held until the operator releases it; nothing where it is not.
    By our code, and all that we sent, in order.

    What we sent can come back from the registry that we sent it to last. What we never sent can
    come from its own registry.
    """
    for part in notice.parts:
        left = [part.span]
        for ours in reversed(sent):
            for own in ours.parts:
                common, left = overlap(left, own)
                if common and ours.addressee != sender:
                    return (f'certificate {common[0][0]:014} was last sent to registry '
                            f'{ours.addressee}')
            if not left:
                break
        if left and part.origin not in (sender, code):
            return (f'certificate {left[0][0]:014} of registry {part.origin} was never sent to '
                    f'registry {sender} by us')
    return ''
