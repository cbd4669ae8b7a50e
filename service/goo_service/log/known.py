"""Entries that a replica was told of and that are not applied yet."""
from goo_service.log.messages import Text

MOST = 32 << 20
"""Their bytes. Others are read again when their turn comes."""
FAR = 512
"""How far beyond the place an entry may be."""


class Known:
    """Entries by their numbers."""

    def __init__(self) -> None:
        self.texts: dict[int, Text] = {}
        self.size = 0
        self.heard = 0
        """The last entry that the replica was told of."""

    def learn(self, n: int, text: Text, place: int) -> None:
        """An entry that is in the log for certain, where the place is this one."""
        self.heard = max(self.heard, n)
        is_near = place < n <= place + FAR and n not in self.texts
        if is_near and self.size + len(text[0]) <= MOST:
            self.texts[n] = text
            self.size += len(text[0])

    def forget(self, n: int) -> None:
        """An entry that is applied."""
        if text := self.texts.pop(n, None):
            self.size -= len(text[0])

    def run_from(self, n: int, most: int) -> list[Text]:
        """Entries from n on without a gap, so many at most."""
        found: list[Text] = []
        while n in self.texts and len(found) < most:
            found.append(self.texts[n])
            n += 1
        return found
