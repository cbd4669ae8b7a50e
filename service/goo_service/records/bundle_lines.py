"""The lines of an applied bundle, for the book of acts: which of them one act tells of together.

Lines that nobody could read, and those that were set aside, are told together, as the rows of a
table are (table_rows.py). So are the refused lines of a bundle after the first OWN_ACTS.
"""
from dataclasses import dataclass
from dataclasses import field
from typing import Any

from goo_service.records.table_rows import OWN_ACTS
from goo_service.records.table_rows import Same


@dataclass
class Together:
    """The lines of a bundle that have no act of their own."""

    kinds: dict[tuple[str, str, str | None], Same] = field(default_factory=dict)
    """By the kind of act, the outcome and the refusal."""
    refused: int = 0

    def add(self, number: int, kind: str, answer: dict[str, Any]) -> bool:
        """Whether a line is told with others, among which it is counted then."""
        outcome = str(answer['outcome'])
        self.refused += outcome == 'refused'
        is_own = (outcome in ('accepted', 'repeated')
                  or outcome == 'refused' and self.refused <= OWN_ACTS)
        if not is_own:
            named = answer.get('name') or answer.get('fault')
            same = kind, outcome, named
            self.kinds.setdefault(same, Same(outcome, named)).add(number)
        return not is_own
