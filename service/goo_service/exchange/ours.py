"""Our side of the exchange."""
from dataclasses import dataclass
from pathlib import Path

from goo_service.exchange.accounts import Directory
from goo_service.exchange.outbox import Outbox
from goo_service.exchange.registry import Registry
from goo_service.exchange.signature import Key


@dataclass
class Ours:
    """Our registry with its key and what it published, and which generation it is of."""

    folder: Path
    registry: Registry
    key: Key
    outbox: Outbox
    generation: int = 0
    restoring: bool = False
    directory: Directory | None = None
    """Our accounts, where our issuing body publishes them."""

    @property
    def code(self) -> int:
        return self.registry.code
