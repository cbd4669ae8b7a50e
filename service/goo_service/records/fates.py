"""What became of notices, as the exchange wrote it."""
import json
from pathlib import Path

FateKey = tuple[int, int, int]
"""A notice: 1 where it was sent and 0 where it came, the other registry, its number."""


def fates_in(path: Path) -> dict[FateKey, str]:
    """What became of each notice; nothing where the exchange has not written it yet."""
    try:
        peers = json.loads(path.read_text(encoding='utf-8'))['peers']
    except (OSError, ValueError, KeyError, TypeError):
        return {}
    return {(direction, peer['registry'], of['number']): of['became'] for peer in peers
            for direction, name in ((1, 'sent'), (0, 'received'))
            for of in peer[name] if of['number']}
