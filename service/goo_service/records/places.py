"""Where the records find what they answer from, as the unit says."""
import os
import sys
from dataclasses import dataclass
from pathlib import Path

FOLDER = Path('/var/lib/goo-records')
EXCHANGE = FOLDER / 'exchange.json'
ETC = Path('/etc/goo')
ATTACHMENTS = Path('/var/lib/goo-attachments')
DIRECTORY = {'shown': True, 'hidden': False}
"""What GOO_RECORDS_DIRECTORY says: whether holders see whose accounts there are."""


@dataclass(frozen=True)
class Places:
    """The folder with the book and a key of check codes; the file in which the exchange writes what
    became of notices; the folder with what the issuing body says of itself; and that of documents
    that were brought over."""

    folder: Path
    exchange: Path
    etc: Path
    attachments: Path

    @staticmethod
    def of_unit(folder: Path | None, exchange: Path | None, etc: Path | None,
                attachments: Path | None) -> 'Places':
        """Those that are given, and else those of the unit."""
        return Places(folder or Path(os.environ.get('GOO_RECORDS', FOLDER)),
                      exchange or Path(os.environ.get('GOO_EXCHANGE', EXCHANGE)),
                      etc or Path(os.environ.get('GOO_ETC', ETC)),
                      attachments or Path(os.environ.get('GOO_ATTACHMENTS', ATTACHMENTS)))


def shows_directory() -> bool:
    """Whether holders see whose accounts there are, by what the unit says; they do unless it says
    otherwise."""
    word = os.environ.get('GOO_RECORDS_DIRECTORY', 'shown')
    if word not in DIRECTORY:
        sys.exit(f'records.conf: GOO_RECORDS_DIRECTORY is {word!r}, and not one of '
                 f'{", ".join(DIRECTORY)}')
    return DIRECTORY[word]
