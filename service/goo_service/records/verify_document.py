"""`goo-records verify-document`: whether PDFs are as the registry sealed them."""
import argparse
import sys
from pathlib import Path

from goo_service.records.pdf import LARGEST
from goo_service.records.seal import read_public
from goo_service.records.seal import read_seal

PUBLIC = '/etc/goo/documents.pub'


def verdict(path: Path, public: str) -> tuple[bool, str]:
    """Whether a file has the registry's seal, and what is told of it."""
    with path.open('rb') as file:
        data = file.read(LARGEST + 1)
    seal = read_seal(data) if len(data) <= LARGEST else None
    if seal is None:
        return False, f'{path}: no sealed PDF'
    if not seal.is_of(public):
        return False, f'{path}: not sealed by this key, or changed since'
    return True, f'{path}: as it was sealed, document {seal.number}, check code {seal.code}'


def verify_documents(given: argparse.Namespace) -> int:
    """The exit status: 0 where each file is as it was sealed, 1 where one is not."""
    public = read_public(Path(given.public_key))
    verdicts = [verdict(Path(name), public) for name in given.file]
    for is_good, text in verdicts:
        print(text, file=sys.stdout if is_good else sys.stderr)
    return 0 if all(is_good for is_good, _ in verdicts) else 1
