"""The keys of the records: those of check codes, and the pair that seals documents."""
from pathlib import Path

from goo_service.exchange.signature import Key
from goo_service.records.pdf import NotInstalled
from goo_service.records.seal import read_public

KEY = 64
"""Bytes of the key of check codes."""


def read_key(path: Path) -> bytes:
    """A key of check codes."""
    key = path.read_bytes().strip()
    if len(key) < KEY:
        raise OSError(f'{path} has {len(key)} bytes, and a key of check codes has {KEY}')
    return key


def keys_of_codes(etc: Path, folder: Path) -> tuple[bytes, ...]:
    """That of /etc/goo, which all hosts of a registry have, and that of the book's folder, by which
    a registry without the first one makes codes."""
    paths = [path for path in (etc / 'code.key', folder / 'code.key') if path.exists()]
    if not paths:
        raise OSError(f'{folder}/code.key is not there')
    return tuple(map(read_key, paths))


def key_of_seals(etc: Path) -> Key:
    """The key that seals documents."""
    path = etc / 'documents.key'
    if not path.exists():
        raise NotInstalled('this host makes no PDF: it has no key that seals documents, which '
                           'goo-setup makes')
    try:
        return Key(path)
    except ValueError as fault:
        raise OSError(str(fault)) from fault


def public_in(path: Path) -> str:
    """The public key of seals."""
    try:
        return read_public(path)
    except ValueError as fault:
        raise OSError(f'{path} has no public key') from fault
