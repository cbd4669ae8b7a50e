"""Signatures of notices and states: Ed25519, in base64 with a line end.

A public key is the base64 of its DER on one line, as `openssl pkey -pubout` writes it between the
first and the last line.
"""
import base64
from pathlib import Path

from cryptography.exceptions import InvalidSignature
from cryptography.exceptions import UnsupportedAlgorithm
from cryptography.hazmat.primitives.asymmetric.ed25519 import Ed25519PrivateKey
from cryptography.hazmat.primitives.asymmetric.ed25519 import Ed25519PublicKey
from cryptography.hazmat.primitives.serialization import Encoding
from cryptography.hazmat.primitives.serialization import PublicFormat
from cryptography.hazmat.primitives.serialization import load_der_public_key
from cryptography.hazmat.primitives.serialization import load_pem_private_key


class Key:
    """Our own key, by which all that we publish is signed. ValueError where its file has none."""

    def __init__(self, path: Path) -> None:
        self.private = read_private(path)
        public = self.private.public_key()
        der = public.public_bytes(Encoding.DER, PublicFormat.SubjectPublicKeyInfo)
        self.public = base64.b64encode(der).decode()

    def signature(self, text: str) -> str:
        """The signature of a text, as it stands in the file beside it."""
        return base64.b64encode(self.private.sign(text.encode())).decode() + '\n'


def read_private(path: Path) -> Ed25519PrivateKey:
    """The private key in a file."""
    advice = f'make one: openssl genpkey -algorithm ed25519 -out {path}'
    try:
        key = load_pem_private_key(path.read_bytes(), None)
    except (OSError, ValueError, TypeError, UnsupportedAlgorithm) as fault:
        raise ValueError(f'key {path} cannot be read; {advice}') from fault
    if not isinstance(key, Ed25519PrivateKey):
        raise ValueError(f'key {path} is no Ed25519 key; {advice}')
    return key


def is_signed(text: str, signature: str, public: str) -> bool:
    """Whether the owner of this public key has signed this text."""
    try:
        key = load_der_public_key(base64.b64decode(public, validate=True))
        raw = base64.b64decode(signature.strip(), validate=True)
    except (ValueError, UnsupportedAlgorithm):
        return False
    if not isinstance(key, Ed25519PublicKey):
        return False
    try:
        key.verify(raw, text.encode())
    except InvalidSignature:
        return False
    return True
