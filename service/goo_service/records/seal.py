"""The seal of a PDF: a line behind its end, by which anybody sees that no byte was changed.

    %goo-seal 1 NUMBER CODE SIGNATURE

The signature is Ed25519, in base64, over number, code and SHA-256 of all bytes before that line. A
reader of PDF passes over the line. docs/AUDITING.md has the check by openssl alone.
"""
import base64
import hashlib
import re
from dataclasses import dataclass
from pathlib import Path

from cryptography.exceptions import UnsupportedAlgorithm
from cryptography.hazmat.primitives.serialization import Encoding
from cryptography.hazmat.primitives.serialization import PublicFormat
from cryptography.hazmat.primitives.serialization import load_pem_public_key

from goo_service.exchange.signature import Key
from goo_service.exchange.signature import is_signed

MOST_NUMBER = 300
"""Letters of a number: a reader of PDF looks for the end of a file in its last 1,024 bytes."""
LINE = re.compile(rb'\n%goo-seal 1 ([0-9,-]{1,300}) ([A-Z2-7]{4}(?:-[A-Z2-7]{4}){3}) '
                  rb'([A-Za-z0-9+/]{86}==)\n\Z')
LONGEST_LINE = 500
SHA256 = re.compile('[0-9a-f]{64}')


@dataclass(frozen=True)
class Seal:
    """What a sealed PDF says of itself: number and code, the SHA-256 of what is sealed, and the
    signature."""

    number: str
    code: str
    sha256: str
    signature: str

    @property
    def text(self) -> str:
        """What is signed."""
        return f'goo-document\nnumber {self.number}\ncode {self.code}\nsha256 {self.sha256}\n'

    def is_of(self, public: str) -> bool:
        """Whether the owner of this public key has made the seal."""
        return is_signed(self.text, self.signature, public)


def add_seal(pdf: bytes, number: str, code: str, key: Key) -> bytes:
    """A PDF with its seal."""
    body = pdf.rstrip(b'\n')
    digest = hashlib.sha256(body).hexdigest()
    signature = key.signature(Seal(number, code, digest, '').text).strip()
    return body + f'\n%goo-seal 1 {number} {code} {signature}\n'.encode()


def read_seal(pdf: bytes) -> Seal | None:
    """The seal of a PDF; None where it has none."""
    found = LINE.search(pdf[-LONGEST_LINE:])
    if not found:
        return None
    number, code, signature = (of.decode() for of in found.groups())
    body = pdf[:len(pdf) - len(found[0])]
    return Seal(number, code, hashlib.sha256(body).hexdigest(), signature)


def read_public(path: Path) -> str:
    """A public key in the form of the exchange, from a file as `openssl pkey -pubout` writes it.
    ValueError where there is none."""
    try:
        key = load_pem_public_key(path.read_bytes())
    except UnsupportedAlgorithm as fault:
        raise ValueError(f'{path}: {fault}') from fault
    der = key.public_bytes(Encoding.DER, PublicFormat.SubjectPublicKeyInfo)
    return base64.b64encode(der).decode()
