"""Sends a webhook: one POST with its signature, and the status of the answer.

    GOO-Delivery   the delivery, the same at each try
    GOO-Timestamp  seconds since 1970, of this try
    GOO-Signature  v1= and HMAC-SHA-256, in hexadecimal, of timestamp, a full stop and the body

All of a try, from the connection to the head of the answer, has one end in time. No redirect is
followed, and of the answer the head alone is read.
"""
import hashlib
import hmac
import http.client
import time
from collections.abc import Sequence
from dataclasses import dataclass

from goo_service.people.hook_address import BadAddress
from goo_service.people.hook_address import Network
from goo_service.people.hook_address import judged
from goo_service.people.hook_address import parse_address
from goo_service.people.hooks import Delivery
from goo_service.people.outgoing import Sent
from goo_service.people.outgoing import answered
from goo_service.people.outgoing import connected

PATIENCE = 10.0
"""Seconds of a try."""
ALONE = (400, 404, 409, 413, 415, 422)
"""Statuses that are about one delivery, and not about the program that answers."""


class NotTaken(Exception):
    """A delivery was not taken. `is_alone` where others may be."""

    def __init__(self, text: str, is_alone: bool = False) -> None:
        super().__init__(text)
        self.is_alone = is_alone


@dataclass(frozen=True)
class Ways:
    """Where deliveries may go, and by which authorities a receiver is known."""

    networks: Sequence[Network] = ()
    authority: str = ''
    is_plain_allowed: bool = False
    patience: float = PATIENCE


def signature(secret: bytes, timestamp: int, body: bytes) -> str:
    digest = hmac.digest(secret, f'{timestamp}.'.encode() + body, hashlib.sha256)
    return f'v1={digest.hex()}'


def send(of: Delivery, ways: Ways, timestamp: int) -> None:
    """Sends a delivery. NotTaken where the receiver did not answer that it has it."""
    try:
        address = parse_address(of.url, ways.is_plain_allowed)
        numbers = [str(number) for number in judged(address, ways.networks)]
    except BadAddress as fault:
        raise NotTaken(str(fault)) from fault
    until = time.monotonic() + ways.patience
    sent = Sent('POST', of.body, {
        'Content-Type': 'application/json', 'GOO-Delivery': of.identity,
        'GOO-Timestamp': str(timestamp),
        'GOO-Signature': signature(of.secret, timestamp, of.body)})
    try:
        status, _ = answered(connected(address, numbers, ways.authority, until), address, sent)
    except (OSError, ValueError, http.client.HTTPException) as fault:
        raise NotTaken(f'{address.host}: {str(fault) or type(fault).__name__}') from fault
    if not 200 <= status < 300:
        raise NotTaken(f'{address.host} answered {status}', status in ALONE)
