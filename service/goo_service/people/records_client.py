"""Asks the records of acts, at their socket."""
import json
from collections.abc import Mapping
from dataclasses import dataclass
from typing import Any
from urllib.parse import urlencode

from goo_service.common.client import Answer
from goo_service.common.client import Client
from goo_service.common.client import NONE
from goo_service.common.client import NoAnswer
from goo_service.rules.commands import ISSUER

SOCKET = '/run/goo-records/web.sock'
USER = 'goo-people-post'
PATIENCE, MOST = 60, 32 << 20
Row = dict[str, Any]


class NotNow(Exception):
    """The records give no answer at the moment. The text says why."""


@dataclass(frozen=True)
class Records:
    """The records, as the issuing body or as one holder sees them."""

    socket: str = SOCKET

    def ask(self, name: str, parameters: Mapping[str, object], caller: str = ISSUER) -> Row:
        """The members of the answer of a list."""
        answer = self.answer(name, parameters, caller)
        try:
            read = json.loads(answer.body)
        except (ValueError, RecursionError) as fault:
            raise NotNow(f'{name}: no JSON') from fault
        if answer.status != 200 or not isinstance(read, dict):
            raise NotNow(f'{name}: {answer.status} {answer.text[:200].strip()}')
        return read

    def answer(self, name: str, parameters: Mapping[str, object], caller: str = ISSUER,
               fields: Mapping[str, str] = NONE) -> Answer:
        client = Client(self.socket, PATIENCE, MOST,
                        {'GOO-Caller': caller, 'GOO-Role': 'reads', 'GOO-User': USER})
        try:
            return client.call('GET', f'/records/v1/{name}?{urlencode(parameters)}', b'', fields)
        except NoAnswer as fault:
            raise NotNow(str(fault)) from fault
