"""What the registry of this host, its log and its records answer about themselves."""
import json
import time
from dataclasses import dataclass
from typing import Any

from goo_service.common.client import Answer
from goo_service.common.client import Client
from goo_service.common.client import NoAnswer
from goo_service.setup.common import LARGEST
from goo_service.setup.common import SECONDS
from goo_service.setup.common import Refused

DOOR, DESK = '/run/goo/door.sock', '/run/goo-records/web.sock'
PATIENCE = 180
"""Seconds for the registry to take requests, on a host that is busy."""


@dataclass(frozen=True)
class Health:
    """Why the registry takes no requests (nothing where it does), and the entry that it has applied
    last."""
    why: str
    entry: int | None


def fetch(path: str, route: str) -> Answer | None:
    """The answer at a socket of this host; None where there is none."""
    try:
        return Client(path, SECONDS, LARGEST).get(route)
    except NoAnswer:
        return None


def object_in(text: str) -> dict[str, Any]:
    """The object of a text; an empty one where it has none."""
    try:
        found = json.loads(text)
    except ValueError:
        return {}
    return found if isinstance(found, dict) else {}


def health() -> Health:
    answer = fetch(DOOR, '/healthz')
    if answer is None:
        return Health('it does not answer', None)
    found = object_in(answer.text)
    is_behind = answer.status != 200 and 'entry' in found
    behind = f'{found.get("behind")} entries behind' if is_behind else ''
    return Health(found.get('why') or behind, found.get('entry'))


def book() -> dict[str, Any]:
    """By which entry and date the records of acts stand; nothing where they do not answer."""
    answer = fetch(DESK, '/records/v1/accounts?limit=1')
    stands = object_in(answer.text).get('stands') if answer and answer.status == 200 else None
    return stands if isinstance(stands, dict) else {}


def wait_for_registry() -> None:
    end = time.monotonic() + PATIENCE
    while (why := health().why) and time.monotonic() < end:
        time.sleep(0.5)
    if why:
        raise Refused(f'the registry takes no requests: {why}. goo-setup doctor tells more')
