"""What routes of goo-people answer, and what they read: JSON, each value bounded."""
import json
import unicodedata
from collections.abc import Sequence
from typing import Any

from flask import Response
from flask import request

from goo_service.people.mail_address import is_address

MOST = 64 << 10
"""Bytes of a body."""
HEADERS = {'Cache-Control': 'no-store', 'X-Content-Type-Options': 'nosniff'}


class Refused(Exception):
    """A request that is answered by a status and one sentence, which names the object."""

    def __init__(self, status: int, error: str, wait: int = 0) -> None:
        super().__init__(error)
        self.status, self.error, self.wait = status, error, wait


def reply(value: object, status: int = 200, *, cookies: Sequence[str] = (),
          wait: int = 0) -> Response:
    """An answer in JSON, with fields Set-Cookie and Retry-After where they are given."""
    text = json.dumps(value, ensure_ascii=False, separators=(',', ':'))
    answer = Response(f'{text}\n', status, HEADERS, content_type='application/json')
    for cookie in cookies:
        answer.headers.add('Set-Cookie', cookie)
    if wait:
        answer.headers['Retry-After'] = str(wait)
    return answer


def refusal(of: Refused) -> Response:
    return reply({'error': of.error}, of.status, wait=of.wait)


class Given:
    """The members of a body. Each is read once, with its bounds; a wrong one is refused by name."""

    def __init__(self, members: dict[str, Any]) -> None:
        self.members = members

    @staticmethod
    def of_request() -> 'Given':
        """The JSON object that a request has as its body. An empty body is an empty object."""
        text = b'' if (request.content_length or 0) > MOST else request.stream.read(MOST + 1)
        if len(text) > MOST or (request.content_length or 0) > MOST:
            raise Refused(413, f'a body has {MOST} bytes at most')
        if not text:
            return Given({})
        if request.mimetype != 'application/json':
            raise Refused(400, 'a body is JSON: Content-Type is application/json')
        try:
            members = json.loads(text)
        except (ValueError, RecursionError) as fault:
            raise Refused(400, 'the body is no JSON') from fault
        if not isinstance(members, dict):
            raise Refused(400, 'the body is no JSON object')
        return Given(members)

    def text(self, name: str, most: int, least: int = 1) -> str:
        """A text of one line without control characters."""
        value = self.members.get(name)
        if not isinstance(value, str) or not least <= len(value) <= most:
            raise Refused(400, f'{name}: a text of {least} to {most} characters')
        if any(unicodedata.category(letter) in ('Cc', 'Cs') for letter in value):
            raise Refused(400, f'{name}: no control characters')
        return value

    def maybe_text(self, name: str, most: int) -> str | None:
        """A text, or None where the member is left out, null or empty."""
        return None if self.members.get(name) in (None, '') else self.text(name, most)

    def number(self, name: str, least: int, most: int) -> int:
        value = self.members.get(name)
        if not isinstance(value, int) or isinstance(value, bool) or not least <= value <= most:
            raise Refused(400, f'{name}: a whole number of {least} to {most}')
        return value

    def maybe_number(self, name: str, least: int, most: int) -> int | None:
        return None if self.members.get(name) is None else self.number(name, least, most)

    def flag(self, name: str) -> bool:
        """True or false; a member that is left out is false."""
        value = self.members.get(name, False)
        if not isinstance(value, bool):
            raise Refused(400, f'{name}: true or false')
        return value

    def list_of(self, name: str, most: int) -> list[Any]:
        value = self.members.get(name, [])
        if not isinstance(value, list) or len(value) > most:
            raise Refused(400, f'{name}: a list of {most} at most')
        return value

    def mail(self, name: str) -> str:
        """An address of mail."""
        value = self.text(name, 200)
        if not is_address(value):
            raise Refused(400, f'{name}: no address of mail')
        return value
