"""Mail addresses, by one strict form: what a mailer, a header and a reader take as the same.

The form is narrower than that of RFC 5321: no quoted part, no comment, no letter beyond ASCII, a
domain of two labels and more. So no address has a line end, a blank or a second address in it.
"""
import re

LONGEST, LONGEST_LOCAL = 254, 64
LETTERS = r"[A-Za-z0-9!#$%&'*+/=?^_`{|}~-]+"
LABEL = '[A-Za-z0-9](?:[A-Za-z0-9-]{0,61}[A-Za-z0-9])?'
FORM = re.compile(rf'(?P<local>{LETTERS}(?:\.{LETTERS})*)@{LABEL}(?:\.{LABEL})+')


def is_address(text: str) -> bool:
    """Whether mail may be sent there."""
    found = FORM.fullmatch(text) if len(text) <= LONGEST else None
    return bool(found and len(found['local']) <= LONGEST_LOCAL and text[0] != '-')
