"""The settings of the records of acts, /etc/goo/records.conf: lines of NAME=VALUE that the units
read. Whoever writes one of them keeps the others."""
import re

BEGIN, DIRECTORY = 'GOO_RECORDS_BEGIN', 'GOO_RECORDS_DIRECTORY'
SHOWN, HIDDEN = 'shown', 'hidden'
NOTES = {BEGIN: 'How the book of acts begins (RECORDS.md)',
         DIRECTORY: 'Whether holders see whose accounts there are (RECORDS.md): shown, or hidden'}
"""What stands above each setting."""


def value_of(text: str, name: str) -> str | None:
    """What a file says; None where it does not say it."""
    found = re.search(rf'(?m)^{name}=(.*)$', text)
    return found[1].strip() if found else None


def with_setting(text: str, name: str, value: str) -> str:
    """The text of a file that says this last, and all else as before."""
    note = f'# {NOTES[name]}'
    kept = [line for line in text.splitlines()
            if line != note and not line.startswith(f'{name}=')]
    return '\n'.join([*kept, note, f'{name}={value}', ''])
