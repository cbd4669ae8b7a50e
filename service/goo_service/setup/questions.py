"""What `goo-setup` asks at a terminal, where it was not given as an option."""
import getpass
import pathlib
import sys
from collections.abc import Callable

from goo_service.setup.common import Refused


def read_line(what: str, default: str | None) -> str | None:
    """What is typed, or comes by a pipe. Where nothing comes any more, nobody can be asked."""
    try:
        return input(f'{what}{f" [{default}]" if default else ""}: ').strip() or default
    except EOFError as fault:
        print()
        raise Refused(f'{what}: it was not given, and nobody answers; '
                      'goo-setup --help names the options') from fault


def answer(given: str | None, what: str, is_usable: Callable[[str], object],
           default: str | None = None) -> str:
    """What was given as an option, or is typed until it can be used."""
    while True:
        value = given if given is not None else read_line(what, default)
        if value is not None and is_usable(value):
            return value
        if given is not None or not sys.stdin.isatty():
            raise Refused(f'{what}: {value!r} cannot be used')
        print(f'{value!r} cannot be used')


def answer_or_default(what: str, default: str, is_usable: Callable[[str], object]) -> str:
    """What is typed at a terminal; without one the default."""
    return answer(None, what, is_usable, default) if sys.stdin.isatty() else default


def read_password(file: str | None, name: str) -> str:
    """A password from a file, or typed twice."""
    if file:
        text = pathlib.Path(file).read_text(encoding='utf-8').split('\n', 1)[0]
    elif sys.stdin.isatty():
        text = getpass.getpass(f'password of {name}: ')
        if text != getpass.getpass('the same again: '):
            raise Refused('the two passwords differ')
    else:
        text = sys.stdin.readline().rstrip('\n')
    if len(text) < 8:
        raise Refused('a password has at least 8 characters')
    return text
