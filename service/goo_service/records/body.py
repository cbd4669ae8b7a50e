"""The issuing body, as its documents name it, and where documents are checked.

`goo-setup` asks for them and writes `/etc/goo/body.conf`; docs/INSTALLING.md has its lines.
"""
import configparser
import re
from dataclasses import dataclass
from pathlib import Path

MOST_NAME, MOST_ADDRESS = 200, 400
"""Letters."""
SITE = re.compile(r'https://[A-Za-z0-9.-]{1,253}(?::[0-9]{1,5})?')
SERVER_NAME = re.compile(r'server_name (\S{1,253});')


@dataclass(frozen=True)
class Body:
    """The name and the address of the issuing body, empty where nobody gave them, and the address
    of its registry, as `https://registry.example`."""

    name: str = ''
    address: str = ''
    site: str = ''

    @property
    def lines(self) -> list[str]:
        return [text for text in (self.name, self.address) if text]

    @property
    def page(self) -> str:
        """The page on which anybody checks a document."""
        return f'{self.site}/verify.html'

    def text(self) -> str:
        """The file, as `goo-setup` writes it."""
        return (f'# The issuing body, as its documents name it (INSTALLING.md)\n[body]\n'
                f'name = {self.name}\naddress = {self.address}\n')


def is_name(text: str) -> bool:
    return len(text) <= MOST_NAME and is_line(text)


def is_address(text: str) -> bool:
    return len(text) <= MOST_ADDRESS and is_line(text)


def is_line(text: str) -> bool:
    """One line of letters that can be seen, or nothing."""
    return text.isprintable() and text == ' '.join(text.split())


def text_of(path: Path) -> str:
    try:
        return path.read_text(encoding='utf-8')[:1 << 16]
    except (OSError, ValueError):
        return ''


def read_body(etc: Path) -> Body:
    """The issuing body by the files below a folder. What can't be read is as if it was not there:
    a document then names the registry alone."""
    parser = configparser.ConfigParser(interpolation=None, empty_lines_in_values=False)
    try:
        parser.read_string(text_of(etc / 'body.conf'))
    except configparser.Error:
        parser.clear()
    given = {name: parser.get('body', name, fallback='') for name in ('name', 'address', 'site')}
    host = SERVER_NAME.search(text_of(etc / 'host.conf'))
    site = given['site'].rstrip('/')
    if not SITE.fullmatch(site):
        site = f'https://{host[1]}' if host else ''
    return Body(given['name'] if is_name(given['name']) else '',
                given['address'] if is_address(given['address']) else '', site)
