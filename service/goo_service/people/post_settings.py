"""The settings of `goo-people-post`, /etc/goo/people-post.conf. Without the file, or without a
line of it, the usual holds: the mailer of this host, at port 25.
"""
import configparser
import ipaddress
import socket
from collections.abc import Mapping
from dataclasses import dataclass
from pathlib import Path

from goo_service.people.hook_address import Network
from goo_service.people.hook_sender import Ways
from goo_service.people.mail_address import is_address
from goo_service.people.records_client import SOCKET
from goo_service.records.body import read_body

FILE = Path('/etc/goo/people-post.conf')
SECURITY = ('none', 'starttls', 'tls')
KNOWN = {'mail': ('host', 'port', 'security', 'authority', 'user', 'password_file', 'from'),
         'hooks': ('networks', 'authority', 'plain'), 'records': ('socket',)}


class Fault(Exception):
    """Settings that cannot be used. The text names the file and the line."""


@dataclass(frozen=True)
class Mailer:
    """Where mails are handed over, and as whom. Without a host none are."""

    host: str = 'localhost'
    port: int = 25
    security: str = 'none'
    authority: str = ''
    user: str = ''
    password: str = ''
    sender: str = 'goo@localhost.localdomain'
    patience: float = 30.0


@dataclass(frozen=True)
class Settings:
    """All of a file, and how the registry names itself."""

    mailer: Mailer
    ways: Ways
    records: str
    body: str = ''
    site: str = ''


def read_settings(path: Path = FILE) -> Settings:
    """What a file says, with the name of the registry from `body.conf` beside it."""
    config = configparser.ConfigParser(interpolation=None)
    try:
        if path.exists():
            config.read_string(path.read_text(encoding='utf-8'), str(path))
        check_names(config)
        mailer, ways = mailer_of(config), ways_of(config)
        own = read_body(path.parent)
    except (OSError, ValueError, configparser.Error) as fault:
        raise Fault(f'{path}: {fault}') from fault
    socket_path = config.get('records', 'socket', fallback=SOCKET)
    return Settings(mailer, ways, socket_path, own.name, own.site)


def check_names(config: configparser.ConfigParser) -> None:
    """A misspelt line would be passed over, and the usual would hold in its place."""
    for section in config.sections():
        if section not in KNOWN:
            raise ValueError(f'[{section}] is none of {", ".join(KNOWN)}')
        for name in config[section]:
            if name not in KNOWN[section]:
                raise ValueError(f'[{section}] has {name}, and takes {", ".join(KNOWN[section])}')


def section_of(config: configparser.ConfigParser, name: str) -> Mapping[str, str]:
    return dict(config[name]) if config.has_section(name) else {}


def mailer_of(config: configparser.ConfigParser) -> Mailer:
    usual = Mailer()
    given = section_of(config, 'mail')
    host = given.get('host', usual.host)
    security = given.get('security', usual.security)
    if security not in SECURITY:
        raise ValueError(f'security is {security!r}, and not one of {", ".join(SECURITY)}')
    file, user = given.get('password_file', ''), given.get('user', '')
    if user and security == 'none':
        raise ValueError('a password goes to the mailer over starttls or tls alone')
    sender = given.get('from') or usual_sender()
    if not is_address(sender):
        raise ValueError(f'from is {sender!r}, and no mail address')
    return Mailer('' if host == 'none' else host, int(given.get('port', usual.port)), security,
                  given.get('authority', ''), user,
                  Path(file).read_text(encoding='utf-8').strip() if file else '', sender)


def usual_sender() -> str:
    """By the name of this host, where that is one of mail."""
    own = f'goo@{socket.getfqdn()}'
    return own if is_address(own) else Mailer.sender


def ways_of(config: configparser.ConfigParser) -> Ways:
    given = section_of(config, 'hooks')
    networks: list[Network] = [ipaddress.ip_network(word)
                               for word in given.get('networks', '').replace(',', ' ').split()]
    plain = given.get('plain', 'no')
    if plain not in ('yes', 'no'):
        raise ValueError(f'plain is {plain!r}, and neither yes nor no')
    return Ways(networks, given.get('authority', ''), plain == 'yes')
