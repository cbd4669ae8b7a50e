"""What a call of `goo-setup` is given, as values."""
import argparse
import datetime
import pathlib
import re
from dataclasses import dataclass

from goo_service.records import settings
from goo_service.setup import three
from goo_service.setup.common import CLOSED
from goo_service.setup.common import Refused

NAME = re.compile(r'(?=.{1,253}$)([A-Za-z0-9]([A-Za-z0-9-]{0,61}[A-Za-z0-9])?)'
                  r'(\.[A-Za-z0-9]([A-Za-z0-9-]{0,61}[A-Za-z0-9])?)*')
USER = re.compile(r'[A-Za-z0-9._@-]{1,64}')


def is_file(text: str) -> bool:
    return not text or pathlib.Path(text).is_file()


def is_name(text: str) -> bool:
    return NAME.fullmatch(text) is not None


def is_user(text: str) -> bool:
    return USER.fullmatch(text) is not None


def is_code(text: str) -> bool:
    return text.isascii() and text.isdigit() and 1 <= int(text) <= 99


def is_directory(text: str) -> bool:
    return text in (settings.SHOWN, settings.HIDDEN)


def is_day(text: str) -> bool:
    try:
        return datetime.date.fromisoformat(text).isoformat() == text
    except ValueError:
        return False


@dataclass(frozen=True)
class Beginning:
    """How a registry is to be begun; None is asked for, or has a default."""
    code: str | None = None
    name: str | None = None
    date: str | None = None
    next_serial: str | None = None
    body_name: str | None = None
    body_address: str | None = None
    certificate: str | None = None
    key: str | None = None
    user: str | None = None
    password_file: str | None = None
    balancer: str | None = None
    self_signed: bool = False
    alone: bool = False
    hosts: str | None = None
    join: str | None = None
    directory: str | None = None

    @classmethod
    def of(cls, given: argparse.Namespace) -> 'Beginning':
        return cls(**{name: getattr(given, name) for name in cls.__dataclass_fields__})

    def verify(self, is_root: bool) -> None:
        """Raises Refused for what can't be begun, before anything is changed."""
        if not is_root:
            raise Refused('it has to be run as root')
        if CLOSED.exists():
            raise Refused('the front door was closed by restore, and has to be opened by it '
                          f'({CLOSED})')
        if bool(self.certificate) != bool(self.key):
            raise Refused('--certificate and --key belong together')
        if self.date and not is_day(self.date):
            raise Refused(f'--date {self.date}: a day is written as 2026-03-01')
        if self.directory and not is_directory(self.directory):
            raise Refused(f'--directory {self.directory}: it is shown or hidden')
        if self.balancer and not (self.hosts and three.is_address(self.balancer)):
            raise Refused(f'--balancer {self.balancer}: it is an address of IPv4, and belongs to '
                          '--hosts')
        if self.hosts:
            three.addresses_of(self.hosts)
            three.need_etcd()


@dataclass(frozen=True)
class UserWork:
    """What is to be done with a user."""
    do: str
    name: str
    caller: str = ''
    role: tuple[str, ...] = ()
    password_file: str | None = None


@dataclass(frozen=True)
class PeerWork:
    """What is to be done with another registry."""
    do: str
    code: str
    url: str = ''
    user: str = ''
    public_key: str = ''
    password_file: str | None = None


@dataclass(frozen=True)
class PeopleWork:
    """Whether goo-people signs users in, and whom it begins with."""
    do: str
    officer: str | None = None
    language: str = 'en'
    programs_until: str | None = None


def people_work(given: argparse.Namespace) -> PeopleWork:
    return PeopleWork(given.do, getattr(given, 'officer', None), getattr(given, 'language', 'en'),
                      getattr(given, 'programs_until', None))


def user_work(given: argparse.Namespace) -> UserWork:
    return UserWork(given.do, given.name, getattr(given, 'caller', ''),
                    tuple(getattr(given, 'role', ())), given.password_file)


def peer_work(given: argparse.Namespace) -> PeerWork:
    return PeerWork(given.do, given.code, getattr(given, 'url', ''), getattr(given, 'user', ''),
                    getattr(given, 'public_key', ''), given.password_file)
