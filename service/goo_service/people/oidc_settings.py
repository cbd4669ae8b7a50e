"""Which provider of OpenID Connect the users of the body sign in by, /etc/goo/people-oidc.conf.
Without the file nobody does."""
import configparser
from dataclasses import dataclass
from pathlib import Path

from goo_service.people.hook_address import BadAddress
from goo_service.people.hook_address import parse_address
from goo_service.records.body import read_body

FILE = Path('/etc/goo/people-oidc.conf')
KNOWN = ('issuer', 'client', 'secret_file', 'claim', 'callers', 'authority', 'site', 'prompt',
         'acr', 'plain')
CLAIMS = ('preferred_username', 'email', 'sub', 'upn')
"""Claims that may be the name of a user."""


class Fault(Exception):
    """Settings that cannot be used. The text names the file."""


@dataclass(frozen=True)
class Settings:
    """A provider, and who signs in by it."""

    issuer: str
    client: str
    secret: str
    site: str
    claim: str = 'preferred_username'
    callers: tuple[str, ...] = ('ISSUER',)
    """Whose users sign in so; `*` for all."""
    authority: str = ''
    prompt: str = 'login'
    """What the provider is asked for: it asks for the password again unless this is none."""
    acr: tuple[str, ...] = ()
    """Ways of authentication of which the provider has to have used one, where some are named."""
    is_plain_allowed: bool = False

    def may(self, caller: str) -> bool:
        return '*' in self.callers or caller in self.callers


def read_settings(path: Path = FILE) -> Settings | None:
    """What a file says; None where there is none."""
    if not path.exists():
        return None
    config = configparser.ConfigParser(interpolation=None)
    try:
        config.read_string(path.read_text(encoding='utf-8'), str(path))
        given = dict(config['provider'])
        if unknown := [name for name in given if name not in KNOWN]:
            raise ValueError(f'[provider] has {unknown[0]}, and takes {", ".join(KNOWN)}')
        return settings_of(given, path)
    except (OSError, ValueError, KeyError, BadAddress, configparser.Error) as fault:
        raise Fault(f'{path}: {fault}') from fault


def settings_of(given: dict[str, str], path: Path) -> Settings:
    plain, claim = given.get('plain', 'no'), given.get('claim', Settings.claim)
    if plain not in ('yes', 'no'):
        raise ValueError(f'plain is {plain!r}, and neither yes nor no')
    if claim not in CLAIMS:
        raise ValueError(f'claim is {claim!r}, and not one of {", ".join(CLAIMS)}')
    issuer = given['issuer'].rstrip('/')
    parse_address(issuer, plain == 'yes')
    secret = Path(given['secret_file']).read_text(encoding='utf-8').strip()
    site = given.get('site') or read_body(path.parent).site
    if not secret or not site:
        raise ValueError('the secret is empty' if not secret else 'site is not given')
    return Settings(issuer, given['client'], secret, site.rstrip('/'), claim,
                    tuple(given.get('callers', 'ISSUER').split()), given.get('authority', ''),
                    given.get('prompt', Settings.prompt), tuple(given.get('acr', '').split()),
                    plain == 'yes')
