"""The certificates that a host needs, and for how long they hold."""
import configparser
import datetime
import pathlib
import re
import subprocess
from collections.abc import Iterator
from dataclasses import dataclass

from goo_service.setup.common import output_of
from goo_service.setup.common import text_of
from goo_service.setup.common import words_of_log

BLOCK = re.compile('-----BEGIN CERTIFICATE-----.*?-----END CERTIFICATE-----', re.DOTALL)
ENDS = '%b %d %H:%M:%S %Y %Z'


@dataclass(frozen=True)
class Held:
    """A file of certificates, and what to do before the first of them ends."""
    path: pathlib.Path
    remedy: str


def peers_conf(etc: pathlib.Path) -> configparser.ConfigParser:
    conf = configparser.ConfigParser(interpolation=None)
    conf.read(etc / 'exchange.conf', encoding='utf-8')
    return conf


def list_certificates(etc: pathlib.Path) -> Iterator[Held]:
    """The files of certificates that this host needs."""
    yield Held(etc / 'tls/cert.pem',
               f'put a new one into {etc}/tls; nginx -t && systemctl reload nginx')
    for name in ('ca', 'member', 'replica') if words_of_log() else ():
        yield Held(etc / f'etcd/{name}.pem',
                   'etcd takes no requests, and nothing is written, once it has ended: '
                   'THREE-HOSTS.md, "Certificates of etcd"')
    conf = peers_conf(etc)
    for section in conf.sections():
        for option in ('authority', 'certificate'):
            if section.startswith('peer ') and conf.has_option(section, option):
                peer = section.removeprefix('peer ')
                yield Held(pathlib.Path(conf.get(section, option)),
                           f'a new one, by the operator of registry {peer}')


def utc_now() -> datetime.datetime:
    return datetime.datetime.now(datetime.timezone.utc).replace(tzinfo=None)


def end_of(block: str) -> datetime.datetime | None:
    """When a certificate ends; None where it cannot be read."""
    words = ['openssl', 'x509', '-noout', '-enddate']
    done = subprocess.run(words, input=block, capture_output=True, text=True, check=False)
    text = done.stdout.strip().removeprefix('notAfter=')
    return datetime.datetime.strptime(text, ENDS) if text else None


def days_left(path: pathlib.Path) -> int | None:
    """For how many days the certificates of a file hold, by the first one that ends; None where one
    cannot be read."""
    try:
        blocks = BLOCK.findall(path.read_text(encoding='ascii', errors='replace'))
    except OSError:
        return None
    ends = [end for block in blocks if (end := end_of(block))]
    if not ends or len(ends) < len(blocks):
        return None
    return min((end - utc_now()).days for end in ends)


def name_of_host(etc: pathlib.Path) -> str | None:
    """The name to which the front door answers."""
    found = re.search(r'server_name (\S+);', text_of(etc / 'host.conf'))
    return found[1] if found else None


def is_for(chain: pathlib.Path, name: str) -> bool:
    words = ('openssl', 'x509', '-in', chain, '-noout', '-checkhost', name)
    return 'does NOT match' not in output_of(*words)
