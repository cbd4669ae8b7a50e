"""What each of three hosts has of its own: addresses, etcd's configuration, the words of the
replica."""
import ipaddress
import pathlib
import re
import shutil
from dataclasses import dataclass

from goo_service.setup.common import ETC
from goo_service.setup.common import NGINX
from goo_service.setup.common import REPLICA_WORDS
from goo_service.setup.common import SYSTEMD
from goo_service.setup.common import File
from goo_service.setup.common import Refused
from goo_service.setup.common import output_of

NAMES = ('h1', 'h2', 'h3')
THEIRS = {'192.0.2.1': 0, '192.0.2.2': 1, '192.0.2.3': 2, '192.0.2.10': 3}
"""The addresses in the package's files: the three hosts, and the balancer."""
OWN_LINE = re.compile(r'(name|listen-|advertise-|initial-advertise-)')
"""Lines of etcd.yaml that differ from host to host."""
DROP_INS = {'goo-replica.service': 'goo-replica.service.conf',
            'goo-backup.service': 'goo-backup-etcd.conf'}
CERTIFICATE_OPTIONS = {'ca': 'ca.pem', 'cert': 'replica.pem', 'cert-key': 'replica.key'}
"""Of the replica: its words for etcd, and the files below /etc/goo/etcd."""


def is_address(text: str) -> bool:
    """Whether it is an address of another host than only of this one."""
    try:
        return not ipaddress.IPv4Address(text).is_loopback
    except ValueError:
        return False


def three_addresses(text: str) -> list[str]:
    """The three hosts' addresses in a text."""
    found = text.split(',')
    if len(set(found)) != len(NAMES) or len(found) != len(NAMES) or not all(map(is_address, found)):
        raise Refused(f'--hosts {text}: it takes three different addresses of IPv4, this host '
                      'first, with commas between')
    return found


def addresses_of(text: str) -> list[str]:
    """The three hosts' addresses, this one first."""
    found = three_addresses(text)
    if f' {found[0]}/' not in output_of('ip', '-4', '-oneline', 'address'):
        raise Refused(f'--hosts {text}: {found[0]} is no address of this host; the first address '
                      'is that of the host where this is given')
    return found


def are_hosts(text: str) -> bool:
    """Whether what was typed is empty, or names three hosts."""
    try:
        return not text or bool(addresses_of(text))
    except Refused as fault:
        print(fault)
        return False


def need_etcd() -> None:
    programs = {'etcd': 'etcd-server', 'nft': 'nftables'}
    lacking = [package for program, package in programs.items() if not shutil.which(program)]
    if lacking:
        raise Refused(f'three hosts need {" and ".join(lacking)}: '
                      f'apt-get install {" ".join(lacking)}')


@dataclass(frozen=True)
class Hosts:
    """Three hosts of one registry, by their addresses, and the balancer before them."""
    addresses: tuple[str, ...]
    code: int
    balancer: str | None = None

    def with_addresses(self, text: str) -> str:
        """A text of the package with these hosts' addresses in place of the package's."""
        ours = (*self.addresses, *([self.balancer] if self.balancer else []))
        return re.sub(r'192\.0\.2\.(?:10|[123])\b', lambda found: ours[THEIRS[found[0]]], text)

    def etcd_conf(self, at: int, shipped: str) -> str:
        """etcd.yaml of one host. Its first line speaks of the package's addresses."""
        own = {'name: h1': f'name: {NAMES[at]}', '192.0.2.1:': f'192.0.2.{at + 1}:'}
        form = re.compile('|'.join(map(re.escape, own)))
        lines = [form.sub(lambda found: own[found[0]], line) if OWN_LINE.match(line) else line
                 for line in shipped.splitlines()[1:]]
        text = '\n'.join([*lines, ''])
        token = 'initial-cluster-token: goo-'
        return self.with_addresses(text.replace(f'{token}07', f'{token}{self.code:02}'))

    def replica_words(self, at: int) -> File:
        """The replica's words. This host's own member of etcd is the first to be asked."""
        turned = (*self.addresses[at:], *self.addresses[:at])
        urls = ','.join(f'https://{one}:2379' for one in turned)
        files = ' '.join(f'--{option} {ETC}/etcd/{name}'
                         for option, name in CERTIFICATE_OPTIONS.items())
        words = f'REPLICA_WORDS=--name {NAMES[at]} --code {self.code} --etcd {urls} {files}\n'
        return File(REPLICA_WORDS, words)

    def files(self, at: int, share: pathlib.Path, goods: pathlib.Path) -> list[File]:
        """What a host has of its own, by the package's files and by what was made for it."""
        name, etcd = NAMES[at], ETC / 'etcd'

        def shipped(path: str) -> str:
            return (share / path).read_text(encoding='utf-8')

        def made(path: str) -> str:
            return (goods / path).read_text(encoding='ascii')

        found = [File(etcd / 'etcd.yaml', self.etcd_conf(at, shipped('etcd/etcd.yaml'))),
                 File(etcd / 'ports.nft', self.with_addresses(shipped('etcd/ports.nft'))),
                 File(etcd / 'ca.pem', made('ca.pem'))]
        for kind, owner in (('member', 'goo-etcd'), ('replica', 'goo-replica')):
            for end, mode in (('pem', 0o444), ('key', 0o400)):
                text = made(f'{kind}-{name}.{end}')
                found.append(File(etcd / f'{kind}.{end}', text, mode, owner))
        sources = {SYSTEMD / f'{unit}.d/etcd.conf': f'drop-ins/{source}'
                   for unit, source in DROP_INS.items()}
        if self.balancer:
            sources |= {NGINX / 'sites-enabled/goo-health.conf': 'nginx/health.conf',
                        ETC / 'balancer.conf': 'nginx/balancer.conf'}
        return [*found, *(File(path, self.with_addresses(shipped(source)))
                          for path, source in sources.items())]
