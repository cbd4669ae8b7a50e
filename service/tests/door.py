"""The front door of a house: the files of nginx, by service/etc/nginx with its paths and ports
changed, and who may come in.
"""
import functools
import os
import re
import shutil
import ssl
import subprocess
from collections.abc import Iterable
from dataclasses import dataclass
from pathlib import Path

from client import free_port
from service_commands import command

TOP = Path(__file__).resolve().parents[2]
SERVICE = Path(os.environ.get('GOO_SERVICE', TOP / 'service'))
"""What is tried: another folder than service/ is one with a fault planted in it."""
WEB = os.environ.get('GOO_WEB', str(TOP / 'web'))
CALLERS = ('office ISSUER', 'anna SUN', 'bela VOLT',
           'registry07 peer 07', 'registry08 peer 08', 'registry09 peer 09')
"""The list of each house: who speaks for whom, and who fetches notices for which registry."""
CONNECTIONS = 16384
"""nginx's, as goo-setup sets them."""
CURVE = ('ec', '-pkeyopt', 'ec_paramgen_curve:prime256v1')
TEMPORARY = ('client_body', 'proxy', 'fastcgi', 'uwsgi', 'scgi')
make = functools.partial(subprocess.run, check=True, capture_output=True)


@dataclass
class Door:
    """How nginx is set up, and where its files are once they are laid."""

    service: Path = SERVICE
    rate: int | None = None
    """Takes the place of each rate in goo.conf, in requests a second."""
    changes: Iterable[tuple[str, str]] = ()
    """Pieces of goo.conf, and what takes their place."""
    more: Iterable[str] = ()
    """Lines for the list of callers."""
    without: str = ''
    """A setting that is turned off, to see that it is missed."""
    people: bool = False
    """Whether goo-people answers who is there, and not nginx by the file of passwords."""
    certificates: bool = False
    """Whether users sign in by certificates."""
    key: tuple[str, ...] = CURVE
    """The kind of the front door's own key."""
    cost: int = 4
    """Of a password's hash: with the least, 4, looking at it takes no time."""
    workers: int = 1
    balancer: str = ''
    """The address of one in front, which has a port for itself and asks at another one."""

    folder: Path = Path()
    """Of the house."""

    @property
    def etc(self) -> Path:
        return self.folder / 'etc'

    @property
    def exchange(self) -> Path:
        return self.folder / 'exchange'

    @property
    def users(self) -> dict[str, str]:
        """Who has a password, and which."""
        lines = (*CALLERS, *self.more, 'nemo')
        return {user: f'pw-{user}' for user in (line.split()[0] for line in lines)}

    def lay(self) -> None:
        """The files that nginx reads."""
        self.port, self.plain, self.behind, self.health = (free_port() for _ in range(4))
        self.exchange.mkdir()
        (self.etc / 'tls').mkdir(parents=True)
        self.certify(self.key, '/CN=localhost', self.etc / 'tls/key.pem', self.etc / 'tls/cert.pem',
                     '-addext', 'subjectAltName=DNS:localhost,IP:127.0.0.1')
        (self.etc / 'users').touch()
        for user, password in self.users.items():
            make(['htpasswd', '-bB', '-C', str(self.cost), self.etc / 'users', user, password])
        shutil.copy(self.service / 'etc/nginx/decoy', self.etc)
        (self.etc / 'host.conf').write_text('server_name localhost;\n')
        who = self.file('people' if self.people else 'people-file')
        (self.etc / 'people.conf').write_text(self.placed(who))
        if self.certificates:
            self.certify_users()
        self.write_callers()
        (self.folder / 'goo.conf').write_text(self.conf())
        (self.folder / 'nginx.conf').write_text(self.whole())

    def clear(self) -> None:
        """What the unit does before each start: a killed nginx leaves its inner sockets behind."""
        unit = self.file('nginx.service')
        for words in re.findall(r'(?m)^ExecStartPre=-(.*\.sock)$', unit):
            make(self.placed(words).split())

    def whole(self) -> str:
        """The file with which nginx begins."""
        own = self.folder
        temporary = ''.join(f'    {kind}_temp_path {own}/{kind};\n' for kind in TEMPORARY)
        return (('user root;\n' if os.geteuid() == 0 else '') +
                f'daemon off;\nworker_processes {self.workers};\npid {own}/nginx.pid;\n'
                f'error_log {own}/error.log;\n'
                f'events {{ worker_connections {CONNECTIONS}; }}\n'
                f'http {{\n    include /etc/nginx/mime.types;\n    access_log {own}/access.log;\n'
                f'{temporary}    include {own}/goo.conf;\n{self.for_balancer()}}}\n')

    def words(self) -> list[str]:
        """The command that starts nginx, and to which a signal of its is added."""
        return [shutil.which('nginx') or '/usr/sbin/nginx', '-p', str(self.folder),
                '-e', f'{self.folder}/error.log', '-c', f'{self.folder}/nginx.conf']

    def tls(self) -> ssl.SSLContext:
        return ssl.create_default_context(cafile=str(self.etc / 'tls/cert.pem'))

    # ---------------------------------------------------------------- the configuration

    def file(self, name: str) -> str:
        return (self.service / f'etc/nginx/{name}.conf').read_text()

    def placed(self, text: str) -> str:
        """Sockets are in the folder of the house."""
        for name in ('goo-front', 'goo-records', 'goo'):
            text = text.replace(f'/run/{name}/', f'{self.folder}/')
        return text.replace('/run/goo-people/', f'{self.folder}/people/')

    def for_balancer(self) -> str:
        """Files with the balancer's address: goo.conf takes in one, the other stands beside it."""
        for name, target, port, own in (
                ('balancer', self.etc / 'balancer.conf', 8443, self.behind),
                ('health', self.folder / 'health.conf', 8475, self.health)):
            if self.balancer:
                text = self.placed(self.file(name)).replace('192.0.2.10', self.balancer)
                target.write_text(text.replace(f'listen {port}', f'listen 127.0.0.1:{own}'))
        return f'    include {self.folder}/health.conf;\n' if self.balancer else ''

    def conf(self) -> str:
        """goo.conf with the paths and ports of this house."""
        conf = re.sub(r'(?m)^ *listen \[::\].*\n', '', self.placed(self.file('goo')))
        for old, new in (('/etc/goo/', f'{self.etc}/'), ('/usr/share/goo/web', WEB),
                         ('/usr/share/goo/api', f'{TOP}/docs'),
                         ('/var/lib/goo-exchange/', f'{self.exchange}/'),
                         ('/var/log/goo/', f'{self.folder}/'),
                         ('listen 80', f'listen 127.0.0.1:{self.plain}'),
                         ('listen 443', f'listen 127.0.0.1:{self.port}'), *self.changes):
            assert old in conf, f'service/etc/nginx/goo.conf no longer says {old!r}'
            conf = conf.replace(old, new)
        if self.rate:
            conf = re.sub(r'rate=\d+r/[sm]', f'rate={self.rate}r/s', conf)
            conf = re.sub(r'burst=\d+.*;', f'burst={10 * self.rate} nodelay;', conf)
        if self.certificates:                       # the commented variant, its comments taken off
            named = 'ssl_client_certificate|ssl_crl|ssl_verify_client'
            conf = re.sub(rf'(?m)^( *)# ((?:{named}) .*)$', r'\1\2', conf)
        if self.without:
            conf = re.sub(rf'(?m)^( *{self.without}) +on;', r'\1 off;', conf)
        return conf

    def write_callers(self) -> None:
        """The list, and the map that goo-callers makes of it."""
        lines = [*CALLERS, *self.more]
        if self.certificates:
            named = [line.partition(' ') for line in CALLERS]
            lines = [*(f'"CN={user},O=Trial" {caller}' for user, _, caller in named), *self.more]
        (self.etc / 'callers').write_text('\n'.join([*lines, '']))
        make([*self.callers_words(), *(['--certificates'] if self.certificates else [])])

    def callers_words(self) -> list[str]:
        """goo-callers over the files of this house."""
        return [*command('goo-callers', self.service), f'--list={self.etc}/callers',
                f'--users={self.etc}/users', f'--map={self.etc}/callers.map']

    # ---------------------------------------------------------------- certificates

    def certify(self, kind: Iterable[str], subject: str, key: Path, file: Path,
                *more: str) -> None:
        """A key, and its certificate by itself."""
        make(['openssl', 'req', '-x509', '-newkey', *kind, '-nodes', '-days', '2', '-subj', subject,
              '-keyout', key, '-out', file, *more])

    def certify_users(self) -> None:
        """An authority, a certificate of its for each user, and its list of revoked ones: none."""
        own = self.folder
        self.certify(CURVE, '/O=Trial/CN=authority', own / 'ca.key',
                     self.etc / 'tls/clients-ca.pem')
        (own / 'ca.conf').write_text(f'[ca]\ndefault_ca = own\n[own]\ndatabase = {own}/ca.index\n'
                                     'default_md = sha256\ndefault_crl_days = 2\n')
        (own / 'ca.index').touch()
        for user in self.users:
            self.issue(f'/O=Trial/CN={user}', user)
        self.revoke()

    def issue(self, subject: str, name: str) -> None:
        """A certificate for a subject, with its key, in files of this name."""
        key, request = self.folder / f'{name}.key', self.folder / 'request.pem'
        make(['openssl', 'req', '-new', '-newkey', *CURVE, '-nodes', '-subj', subject,
              '-keyout', key, '-out', request])
        make(['openssl', 'x509', '-req', '-in', request, '-CA', self.etc / 'tls/clients-ca.pem',
              '-CAkey', self.folder / 'ca.key', '-CAcreateserial', '-days', '2',
              '-out', self.folder / f'{name}.pem'])

    def revoke(self, *names: str) -> None:
        """Takes certificates back, and writes the list of all that were."""
        words = ['openssl', 'ca', '-config', self.folder / 'ca.conf',
                 '-keyfile', self.folder / 'ca.key', '-cert', self.etc / 'tls/clients-ca.pem']
        for name in names:
            make([*words, '-revoke', self.folder / f'{name}.pem'])
        make([*words, '-gencrl', '-out', self.etc / 'tls/clients.crl'])
