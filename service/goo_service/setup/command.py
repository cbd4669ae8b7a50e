"""Begins a registry on this host after the package was installed, and keeps its users and peers.

usage: goo-setup [--code C] [--name HOST] [--date DAY] [--next-serial N]
                 [--certificate FILE --key FILE | --self-signed] [--user NAME]
                 [--password-file FILE] [--body-name NAME] [--body-address ADDRESS]
                 [--directory shown|hidden]
                 [--alone | --hosts ADDRESS,ADDRESS,ADDRESS [--balancer ADDRESS] | --join FILE]
       goo-setup user add NAME CALLER [ROLE] [--password-file FILE]
                 | remove NAME | password NAME [--password-file FILE]
       goo-setup people on [--officer MAIL] [--language en|de] [--programs-until DAY]
                 | off | provider
       goo-setup peer add CODE URL USER PUBLIC_KEY [--password-file FILE] | remove CODE
       goo-setup status | doctor | renew | upgraded

Without words it asks what is not given: the host's name, the certificate, the first user of the
issuing body and a password, the registry's code and date, the issuing body's name and address for
its documents, one host or three, whether holders see whose accounts there are. It makes the
secrets, writes the configuration below /etc/goo, begins the registry and its log of requests,
starts the units, and prints the address. What is there already stays as it is. So it can be run
again after an interruption. A registry that was installed by hand goes on under the package: its
units and programs go aside, to /var/backups/goo-by-hand.

--hosts makes this host the first of three with one log over etcd: the addresses of all three,
this one's first. It writes a file for each of the others, with which that host joins by --join.
--balancer is the address that may ask each host whether it is well. A registry that runs alone
becomes the first of three in the same way.

`people on` has goo-people sign users in: by a page with a second factor, and by tokens. The users
of today's files are taken over; --officer invites an officer by a link that is printed. Passwords
of programs are taken until DAY, in 30 days unless told. `people off` goes back to the files.
`people provider` has users sign in by the provider that /etc/goo/people-oidc.conf names.

`status` tells what runs, which version, at which entry, and the last copy. `doctor` tells what is
wrong, what to do about it, and the row of /usr/share/doc/goo/WRONG.md that says more. `renew`
begins a new version on one of three hosts, once it is installed on all. `upgraded` is for the
package, after a new version of the program was installed. The exit status is 0 where all is well,
1 where something is wrong or was refused, 2 for a wrong command line.
"""
import argparse
import configparser
import os
import signal
import subprocess
import sys
from collections.abc import Callable

from goo_service.setup import by_hand
from goo_service.setup import choices
from goo_service.setup import cluster
from goo_service.setup import people
from goo_service.setup import people_way
from goo_service.setup import registry
from goo_service.setup import running
from goo_service.setup.choices import Beginning
from goo_service.setup.common import Refused
from goo_service.setup.common import run
from goo_service.setup.common import words_of_log
from goo_service.setup.doctor import doctor
from goo_service.setup.health import wait_for_registry
from goo_service.setup.questions import answer_or_default
from goo_service.setup.status import status
from goo_service.setup.three import are_hosts
from goo_service.setup.upgrade import renew
from goo_service.setup.upgrade import upgrade

HOSTS_ASKED = ('the addresses of three hosts with commas between, this one first; '
               'empty: this host alone')
OPTIONS = {
    'code': ('C', "the registry's code, 1 to 99, that no other registry has"),
    'name': ('HOST', 'the name under which the front door answers'),
    'date': ('DAY', "the registry's date; today"),
    'next-serial': ('N', 'the number of the first certificate; 1'),
    'certificate': ('FILE', 'the chain of certificates for TLS'),
    'key': ('FILE', 'its key'),
    'body-name': ('NAME', "the issuing body's name, as its documents have it"),
    'body-address': ('ADDRESS', 'its address, on one line'),
    'user': ('NAME', 'the first user, somebody of the issuing body'),
    'password-file': ('FILE', 'a password, on its first line'),
    'directory': ('WORD', 'whether holders see whose accounts there are: shown, or hidden'),
    'balancer': ('ADDRESS', 'of three hosts: who may ask whether one is well'),
}
WORKS = {'status': status, 'doctor': doctor, 'renew': renew, 'upgraded': upgrade}
"""Commands without words. The package's scripts give the last one."""
USER_WORDS = {'add': ('name', 'caller'), 'remove': ('name',), 'password': ('name',)}
PEER_WORDS = {'add': ('code', 'url', 'user', 'public_key'), 'remove': ('code',)}


def begin(given: Beginning) -> int:
    """Begins a registry, or goes on with what is there."""
    given.verify(os.geteuid() == 0)
    by_hand.set_aside()
    registry.place_folders()
    if given.join:
        cluster.unpack(given.join)
    registry.place_secrets()
    name = registry.place_name(given)
    changed = name.is_new
    changed |= registry.place_certificate(given, name.text)
    changed |= registry.place_first_user(given)
    is_new, hosts = registry.place_registry(given), given.hosts
    if is_new and not given.alone and not hosts:
        hosts = answer_or_default(HOSTS_ASKED, '', are_hosts)
    registry.place_body(given)
    registry.place_exchange()
    changed |= running.place_nginx()
    if not words_of_log():
        running.place_log()
    elif given.join:
        cluster.place_etcd()
        cluster.begin_log(given.join)
    if registry.place_directory(given) and given.directory:
        run('systemctl', 'try-restart', 'goo-records-web')
    running.start_units(are_timers=False)
    running.start_nginx(changed, name.text)
    try:
        if is_first_of_three(hosts, given.balancer):
            return 0
        wait_for_registry()
    finally:
        running.start_units(are_timers=True)
        by_hand.enable_again()
    print(f'the registry answers at https://{name.text}/')
    return 0


def is_first_of_three(hosts: str | None, balancer: str | None) -> bool:
    """Makes this host the first of three, if it is to be; whether it waits for the others."""
    if hosts and not words_of_log():
        cluster.lead(hosts, balancer)
        running.start_units(are_timers=False)
        run('systemctl', 'reload', 'nginx')
    if words_of_log() and cluster.waits_for_others():
        cluster.show_next_steps()
        return True
    return False


# -------------------------------------------------------------------- the command line

def add_kind(kinds: 'argparse._SubParsersAction[argparse.ArgumentParser]', kind: str,
             words: dict[str, tuple[str, ...]], work: Callable[[argparse.Namespace], int]) -> None:
    """The commands of users, or of peers."""
    commands = kinds.add_parser(kind).add_subparsers(required=True, dest='do')
    for do, names in words.items():
        one = commands.add_parser(do)
        for name in names:
            one.add_argument(name)
        if (kind, do) == ('user', 'add'):
            one.add_argument('role', nargs='*')
        one.add_argument('--password-file')
        one.set_defaults(work=work)


def add_people(kinds: 'argparse._SubParsersAction[argparse.ArgumentParser]') -> None:
    """The commands of goo-people."""
    commands = kinds.add_parser('people').add_subparsers(required=True, dest='do')
    on = commands.add_parser('on')
    on.add_argument('--officer', metavar='MAIL', help='invites an officer of the issuing body')
    on.add_argument('--language', choices=('en', 'de'), default='en', help="of the officer's mails")
    on.add_argument('--programs-until', metavar='DAY',
                    help='until when passwords of programs are taken; 30 days unless told')
    for one in (on, commands.add_parser('off'), commands.add_parser('provider')):
        one.set_defaults(work=lambda given: people_way.people(choices.people_work(given)))


def parser() -> argparse.ArgumentParser:
    words = argparse.ArgumentParser(prog='goo-setup', description=__doc__,
                                    formatter_class=argparse.RawDescriptionHelpFormatter)
    for option, (value, text) in OPTIONS.items():
        words.add_argument(f'--{option}', metavar=value, help=text)
    words.add_argument('--self-signed', action='store_true',
                       help='a certificate that this host signs itself, for a trial')
    hosts = words.add_mutually_exclusive_group()
    hosts.add_argument('--alone', action='store_true', help='one host, and no question about it')
    hosts.add_argument('--hosts', metavar='A,B,C',
                       help="three hosts: the addresses of all, this one's first")
    hosts.add_argument('--join', metavar='FILE',
                       help='be one of three hosts, by the file that the first one has made')
    words.set_defaults(work=lambda given: begin(Beginning.of(given)))
    kinds = words.add_subparsers()
    add_kind(kinds, 'user', USER_WORDS, lambda given: people.user(choices.user_work(given)))
    add_kind(kinds, 'peer', PEER_WORDS, lambda given: people.peer(choices.peer_work(given)))
    add_people(kinds)
    for word, work in WORKS.items():
        kinds.add_parser(word).set_defaults(work=lambda _, work=work: work())
    return words


def main() -> int:
    given = parser().parse_args()
    os.umask(0o022)
    for number in (signal.SIGTERM, signal.SIGHUP):      # what was stopped is started again first
        signal.signal(number, lambda *_: sys.exit('goo-setup: ended by a signal'))
    try:
        return int(given.work(given))
    except BrokenPipeError:                                     # whoever reads has seen enough
        os.dup2(os.open(os.devnull, os.O_WRONLY), sys.stdout.fileno())
        return 1
    except KeyboardInterrupt:
        print('goo-setup: interrupted', file=sys.stderr)
        return 1
    except (Refused, OSError, ValueError, subprocess.SubprocessError, configparser.Error) as fault:
        print(f'goo-setup: {fault}', file=sys.stderr)
        return 1


if __name__ == '__main__':
    sys.exit(main())
