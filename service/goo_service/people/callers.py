"""Makes the front door's map of users from the plain list of who signs in as whom.

usage: goo-callers [--certificates] [--reload] [--list FILE] [--users FILE] [--map FILE]

A line of the list is one of

  USER CALLER [ROLE]    CALLER is a holder's code, or ISSUER for the issuing body; ROLE is full
                        (unless told), reads or declares
  USER peer CODE        another registry, which fetches its notices; CODE has two digits

A name with blanks stands in quotes. Empty lines and lines that begin with # say nothing. The list
is held against the password file. With --certificates users sign in by client certificates, there
is no password file, and a name is the certificate's subject as `openssl x509 -noout -subject
-nameopt RFC2253` writes it. The list and the map say who works here: the map is written for root
and its group alone (mode 0640), and a list that anybody may read is told.

A list with a fault is told, and the map stays as it was. Else the map is written whole. nginx reads
it when it is reloaded: --reload tests nginx's configuration and reloads it.

Exit status 0: written. 1: a fault, nothing written; or nginx refused. 2: wrong command line.
"""
import argparse
import collections
import re
import shlex
import subprocess
import sys
from collections.abc import Callable
from collections.abc import Iterator
from dataclasses import dataclass
from dataclasses import field
from pathlib import Path

from goo_service.common.files import write_whole

CALLER = re.compile(r'[A-Z0-9-]{1,16}')
REGISTRY = re.compile(r'0[1-9]|[1-9][0-9]')
ROLES = ('full', 'reads', 'declares')
LONGEST = 200
PASSWORD = re.compile(r'\$2[aby]\$08\$')
"""How a password has to be kept: see service/etc/nginx/decoy.

A wrong one then takes as long as that of a user that doesn't exist.
"""
FILES = {'list': '/etc/goo/callers', 'users': '/etc/goo/users', 'map': '/etc/goo/callers.map'}


class Fault(Exception):
    """A list or a password file that can't be used. Each argument is a line to tell."""


@dataclass(frozen=True)
class Words:
    """Which files, and how users sign in."""

    certificates: bool
    reload: bool
    list: Path
    users: Path
    map: Path


@dataclass(frozen=True)
class Line:
    """A line of a file that says something, and where it is."""

    place: str
    text: str


@dataclass
class Users:
    """The users of a file: what it says of each, and where."""

    entries: dict[str, str] = field(default_factory=dict)
    places: list[tuple[str, str]] = field(default_factory=list)
    """Each user and the place of its line. One that stands twice is here twice."""

    def add(self, user: str, entry: str, place: str) -> None:
        self.entries[user] = entry
        self.places.append((user, place))


def lines_of(path: Path) -> list[Line]:
    """The lines of a file that say something."""
    try:
        text = path.read_text(encoding='utf-8')
    except OSError as fault:
        raise Fault(f'{path}: {fault.strerror}') from fault
    except UnicodeDecodeError as fault:
        raise Fault(f'{path}: not UTF-8') from fault
    return [Line(f'{path}:{number}', line) for number, line in enumerate(text.split('\n'), 1)
            if line.strip() and not line.startswith('#')]


def words_of(line: str) -> list[str]:
    """The words of a line. Quotes hold a name together; a backslash is a character like others."""
    reader = shlex.shlex(line, posix=True)
    reader.whitespace_split, reader.escape, reader.commenters = True, '', ''
    return list(reader)


def name_fault(user: str, certificates: bool) -> str:
    """What keeps a name from being one that nginx, the log and a reader all read as the same."""
    if not user or len(user) > LONGEST:
        return f"a user's name has 1 to {LONGEST} characters"
    if not user.isascii() or not user.isprintable():
        return "a user's name is of printable ASCII characters"
    if not certificates and (re.search(r'[\s:]', user) or user.startswith('#')):
        return ("a user's name that signs in with a password has no blank and no colon, "
                "and doesn't begin with #")
    return ''


def entry_of(words: list[str], certificates: bool) -> tuple[str, str]:
    """The user of a line and what the map says of him."""
    if not 2 <= len(words) <= 3:
        raise Fault('a line is USER CALLER [ROLE] or USER peer CODE')
    user, caller, *rest = words
    if fault := name_fault(user, certificates):
        raise Fault(fault)
    if caller == 'peer':
        if not rest or not REGISTRY.fullmatch(rest[0]):
            raise Fault(f'{user}: the code of a peer has two digits, 01 to 99')
        return user, f'peer {rest[0]}'
    if not CALLER.fullmatch(caller):
        raise Fault(f"{user}: {caller} is no holder's code (1 to 16 of A to Z, 0 to 9 and -), "
                    'nor ISSUER, nor peer')
    role = rest[0] if rest else 'full'
    if role not in ROLES:
        raise Fault(f"{user}: {role} is no role ({', '.join(ROLES)})")
    return user, f'{caller} {role}'


def users_of(path: Path, parse: Callable[[str], tuple[str, str]]) -> Users:
    """The users of a file, by what parses a line of it."""
    users = Users()
    faults: list[str] = []
    for line in lines_of(path):
        try:
            users.add(*parse(line.text), line.place)
        except Fault as why:
            faults.append(f'{line.place}: {why}')
        except ValueError:
            faults.append(f"{line.place}: a quote that isn't closed")
    if faults:
        raise Fault(*faults)
    return users


def read_list(path: Path, certificates: bool) -> Users:
    """What the list says."""
    return users_of(path, lambda line: entry_of(words_of(line), certificates))


def password_of(line: str) -> tuple[str, str]:
    """The user of a line of the password file, and how the password is kept."""
    user, colon, form = line.partition(':')
    if not colon:
        raise Fault('a line is USER:PASSWORD, as htpasswd writes it')
    if fault := name_fault(user, False):
        raise Fault(fault)
    return user, form


def read_passwords(path: Path) -> Users:
    """How each user's password is kept."""
    return users_of(path, password_of)


def doubles(*files: Users) -> list[str]:
    """Names that stand twice in a file, and names of any file that differ only in case."""
    faults: list[str] = []
    for users in files:
        seen: dict[str, str] = {}
        for user, place in users.places:
            if user in seen:
                faults.append(f'{place}: {user} stands in {seen[user]} already')
            seen.setdefault(user, place)
    spellings: dict[str, dict[str, str]] = collections.defaultdict(dict)
    for user, place in (one for users in files for one in users.places):
        spellings[user.lower()].setdefault(user, place)
    for ways in spellings.values():
        first, *others = ways
        faults += [f'{ways[other]}: {other} differs from {first} ({ways[first]}) '
                   'only in capital letters' for other in others]
    return faults


def remarks(entries: dict[str, str], passwords: dict[str, str]) -> Iterator[str]:
    """What isn't wrong, and may not be meant."""
    for user in sorted(entries.keys() - passwords.keys()):
        yield f"{user}: no password, so he can't sign in"
    for user in sorted(passwords.keys() - entries.keys()):
        yield f'{user}: a password and no line in the list, so the registry shows him nothing'
    for user in sorted(user for user, form in passwords.items() if not PASSWORD.match(form)):
        yield (f"{user}: a password that `htpasswd -B -C 8` didn't write: how long a wrong one "
               'takes tells that this user exists')


def pattern(user: str) -> str:
    """A regular expression for this name alone: nginx compares other keys without case."""
    def escaped(found: re.Match[str]) -> str:
        return rf'\x{ord(found[0]):02X}'
    return r'~\A' + re.sub(r'[^A-Za-z0-9]', escaped, user) + r'\z'


def open_to_all(*paths: Path) -> Iterator[str]:
    """Files that every user of this host can read: they say who may sign in, and as whom."""
    for path in paths:
        if path.stat().st_mode & 0o007:
            yield f'{path}: every user of this host can read it: chmod 640 {path}'


def map_text(entries: dict[str, str]) -> str:
    lines = [f'"{pattern(user)}" "{entry}";    # {user}' for user, entry in sorted(entries.items())]
    return '\n'.join(['# Made by `callers` from the list. A change here is lost.', *lines, ''])


def make(words: Words) -> None:
    """Reads, checks and writes."""
    listed = read_list(words.list, words.certificates)
    passwords = Users() if words.certificates else read_passwords(words.users)
    if faults := doubles(listed, passwords):
        raise Fault(*faults)
    entries, told = listed.entries, list(open_to_all(words.list))
    if not words.certificates:
        told += [*open_to_all(words.users), *remarks(entries, passwords.entries)]
        entries = {user: entries.get(user, 'none') for user in passwords.entries}
    for remark in told:
        print(remark, file=sys.stderr)
    try:
        write_whole(words.map, map_text(entries))
    except OSError as fault:
        raise Fault(f'{words.map}: {fault.strerror}') from fault
    print(f'{words.map}: {len(entries)} users')


def reload() -> None:
    """Has nginx read the map, if its configuration passes."""
    for command in (['nginx', '-t', '-q'], ['systemctl', 'reload', 'nginx']):
        try:
            subprocess.run(command, check=True)
        except OSError as fault:
            raise Fault(f"{' '.join(command)}: {fault.strerror}; "
                        'nginx goes on with what it had') from fault
        except subprocess.CalledProcessError as fault:
            raise Fault(f"{' '.join(command)}: status {fault.returncode}; "
                        'nginx goes on with what it had') from fault


def parse_words() -> Words:
    parser = argparse.ArgumentParser(
        prog='goo-callers',
        description="Makes the front door's map of users from the list of who signs in as whom.")
    parser.add_argument('--certificates', action='store_true',
                        help='names are those of client certificates, and there is no password '
                             'file')
    parser.add_argument('--reload', action='store_true',
                        help="test nginx's configuration and reload it")
    for name, default in FILES.items():
        parser.add_argument(f'--{name}', type=Path, default=default, metavar='FILE',
                            help=f'{default} unless told')
    return Words(**vars(parser.parse_args()))


def main() -> int:
    words = parse_words()
    try:
        make(words)
        if words.reload:
            reload()
    except Fault as fault:
        print(*fault.args, sep='\n', file=sys.stderr)
        return 1
    return 0


if __name__ == '__main__':
    sys.exit(main())
