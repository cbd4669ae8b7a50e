"""The users and the peers of a registry: who may sign in, and other registries."""
import re
import subprocess
from collections.abc import Callable

from goo_service.setup.choices import PeerWork
from goo_service.setup.choices import UserWork
from goo_service.setup.common import ETC
from goo_service.setup.common import Refused
from goo_service.setup.common import has_people
from goo_service.setup.common import is_active
from goo_service.setup.common import run
from goo_service.setup.common import words_of_log
from goo_service.setup.common import write
from goo_service.setup.questions import read_password

CALLERS, USERS, EXCHANGE_CONF = ETC / 'callers', ETC / 'users', ETC / 'exchange.conf'
MODES = {CALLERS: (0o640, 'root', 'root'), USERS: (0o640, 'root', 'www-data')}
CODE = re.compile(r'0?[1-9]|[1-9][0-9]')


def write_list(name: str, text: str) -> None:
    path = ETC / name
    write(path, text, *MODES[path])


def set_password(name: str, password: str) -> None:
    if not USERS.exists():
        write_list('users', '')
    run('htpasswd', '-i', '-B', '-C', '8', USERS, name, stdin=f'{password}\n')


def make_map(reload: bool = True) -> None:
    """Has `goo-callers` check the list and write nginx's map."""
    words = ['goo-callers', *(['--reload'] if reload and is_active('nginx') else [])]
    done = subprocess.run(words, capture_output=True, text=True, check=False)
    if done.returncode:
        raise Refused(done.stderr.strip())


def lines_of_callers() -> list[str]:
    return CALLERS.read_text(encoding='utf-8').splitlines() if CALLERS.exists() else []


def is_of(line: str, name: str) -> bool:
    return line.split()[:1] == [name]


def change_lists(lines: list[str], change: Callable[[], object]) -> None:
    """Writes a list of callers and changes the passwords with it.

    If `goo-callers` refuses the two, both are as they were.
    """
    before = {path: path.read_text(encoding='utf-8') for path in MODES if path.exists()}
    write_list('callers', '\n'.join([*lines, '']))
    try:
        change()
        make_map()
    except Refused:
        for path, text in before.items():
            write_list(path.name, text)
        raise


def user(work: UserWork) -> int:
    if has_people():
        raise Refused('goo-people signs users in here: goo-people user, or the page')
    known = [line for line in lines_of_callers() if is_of(line, work.name)]
    if work.do == 'add':
        if known:
            raise Refused(f'{work.name} stands in the list: {known[0]}')
        password = read_password(work.password_file, work.name)
        line = ' '.join([work.name, work.caller, *work.role])
        change_lists([*lines_of_callers(), line], lambda: set_password(work.name, password))
    elif not known:
        raise Refused(f'{work.name} does not stand in the list')
    elif work.do == 'password':
        set_password(work.name, read_password(work.password_file, work.name))
    else:
        change_lists([line for line in lines_of_callers() if not is_of(line, work.name)],
                     lambda: run('htpasswd', '-D', USERS, work.name))
    print(f'user {work.name}: {work.do} done')
    if words_of_log():
        print('each of the three hosts has a list of its own: give this there too')
    return 0


def section_of(work: PeerWork, secret: object) -> str:
    """The section of a peer in exchange.conf."""
    return (f'\n\n[peer {int(work.code)}]\n'
            f'url           = {work.url}\n'
            f'user          = {work.user}\n'
            f'password_file = {secret}\n'
            f'key           = {work.public_key}\n')


def words_for_peer(code: str) -> str:
    """The command that makes the user of a peer's agent."""
    if has_people():
        return f'goo-people user add registry{code} {code} peer'
    return f'goo-setup user add registry{code} peer {code}'


def peer(work: PeerWork) -> int:
    """A section of exchange.conf, and the password that the peer gave us."""
    if not CODE.fullmatch(work.code):
        raise Refused(f"{work.code}: a registry's code is 1 to 99")
    code = f'{int(work.code):02}'
    parts = re.split(r'(?m)^(?=\[)', EXCHANGE_CONF.read_text(encoding='utf-8'))
    known = [part for part in parts if re.match(rf'\[peer 0*{int(code)}\]', part)]
    secret = ETC / 'peers' / code
    if work.do == 'add':
        if known:
            raise Refused(f'registry {code} stands in {EXCHANGE_CONF}')
        password = read_password(work.password_file, f'our user at registry {code}')
        write(secret, f'{password}\n', 0o400, 'goo-agent', 'goo-agent')
        parts = [''.join(parts).rstrip('\n') + section_of(work, secret)]
    elif not known:
        raise Refused(f'registry {code} does not stand in {EXCHANGE_CONF}')
    else:
        parts = [part for part in parts if part not in known]
        secret.unlink(missing_ok=True)
    write(EXCHANGE_CONF, ''.join(parts))
    print(f'registry {code}: {work.do} done')
    if work.do == 'add':
        print(f'its agent needs a user here: {words_for_peer(code)}\n'
              'the registry has to know it: the page, Exchange\n'
              'then try it: systemctl start goo-exchange; and for good: '
              'systemctl enable --now goo-exchange.timer')
    return 0
