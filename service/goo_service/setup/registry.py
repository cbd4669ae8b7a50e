"""What a registry needs on its host: folders, secrets, a name, a certificate, users, the registry
itself."""
import datetime
import pathlib
import re
import secrets
import socket
import sys
from collections.abc import Callable
from dataclasses import dataclass

from goo_service.records import settings
from goo_service.records.body import Body
from goo_service.records.body import is_address as is_body_address
from goo_service.records.body import is_name as is_body_name
from goo_service.setup import choices
from goo_service.setup import people
from goo_service.setup.choices import Beginning
from goo_service.setup.common import BOOK
from goo_service.setup.common import COPIES
from goo_service.setup.common import DATABASE
from goo_service.setup.common import ETC
from goo_service.setup.common import LOG
from goo_service.setup.common import REGISTRY
from goo_service.setup.common import SHARE
from goo_service.setup.common import Refused
from goo_service.setup.common import code_of_registry
from goo_service.setup.common import goo
from goo_service.setup.common import holds_registry
from goo_service.setup.common import make_folder
from goo_service.setup.common import read_as
from goo_service.setup.common import report
from goo_service.setup.common import run
from goo_service.setup.common import text_of
from goo_service.setup.common import write
from goo_service.setup.questions import answer
from goo_service.setup.questions import answer_or_default
from goo_service.setup.questions import read_password

CHAIN, KEY = ETC / 'tls/cert.pem', ETC / 'tls/key.pem'
RECORDS = ETC / 'records.conf'
DIRECTORY_ASKED = 'whether holders see whose accounts there are, by code and name: shown or hidden'
NAME_ASKED = "the host's name, as it stands in the certificate"
USER_ASKED = 'the first user, somebody of the issuing body'
CODE_ASKED = "the registry's code, 1 to 99, that no other registry has"
BODY_ASKED = "the issuing body's name, as its documents have it; empty: the registry's code alone"
BODY_ADDRESS_ASKED = "the issuing body's address, on one line"
KEY_OF_CODES = re.compile('[0-9a-f]{64,256}')
CHAIN_ASKED = "the certificate's file; empty: one that this host signs itself, for a trial"
SIGN = ('openssl', 'req', '-x509', '-newkey', 'ec', '-pkeyopt', 'ec_paramgen_curve:P-256', '-nodes',
        '-days', '365')


def place_folders() -> None:
    make_folder(ETC, 0o755)
    make_folder(ETC / 'peers', 0o755)
    make_folder(ETC / 'tls', 0o700)
    make_folder(COPIES, 0o700)
    make_folder(REGISTRY, 0o700, 'goo')
    make_folder(LOG, 0o750, 'goo-replica')
    make_folder(BOOK, 0o750, 'goo-records')


def place_secret(name: str, owner: str, make: Callable[[], str]) -> None:
    path = ETC / name
    is_new = not path.exists()
    report(f'{path}; it is in no copy, keep one where such things are kept', is_new)
    if is_new:
        write(path, make(), 0o400, owner, owner)


def place_secrets() -> None:
    """The keys that sign what the exchange publishes, the entries of the log, and documents."""
    place_secret('exchange.key', 'goo-agent',
                 lambda: run('openssl', 'genpkey', '-algorithm', 'ED25519'))
    place_secret('replica.key', 'goo-replica', lambda: f'{secrets.token_hex(32)}\n')
    place_secret('code.key', 'goo-records', key_of_codes)
    place_secret('documents.key', 'goo-records',
                 lambda: run('openssl', 'genpkey', '-algorithm', 'ED25519'))
    public = run('openssl', 'pkey', '-in', ETC / 'documents.key', '-pubout')
    if text_of(ETC / 'documents.pub') != public:
        write(ETC / 'documents.pub', public)


def key_of_codes() -> str:
    """The key of check codes: the one that the records have made on this host, so that documents
    of before have the codes that they had, or a new one. Hosts that join have it from the first."""
    earlier = read_as('goo-records', BOOK / 'code.key').strip()
    return f'{earlier if KEY_OF_CODES.fullmatch(earlier) else secrets.token_hex(32)}\n'


def place_body(given: Beginning) -> None:
    """The issuing body's name and address, as its documents have them."""
    path = ETC / 'body.conf'
    is_new = not path.exists()
    if is_new:
        name = read_answer(given.body_name, BODY_ASKED, is_body_name)
        address = read_answer(given.body_address, BODY_ADDRESS_ASKED, is_body_address)
        write(path, Body(name, address).text())
    report(path, is_new)


def read_answer(given: str | None, what: str, is_usable: Callable[[str], object]) -> str:
    """What was given as an option, or is typed; empty where nobody answers."""
    if given is None:
        return answer_or_default(what, '', is_usable)
    return answer(given, what, is_usable)


@dataclass(frozen=True)
class Name:
    """The host's name, and whether it was written now."""
    text: str
    is_new: bool


def place_name(given: Beginning) -> Name:
    """The host's name: the front door answers to no other."""
    path = ETC / 'host.conf'
    found = re.search(r'server_name (\S+);', text_of(path))
    name = found[1] if found else answer(given.name, NAME_ASKED, choices.is_name, socket.getfqdn())
    if not found:
        write(path, f'server_name {name};\n')
    return Name(name, report(f'{path}: {name}', not found))


# -------------------------------------------------------------------- the certificate

@dataclass(frozen=True)
class Certificate:
    """The files of a certificate that was given; none for one that this host signs itself."""
    chain: str | None
    key: str | None = None


def choose_certificate(given: Beginning) -> Certificate:
    """What was given, or is typed at a terminal."""
    if given.certificate or given.self_signed:
        return Certificate(given.certificate, given.key)
    if not sys.stdin.isatty():
        raise Refused('there is no certificate: give --certificate and --key, or --self-signed for '
                      'a trial')
    chain = answer_or_default(CHAIN_ASKED, '', choices.is_file)
    if not chain:
        return Certificate(None)
    return Certificate(chain, answer_or_default("its key's file", '',
                                                lambda text: text and choices.is_file(text)))


def copy_certificate(chain: str, key: str) -> None:
    public = run('openssl', 'x509', '-in', chain, '-noout', '-pubkey')
    if public != run('openssl', 'pkey', '-in', key, '-pubout'):
        raise Refused(f'{key} is not the key of {chain}')
    write(KEY, pathlib.Path(key).read_text(encoding='ascii'), 0o600)
    write(CHAIN, pathlib.Path(chain).read_text(encoding='ascii'), 0o600)


def place_certificate(given: Beginning, name: str) -> bool:
    """The certificate and its key: those that were given, or one that this host signs itself."""
    if CHAIN.exists() and KEY.exists():
        return report(CHAIN, False)
    chosen = choose_certificate(given)
    if chosen.chain:
        copy_certificate(chosen.chain, chosen.key or '')
        return report(CHAIN, True)
    run(*SIGN, '-subj', f'/CN={name}', '-addext', f'subjectAltName=DNS:{name}',
        '-keyout', KEY, '-out', CHAIN)
    KEY.chmod(0o600)
    return report(f'{CHAIN}, signed by this host: browsers warn of it', True)


# -------------------------------------------------------------------- users, registry, exchange

def place_first_user(given: Beginning) -> bool:
    """Unless there are users. A set-up that was cut off may have left the file without one."""
    is_new = not text_of(ETC / 'users').strip()
    if is_new:
        name = answer(given.user, USER_ASKED, choices.is_user, 'office')
        password = read_password(given.password_file, name)
        people.write_list('callers', '# USER CALLER [ROLE], or USER peer CODE '
                                     f'(OPERATING.md, "Who may sign in")\n{name} ISSUER\n')
        people.set_password(name, password)
    people.make_map(reload=False)
    return report(ETC / 'users', is_new)


def place_registry(given: Beginning) -> bool:
    """Begins the registry, unless it is there."""
    is_new = not holds_registry()
    if is_new:
        code = int(answer(given.code, CODE_ASKED, choices.is_code))
        today = datetime.date.today().isoformat()
        day = given.date or answer_or_default("the registry's date", today, choices.is_day)
        earlier = text_of(RECORDS)
        place_beginning(f'{code} {day} {given.next_serial or 1}')
        serial = ('--next-serial', given.next_serial) if given.next_serial else ()
        fault = goo('init', '--code', code, '--today', day, *serial)
        if 'already there' in fault and earlier:
            write(RECORDS, earlier)
            fault = goo('run')
        if fault:
            raise Refused(f'{DATABASE}: {fault}')
    return report(DATABASE, is_new)


def place_beginning(begun: str) -> None:
    """How the book of acts begins: code, day and first number of the registry."""
    write(RECORDS, settings.with_setting(text_of(RECORDS), settings.BEGIN, f'--begun {begun}'))


def place_directory(given: Beginning) -> bool:
    """Whether holders see the directory: as given, as it stands, or as is answered. Whether it was
    changed."""
    text = text_of(RECORDS)
    before = settings.value_of(text, settings.DIRECTORY)
    value = given.directory or before or answer_or_default(
        DIRECTORY_ASKED, settings.SHOWN, choices.is_directory)
    if value != before:
        write(RECORDS, settings.with_setting(text, settings.DIRECTORY, value))
    return report(f'{RECORDS}: the directory of accounts is {value}', value != before)


def place_exchange() -> None:
    path = ETC / 'exchange.conf'
    is_new = not path.exists()
    report(f'{path}; other registries need our public key: '
           f'openssl pkey -in {ETC}/exchange.key -pubout | sed -n 2p', is_new)
    if is_new:
        shipped = (SHARE / 'exchange.conf').read_text(encoding='utf-8')
        text, count = re.subn(r'(?m)^code = \d+$', f'code = {code_of_registry()}', shipped)
        if count != 1:
            raise Refused(f'{SHARE}/exchange.conf has no line for the code')
        write(path, text)
    if not (ETC / 'decoy').exists():
        write(ETC / 'decoy', (SHARE / 'nginx/decoy').read_text(encoding='utf-8'))
