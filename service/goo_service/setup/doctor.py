"""What `goo-setup doctor` prints: what is wrong, what to do about it, and its row in docs/WRONG.md.
"""
import datetime
import pathlib
import re
import shutil
import subprocess
import tempfile
from collections.abc import Iterator
from dataclasses import dataclass
from enum import Enum

from goo_service.setup import certificates
from goo_service.setup import status
from goo_service.setup.common import CLOSED
from goo_service.setup.common import COPIES
from goo_service.setup.common import DATABASE
from goo_service.setup.common import ETC
from goo_service.setup.common import LOG
from goo_service.setup.common import ON_ONE
from goo_service.setup.common import REGISTRY
from goo_service.setup.common import Refused
from goo_service.setup.common import code_of_registry
from goo_service.setup.common import has_people
from goo_service.setup.common import is_active
from goo_service.setup.common import leads
from goo_service.setup.common import meta_of
from goo_service.setup.common import output_of
from goo_service.setup.common import text_of
from goo_service.setup.common import units
from goo_service.setup.health import DESK
from goo_service.setup.health import book
from goo_service.setup.health import fetch
from goo_service.setup.health import health
from goo_service.setup.health import object_in
from goo_service.setup.status import printable

GOODS = pathlib.Path('/root/goo-hosts')
"""What the first of three hosts made for the others: it holds keys."""
EXPIRES_SOON, COPY_OLD, SILENT = 30, 2, datetime.timedelta(hours=1)
"""Days, days, and how long the exchange may be silent."""
BEHIND = 1000
"""Entries that the records may be behind the log."""
BEGINNING = (f'{ETC}/records.conf has to name the copy that was made when the log was begun: '
             'RECORDS.md, "Running it"')
ROOM = 1 << 30
PATIENCE, LINES = 120, 5
"""Seconds that a check of the file of people may take; lines of it that are told."""
SINCE = '-5min'
"""Where a registry does not start, it is tried again each few seconds: its reason is in the newest
lines."""


class Row(Enum):
    """The rows of the table in docs/WRONG.md."""
    STOPPED = 'No requests are taken'
    DISK = 'The disk is full'
    DATABASE = 'The database is damaged'
    LOG = 'The log is damaged'
    DATE = 'The date is wrong'
    CERTIFICATE = 'A certificate ends'
    PASSWORD = 'A password is lost'
    HOST = 'A host is behind'
    RESTORE = 'A restore is not ended'
    RECORDS = 'The records are behind'
    COPY = 'The last copy is old'
    UNIT = 'A unit has failed'
    EXCHANGE = 'The exchange waits'
    NGINX = 'nginx does not answer'
    USERS = 'A list of users has a fault'
    PEOPLE = 'The file of people is damaged'
    MAIL = 'Mails do not go out'
    KEY = 'A key is missing or open'


@dataclass(frozen=True)
class Finding:
    """What is wrong, the row that says what to do, and the first thing to do."""
    what: str
    row: Row
    remedy: str

    def text(self) -> str:
        lines = printable(self.what), f'WRONG.md, "{self.row.value}"', printable(self.remedy)
        return '\n    '.join(lines)


REASONS = {
    re.compile(r'^no space left on'): Row.DISK,
    re.compile(r'^goo: (damaged|not a registry|store fault)'): Row.DATABASE,
    re.compile(r'/var/lib/goo-replica/(log|archive)\b'): Row.LOG,
}
"""By a line of the journal: why a registry or its log does not run."""
STARTED = 'listening '
"""How the line begins with which a registry, or its log, says that it runs."""


def findings() -> Iterator[Finding]:
    if not DATABASE.exists():
        yield Finding(f'{DATABASE} is not there', Row.DATABASE,
                      'begin a registry by goo-setup, or go back to a copy by goo-copies restore')
        return
    if CLOSED.exists():
        yield Finding('the front door was closed by restore', Row.RESTORE,
                      'what restore printed; at the end goo-copies restore --open')
    for check in (of_registry, of_units, of_copies, of_room, of_members, of_exchange,
                  of_certificates, of_keys, of_users, of_front_door):
        yield from check()


# -------------------------------------------------------------------- the registry

def reason_in(journal: str) -> Row | None:
    """The row by the newest line of a unit that says why it has ended, since it ran last."""
    for line in reversed(journal.splitlines()):
        if line.startswith(STARTED):
            return None
        for form, row in REASONS.items():
            if form.search(line):
                return row
    return None


def journal_of(unit: str) -> str:
    """What a unit has written lately."""
    return output_of('journalctl', f'--since={SINCE}', '-u', unit, '-o', 'cat', '--no-pager')


def reason() -> Row:
    """Why no requests are taken: the registry's reason before that of its log."""
    found = (reason_in(journal_of(unit)) for unit in ('goo', 'goo-replica'))
    return next((row for row in found if row), Row.STOPPED)


def of_registry() -> Iterator[Finding]:
    stands = book()
    now = health()          # after the book: the log may have gone on since, and is never behind it
    if now.why:
        row = Row.HOST if 'entries behind' in now.why else reason()
        yield Finding(f'the registry takes no requests: {now.why}', row,
                      'journalctl -u goo -u goo-replica -n 50')
    if not stands:
        yield Finding('the records of acts do not answer', Row.RECORDS,
                      'journalctl -u goo-records -u goo-records-web -n 20')
    elif stands.get('today') != datetime.date.today().isoformat():
        yield from of_date(str(stands.get('today')))
    if now.entry is not None and isinstance(stands.get('entry'), int):
        yield from of_book(now.entry, stands['entry'])


def of_date(stands: str) -> Iterator[Finding]:
    remedy = 'journalctl -u goo-advance -n 20; systemctl start goo-advance'
    if not leads():
        remedy = f'where the first host is lost: systemctl enable --now {ON_ONE}'
    yield Finding(f"the registry's date is {stands}, today is {datetime.date.today()}", Row.DATE,
                  remedy)


def of_book(entry: int, stands: int) -> Iterator[Finding]:
    """Whether the records go on from the beginning of the log, by the entry of the log and the one
    of the records."""
    if stands + BEHIND < entry:
        yield Finding(f'the records of acts stand at entry {stands}, the log at {entry}',
                      Row.RECORDS, 'journalctl -u goo-records -n 20')
    elif stands > entry:
        yield Finding(f'the records of acts stand at entry {stands}, and the log ends at entry '
                      f'{entry}: they are of another log', Row.RECORDS,
                      f'journalctl -u goo-records -n 20; {BEGINNING}')
    elif stands == entry and (last := last_account()) and not has_account(last):
        yield Finding(f'the records of acts have not account {last}, which the registry has: the '
                      'log was begun over a registry with records, and the book without them',
                      Row.RECORDS, BEGINNING)
    begun = code_of_book()
    if begun and begun != code_of_registry():
        yield Finding(f'{ETC}/records.conf begins the records of acts with registry {begun}, and '
                      f'this is registry {code_of_registry()}', Row.RECORDS, BEGINNING)


def last_account() -> int:
    """The last account that the registry's file has, without the log beside it: the registry may
    have more. 0 where it tells none."""
    try:
        return meta_of(DATABASE, 'next_account') - 1
    except Refused:
        return 0


def has_account(number: int) -> bool:
    """Whether the records have an account; so, where they do not tell."""
    answer = fetch(DESK, f'/records/v1/accounts?account={number}&limit=1')
    items = object_in(answer.text).get('items') if answer and answer.status == 200 else None
    return items != []


def code_of_book() -> int | None:
    """The code of the registry with which the records begin, where they begin with an empty one."""
    found = re.search(r'(?m)^GOO_RECORDS_BEGIN=--begun (\d+) ', text_of(ETC / 'records.conf'))
    return int(found[1]) if found else None


# -------------------------------------------------------------------- units, copies, room

def of_units() -> Iterator[Finding]:
    for unit in units():
        if output_of('systemctl', 'is-active', unit) not in ('active', ''):
            yield Finding(f'{unit} is not running', Row.UNIT,
                          f'systemctl status {unit}; systemctl start {unit}')
    for unit in status.failed_units():
        yield Finding(f'{unit} has failed', Row.UNIT, f'journalctl -u {unit} -n 20')


def of_copies() -> Iterator[Finding]:
    copy = status.last_copy()
    if copy is None or copy.days > COPY_OLD:
        age = f'{copy.days} days old' if copy else 'not there'
        yield Finding(f'the last copy is {age}', Row.COPY,
                      'systemctl start goo-backup; journalctl -u goo-backup -n 20')


def of_room() -> Iterator[Finding]:
    for path in filter(pathlib.Path.exists, (REGISTRY, LOG, COPIES)):
        free = shutil.disk_usage(path).free
        if free < ROOM:
            yield Finding(f'{free >> 20} MB are free on {path}', Row.DISK,
                          'make room, or give it a larger disk')


# -------------------------------------------------------------------- other hosts, other registries

def of_members() -> Iterator[Finding]:
    """What is wrong with the three hosts."""
    silent = [address for address in status.members() if not status.is_up(address)]
    for address in silent:
        yield Finding(f'etcd on {address} does not answer', Row.HOST,
                      'look at that host; two of three have to be up for writes')
    if GOODS.exists() and not silent:
        yield Finding(f'{GOODS} holds keys', Row.KEY,
                      f'once both others have joined, move {GOODS}/ca.key to where such things '
                      f'are kept; rm -r {GOODS}')


def is_long_ago(written: object) -> bool:
    """Whether the exchange was silent for too long since then; so, where that is no time."""
    try:
        then = datetime.datetime.fromisoformat(str(written))
        return datetime.datetime.now(datetime.timezone.utc) - then > SILENT
    except (TypeError, ValueError):
        return True


def in_words(trouble: object) -> str:
    return '; '.join(map(str, trouble)) if isinstance(trouble, list) else str(trouble)


def of_exchange() -> Iterator[Finding]:
    sections = certificates.peers_conf(ETC).sections()
    peers = [section for section in sections if section.startswith('peer ')]
    if peers and leads() and not is_active('goo-exchange.timer'):
        yield Finding(f'{len(peers)} peers in {ETC}/exchange.conf, and goo-exchange.timer is not '
                      'running', Row.EXCHANGE, 'systemctl enable --now goo-exchange.timer')
    state = status.exchange_state()
    of_peers = ((peer, f'registry {peer.get("registry")}') for peer in status.peers_in(state))
    for found, name in ((state, 'the exchange'), *of_peers):
        if found.get('trouble'):
            yield Finding(f'{name}: {in_words(found["trouble"])}', Row.EXCHANGE,
                          'journalctl -u goo-exchange -n 20; EXCHANGING.md, "What a run says"')
    written = state.get('written')
    if peers and written and is_long_ago(written):
        yield Finding(f'the exchange ran last at {written}', Row.EXCHANGE,
                      'systemctl status goo-exchange.timer; journalctl -u goo-exchange -n 20')


# -------------------------------------------------------------------- keys, users, nginx

def of_certificates() -> Iterator[Finding]:
    for held in certificates.list_certificates(ETC):
        left = certificates.days_left(held.path)
        if left is None:
            yield Finding(f'{held.path} cannot be read', Row.CERTIFICATE, held.remedy)
        elif left <= EXPIRES_SOON:
            end = f'ends in {left} days' if left >= 0 else 'has ended'
            yield Finding(f'the certificate {held.path} {end}', Row.CERTIFICATE, held.remedy)
    chain, name = ETC / 'tls/cert.pem', certificates.name_of_host(ETC)
    if name and not certificates.is_for(chain, name):
        yield Finding(f'{chain} is not for {name}', Row.CERTIFICATE,
                      f'{ETC}/host.conf has the name that it has to be for')


KEYS = ('tls/key.pem', 'exchange.key', 'replica.key')


def of_keys() -> Iterator[Finding]:
    for path in (ETC / name for name in KEYS):
        if not path.exists():
            yield Finding(f'{path} is not there', Row.KEY,
                          'put the kept one there; a new one is made by goo-setup, and then the '
                          'log or the peers do not know it')
    for path in (ETC / name for name in (*KEYS, 'code.key', 'documents.key')):
        if path.exists() and path.stat().st_mode & 0o077:
            yield Finding(f'{path} can be read by others than its owner', Row.KEY,
                          f'chmod 400 {path}')


def of_users() -> Iterator[Finding]:
    """The file of people, or the lists where there is none."""
    yield from of_people() if has_people() else of_lists()


def of_people() -> Iterator[Finding]:
    """What the file's own user finds wrong with it."""
    try:
        done = subprocess.run(['/usr/bin/goo-people', 'check'], capture_output=True, text=True,
                              check=False, timeout=PATIENCE)
    except subprocess.TimeoutExpired:
        yield Finding('goo-people check takes too long', Row.PEOPLE, 'goo-people check')
        return
    if done.returncode:
        for line in (done.stdout + done.stderr).splitlines()[:LINES]:
            yield Finding(line, Row.PEOPLE, 'goo-people restore COPY/people.db')
    else:
        yield from of_mails()


def of_mails() -> Iterator[Finding]:
    """Mails that were given up, or that have waited too long."""
    try:
        done = subprocess.run(['/usr/bin/goo-people-post', '--check'], capture_output=True,
                              text=True, check=False, timeout=PATIENCE)
    except subprocess.TimeoutExpired:
        yield Finding('goo-people-post --check takes too long', Row.MAIL,
                      'goo-people-post --check')
        return
    for line in (done.stdout + done.stderr).splitlines()[:LINES] if done.returncode else ():
        yield Finding(line, Row.MAIL, 'journalctl -u goo-people-post -n 20')


def of_lists() -> Iterator[Finding]:
    with tempfile.TemporaryDirectory() as place:
        words = ['goo-callers', '--map', f'{place}/map']
        done = subprocess.run(words, capture_output=True, text=True, check=False)
    for line in done.stderr.splitlines():
        yield Finding(line, Row.USERS, f'{ETC}/callers and {ETC}/users; then goo-callers --reload')


def of_front_door() -> Iterator[Finding]:
    if not is_active('nginx'):
        yield Finding('nginx is not running', Row.NGINX,
                      'systemctl status nginx; systemctl start nginx')
    if subprocess.run(['nginx', '-t', '-q'], capture_output=True, check=False).returncode:
        yield Finding('nginx refuses its configuration', Row.NGINX, 'nginx -t')
    if output_of('timedatectl', 'show', '--property', 'NTPSynchronized', '--value') == 'no':
        yield Finding("the host's clock is not set by the network", Row.DATE,
                      'apt-get install systemd-timesyncd, or chrony')


def doctor() -> int:
    found = list(findings())
    for finding in found:
        print(finding.text())
    print('all is well' if not found else f'{len(found)} to look at')
    return 1 if found else 0
