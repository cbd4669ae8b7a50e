"""The host on which `goo-copies restore` works: its folders, its units, and the front door."""
import pathlib
import subprocess
import time

from goo_service.common.programs import words_of
from goo_service.copies import contents

COPIES = pathlib.Path('/var/backups/goo')
REGISTRY = pathlib.Path('/var/lib/goo')
EXCHANGE = pathlib.Path('/var/lib/goo-exchange')
CONFIGURATION = pathlib.Path('/etc/goo')
STATE = pathlib.Path('/var/lib/goo-replica')
"""The folder of the log: log, archive and place."""
KEY, WORDS = CONFIGURATION / 'replica.key', CONFIGURATION / 'replica.env'
CLOSED = pathlib.Path('/etc/systemd/system/goo-door.socket.d/closed.conf')
"""There while the front door is closed, also after a start of the host."""
CLOSES = ('# Written by restore: nginx is no member of this group. restore --open removes it.\n'
          '[Socket]\nSocketGroup=goo-agent\n')
DOOR = 'goo-door.socket'
REGISTRY_UNIT, REPLICA, RECORDS = 'goo.service', 'goo-replica.service', 'goo-records.service'
PEOPLE = ('goo-people-who.service', 'goo-people-web.service', 'goo-people-gate.service',
          'goo-people-post.service')
TIMERS = ('goo-advance.timer', 'goo-backup.timer', 'goo-exchange.timer')
RUNS = ('goo-advance.service', 'goo-backup.service', 'goo-exchange.service')
PATIENCE = 600
"""Seconds in which a registry that was started has to take requests."""


def show(text: str) -> None:
    print(text, flush=True)


def run(*words: object) -> str:
    """What a command prints that has to succeed."""
    texts = [str(word) for word in words]
    done = subprocess.run(texts, capture_output=True, text=True, check=False)
    if done.returncode:
        raise contents.Unfit(f'{" ".join(texts[:4])}: status {done.returncode} '
                             f'{done.stderr.strip()}')
    return done.stdout


def run_log(*words: object) -> str:
    """What goo-replica-log prints."""
    return run(*words_of('log.command'), *words)


def systemctl(*words: str) -> None:
    run('systemctl', *words)


def is_active(unit: str) -> bool:
    return subprocess.run(['systemctl', '--quiet', 'is-active', unit], check=False).returncode == 0


def is_enabled(unit: str) -> bool:
    return subprocess.run(['systemctl', '--quiet', 'is-enabled', unit], stderr=subprocess.DEVNULL,
                          check=False).returncode == 0


def is_one_of_three() -> bool:
    """Whether the log of this host is over etcd."""
    return WORDS.is_file() and '--etcd' in WORDS.read_text(encoding='utf-8')


def close_door() -> None:
    """Only the agent reaches the registry, not nginx."""
    systemctl('stop', DOOR)
    CLOSED.parent.mkdir(parents=True, exist_ok=True)
    CLOSED.write_text(CLOSES, encoding='utf-8')
    systemctl('daemon-reload')


def open_door() -> None:
    systemctl('stop', DOOR)
    CLOSED.unlink(missing_ok=True)
    systemctl('daemon-reload')
    systemctl('start', DOOR)


def stop_all(ran: list[str]) -> None:
    """Stops what could change the registry or the exchange's folder, and notes what ran of it."""
    ran += [timer for timer in TIMERS if is_active(timer)]
    systemctl('stop', *TIMERS)
    systemctl('stop', *RUNS)
    services = [REGISTRY_UNIT, REPLICA, *([RECORDS] if is_active(RECORDS) else [])]
    ran += [service for service in services if is_active(service)]
    systemctl('stop', *reversed(services))


def start_as_before(ran: list[str], was_closed: bool) -> None:
    """Starts what ran. A door that an earlier run has closed stays closed."""
    if was_closed:
        systemctl('start', DOOR)
    else:
        open_door()
    if ran:
        systemctl('start', *ran)


def start_again(ran: list[str], *units: str) -> None:
    """Starts what ran, or would at a start of the host: a run that was cut off has stopped it
    before."""
    if found := [unit for unit in units if unit in ran or is_enabled(unit)]:
        systemctl('start', *found)


def wait_for_log() -> str:
    """The replica has to take requests; what it says of its health."""
    end = time.monotonic() + PATIENCE
    while True:
        words = [*words_of('log.command'), 'health', '--room', '0']
        done = subprocess.run(words, capture_output=True, text=True, check=False)
        if done.returncode == 0:
            return done.stdout.strip()
        if time.monotonic() > end:
            why = (done.stdout or done.stderr).strip()
            raise contents.Unfit(f'the replica is not well: {why}. See journalctl -u {REPLICA}')
        time.sleep(1)
