"""What runs on the host of a registry: nginx, the log of requests, the units."""
import re
import socket
import ssl

from goo_service.setup.common import COPIES
from goo_service.setup.common import DATABASE
from goo_service.setup.common import LED
from goo_service.setup.common import LOG
from goo_service.setup.common import NGINX
from goo_service.setup.common import REPLICA
from goo_service.setup.common import SHARE
from goo_service.setup.common import SYSTEMD
from goo_service.setup.common import Refused
from goo_service.setup.common import as_user
from goo_service.setup.common import is_active
from goo_service.setup.common import link
from goo_service.setup.common import read_meta
from goo_service.setup.common import report
from goo_service.setup.common import run
from goo_service.setup.common import units
from goo_service.setup.common import words_of_log
from goo_service.setup.common import write
from goo_service.setup.people_way import place_way
from goo_service.setup.registry import RECORDS
from goo_service.setup.registry import place_beginning

LINKS = {'nginx/main.conf': NGINX / 'modules-enabled/90-goo.conf',
         'nginx/nginx.service.conf': SYSTEMD / 'nginx.service.d/goo.conf'}
"""Files of the package that are linked, so that a new package brings new ones."""
CONNECTIONS = 16384
FORM_OF_META = r'\d{1,2} \d{4}-\d{2}-\d{2} \d{1,12}'


def with_connections(conf: str) -> str:
    """nginx.conf with room for this registry's visitors."""
    return re.sub(r'worker_connections \d+;', f'worker_connections {CONNECTIONS};', conf)


def place_nginx() -> bool:
    """Whether something is new in nginx's configuration."""
    done = [link(SHARE / name, target) for name, target in LINKS.items()]
    done.append(place_way())
    done.append(link(NGINX / 'sites-available/goo.conf', NGINX / 'sites-enabled/goo.conf'))
    main = NGINX / 'nginx.conf'
    text = main.read_text(encoding='utf-8')
    wanted = with_connections(text)
    if report(f'{main}: {CONNECTIONS} connections', wanted != text):
        write(main, wanted)
    default = NGINX / 'sites-enabled/default'
    if default.is_symlink():
        default.unlink()
    run('nginx', '-t', '-q')
    return any(done) or wanted != text


def has_placed_copy() -> bool:
    return any(COPIES.glob('*/place.json'))


def place_log() -> bool:
    """Begins the log, and makes the copy with which the nightly ones begin; the records of acts
    too, where the registry is older than its log."""
    listed = as_user('goo-replica', 'sh', '-c', 'ls "$1"/*.jsonl', 'sh', LOG / 'log')
    is_new = listed.returncode != 0
    if is_new or not has_placed_copy():
        run('systemctl', 'daemon-reload')
        run('systemctl', 'stop', *LED)
        if is_new:
            run(REPLICA, 'found')
        run(REPLICA, 'first-copy')
        if not RECORDS.exists():        # a registry by hand, without any request
            begun = read_meta(DATABASE, "code || ' ' || today || ' ' || next_serial", FORM_OF_META)
            place_beginning(begun)
    return report(f'{LOG}: the log of requests', is_new)


def start_units(are_timers: bool) -> None:
    """Starts the timers, or all other units.

    Timers look for what is wrong, so they come once the rest has been started.
    """
    run('systemctl', 'daemon-reload')
    later = ('--no-block',) if words_of_log() else ()   # etcd starts once a second host has joined
    for unit in units():
        if unit.endswith('.timer') == are_timers and report(unit, not is_active(unit)):
            run('systemctl', 'enable', unit)
            run('systemctl', 'start', *later, unit)


def front_door_answers(name: str) -> bool:
    """Whether nginx serves the registry's name: it may still have what it read before a set-up that
    was cut off."""
    context = ssl.create_default_context()
    context.check_hostname, context.verify_mode = False, ssl.CERT_NONE
    try:
        with (socket.create_connection(('127.0.0.1', 443), 20) as plain,
              context.wrap_socket(plain, server_hostname=name) as secure):
            secure.sendall(f'GET / HTTP/1.1\r\nHost: {name}\r\nConnection: close\r\n\r\n'.encode())
            return re.match(rb'HTTP/1.1 (200|401) ', secure.recv(64)) is not None
    except OSError:
        return False


def start_nginx(has_changed: bool, name: str) -> None:
    if has_changed or not is_active('nginx') or not front_door_answers(name):
        run('systemctl', 'enable', 'nginx')
        run('systemctl', 'restart', 'nginx')
        if not front_door_answers(name):
            raise Refused('nginx does not answer: journalctl -u nginx -n 20')
