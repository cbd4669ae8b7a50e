"""Which way users sign in on a host: by the files users and callers, or by goo-people.

/etc/goo/people.conf says it, for nginx: it takes in a file of the package, so that a new package
brings a new one. `goo-setup people on` begins the file of people with the users of today's files,
starts its services, and has nginx ask them. `goo-setup people off` has nginx ask the files again,
which have stayed as they were. `goo-setup people provider` has goo-people-web reach the provider of
OpenID Connect that /etc/goo/people-oidc.conf names; without that file it has no network.
"""
import pathlib

from goo_service.people import oidc_settings
from goo_service.setup.choices import PeopleWork
from goo_service.setup.common import ETC
from goo_service.setup.common import OF_PEOPLE
from goo_service.setup.common import SHARE
from goo_service.setup.common import SYSTEMD
from goo_service.setup.common import WAY
from goo_service.setup.common import Refused
from goo_service.setup.common import make_folder
from goo_service.setup.common import output_of
from goo_service.setup.common import report
from goo_service.setup.common import run
from goo_service.setup.common import text_of
from goo_service.setup.common import words_of_log
from goo_service.setup.common import write

BY_FILES, BY_PEOPLE = SHARE / 'nginx/people-file.conf', SHARE / 'nginx/people.conf'
FOLDER = pathlib.Path('/var/lib/goo-people')
COMMAND = '/usr/bin/goo-people'
WEB = 'goo-people-web.service'
TO_PROVIDER = SYSTEMD / f'{WEB}.d/oidc.conf'


def place_way() -> bool:
    """The files, where nothing was chosen yet. Whether it was written now."""
    is_new = not WAY.exists()
    if is_new:
        write(WAY, f'include {BY_FILES};\n')
    return report(WAY, is_new)


def people(work: PeopleWork) -> int:
    """Switches the way. Each step may be done again, and the switch itself is the last one."""
    works = {'on': lambda: turn_on(work), 'off': turn_off, 'provider': reach_provider}
    return works[work.do]()


def turn_on(work: PeopleWork) -> int:
    if words_of_log():
        raise Refused('goo-people is for a host that is alone: three hosts keep lists of users')
    make_folder(FOLDER, 0o700, 'goo-people')
    print(run(COMMAND, 'begin').strip())
    if text_of(ETC / 'callers').strip():
        until = ('--programs-until', work.programs_until) if work.programs_until else ()
        print(run(COMMAND, 'take-over', *until).strip())
    if work.officer:
        print(run(COMMAND, 'user', 'invite', work.officer, 'ISSUER', 'officer',
                  '--language', work.language).strip())
    elif ' ISSUER officer' not in run(COMMAND, 'list'):
        raise Refused('there is no officer of the issuing body yet: --officer MAIL invites one')
    run('systemctl', 'daemon-reload')
    for unit in units_there():
        run('systemctl', 'enable', '--now', unit)
    switch(BY_PEOPLE)
    print('users sign in by goo-people now; /etc/goo/users and /etc/goo/callers stay, for '
          'goo-setup people off')
    return 0


def turn_off() -> int:
    switch(BY_FILES)
    for unit in units_there():
        run('systemctl', 'disable', '--now', unit, unit.replace('.socket', '.service'))
    print(f'users sign in by the files again; {FOLDER} stays')
    return 0


def reach_provider() -> int:
    """Gives goo-people-web the network that a sign-in by a provider takes, or takes it away."""
    path = oidc_settings.FILE
    try:
        settings = oidc_settings.read_settings(path)
    except oidc_settings.Fault as fault:
        raise Refused(str(fault)) from fault
    if settings:
        write(TO_PROVIDER, text_of(SHARE / 'drop-ins/goo-people-web-oidc.conf'))
        print(f'users sign in by {settings.issuer}; at the provider the way back is '
              f'{settings.site}/people/v1/oidc/return')
    else:
        TO_PROVIDER.unlink(missing_ok=True)
        print(f'there is no {path}: nobody signs in by a provider')
    run('systemctl', 'daemon-reload')
    run('systemctl', 'try-restart', WEB)
    return 0


def units_there() -> list[str]:
    """Those of goo-people that the package has."""
    return [unit for unit in OF_PEOPLE if output_of('systemctl', 'cat', unit)]


def switch(way: pathlib.Path) -> None:
    """Has nginx ask another way. Where it refuses the configuration, all stays as it was."""
    before = text_of(WAY)
    write(WAY, f'include {way};\n')
    try:
        run('nginx', '-t', '-q')
        run('systemctl', 'reload-or-restart', 'nginx')
    except Refused:
        if before:
            write(WAY, before)
        raise
