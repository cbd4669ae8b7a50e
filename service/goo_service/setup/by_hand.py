"""A registry that was installed by hand: its units and files leave the way of the package.

A unit below /etc/systemd/system stands before the package's of the same name. So the files that
were installed by hand go aside, below ASIDE, as they are; the registry, users, copies and all of
/etc/goo stay. What the operator has added by `systemctl edit` stays too. Cut off, the same call
goes on.
"""
import pathlib
import re
import shutil
from dataclasses import dataclass

from goo_service.setup.common import ETC
from goo_service.setup.common import NGINX
from goo_service.setup.common import SYSTEMD
from goo_service.setup.common import Refused
from goo_service.setup.common import output_of
from goo_service.setup.common import report
from goo_service.setup.common import run
from goo_service.setup.common import units
from goo_service.setup.common import write

ASIDE = pathlib.Path('/var/backups/goo-by-hand')
ENABLED = ASIDE / 'enabled'
"""The units that the operator had enabled, until they are enabled again."""
PROGRAMS = pathlib.Path('/usr/lib/goo')
KEPT = ('goo.before', 'goo.refused')
"""Programs that goo-setup keeps beside the package's."""
UNIT = re.compile(r'goo(-[\w@-]+)?\.(service|socket|timer)')
DROP_IN = re.compile(r'goo(-[\w@-]+)?\.(service|socket|timer)\.d/(replica|alarm)\.conf')
"""Those that the package brings too.

A drop-in of another name is the operator's, or this host's.
"""
FRONT = NGINX / 'sites-enabled/goo.conf'
OTHERS = (SYSTEMD / 'nginx.service.d/goo.conf', NGINX / 'modules-enabled/90-goo.conf', FRONT)
BY_CERTIFICATE = re.compile(r'(?m)^\s*ssl_verify_client\s+(on|optional)\s*;')


@dataclass(frozen=True)
class Found:
    """What was installed by hand."""
    files: tuple[pathlib.Path, ...]

    def units(self) -> list[str]:
        """The units that can be stopped and enabled: all but forms of units."""
        return [path.name for path in self.files
                if UNIT.fullmatch(path.name) and '@' not in path.name]

    def stops(self) -> list[list[str]]:
        """What is stopped, in this order: a copy that is under way would start the registry again.
        """
        first = [name for name in self.units()
                 if name.endswith('.timer') or name == 'goo-backup.service']
        rest = [name for name in self.units() if name not in first]
        return [names for names in (first, rest) if names]


def is_own_file(path: pathlib.Path) -> bool:
    """Whether a file was put there: a link is the package's, or masks a unit."""
    return path.is_file() and not path.is_symlink()


def find_below(root: pathlib.Path, of_package: frozenset[pathlib.Path]) -> Found:
    """What was installed by hand below a root folder, where the package has these files."""
    def below(path: pathlib.Path) -> pathlib.Path:
        return root / path.relative_to('/')

    systemd = below(SYSTEMD)
    files = [path for path in systemd.glob('goo*') if UNIT.fullmatch(path.name)]
    files += [path for path in systemd.glob('goo*.d/*.conf')
              if DROP_IN.fullmatch(str(path.relative_to(systemd)))]
    files += map(below, OTHERS)
    if of_package:
        files += [path for path in below(PROGRAMS).rglob('*') if path.name not in KEPT
                  and pathlib.Path('/', path.relative_to(root)) not in of_package]
    return Found(tuple(sorted(filter(is_own_file, files))))


def files_of_package() -> frozenset[pathlib.Path]:
    """The files of the installed package; none where it is not known to dpkg."""
    return frozenset(map(pathlib.Path, output_of('dpkg-query', '--listfiles', 'goo').splitlines()))


def verify(found: Found) -> None:
    """Refuses where what goes aside lets people in who could not come in by the package's file."""
    ours = NGINX / 'sites-available/goo.conf'
    if (FRONT in found.files and BY_CERTIFICATE.search(FRONT.read_text(encoding='utf-8'))
            and not BY_CERTIFICATE.search(ours.read_text(encoding='utf-8'))):
        raise Refused(f'{FRONT} asks visitors for certificates, and {ours} does not: '
                      'carry your changes over to that file first')


def note_enabled(found: Found) -> None:
    """Notes which of the units the operator had enabled, behind what an earlier call has noted."""
    noted = ENABLED.read_text(encoding='ascii').split() if ENABLED.exists() else []
    now = [name for name in found.units()
           if output_of('systemctl', 'is-enabled', name) == 'enabled']
    write(ENABLED, '\n'.join([*dict.fromkeys([*noted, *now]), '']), 0o600)


def set_aside() -> bool:
    """Puts what was installed by hand aside; whether there was any.

    The registry is stopped then.
    """
    found = find_below(pathlib.Path('/'), files_of_package())
    if not found.files:
        return False
    verify(found)
    ASIDE.mkdir(mode=0o700, parents=True, exist_ok=True)
    note_enabled(found)
    for names in found.stops():
        run('systemctl', 'stop', *names)
    if found.units():
        run('systemctl', 'disable', *found.units())
    for path in found.files:
        kept = ASIDE / path.relative_to('/')
        kept.parent.mkdir(parents=True, exist_ok=True)
        shutil.move(path, kept)
    run('systemctl', 'daemon-reload')
    report(f'{ASIDE}: {len(found.files)} files that were installed by hand. If you had changed '
           f'one: systemctl edit UNIT, {NGINX}/sites-available/goo.conf and {ETC} are for changes '
           'of yours', True)
    return True


def enable_again() -> None:
    """Enables what the operator had enabled beside the units that each host has, such as the
    exchange."""
    if not ENABLED.exists():
        return
    for name in ENABLED.read_text(encoding='ascii').split():
        if name not in units() and output_of('systemctl', 'is-enabled', name) == 'disabled':
            run('systemctl', 'enable', '--now', name)
            report(name, True)
    ENABLED.unlink()
