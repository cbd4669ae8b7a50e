"""A host with the package of an earlier layout and a registry that was traded on: it gets the new
package, the earlier one again, and the new one.
"""
import os
import re
import shutil
from pathlib import Path
from typing import Any

import pytest
from host import ARCHIVE
from host import ETC
from host import NEW
from host import OLD
from host import add_user
from host import at_door
from host import comes
from host import copies
from host import failed
from host import files_of_package
from host import holder
from host import install
from host import is_well
from host import journal
from host import last_entry
from host import outcome
from host import run
from host import set_up
from host import shown
from host import start

KEPT = ('users', 'callers', 'exchange.conf', 'exchange.key', 'replica.key', 'records.conf')


def test_an_earlier_package_with_a_registry_users_and_a_copy() -> None:
    done = install(OLD), set_up()
    assert [one.returncode for one in done] == [0, 0] and is_well(), done
    assert outcome(holder('sun')) == 'accepted'
    assert outcome({'command': 'open_account', 'key': 'a1', 'holder': 'SUN'}) == 'accepted'
    assert add_user('anna', 'SUN').returncode == 0
    assert comes(lambda: at_door('anna', '/v1/accounts/1/statement')[0] == '200')
    assert start('goo-backup') and len(copies()) == 2, journal('goo-backup')
    assert outcome(holder('since')) == 'accepted'


def kept() -> dict[str, Any]:
    """What an upgrade has to keep."""
    records = at_door('anna', '/records/v1/holders')[1]
    return {'statement': at_door('anna', '/v1/accounts/1/statement'),
            'records': re.findall(r'"items":\[(.*)\]', records),
            'files': [(ETC / name).read_bytes() for name in KEPT]}


def archived() -> int:
    """How many entries the archive has."""
    return sum(len(path.read_bytes().splitlines()) for path in ARCHIVE.glob('*.jsonl'))


def links_to_nowhere() -> list[str]:
    return [str(path) for folder in ('/etc/systemd/system', '/etc/nginx')
            for path in Path(folder).rglob('*') if path.is_symlink() and not path.exists()]


def goes_on(key: str, package: str) -> None:
    """Another package over this one: all is kept, and requests are logged."""
    before, entries, made = kept(), archived(), copies()
    done = install(package)
    well = is_well()
    run('systemctl', 'start', 'goo-health', 'goo-units')    # either may have looked meanwhile
    assert done.returncode == 0 and well and not failed(), done
    assert comes(lambda: kept() == before), (kept(), before)    # the book of acts begins anew
    assert copies() == made
    assert [outcome(holder(name)) for name in ('sun', 'since')] == ['repeated', 'repeated']
    assert outcome(holder(key)) == 'accepted'
    assert key.upper() in last_entry() and archived() > entries
    done = run(shutil.which('goo-replica-log') or '/usr/lib/goo/replica-log', 'verify')
    assert done.returncode == 0, done
    assert start('goo-backup'), journal('goo-backup')


@pytest.fixture(scope='module')
def earlier_files() -> list[Path]:
    """The files of the earlier package."""
    return []


def test_the_new_package_over_the_earlier_one(earlier_files: list[Path]) -> None:
    earlier_files += [path for path in files_of_package() if path.is_file()]
    goes_on('upgrade', NEW)


def test_no_file_of_the_earlier_package_is_left(earlier_files: list[Path]) -> None:
    names = set(files_of_package())
    here = {os.path.realpath(path) for path in names}
    assert earlier_files
    assert not [path for path in earlier_files
                if path.is_file() and os.path.realpath(path) not in here]
    assert not [path for path in Path('/usr/lib/goo').iterdir() if path not in names]


def test_each_file_of_the_new_package_is_there_as_it_was_packed() -> None:
    assert not run('dpkg', '--verify', 'goo').stdout
    assert not [path for path in files_of_package() if not path.exists()]
    assert not links_to_nowhere()


def test_systemd_has_read_the_new_units() -> None:
    units = ('goo', 'goo-replica', 'goo-door.socket', 'goo-backup')
    assert {shown(unit, 'NeedDaemonReload') for unit in units} == {'no'}


def test_back_to_the_earlier_package() -> None:
    """It has its log in front by drop-ins."""
    goes_on('downgrade', OLD)


def test_and_up_again() -> None:
    goes_on('again', NEW)
    assert not links_to_nowhere()
