"""Small migrations for the tests of goo-migrate: tables that are checked, planned and rehearsed."""
import shutil
from pathlib import Path

import old_registry
from goo_service.migrate import check
from goo_service.migrate import plan
from goo_service.migrate import rehearsal
from goo_service.migrate import settings
from goo_service.migrate import work
from goo_service.migrate.settings import Settings
from programs import find_registry

GOO = str(Path(find_registry()).resolve())
ASSIGNED = old_registry.SETTINGS + '[numbers]\nform = "assigned"\npattern = "08([0-9]{12})"\n'


def checked(folder: Path, text: str = old_registry.SETTINGS) -> tuple[Settings, check.Judgement]:
    """The settings and the judgement of a folder, whose settings are this text."""
    (folder / 'migration.toml').write_text(text, encoding='utf-8')
    read = settings.read(folder)
    return read, check.check(folder, read)


def names_in(folder: Path) -> set[str]:
    """The names of all faults that the last check has found."""
    with work.opened(folder) as database:
        return {' '.join(map(str, row)) for row
                in database.execute('SELECT kind, source, row FROM fault')}


def planned(folder: Path, seed: int, size: old_registry.Size = old_registry.Size(),
            text: str = old_registry.SETTINGS) -> Settings:
    """An old registry whose tables are checked and planned."""
    old_registry.write(folder, seed, size)
    read, _ = checked(folder, text)
    plan.write(folder, read)
    return read


def rehearsed(folder: Path, read: Settings) -> list[str]:
    """The differences that a rehearsal finds."""
    return rehearsal.rehearse(folder, read, GOO, print).comparison.differences


def copied(place: Path, into: Path) -> Path:
    return Path(shutil.copytree(place, into / 'copied'))
