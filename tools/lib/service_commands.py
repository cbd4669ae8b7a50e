"""The commands of the service, as an installed package has them: for trials and tests.

Each is a script in a folder of its own that runs one entry of service/pyproject.toml.
"""
import atexit
import functools
import shutil
import tempfile
import tomllib
from pathlib import Path

SERVICE = Path(__file__).resolve().parents[2] / 'service'
ETC, LIBEXEC = SERVICE / 'etc', SERVICE / 'libexec'
SCRIPT = '''#!/bin/sh
PYTHONDONTWRITEBYTECODE=1 PYTHONPATH={service} exec /usr/bin/python3 -P -m {module} "$@"
'''
INSTALLED = '''#!/usr/bin/python3
import sys
from {module} import main
sys.exit(main())
'''


def entries_of(service: Path) -> dict[str, str]:
    """The commands that the package has, each with its module."""
    with open(service / 'pyproject.toml', 'rb') as file:
        scripts = tomllib.load(file)['project']['scripts']
    return {name: entry.removesuffix(':main') for name, entry in scripts.items()}


def put_commands(service: Path, folder: Path) -> None:
    """A script for each command of the service, whose modules are below `service`."""
    for name, module in entries_of(service).items():
        script = folder / name
        script.write_text(SCRIPT.format(service=service, module=module), encoding='utf-8')
        script.chmod(0o755)


@functools.cache
def commands(service: Path = SERVICE) -> Path:
    """The folder with a script for each command. It goes as this process ends."""
    folder = Path(tempfile.mkdtemp(prefix='goo-commands-'))
    folder.chmod(0o755)                     # some run as other users
    atexit.register(shutil.rmtree, folder, ignore_errors=True)
    put_commands(service, folder)
    return folder


def command(words: str, service: Path = SERVICE) -> tuple[str, ...]:
    """The words that run a command, such as 'goo-copies recount'."""
    name, *rest = words.split()
    return str(commands(service) / name), *rest


def install(service: Path, root: Path) -> None:
    """Puts the modules and the commands below a root folder, where the package has them."""
    modules = root / 'usr/lib/python3/dist-packages/goo_service'
    shutil.copytree(service / 'goo_service', modules, dirs_exist_ok=True,
                    ignore=shutil.ignore_patterns('__pycache__'))
    for name, module in entries_of(service).items():
        script = root / 'usr/bin' / name
        script.write_text(INSTALLED.format(module=module), encoding='utf-8')
        script.chmod(0o755)
