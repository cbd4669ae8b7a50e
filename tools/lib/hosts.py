"""Runs a file of service/tests/hosts, under a systemd of its own with packages at its /mnt.

As a program it is the inside of that: `hosts.py TOOL FILE [WORDS OF pytest]`. The first failure of a
file may bring others, so a file that failed is not tried again by single tests.
"""
import os
import subprocess
import sys
import tempfile
from collections.abc import Callable
from collections.abc import Sequence
from pathlib import Path

sys.dont_write_bytecode = True
import own_systemd
import suite
from programs import need
from tally import COUNTS
from tally import Tally

INSIDE = '/trial/tools/lib/hosts.py'
PATIENCE = 900


def carry_out(tool: str, host: str, folder: Path, words: Sequence[str], tally: Tally) -> None:
    """A host from its start to its end; its counts are added."""
    (folder / 'out').mkdir(parents=True)
    for package in folder.parent.glob('*.deb'):
        os.link(package, folder / 'out' / package.name)
    file = f'/trial/service/tests/hosts/test_{host}.py'
    text = own_systemd.output(folder, ['/usr/bin/python3', '-B', INSIDE, tool, file, *words],
                              PATIENCE)
    found = COUNTS.fullmatch(text.rstrip('\n').rpartition('\n')[2])
    if not found:
        tally.check(f'the tests of the host {host}, to their end', False, text[-600:])
        return
    tally.passed, tally.failed = tally.passed + int(found[1]), tally.failed + int(found[2])


def run(tool: str, hosts: Sequence[str], make_packages: Callable[[Path], None],
        words: Sequence[str]) -> None:
    """Tries hosts one after another, each by the file of its name, and ends the tool.

    `make_packages` puts the packages of all of them into a folder.
    """
    tally = Tally()
    need(ip='iproute2', unshare='util-linux', systemctl='systemd', dh='debhelper', strip='binutils')
    with tempfile.TemporaryDirectory(prefix=f'goo-{tool}-') as name:
        if not own_systemd.may_be_had(Path(name)):
            tally.skip('all of it', 'the right to mount (run as root)')
            tally.end()
        make_packages(Path(name))
        for host in hosts:
            carry_out(tool, host, Path(name, host), words, tally)
    tally.end()


def main() -> int:
    """Inside: the tests of a file in their order."""
    os.environ['GOO_ON_HOST'] = 'yes'
    subprocess.run(['ip', 'link', 'set', 'lo', 'up'], check=True)
    tool, file, *words = sys.argv[1:]
    return suite.run(tool, [file], ['--reruns=0', '--tb=short', '-v', *words])


if __name__ == '__main__':
    sys.exit(main())
