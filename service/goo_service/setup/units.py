"""Tells which units of the registry do not stay up. Run by goo-units.timer each minute.

usage: goo-units [--noted FILE]

A unit that systemd starts again without end never fails for systemd, so the OnFailure= of that unit
tells nobody. This program looks at each service that stays up, at nginx, and at each socket:

  a unit that has failed        systemd does not start it again
  a unit that waits to start    it ended, and systemd starts it again
  a unit that was started again three times since the last look

FILE keeps how often each unit was started again; without it the last line is left out.

Exit status 0: all stay up. 1: a unit does not, and each one is told in a line.
"""
import argparse
import json
import pathlib
import subprocess
import sys
from dataclasses import dataclass

OFTEN = 3
"""Starts between two looks from which on a unit is told. A single crash is in the journal."""
PATTERNS = ('goo*.service', 'goo*.socket', 'nginx.service')
PROPERTIES = ('Id', 'Type', 'ActiveState', 'SubState', 'Result', 'NRestarts')


@dataclass(frozen=True)
class Unit:
    """What systemd says of one unit."""
    name: str
    kind: str
    state: str
    within: str
    result: str
    restarts: int

    def fault(self, before: int) -> str:
        """What is wrong with this unit, by how often it was started again up to the last look."""
        if self.kind == 'oneshot':      # such a unit tells of its failure by OnFailure=
            return ''
        if self.state == 'failed':
            return f'{self.name} has failed ({self.result}) and is not started again'
        if self.within == 'auto-restart':
            return f'{self.name} has ended ({self.result}) and is started again and again'
        if self.restarts - before >= OFTEN:
            return f'{self.name} was started again {self.restarts - before} times'
        return ''


def units_in(text: str) -> list[Unit]:
    """The units in what `systemctl show` prints: blocks of NAME=VALUE with empty lines between."""
    found = []
    for block in text.strip().split('\n\n'):
        said = dict(line.split('=', 1) for line in block.splitlines() if '=' in line)
        if 'Id' in said:
            found.append(Unit(said['Id'], said.get('Type', ''), said.get('ActiveState', ''),
                              said.get('SubState', ''), said.get('Result', ''),
                              int(said.get('NRestarts') or 0)))
    return found


def faults(units: list[Unit], before: dict[str, int]) -> list[str]:
    """What is wrong, a line for each unit. A unit that nobody has seen before has no count yet."""
    lines = (unit.fault(min(before.get(unit.name, unit.restarts), unit.restarts)) for unit in units)
    return [line for line in lines if line]


def read_units() -> str:
    """What systemd says of the units that it has loaded."""
    words = ['systemctl', 'show', f'--property={",".join(PROPERTIES)}', '--', *PATTERNS]
    return subprocess.run(words, capture_output=True, text=True, check=True, timeout=60).stdout


def read_restarts(path: pathlib.Path | None) -> dict[str, int]:
    """How often each unit was started again up to the last look; nothing where nobody has looked.
    """
    try:
        found = json.loads(path.read_text(encoding='utf-8')) if path else {}
    except (OSError, ValueError):
        return {}
    return {name: int(count) for name, count in found.items()}


def main() -> int:
    parser = argparse.ArgumentParser(prog='goo-units', description=__doc__,
                                     formatter_class=argparse.RawDescriptionHelpFormatter)
    parser.add_argument('--noted', type=pathlib.Path, metavar='FILE',
                        help='keeps how often each unit was started again')
    given = parser.parse_args()
    try:
        units = units_in(read_units())
    except (OSError, subprocess.SubprocessError) as fault:
        print(f'units: systemd does not say what runs: {fault}', file=sys.stderr)
        return 1
    found = faults(units, read_restarts(given.noted))
    if given.noted:
        counts = {unit.name: unit.restarts for unit in units}
        given.noted.write_text(json.dumps(counts), encoding='utf-8')
    for line in found:
        print(line, file=sys.stderr)
    return 1 if found else 0


if __name__ == '__main__':
    sys.exit(main())
