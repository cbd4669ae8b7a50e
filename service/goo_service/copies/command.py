"""Copies of the registry: goes back to one, recounts or digests one, or rehearses a bundle on one.

usage: goo-copies restore | recount | digest | rehearse WORD ..

`goo-copies WORD --help` tells what each takes.
"""
import sys

from goo_service.copies import digest
from goo_service.copies import recount
from goo_service.copies import rehearse
from goo_service.copies import restore

COMMANDS = {'restore': restore.main, 'recount': recount.main, 'digest': digest.main,
            'rehearse': rehearse.main}


def main() -> int | None:
    words = sys.argv[1:]
    if words[:1] in (['-h'], ['--help']):
        print(__doc__)
        return 0
    if not words or words[0] not in COMMANDS:
        print(__doc__, file=sys.stderr)
        return 2
    sys.argv = [f'goo-copies {words[0]}', *words[1:]]
    return COMMANDS[words[0]]()


if __name__ == '__main__':
    sys.exit(main())
