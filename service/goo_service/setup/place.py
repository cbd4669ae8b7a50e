"""Prints the entry that the registry has applied last, the last of its log, and the next version.

The version is the one that applies the next entry. `goo-setup` runs this as the user who owns the
log, while the replica does not run.
"""
import pathlib
import sys

from goo_service.log import ends
from goo_service.log import entries
from goo_service.log.position import Place
from goo_service.log.store import Point
from goo_service.log.store import after


def end_of(log: pathlib.Path) -> Point | None:
    """The end of a log of files; None where there is none, as on each of three hosts."""
    for path in sorted(log.glob('*.jsonl'), reverse=True):
        line, _ = ends.last_of(path, lambda line: line if entries.read_entry(line) else None)
        if line:
            return after(entries.read_entry(line), line)
    return None


def main() -> int:
    state = pathlib.Path(sys.argv[1])
    try:
        place = Place(state / 'place')
        place.close()
        end = end_of(state / 'log')
        print(place.n, end.n if end else place.n, end.version if end else '')
    except (OSError, ValueError, entries.Broken) as fault:
        print(fault, file=sys.stderr)
        return 1
    return 0


if __name__ == '__main__':
    sys.exit(main())
