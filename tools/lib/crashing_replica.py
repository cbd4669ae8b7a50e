"""goo-replica that ends between the registry's commit and the record of an entry.

usage: crashing_replica.py FILE WORDS OF goo-replica

It does so once at each third entry: FILE has the last one at which it did. GOO_SERVICE names the
service's modules.
"""
import os
import sys
from pathlib import Path

MARK = Path(sys.argv.pop(1))
sys.dont_write_bytecode = True
sys.path.insert(0, os.environ.get('GOO_SERVICE', str(Path(__file__).resolve().parents[2] / 'service')))
from goo_service.log import apply
from goo_service.log import replica
from goo_service.log.entries import Entry
from goo_service.log.registry import Answer

FINISH = apply.Applier.finish


def crash(applier: apply.Applier, line: bytes, entry: Entry, hashed: str, answer: Answer) -> None:
    """In place of what follows once the registry has decided an entry."""
    if entry.n % 3 == 0 and (not MARK.exists() or MARK.read_text() != str(entry.n)):
        MARK.write_text(str(entry.n))
        os._exit(9)
    FINISH(applier, line, entry, hashed, answer)


apply.Applier.finish = crash
if __name__ == '__main__':
    sys.exit(replica.main())
