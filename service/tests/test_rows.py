"""One digest over a registry's file: of all values, wherever SQLite has put the rows."""
import contextlib
import sqlite3
import tempfile
from pathlib import Path

from goo_service.copies import rows
from hypothesis import given
from hypothesis import settings
from hypothesis import strategies

VALUES = strategies.dictionaries(strategies.text('abcXYZ', min_size=1, max_size=4),
                                 strategies.integers(-2**40, 2**40) | strategies.text(max_size=5),
                                 min_size=1, max_size=8)


def digest_of(file: Path, rows_of: list[tuple[str, int | str]]) -> str:
    """The digest of a table whose key is no number: its rows lie as they came."""
    file.unlink(missing_ok=True)
    with contextlib.closing(sqlite3.connect(file)) as made:
        made.execute('CREATE TABLE t (code TEXT PRIMARY KEY, value)')
        made.executemany('INSERT INTO t VALUES (?, ?)', rows_of)
        made.commit()
    return rows.digest(file)


@settings(max_examples=50, deadline=None)
@given(values=VALUES, data=strategies.data())
def test_a_digest_is_of_values(values: dict[str, int | str], data: strategies.DataObject) -> None:
    with tempfile.TemporaryDirectory(dir='/dev/shm') as folder:
        file = Path(folder) / 'made.db'
        whole = digest_of(file, list(values.items()))
        assert digest_of(file, data.draw(strategies.permutations(list(values.items())))) == whole
        name = data.draw(strategies.sampled_from(sorted(values)))
        assert digest_of(file, list((values | {name: 2**41}).items())) != whole
        assert digest_of(file, [one for one in values.items() if one[0] != name]) != whole
