"""How far a reader has read: kept in the transaction of what it made of that."""
import sqlite3


def place_of(db: sqlite3.Connection, reader: str) -> str | None:
    """None where it has read nothing yet."""
    found = db.execute('SELECT place FROM read_to WHERE reader = ?', (reader,)).fetchone()
    return None if found is None else str(found['place'])


def set_place(db: sqlite3.Connection, reader: str, place: str) -> None:
    db.execute('INSERT INTO read_to VALUES (?, ?) ON CONFLICT DO UPDATE SET place = excluded.place',
               (reader, place))
