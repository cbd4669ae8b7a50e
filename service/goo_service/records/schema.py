"""The tables of the book of acts, and connections to a book."""
import sqlite3
from pathlib import Path

from goo_service.records.folding import fold
from goo_service.rules.lots import LOT
from goo_service.rules.lots import PLANT

FORM = 8
"""Of these tables, and of what entries leave in them: it rises with each change of the tables, of
the rules or of the book. A book of another form is made anew, and nothing is read from it until
then."""


def columns_of(members: tuple[str, ...]) -> str:
    """Columns of a lot or a plant."""
    kinds = {'origin': 'INTEGER', 'capacity_w': 'INTEGER'}
    return ', '.join(f'{member} {kinds.get(member, "TEXT")}' for member in members)


TABLES = f'''
CREATE TABLE meta (
    id INTEGER PRIMARY KEY CHECK (id = 1), form INTEGER, beginning TEXT, code INTEGER, today TEXT,
    entry INTEGER, hash TEXT, time TEXT, serial INTEGER, account INTEGER, cancellation INTEGER,
    withdrawal INTEGER, notice INTEGER) STRICT;
CREATE TABLE act (
    id INTEGER PRIMARY KEY, entry INTEGER NOT NULL, line INTEGER NOT NULL, rows INTEGER NOT NULL,
    lines TEXT, time TEXT, user TEXT, role TEXT, way TEXT, confirmed TEXT, caller TEXT NOT NULL,
    day TEXT NOT NULL, kind TEXT NOT NULL, outcome TEXT NOT NULL, refusal TEXT, key TEXT,
    holder TEXT, giver INTEGER, taker INTEGER, device TEXT, peer INTEGER,
    number INTEGER, wh INTEGER, note TEXT, bundle INTEGER) STRICT;
CREATE INDEX act_by_key ON act (key);
CREATE TABLE seen (viewer TEXT, act INTEGER, PRIMARY KEY (viewer, act)) STRICT, WITHOUT ROWID;
CREATE TABLE touched (account INTEGER, act INTEGER, PRIMARY KEY (account, act))
    STRICT, WITHOUT ROWID;
CREATE TABLE moved (
    id INTEGER PRIMARY KEY, act INTEGER, first INTEGER, last INTEGER, lot INTEGER, to_lot INTEGER,
    kind INTEGER, account INTEGER, from_kind INTEGER, from_account INTEGER) STRICT;
CREATE VIRTUAL TABLE passed USING rtree_i32 (id, first, last, lot, to_lot);
CREATE TABLE lot (
    id INTEGER PRIMARY KEY, {columns_of(LOT)}, trade_until TEXT, expires_on TEXT,
    begin INTEGER, finish INTEGER, folded TEXT, UNIQUE (origin, device, first_day)) STRICT;
CREATE TABLE run (
    first INTEGER PRIMARY KEY, last INTEGER NOT NULL, lot INTEGER NOT NULL, kind INTEGER NOT NULL,
    account INTEGER NOT NULL, number INTEGER NOT NULL) STRICT;
CREATE TABLE holder (
    code TEXT PRIMARY KEY, name TEXT NOT NULL, act INTEGER NOT NULL, folded TEXT) STRICT;
CREATE TABLE account (
    number INTEGER PRIMARY KEY, holder TEXT NOT NULL, closed INTEGER NOT NULL,
    act INTEGER NOT NULL) STRICT;
CREATE INDEX account_by_holder ON account (holder);
CREATE TABLE device (
    gsrn TEXT PRIMARY KEY, account INTEGER, {columns_of(PLANT)}, carrier TEXT, last_day TEXT,
    carry_wh INTEGER, declared_wh INTEGER, corrected_wh INTEGER, issued INTEGER,
    withdrawn INTEGER, act INTEGER, folded TEXT) STRICT;
CREATE INDEX device_by_account ON device (account);
CREATE TABLE declaration (
    device TEXT, first_day TEXT, last_day TEXT, gross_wh INTEGER, aux_wh INTEGER,
    corrected_wh INTEGER, first INTEGER, last INTEGER, act INTEGER,
    PRIMARY KEY (device, first_day)) STRICT, WITHOUT ROWID;
CREATE TABLE correction (
    act INTEGER PRIMARY KEY, device TEXT, first_day TEXT, less_wh INTEGER,
    withdrawal INTEGER) STRICT;
CREATE TABLE cancellation (
    number INTEGER PRIMARY KEY, account INTEGER, first INTEGER, last INTEGER, beneficiary TEXT,
    use_first TEXT, use_last TEXT, day TEXT, act INTEGER, folded TEXT) STRICT;
CREATE INDEX cancellation_by_account ON cancellation (account);
CREATE TABLE withdrawal (
    number INTEGER PRIMARY KEY, first INTEGER, last INTEGER, reason TEXT, day TEXT,
    act INTEGER) STRICT;
CREATE TABLE peer (code INTEGER PRIMARY KEY, act INTEGER) STRICT;
CREATE TABLE notice (
    sent INTEGER, peer INTEGER, number INTEGER, account INTEGER, far_account INTEGER,
    count INTEGER, day TEXT, act INTEGER, PRIMARY KEY (sent, peer, number))
    STRICT, WITHOUT ROWID;
CREATE TABLE imported (
    sender INTEGER, number INTEGER, text TEXT, PRIMARY KEY (sender, number)) STRICT;
'''
"""`meta` has the entry up to which the book goes, and the next number of each kind there. No list
shows `imported`: it has the notices that the rules have to know again. `folded` is the name, the
site or the beneficiary of its row, as it is looked for and sorted (folding.py)."""
INDEXES = """
CREATE INDEX act_by_kind ON act (kind, id);
CREATE INDEX act_by_bundle ON act (bundle, id) WHERE bundle IS NOT NULL;
CREATE INDEX act_by_device ON act (device, id) WHERE device IS NOT NULL;
CREATE INDEX moved_by_act ON moved (act, first);
CREATE INDEX run_by_account ON run (account, kind, first);
CREATE INDEX declaration_by_act ON declaration (act);
CREATE INDEX notice_by_act ON notice (act);
CREATE INDEX holder_by_act ON holder (act);
CREATE INDEX holder_by_name ON holder (folded, code);
CREATE INDEX device_by_act ON device (act);
CREATE INDEX device_by_site ON device (folded, gsrn);
CREATE INDEX device_by_age ON device (commissioned, gsrn);
CREATE INDEX device_by_capacity ON device (capacity_w, gsrn);
CREATE INDEX cancellation_by_act ON cancellation (act);
CREATE INDEX cancellation_by_day ON cancellation (day, number);
CREATE INDEX cancellation_by_name ON cancellation (folded, number);
CREATE VIRTUAL TABLE word USING fts5 (
    text, content = '', detail = none, columnsize = 0, tokenize = 'trigram case_sensitive 1');
CREATE VIRTUAL TABLE letters USING fts5vocab (word, row);
CREATE VIRTUAL TABLE name USING fts5 (
    text, content = '', detail = none, columnsize = 0, tokenize = 'trigram case_sensitive 1');
"""
"""What only readers need. It is made at the end, from whole tables, which is quicker."""


CANCELLATION = ', '.join(f'cancellation.{name}' for name in (
    'number', 'account', 'first', 'last', 'beneficiary', 'use_first', 'use_last', 'day', 'act'))
"""The columns of a cancellation that are shown."""


def search_text(key: str) -> str:
    """The text in which an act is looked for, as SQL, with this as its key.

    Who may not see the key does not find the act by it.
    """
    parts = ("coalesce(act.note, '')", f"coalesce({key}, '')", "coalesce(act.device, '')",
             "coalesce(act.holder, '')")
    return " || ' ' || ".join(parts)


NAMES = {'holder': "holder.folded || ' ' || lower(holder.code)",
         'device': "device.folded || ' ' || device.gsrn", 'cancellation': 'cancellation.folded'}
"""The text in which a row of a table is looked for, folded, as SQL."""
INDEXED = (f'''INSERT INTO word (rowid, text)
    SELECT id, FOLD({search_text('act.key')} || char(10) || {search_text('NULL')}) || '  '
    FROM act WHERE id > ? ORDER BY id''',
           *(f'INSERT INTO name (rowid, text) SELECT act, {text} FROM {table} WHERE act > ? '
             'ORDER BY act' for table, text in NAMES.items()))
"""Adds the later acts to the indexes of texts: which acts have which three letters in a row, in the
text with the key or in the one without, and which of them made a row whose name has them. The
blanks at the end have each letter begin a three."""


class Mismatch(Exception):
    """The log is not what the rules or the book say. The text names the entry."""


def fold_text(text: str) -> str:
    """A text as it is looked for, without a NUL, to which FTS5 would read."""
    return fold(text.replace('\0', '\ufffd'))


def connect(path: Path, read_only: bool = False,
            factory: type[sqlite3.Connection] = sqlite3.Connection) -> sqlite3.Connection:
    """A connection to a book."""
    mode = 'ro' if read_only else 'rwc'
    database = sqlite3.connect(f'{path.resolve().as_uri()}?mode={mode}', uri=True,
                               isolation_level=None, timeout=30, factory=factory)
    database.row_factory = sqlite3.Row
    database.create_function('FOLD', 1, fold_text, deterministic=True)
    return database


def read_moment(path: Path,
                factory: type[sqlite3.Connection] = sqlite3.Connection) -> sqlite3.Connection:
    """A connection that reads one moment of a finished book."""
    database = connect(path, read_only=True, factory=factory)
    try:
        database.execute('BEGIN')
        form, = database.execute('SELECT form FROM meta').fetchone()
        if form != FORM:
            raise Mismatch(f'{path.resolve()} has form {form}, and this program reads form {FORM}: '
                           'goo-records.service makes it anew')
    except BaseException:
        database.close()
        raise
    return database
