"""Wrong copies of a registry: statements of SQL, and what a recount has to tell BROKEN for each.

The registry is that of recounted.EACH_COMMAND. For each line that a recount prints there is at
least one copy that breaks it.
"""
from recounted import GASSY
from recounted import SUNNY
from recounted import WINDY
from recounted import own

AUDIT = 'the audit is the same by the queries and the requests'
LOT = "(SELECT id FROM lot WHERE device = '{}' AND first_day = '2025-01-01')"
FILLED = {'SUNNY': SUNNY, 'GASSY': GASSY, 'WINDY': WINDY, 'SUNNY_JANUARY': LOT.format(SUNNY),
          'GASSY_JANUARY': LOT.format(GASSY), 'OWN29': own(29), 'OWN28': own(28),
          'OWN100': own(100), 'OWN10': own(10)}
Wrong = tuple[str, ...]
"""A statement, with names of FILLED in brackets, and the lines that it breaks."""
WRONG: dict[str, Wrong] = {
    'a carry one Wh too high': (
        "UPDATE device SET carry = carry + 1 WHERE gsrn = '{SUNNY}'", 'the energy of each device',
        'table device', AUDIT),
    'a certificate of one lot taken for one of the next': (
        'UPDATE piece SET last = last - 1 WHERE last = 7000000001210; UPDATE piece SET first = '
        'first - 1 WHERE first = 7000000001211', 'what each declaration issued', 'table piece'),
    'the same of a corrected device': (
        'UPDATE piece SET lot = {SUNNY_JANUARY} WHERE first = 7000000001216',
        'what each declaration of a corrected device issued', 'table piece'),
    'another site in a lot': (
        "UPDATE lot SET site = 'South field' WHERE origin = 7 AND device = '{SUNNY}'",
        'what was issued was declared, over before it was issued, and made by that device',
        'table lot'),
    'issued before the period was over': (
        "UPDATE lot SET issued_on = '2025-01-31' WHERE id = {SUNNY_JANUARY}",
        'what was issued was declared, over before it was issued, and made by that device',
        'table lot'),
    'a period that reaches into the next': (
        "UPDATE declaration SET last_day = '2025-02-01' WHERE device = '{SUNNY}' AND first_day = "
        "'2025-01-01'", 'no day is declared twice by a device, and each period lies in one month',
        'table declaration'),
    'a device that can make less': (
        "UPDATE device SET capacity_w = 1000 WHERE gsrn = '{WINDY}'",
        'each declaration is of a device that had been commissioned and could make so much',
        'table device'),
    'another last day': (
        "UPDATE device SET last_day = '2026-07-30' WHERE gsrn = '{SUNNY}'",
        'the last day that a device declared is the one that it keeps', 'table device'),
    'more taken off than was declared': (
        'UPDATE correction SET less = 2000000000 WHERE id = 1',
        'each correction lowers a declaration, none of which is lowered by more than its net '
        'energy', 'what is corrected in the table is what the kept requests correct',
        'table correction'),
    'a correction of another device': (
        "UPDATE correction SET device = '{WINDY}' WHERE id = 1",
        'what a correction withdrew was issued here for its device', 'table correction'),
    'a correction whose withdrawal is not there': (
        'UPDATE correction SET withdrawal = 99 WHERE id = 1',
        'a correction that withdrew something has a withdrawal of its own', 'table correction'),
    'an answer that tells fewer withdrawn': (
        'UPDATE receipt SET n2 = 2 WHERE kind = 10 AND n2 = 3',
        'a correction was answered with as many certificates as its withdrawal took',
        'each was answered as it is answered here'),
    'a certificate in two rows': (
        'UPDATE piece SET last = last + 1 WHERE first = 7000000000001',
        'no number in two rows, no row backwards or across two codes', 'table piece'),
    'certificates that are in no row': (
        'DELETE FROM piece WHERE first = 7000000000100',
        'no own number missing between the first and the last that were issued',
        'the energy of each device', 'table piece', AUDIT),
    'a serial passed over': (
        'UPDATE meta SET next_serial = next_serial + 1',
        'the last own number is the one before the next serial', 'table meta'),
    'an own certificate with a foreign lot': (
        'UPDATE piece SET lot = (SELECT id FROM lot WHERE origin = 9) WHERE first = 7000000000100',
        'each row has a lot of the code of its numbers', 'table piece'),
    'a carrier of no device': (
        "INSERT INTO device_carrier VALUES ('500000000000000043', 'gas')",
        'each carrier that is kept of a device is of one that is there, and is not electricity'),
    'a carrier of no lot': (
        "INSERT INTO lot_carrier VALUES (99, 'gas')",
        'each carrier that is kept of a lot is of one that is there, and is not electricity'),
    'certificates of gas that say electricity': (
        'DELETE FROM lot_carrier WHERE lot = {GASSY_JANUARY}',
        "each lot issued here has its device's carrier", 'table lot',
        'each lot of a notice that was sent or taken in has the carrier that the notice states'),
    "another carrier than the notice's": (
        "DELETE FROM lot_carrier WHERE carrier = 'hydrogen'",
        'each lot of a notice that was sent or taken in has the carrier that the notice states',
        'table lot'),
    'an account of nobody': (
        "UPDATE account SET holder = 'NOBODY' WHERE number = 3",
        'each account has its holder, and each device, cancellation and notice its account',
        'table account'),
    'a holder in a closed account': (
        'UPDATE account SET closed = 1 WHERE number = 2',
        "no account that isn't there has a certificate, and a closed one holds none",
        'table account'),
    'certificates of no account': (
        'UPDATE piece SET account = 77 WHERE first = 7000000000100',
        "no account that isn't there has a certificate, and a closed one holds none",
        'table piece'),
    'held past the day': (
        'UPDATE piece SET kind = 1 WHERE kind = 3',
        'nothing is held past its day, and nothing has expired before it', 'table piece'),
    'a cancellation of one more': (
        'UPDATE cancellation SET last = last + 1',
        'a cancellation covers just the certificates of its range, from its account',
        'table cancellation'),
    'a withdrawal of one more': (
        'UPDATE withdrawal SET last = last + 1 WHERE number = 1',
        'a withdrawal covers just the certificates of its range', 'table withdrawal'),
    'exported with no notice': (
        'UPDATE piece SET act = 88 WHERE kind = 5 AND act = 1',
        'each cancelled, withdrawn or exported row has its act',
        'what is exported stands on the notice of its act', 'table piece'),
    'an account number passed over': (
        'UPDATE meta SET next_account = next_account + 1',
        'accounts and acts are numbered without a gap', 'table meta'),
    'a notice of other numbers': (
        "UPDATE notice_out SET body = replace(body, '{OWN29}', '{OWN28}')",
        'what is exported stands on the notice of its act', 'table notice_out'),
    'more declared than was asked': (
        'UPDATE declaration SET gross = gross + 1 WHERE id = 1',
        'what is declared in the table is what the kept requests declare',
        'the energy of each device', 'table declaration', AUDIT),
    'certificates that changed hands by nobody': (
        'UPDATE piece SET account = 2 WHERE first = 7000000000303', 'table piece'),
    'a cancellation undone': (
        'UPDATE piece SET kind = 3, act = 0 WHERE kind = 2', 'table piece',
        'a cancellation covers just the certificates of its range, from its account'),
    'a holder of another name': (
        "UPDATE holder SET name = 'Sun'", 'table holder'),
    'a beneficiary of another name': (
        "UPDATE cancellation SET beneficiary = 'Bäckerei Maier'", 'table cancellation'),
    'a peer that nobody added': (
        'INSERT INTO peer VALUES (11)', 'table peer'),
    'a notice taken in that says otherwise': (
        "UPDATE notice_in SET body = replace(body, 'North', 'South')", 'table notice_in'),
    'declarations in another order': (
        'UPDATE declaration SET id = 99 WHERE id = 1', 'table declaration'),
    'a request that was lost': (
        "DELETE FROM receipt WHERE CAST(command AS TEXT) LIKE '%close_account%'",
        'no request is missing between two others'),
    'a request whose check fails': (
        "UPDATE receipt SET command = CAST(replace(CAST(command AS TEXT), '{OWN100}', '{OWN10}') "
        'AS BLOB) WHERE kind = 4', 'each passes all its checks'),
    'a request that is no text of its command': (
        "UPDATE receipt SET command = CAST(replace(CAST(command AS TEXT), ':', ': ') AS BLOB) "
        'WHERE kind = 9', 'each is kept in the one text of its command'),
    'a trigger that waits': (
        'CREATE TRIGGER waits AFTER INSERT ON piece BEGIN DELETE FROM peer; END',
        'the file has the tables and indexes of a registry, and nothing else'),
    'a row cut in two': (
        'INSERT INTO piece SELECT 7000000000400, last, lot, kind, account, act FROM piece WHERE '
        'first = 7000000000303; UPDATE piece SET last = 7000000000399 WHERE first = 7000000000303',
        'each row is a longest run: the next one is of another lot or place, or not next to it'),
    'a member too many': (
        "UPDATE receipt SET command = CAST(replace(CAST(command AS TEXT), '}}', ',\"zz\":1}}') AS "
        'BLOB) WHERE kind = 4', 'each passes all its checks'),
    'an account of another number': (
        'UPDATE account SET number = 7 WHERE number = 3',
        'accounts and acts are numbered without a gap', 'table account'),
    'an index that is not of its table': (
        'UPDATE piece SET account = 2 WHERE first = 7000000000303; PRAGMA writable_schema = ON; '
        "CREATE TEMP TABLE kept AS SELECT * FROM sqlite_master WHERE name = 'piece_by_account'; "
        "DELETE FROM sqlite_master WHERE name = 'piece_by_account'; PRAGMA writable_schema = "
        'RESET; UPDATE piece SET account = 1 WHERE first = 7000000000303; PRAGMA writable_schema '
        '= ON; INSERT INTO sqlite_master SELECT * FROM kept; PRAGMA writable_schema = RESET',
        'SQLite finds the file in order'),
    'an answer of another number': (
        'UPDATE receipt SET n1 = 101 WHERE kind = 4 AND n1 = 100',
        'each was answered as it is answered here'),
}
"""By what is wrong."""
