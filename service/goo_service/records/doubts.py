"""Doubts about a table of declarations before it is sent, by what the book has of its devices; and
who has not declared a month. people/doubts.py has the rule."""
import datetime
import sqlite3
from collections.abc import Sequence

from goo_service.people import declarations
from goo_service.people import doubts as rule
from goo_service.people.doubts import Device
from goo_service.people.doubts import Doubt
from goo_service.people.doubts import Period
from goo_service.records.questions import BadQuestion
from goo_service.records.questions import Conditions
from goo_service.records.questions import Given
from goo_service.records.questions import Listed
from goo_service.records.questions import Row
from goo_service.records.questions import Viewer
from goo_service.records.questions import fetch_page
from goo_service.records.questions import rows_of

MOST = 500
"""Doubts that are told; of more their number."""


def doubts(database: sqlite3.Connection, viewer: Viewer, _: Given, body: bytes) -> Row:
    """What a table comes to, and what is asked about it. A device that the viewer does not see is
    as one that nobody knows."""
    records, faults = declarations.read(body.decode('utf-8', 'replace'))
    if faults:
        place = declarations.place_of(records, faults[0])
        raise BadQuestion(f'{len(faults):,} faults in the table, the first one: {place}: '
                          f'{faults[0].reason}')
    rows = rule.rows_of(records)
    begun: dict[str, str] = {}
    for row in rows:
        begun.setdefault(row.device, row.period.first_day)
    known = {gsrn: device for gsrn, day in begun.items()
             if (device := device_of(database, viewer, gsrn, day))}
    found = rule.energy_of(rows, known)
    return {'rows': found.rows, 'devices': found.devices, 'net_wh': found.net_wh,
            'load_factor': None if found.factor is None else float(found.factor),
            'doubts': [render_doubt(doubt, records) for doubt in found.doubts[:MOST]],
            'more': max(0, len(found.doubts) - MOST)}


def render_doubt(doubt: Doubt, records: Sequence[Sequence[str]]) -> Row:
    """A doubt with the key and the device of its row."""
    key, device = records[doubt.row - 1][:2] if doubt.row else (None, None)
    return {'row': doubt.row, 'key': key, 'device': device, 'kind': doubt.kind,
            'factor': float(doubt.factor), 'usual': float(doubt.usual), 'rows': doubt.rows,
            'text': rule.text_of(doubt)}


def device_of(database: sqlite3.Connection, viewer: Viewer, gsrn: str, day: str) -> Device | None:
    """A device with its last periods before a day."""
    condition, values = viewer.of_accounts('device.account')
    found = rows_of(database, f'''SELECT capacity_w, tech FROM device
                                  WHERE gsrn = ? AND {condition}''', (gsrn, *values))
    if not found:
        return None
    periods = rows_of(database, '''
        SELECT first_day, last_day, gross_wh - aux_wh - corrected_wh AS net_wh FROM declaration
        WHERE device = ? AND first_day < ? ORDER BY first_day DESC LIMIT ?''',
                      (gsrn, day, rule.LAST))
    return Device(found[0]['capacity_w'], found[0]['tech'],
                  tuple(Period(**period) for period in periods))


# -------------------------------------------------------------------- who has not declared

def month_of(given: Given, today: str) -> tuple[str, str]:
    """First and last day of the month that is asked about: without a word the last one that is
    over."""
    text = given.get('month') or (datetime.date.fromisoformat(today).replace(day=1)
                                  - datetime.timedelta(1)).isoformat()[:7]
    try:
        first = datetime.date.fromisoformat(f'{text}-01')
    except ValueError as fault:
        raise BadQuestion(f'month is {text!r}, and not a month as 2025-03') from fault
    following = (first + datetime.timedelta(31)).replace(day=1)
    return first.isoformat(), (following - datetime.timedelta(1)).isoformat()


def undeclared_months(database: sqlite3.Connection, viewer: Viewer, given: Given) -> Listed:
    """Devices that have not declared a month to its end, each with the days that it has declared of
    it. Where it has declared a later day, it can no more."""
    today, = database.execute('SELECT today FROM meta').fetchone()
    first, last = month_of(given, today)
    conditions = Conditions(viewer.of_accounts('of.account'),
                            ('of.commissioned <= ?', (last,)), ('of.declared < of.days', ()))
    conditions.add_given({'account': 'of.account = ?'}, given)
    days = first[:7], last, first, last, first, last
    return fetch_page(given, database, f'''
        SELECT gsrn, site, account, holder, name, tech, capacity_w, commissioned, last_day,
               month, days, declared, last_day > ? AS shut_out
        FROM ({DAYS}) AS of WHERE {conditions.where} ORDER BY holder, site, gsrn''',
                      (last, *days, *conditions.values))


DAYS = '''
    SELECT device.*, account.holder, holder.name, ? AS month,
           CAST(julianday(?) - julianday(max(device.commissioned, ?)) AS INTEGER) + 1 AS days,
           (SELECT CAST(coalesce(sum(julianday(min(declaration.last_day, ?))
                                     - julianday(declaration.first_day) + 1), 0) AS INTEGER)
            FROM declaration WHERE declaration.device = device.gsrn
            AND declaration.first_day BETWEEN ? AND ?) AS declared
    FROM device JOIN account ON account.number = device.account
    JOIN holder ON holder.code = account.holder'''
"""Each device with the days of a month in which it was there, and those that it has declared."""
