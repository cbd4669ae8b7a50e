"""The protocol of a migration for the auditor: what went in, what was sent, what came out; signed.

protocol.json states hashes of the tables, the settings and the plan, the faults that were waived,
what was left out, the copy of the registry, the sums on both sides, and when it was written.
protocol.sig is its Ed25519 signature by the key of the issuing body, in base64. Sums and protocol
can be made again from the same files.
"""
import json
import time
from pathlib import Path
from typing import Any

from goo_service.common.files import write_whole
from goo_service.exchange.signature import Key
from goo_service.exchange.signature import is_signed
from goo_service.migrate import left_out
from goo_service.migrate import plan
from goo_service.migrate import sending
from goo_service.migrate import settings as settings_of
from goo_service.migrate import tables
from goo_service.migrate import work
from goo_service.migrate.settings import Settings
from goo_service.migrate.sums import HELD_NAME as HELD
from goo_service.migrate.sums import STATED_NAME as STATED
from goo_service.migrate.sums import Comparison
from goo_service.migrate.sums import Sums

NAME, SIGNATURE = 'protocol.json', 'protocol.sig'
LISTS = (plan.NUMBERS, plan.CARRIED, plan.ACCOUNTS, left_out.NAME)


def stated(folder: Path, settings: Settings, comparison: Comparison,
           copy: Path) -> dict[str, Any]:
    """What the protocol states."""
    current, count = sending.planned(folder)
    with work.opened(folder) as database:
        hashes = {table: work.noted(database, f'hash {table}.csv') for table in settings_of.COLUMNS}
        waived = database.execute('SELECT kind, count(*) FROM fault WHERE waived GROUP BY kind '
                                  'ORDER BY kind').fetchall()
        left = database.execute('SELECT source, count(*) FROM left_out GROUP BY source '
                                'ORDER BY source').fetchall()
        stock = left_out.counts(database)
        papers = database.execute('SELECT file, bytes, hash, holder, about FROM kept_document '
                                  'ORDER BY file').fetchall()
    return {
        'old registry': {'code': settings.old_code, 'name': settings.old_name,
                         'closed on': settings.closed_on},
        'new registry': {'code': settings.new_code, 'date': settings.date},
        'tables (SHA-256)': {table: found for table, found in hashes.items() if found},
        'settings (SHA-256)': tables.hash_of(folder / settings_of.NAME),
        'lists (SHA-256)': {name: tables.hash_of(folder / name) for name in LISTS},
        'plan': {'SHA-256': current, 'requests': count, 'answered': sending.place(folder, current)},
        'faults waived': dict(waived), 'rows left out': dict(left),
        'certificates left out': {of.why: {'certificates': of.certificates, 'rows': of.rows,
                                           'rows that can not be read': of.rows - of.read}
                                  for of in stock},
        'carried energy': settings.choice,
        'copy of the registry': {'path': str(copy.resolve()), 'SHA-256': tables.hash_of(copy)},
        'sums of the tables': sums(folder / STATED, comparison.stated),
        'sums of the registry': sums(folder / HELD, comparison.held),
        'differences': comparison.count,
        'documents': [{'file': file, 'bytes': size, 'SHA-256': found, 'holder': holder,
                       'about': about} for file, size, found, holder, about in papers],
        'written at': time.strftime('%Y-%m-%dT%H:%M:%SZ', time.gmtime()),
    }


def sums(path: Path, of: Sums) -> dict[str, Any]:
    return {'certificates': of.total, 'ranges': of.ranges,
            'by registry': {f'{code:02}': count for (code,), count
                            in sorted(of.by_registry.items())},
            'SHA-256': tables.hash_of(path)}


def write(folder: Path, settings: Settings, comparison: Comparison, copy: Path,
          key: Key) -> None:
    """Writes the protocol of a comparison with a copy of the registry, and its signature."""
    text = json.dumps(stated(folder, settings, comparison, copy), indent=2,
                      ensure_ascii=False) + '\n'
    write_whole(folder / NAME, text)
    write_whole(folder / SIGNATURE, f'{key.signature(text).strip()} {key.public}\n')


def faults(folder: Path, public: str | None) -> list[str]:
    """What of a protocol does not hold: the signature, the comparison, or a file of it.

    With `public` the key has to be that one, and not only the one that the signature names.
    """
    text = (folder / NAME).read_text(encoding='utf-8')
    signature, _, signer = (folder / SIGNATURE).read_text(encoding='utf-8').strip().partition(' ')
    if not is_signed(text, signature, public or signer):
        return [f'{NAME} is not signed by {public or "the key that stands beside its signature"}']
    said = json.loads(text)
    differences = said['differences']
    told = [f'{differences:,} differences between the tables and the registry'] * bool(differences)
    return told + changed(folder, said)


def changed(folder: Path, said: dict[str, Any]) -> list[str]:
    """The files that are not those of which a protocol tells."""
    wanted = {f'{tables.FOLDER}/{table}.csv': found
              for table, found in said['tables (SHA-256)'].items()}
    wanted |= {settings_of.NAME: said['settings (SHA-256)'], plan.NAME: said['plan']['SHA-256'],
               STATED: said['sums of the tables']['SHA-256'],
               HELD: said['sums of the registry']['SHA-256']}
    wanted |= said['lists (SHA-256)']
    wanted |= {f'documents/{of["file"]}': of['SHA-256'] for of in said['documents']}
    return [f'{name} is not the file of which the protocol tells' for name, found in wanted.items()
            if not (folder / name).is_file() or tables.hash_of(folder / name) != found]
