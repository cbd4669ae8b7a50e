"""Tables of declarations before they are sent: how many rows one may have."""
import re
import subprocess
from pathlib import Path

from goo_service.log import bounds
from door import SERVICE
from service_commands import command
from door import TOP

HEADER = 'key,device,first_day,last_day,gross_wh,aux_wh'


def table(rows: int) -> str:
    """A table of good rows: each of another device, whose last digit is GS1's check digit."""
    lines = []
    for number in range(rows):
        digits = f'{50_000_000_000_000_000 + number}'
        weighed = sum(int(digit) * (1 if at % 2 else 3) for at, digit in enumerate(digits))
        lines.append(f'{number:x},{digits}{-weighed % 10},2025-01-01,2025-01-31,5,0')
    return '\n'.join([HEADER, *lines, ''])


def checked(folder: Path, rows: int) -> subprocess.CompletedProcess[str]:
    file = folder / 'table.csv'
    file.write_text(table(rows))
    words = [*command('goo-check-declarations', SERVICE), str(file)]
    return subprocess.run(words, capture_output=True, text=True, check=False)


def test_rows_that_a_table_may_have(tmp_path: Path) -> None:
    most = checked(tmp_path, 21_000)
    assert (most.returncode, most.stdout) == (
        0, '21000 rows, none at fault, 0.105000 MWh\n')
    more = checked(tmp_path, 21_001)
    assert more.returncode == 1
    assert more.stdout.startswith('file: It has 21,001 rows. Expected at most 21,000: split it')


def test_page_and_log_have_one_bound() -> None:
    found = re.search(r'const MOST_ROWS = ([0-9_]+);', (TOP / 'web/reading.js').read_text())
    assert found and int(found[1]) == bounds.ROWS == 21_000
    assert f'{bounds.ROWS:,} rows in a table' in (TOP / 'web/words.js').read_text()
    assert f'{bounds.ROWS:,}'.replace(',', '.') in (TOP / 'web/words-de.js').read_text()


def test_nginx_and_log_have_one_bound() -> None:
    """nginx bounds what it takes in before the log sees it. test_door.py sends these sizes."""
    conf = (SERVICE / 'etc/nginx/goo.conf').read_text()
    assert bounds.REQUEST == 65_536 and f'{bounds.REQUEST:,} bytes at most' in conf
    assert bounds.BODY == 1_048_576 and f'{bounds.BODY:,} bytes at most' in conf
