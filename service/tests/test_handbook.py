"""The handbooks: their tables of contents, what points into them, and the doctor's rows."""
import ast
import inspect
import re
import subprocess
from pathlib import Path

import pytest

from goo_service.setup import doctor

TOP = Path(__file__).resolve().parents[2]
DOCS = TOP / 'docs'
PAGES = ('INSTALLING', 'OPERATING', 'WRONG', 'THREE-HOSTS', 'EXCHANGING')
POINTER = re.compile(r'\b(?:docs/)?([A-Z][A-Z-]+\.md)`?, "([^"{\n]+)"')
"""A page and one of its sections, as code and pages name them."""
PLAYED = re.compile(r'<!-- played by (\S+) -->')
PLAYS = 'service/tests/hosts/test_wrong.py'


def text_of(page: str) -> str:
    return (DOCS / f'{page}.md').read_text(encoding='utf-8')


def headings(text: str) -> list[str]:
    return re.findall(r'(?m)^#{2,3} (.+)$', text)


def anchor(heading: str) -> str:
    return re.sub(r'[^\w\- ]', '', heading.lower()).replace(' ', '-')


def rows() -> dict[str, list[str]]:
    """The rows of the table, by the name that stands first in each."""
    lines = re.findall(r'(?m)^\| \[.*$', text_of('WRONG'))
    cells = [[cell.strip() for cell in line.strip('| ').split(' | ')] for line in lines]
    return {re.findall(r'^\[(.+?)\]', row[0])[0]: row for row in cells}


@pytest.mark.parametrize('page', PAGES)
def test_each_link_of_a_page_leads_to_a_section(page: str) -> None:
    text = text_of(page)
    there = {anchor(heading) for heading in headings(text)}
    links = set(re.findall(r'\]\(#([^)]+)\)', text))
    assert links and links <= there, links - there
    named = {anchor(heading) for heading in re.findall(r'(?m)^## (.+)$', text)}
    assert named <= links, 'the table of contents names each section'


def test_what_points_into_a_page_finds_the_section() -> None:
    listed = subprocess.run(['git', 'ls-files', '*.md', '*.py', '*.service', 'web', 'service'],
                            cwd=TOP, capture_output=True, text=True, check=True).stdout.split()
    lost = []
    for name in listed:
        path = TOP / name
        if path.suffix not in ('.md', '.py', '.conf', '') or not path.is_file():
            continue
        text = re.sub(r"'\s*\n\s*f?'", '', path.read_text(encoding='utf-8', errors='replace'))
        for page, section in POINTER.findall(text):
            if (DOCS / page).exists() and section not in headings((DOCS / page).read_text()):
                lost.append(f'{name}: {page}, "{section}"')
    assert not lost, lost


def test_the_table_and_the_doctor_have_the_same_rows() -> None:
    assert list(rows()) == [row.value for row in doctor.Row]
    assert all(len(row) == 4 and all(row) for row in rows().values()), 'four cells each'


def test_each_row_but_the_lost_password_is_found_by_the_doctor() -> None:
    tree = ast.parse(inspect.getsource(doctor))
    used = {node.attr for node in ast.walk(tree) if isinstance(node, ast.Attribute)
            and isinstance(node.value, ast.Name) and node.value.id == 'Row'}
    assert used == {row.name for row in doctor.Row} - {'PASSWORD'}


@pytest.mark.parametrize('row', [row.value for row in doctor.Row])
def test_each_row_has_commands_and_is_played(row: str) -> None:
    parts = re.split(r'(?m)^## ', text_of('WRONG'))
    [section] = [part for part in parts if part.split('\n', 1)[0] == row]
    assert '```sh' in section, 'commands'
    [trial] = PLAYED.findall(section)
    assert (TOP / trial).is_file()
    source = (TOP / trial).read_text(encoding='utf-8')
    assert trial != PLAYS or f"'{row}'" in source, 'the trial names the row'


@pytest.mark.parametrize(('lines', 'row'), [
    ('listening\ngoo: damaged', doctor.Row.DATABASE),
    ('goo: store fault\ngoo: /var/lib/goo/registry.db: permission', doctor.Row.DATABASE),
    ('no space left on /var/lib/goo: 1 MB\ngoo: store fault\nno space left on /var/lib/goo: 1 MB',
     doctor.Row.DISK),
    ('/var/lib/goo-replica/log/000.jsonl: entry 5', doctor.Row.LOG),
    ('goo: damaged\nlistening 127.0.0.1:8470\nStopped goo.service', None),
    ('/etc/goo/replica.key: no such file', None), ('', None)])
def test_the_newest_reason_of_a_unit_decides_the_row(lines: str, row: doctor.Row | None) -> None:
    assert doctor.reason_in(lines) is row


@pytest.mark.parametrize(('registry', 'log', 'row'), [
    ('goo: damaged', 'listening /run/goo/door.sock', doctor.Row.DATABASE),
    ('goo: damaged\nlistening 127.0.0.1:8470', '/var/lib/goo-replica/log/0.jsonl: 5',
     doctor.Row.LOG),
    ('listening 127.0.0.1:8470', 'listening /run/goo/door.sock', doctor.Row.STOPPED)])
def test_a_reason_of_before_a_start_is_none(
        monkeypatch: pytest.MonkeyPatch, registry: str, log: str, row: doctor.Row) -> None:
    monkeypatch.setattr(doctor, 'journal_of', {'goo': registry, 'goo-replica': log}.get)
    assert doctor.reason() is row
