"""Man pages of the package, from what each program says of itself.

The program's page has its help texts. A command's page has the text at the head of its module, and
the options that argparse prints. A script's page has the comment at its head.
"""
import ast
import os
import re
import subprocess
import sys
from dataclasses import dataclass
from pathlib import Path

import service_commands
from service_commands import LIBEXEC
from service_commands import SERVICE

COMMANDS = ('init', 'run', 'declare', 'statement', 'audit', 'serve')
"""The commands of the program; each prints its own help."""
PAGE = '''.TH {title} {section} "{day}" "goo {version}" "Registry of guarantees of origin"
.SH NAME
{name} \\- {summary}
{rest}.SH SEE ALSO
/usr/share/doc/goo/OPERATING.md
'''


@dataclass(frozen=True)
class Manual:
    """A program and what it says of itself."""
    name: str
    section: int
    text: str
    options: str = ''

    def page(self, version: str, day: str) -> str:
        """The man page: the first sentence of the text is the summary."""
        first = re.split(r'(?<=[.:])\s', self.text.strip(), maxsplit=1)[0]
        first = first.rstrip('.:').replace('\n', ' ')
        usage = re.search(r'(?ms)^usage: (.*?)(?=\n\s*\n|\Z)', self.text)
        body = self.text.replace(usage[0], '', 1) if usage else self.text
        parts = (('SYNOPSIS', usage[1] if usage else ''), ('DESCRIPTION', body),
                 ('OPTIONS', self.options))
        rest = ''.join(f'.SH {head}\n.nf\n{roff(text.strip())}\n.fi\n' for head, text in parts
                       if text)
        return PAGE.format(title=self.name.upper(), name=roff(self.name), section=self.section,
                           day=day, version=version, summary=roff(first[:1].lower() + first[1:]),
                           rest=rest)


def roff(text: str) -> str:
    """The text, with all that roff would read as its own escaped."""
    lines = text.replace('\\', '\\e').replace('-', '\\-').split('\n')
    return '\n'.join(f'\\&{line}' if line[:1] in ("'", '.') else line for line in lines)


def head_of(path: Path) -> str:
    """The text at the head of a module, or the comment at the head of a script."""
    text = path.read_text(encoding='utf-8')
    if path.suffix == '.py':
        head = ast.get_docstring(ast.parse(text)) or ''
    else:
        lines = re.match(r'#!.*\n((?:#.*\n)*)', text)
        head = re.sub('(?m)^# ?', '', lines[1]) if lines else ''
    return head or sys.exit(f'{path} has no text at its head')


def options_of(name: str) -> str:
    """The options that a command prints, if argparse reads them."""
    around = {**os.environ, 'COLUMNS': '110'}
    done = subprocess.run([*service_commands.command(name), '--help'], env=around, text=True,
                          capture_output=True, check=True, timeout=60)
    found = re.search(r'(?ms)^(positional arguments|options):.*', done.stdout)
    return found[0] if found else ''


def help_of(program: Path) -> str:
    """The help texts of the program and of each of its commands."""
    texts = []
    for words in ((), *((word,) for word in COMMANDS)):
        done = subprocess.run([program, *words, '--help'], capture_output=True, text=True,
                              check=False, timeout=60)
        texts.append((done.stdout or done.stderr).replace('program', 'goo'))
    return '\n\n'.join(['Keeps a registry of guarantees of origin.', *texts])


def manuals(program: Path) -> list[Manual]:
    """The manuals of the program, of the commands and of the scripts."""
    commands = [Manual(name, 8, head_of(SERVICE / f'{module.replace(".", "/")}.py'),
                       options_of(name))
                for name, module in service_commands.entries_of(SERVICE).items()]
    scripts = [Manual(f'goo-{path.name}', 8, head_of(path)) for path in LIBEXEC.iterdir()]
    return [Manual('goo', 1, help_of(program)), *commands, *scripts]


def write_pages(folder: Path, program: Path, version: str, day: str) -> None:
    """Writes a page for each program into a folder."""
    folder.mkdir()
    for manual in manuals(program):
        page = folder / f'{manual.name}.{manual.section}'
        page.write_text(manual.page(version, day), encoding='utf-8')
