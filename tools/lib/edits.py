"""Wrong bodies as files: where they stand and what they say. For tools/proving/wrong-bodies, tools/gate/refusals and tools/gate/edits-stand.

An edit of the gate is crates/CRATE/must-fail/NAME.edit. Any other is wrong-bodies/CRATE/FILE/NAME.edit; FILE is the source file that it changes, without `src/` and without its ending.
"""
import re
from pathlib import PurePath

FUNCTION = re.compile(r'^\s*(?:pub(?:\([^)]*\))?\s+)?(?:const\s+|final\s+)*fn\s+([a-z_0-9]+)')


def all_edits(top):
    """The path of each edit that stands, those of the gate among them."""
    return sorted([*top.glob('crates/*/must-fail/*.edit'), *top.glob('wrong-bodies/*/**/*.edit')])


def crate_of(top, path):
    """The name of the crate that an edit changes."""
    return path.relative_to(top).parts[1]


def is_of_gate(path):
    """Whether the gate tries it each time."""
    return path.parent.name == 'must-fail'


def folder_of(top, path, file):
    """The folder in which an edit of this file has to stand."""
    return path.parent if is_of_gate(path) else top / 'wrong-bodies' / crate_of(top, path) / PurePath(file).relative_to('src').with_suffix('')


def read_edit(path):
    """The file that an edit changes, and its pairs of an old and a new text."""
    file, pairs = None, []
    for line in path.read_text(encoding='utf-8').split('\n'):
        if line.startswith('file:'):
            file = line[5:].strip()
        elif line.startswith('old:'):
            pairs.append([line[4:].removeprefix(' '), ''])
        elif line.startswith('new:') and pairs:
            pairs[-1][1] = line[4:].removeprefix(' ')
    return file, pairs


def function_at(text, place):
    """The name of the function whose text holds this place."""
    name = None
    for found in re.finditer(r'^.*$', text[:place], re.M):
        head = FUNCTION.match(found.group(0))
        if head:
            name = head.group(1)
    return name
