"""Copies of service/ with a fault in them, to see that a test refuses it."""
import shutil
from pathlib import Path

from door import SERVICE


class NotPlanted(Exception):
    """A fault that can't be planted any more: the file has another text by now."""


def copied(folder: Path) -> Path:
    """A copy of service/ in a folder."""
    left_out = shutil.ignore_patterns('tests', '__pycache__')
    return Path(shutil.copytree(SERVICE, folder / 'service', ignore=left_out))


def plant(service: Path, file: str, right: str, wrong: str) -> None:
    """One text of a file, which stands in it once, becomes another one."""
    text = (service / file).read_text()
    if text.count(right) != 1:
        raise NotPlanted(f'{file} has the text to replace {text.count(right)} times: {right!r}')
    (service / file).write_text(text.replace(right, wrong))


def append(service: Path, file: str, text: str) -> None:
    """More stands at the end of a file."""
    with open(service / file, 'a') as opened:
        opened.write(text)
