"""Renders documents as PDF, in a process of its own: what stands on them is read from standard
input, a line of JSON for each, and each PDF is written with its length in front.

The process bounds itself before it reads: memory, processor time, files. It fetches nothing: no
address in the HTML is looked at, and there is none.
"""
import json
import logging
import os
import resource
import struct
import sys
import tempfile
from typing import Any
from typing import NoReturn

from goo_service.records.pdf_page import page

MEMORY = 1 << 30
"""Bytes of the address space."""
PROCESSOR = 100
"""Seconds of a processor."""
LENGTH = struct.Struct('>I')


def set_limits() -> None:
    """No more than this, whatever the document has in it; no file is written."""
    for what, most in ((resource.RLIMIT_AS, MEMORY), (resource.RLIMIT_CPU, PROCESSOR),
                       (resource.RLIMIT_FSIZE, 0), (resource.RLIMIT_NOFILE, 128),
                       (resource.RLIMIT_CORE, 0)):
        resource.setrlimit(what, (most, most))


def refuse(url: str, *_: Any, **__: Any) -> NoReturn:
    """Takes the place of what would fetch an address."""
    raise ValueError(f'nothing is fetched: {url[:60]}')


def render(of: Any) -> bytes:
    from weasyprint import HTML  # type: ignore[import]
    made = HTML(string=page(of), base_url=None, url_fetcher=refuse).write_pdf()
    assert isinstance(made, bytes)
    return made


def main() -> int:
    tempfile.tempdir = os.environ.get('TMPDIR', '/tmp')     # it would be tried by a file
    set_limits()
    logging.disable(logging.CRITICAL)
    for line in sys.stdin.buffer:
        made = render(json.loads(line))
        sys.stdout.buffer.write(LENGTH.pack(len(made)) + made)
        sys.stdout.buffer.flush()
    return 0


if __name__ == '__main__':
    sys.exit(main())
