"""The parameters that each route of the records takes. Any other one is an error that names it.

A parameter that was passed over because of a slip would answer another question than the one that
was asked, and a program would act on the answer.
"""
from collections.abc import Iterator
from typing import Protocol

from goo_service.records.acts import ACT_FILTERS
from goo_service.records.certificates import LOT_FILTERS
from goo_service.records.lists import LISTS
from goo_service.records.questions import BadQuestion
from goo_service.records.questions import FILES

PAGE = ('limit', 'offset', 'format')
BEHIND = ('sort', 'limit', 'after', 'format')
"""Of lists that go on behind a row, and not at a count of rows."""
HELD = ('account', 'q', 'tradable', *LOT_FILTERS)
SUMMED = ('tech', 'source', 'carrier', 'country', 'device')
PARAMETERS: dict[str, tuple[str, ...]] = {
    'acts': (*ACT_FILTERS, 'account', 'key', 'entry', 'from', 'to', 'q', 'before', 'limit',
             'format', 'folded', 'after', 'wait'),
    'holdings': ('by', 'place', 'sort', *HELD, *PAGE),
    'deadlines': ('days', *HELD, *PAGE),
    'choice': ('count', 'order', 'act', *HELD, 'format'),
    'holders': ('holder', 'q', *BEHIND),
    'withdrawals': BEHIND,
    'undeclared': ('month', 'account', *PAGE),
    'attachments': PAGE,
    'directory': PAGE,
    'party': ('account', 'holder', 'peer'),
    'statistics': ('by', 'from', 'to', *SUMMED, *PAGE),
    **{name: ('account', *of.filters, *(('q',) if of.found else ()), *BEHIND)
       for name, of in LISTS.items()},
    'acts/NUMBER': (),
    'certificates/NUMBER': (),
    'cancellations/NUMBER': (),
    'attachments/NUMBER': (),
    'documents': ('numbers', 'lang', 'format'),
    'doubts': (),
    'plan': ('command', 'account'),
    'papers': ('table', 'lang'),
    'status': (),
    'openapi.yaml': (),
    'verify': ('number', 'code', 'lang', 'sha256', 'seal'),
    'verify/key': (),
}
FORMATS = (*FILES, 'json')
FORMATS_OF = {'documents': ('pdf', 'json')}
"""Formats of a route that is no list."""


class Query(Protocol):
    """What Flask gives of a query: each name with its values in their order."""

    def lists(self) -> Iterator[tuple[str, list[str]]]:
        """The names and their values."""


def parameters_of(route: str, given: Query) -> dict[str, str]:
    """The parameters that were given, once each, or the error that names one that cannot be."""
    known, found = PARAMETERS[route], {}
    for name, values in given.lists():
        if name not in known:
            others = f'it takes {", ".join(known)}' if known else 'it takes none'
            raise BadQuestion(f'{route} has no parameter {name!r}: {others}')
        if len(values) > 1:
            raise BadQuestion(f'{name} is given {len(values)} times')
        found[name] = values[0]
    formats = FORMATS_OF.get(route, FORMATS)
    if found.get('format', '') not in ('', *formats):
        raise BadQuestion(f'format is {found["format"]!r}, and not one of {", ".join(formats)}')
    return found
