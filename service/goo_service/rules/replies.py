"""The reply to a request that was accepted."""
from collections.abc import Callable

Answer = tuple[int, int, int, int]
"""The kind of an answer and its numbers, as docs/TABLES.md has them of a receipt."""


def issue_reply(carry: int, first: int, last: int) -> dict[str, object]:
    """The reply to a declaration, which may leave less than a certificate."""
    if not first:
        return {'carry': carry, 'count': 0}
    return {'carry': carry, 'count': last - first + 1, 'first': f'{first:014}',
            'last': f'{last:014}'}


REPLIES: dict[int, Callable[[int, int, int], dict[str, object]]] = {
    1: lambda *_: {},
    2: lambda account, *_: {'account': account},
    3: issue_reply,
    4: lambda count, *_: {'count': count},
    5: lambda act, count, _: {'cancellation': act, 'count': count},
    6: lambda act, count, _: {'withdrawal': act, 'count': count},
    7: lambda expired, *_: {'expired': expired},
    8: lambda act, count, _: {'notice': act, 'count': count},
    9: lambda count, *_: {'count': count},
    10: lambda carry, count, act: {'carry': carry, 'count': count, 'withdrawal': act},
}
"""The reply to a request by the kind of its answer (docs/FORMATS.md, "An outcome")."""


def reply(kind: int, *numbers: int) -> dict[str, object]:
    """The reply that an answer states."""
    first, second, third = numbers
    return REPLIES[kind](first, second, third)
