"""What a role lets a caller do.

The third word of a line in callers is the role; nginx sends it on as GOO-Role.
"""
import json

from goo_service.log import bundles


def allows(role: str, method: str, route: str, body: bytes) -> bool:
    """`full`, or no word: everything the registry allows.

    `reads`: GET alone. `declares`: declarations alone, in each line of a bundle too. Another word:
    nothing.
    """
    if role in ('', 'full'):
        return True
    if role == 'reads':
        return method == 'GET'
    if role != 'declares' or method != 'POST':
        return False
    bodies = bundles.lines_of(body) if route in bundles.ROUTES else [body]
    return route == '/v1/declarations' or all(command_of(one) == 'declare' for one in bodies)


def command_of(body: bytes) -> object:
    """The command of a request; None where the body has none, two of them, or can't be read."""
    try:
        members = json.loads(body, object_pairs_hook=list)
        commands = [value for name, value in members if name == 'command']
        return commands[0] if len(commands) == 1 else None
    except (ValueError, TypeError, RecursionError):
        return None
