"""A registry in memory, as its requests leave it. For the recount and for the book of acts."""
from collections.abc import Callable

from goo_service.rules import accounts
from goo_service.rules import declarations
from goo_service.rules import moves
from goo_service.rules import notices
from goo_service.rules.commands import Command
from goo_service.rules.commands import must_have_shape
from goo_service.rules.replies import Answer
from goo_service.rules.state import State

Rule = Callable[[State, str, Command], Answer]
"""Makes the checks of a command, and carries it out. Wrong is raised at the first check that it
does not pass."""
RULES: dict[str, Rule] = {
    'open_holder': accounts.open_holder,
    'open_account': accounts.open_account,
    'close_account': accounts.close_account,
    'register_device': declarations.register_device,
    'declare': declarations.declare,
    'correct': declarations.correct,
    'transfer': moves.transfer,
    'cancel': moves.cancel,
    'withdraw': moves.withdraw,
    'advance': moves.advance,
    'add_peer': notices.add_peer,
    'export': notices.export,
    'import': notices.import_notice}
"""The rule of each command."""


class Registry(State):
    """A registry that applies commands."""

    def apply(self, caller: str, command: Command) -> Answer:
        """Carries out a command. Wrong is raised where it does not pass a check."""
        must_have_shape(command)
        return RULES[command['command']](self, caller, command)
