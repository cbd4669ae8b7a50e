"""How one program of the service starts another."""
import sys


def words_of(module: str) -> tuple[str, ...]:
    """The words that run the program of a module, such as `copies.recount`.

    Nothing is imported from the folder in which the caller happens to be (-P).
    """
    return sys.executable, '-P', '-m', f'goo_service.{module}'
