"""The words of a tool that takes few. `--help` shows what its head says, and a word that it does not know ends it before anything is tried."""
import sys


def words(head, options=(), most=0):
    """The words of the command line but the options, and there are so many of them at most. `head` is the tool's docstring, `options` are those that it has."""
    given = sys.argv[1:]
    if {'-h', '--help'} & {*given}:
        print(head.strip())
        sys.exit(0)
    plain = [word for word in given if word not in options]
    if odd := [word for word in plain if word.startswith('-')] or plain[most:]:
        print(f'{sys.argv[0]}: it has no word {odd[0]!r}; --help tells its words', file=sys.stderr)
        sys.exit(2)
    return plain
