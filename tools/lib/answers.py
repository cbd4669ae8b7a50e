"""Which goals of a crate have a proof by hand: for tools/proving/wrong-bodies and tools/gate/refusals.

A goal that an edit breaks and that no file answers is one that search did not prove, which is what a wrong body should meet. A goal that is answered
by hand is refused as soon as that answer no longer fits, and nothing else is tried on it: another proof of the edited body might go through.
"""
import re
from functools import cache

ANSWERED = re.compile(r'^pub (\S+) : goal\.\1\n((?:(?!^pub ).*\n?)*)', re.M)
SEARCHED = re.compile(r'=\s*(?:search|omega|grind) (?:rules|arith|\(\s*(?:rules|arith)(?:,\s*[\w.-]+)*\s*\))\s*$')
"""An answer that is a search, of rules alone, and counts as one: it tries somewhat less than what is tried on a goal without an answer."""


@cache
def answers_of(crate):
    """What a crate's files answer, as (the folders below `proofs`, the goal, whether it is by hand)."""
    found = []
    for path in sorted(crate.glob('proofs/**/Answers.antt')):
        folders = path.relative_to(crate / 'proofs').parts[:-1]
        found += [(folders, goal, not SEARCHED.search(text.split('\n\n')[0])) for goal, text in ANSWERED.findall(path.read_text(encoding='utf-8'))]
    return found


IMPL = re.compile(r'^impl(?:<.*?>)? (?:(\w+)(?:<.*?>)? for )?(\w+)', re.M)


def folders_of(crate, file):
    """Where the proofs of a file's functions stand: in the folder of its module, or, for the methods of a type of another file, in one that ends in the type's name."""
    module = () if file in ('src/lib.rt', 'src/main.rt') else tuple(file.removeprefix('src/').removesuffix('.rt').split('/'))
    types = {kind + (law or '') for law, kind in IMPL.findall((crate / file).read_text(encoding='utf-8'))}
    return lambda folders: folders[:len(module)] == module or len(folders) > 1 and folders[-2] in types


def owner_at(text, place):
    """The folder of the type whose methods stand at this place, or None outside of an `impl`."""
    owner = None
    for line in text[:place].split('\n'):
        head = IMPL.match(line)
        owner = head.group(2) + (head.group(1) or '') if head else None if line == '}' else owner
    return owner


def is_by_hand(crate, file, function, goal, owner=None):
    """Whether a goal of this function of a file is answered by hand. Of functions of one name, that of this owner is meant."""
    stands = folders_of(crate, file)
    return any(by_hand and goal == answered and function == folders[-1] and owner in (None, *folders) and stands(folders) for folders, answered, by_hand in answers_of(crate))


def stands_by_hand(crate, place, goal):
    """The same of a goal at a place of the proofs, `module.function`."""
    return any(by_hand and goal == answered and '.'.join(folders) == place for folders, answered, by_hand in answers_of(crate))
