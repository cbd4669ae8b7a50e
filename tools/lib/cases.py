"""The worked cases of cases/: who asks what of a new registry of code 7 on 2025-03-01, what each request is answered, and what the registry shows at the end.

cases/TOPIC/NAME.case is one case. Its lines are worked out by hand from the rules, never taken from the program:

    # TEXT          what the case shows
    serial N        the registry's first serial, where it is not 1
    unended         the last request has no line feed behind it
    > REQUEST       a line to the registry; `>` alone is an empty line, which is no request
    < OUTCOME       what that request is answered
    = LINE          what is shown at the end: each run of accounts 1 and 2 (account, first and last number, first day of the lot, place), and then the audit
                    (device, declared and corrected energy in Wh, issued certificates and those that corrections withdrew, carry)

Lines of white space alone are for the eye.
"""
import json

from program import TOP

CASES = TOP / 'cases'
NEW = ['--code', '7', '--today', '2025-03-01']


class Unreadable(Exception):
    """A case that breaks the form above."""


class Case:
    """A worked case."""

    def __init__(self, path):
        self.name, self.topic = path.stem, path.parent.name
        self.serial, self.is_ended, self.shown = 1, True, None
        self.lines, self.answers = [], []
        for number, line in enumerate(path.read_bytes().split(b'\n'), 1):
            if not self.takes(line):
                raise Unreadable(f'{path}:{number}: {line.decode(errors="replace")}')
        if len(self.answers) != len(self.asked()):
            raise Unreadable(f'{path}: a request without an outcome')

    def takes(self, line):
        """Reads one line of the file, and says whether it could."""
        sign, text = line[:1], line[2:]
        if sign == b'>':
            self.lines.append(text)
            return len(self.answers) >= len(self.asked()) - 1
        if sign == b'<':
            self.answers.append(text)
            return len(self.answers) == len(self.asked())
        if sign == b'=':
            self.shown = [*(self.shown or []), text.decode()]
        elif line.startswith(b'serial '):
            self.serial = int(line.split()[1])
        elif line == b'unended':
            self.is_ended = False
        else:
            return sign == b'#' or not line.strip()
        return True

    def asked(self):
        """The lines that are requests: all but the empty ones."""
        return [line for line in self.lines if line]

    @property
    def next_serial(self):
        """The words that name the first serial, where it is not 1."""
        return ['--next-serial', str(self.serial)] if self.serial != 1 else []

    @property
    def opening(self):
        """The words that begin its registry."""
        return NEW + self.next_serial

    @property
    def requests(self):
        """All lines, as a run reads them."""
        return b'\n'.join(self.lines) + (b'\n' if self.is_ended else b'')

    @property
    def outcomes(self):
        """All outcomes, as a run writes them."""
        return b''.join(answer + b'\n' for answer in self.answers)

    def exchanges(self):
        """Each request with its outcome, both without the line feed."""
        return list(zip(self.asked(), self.answers, strict=True))

    def status(self):
        """The exit status of a run of all lines."""
        return status_of(self.answers)


def status_of(outcomes):
    """What a run ends with that gives these outcomes: 1 where one is refused or unreadable."""
    return int(any(json.loads(outcome)['outcome'] in ('refused', 'unreadable') for outcome in outcomes))


def cases_in(folder=CASES):
    """The cases of a folder in the order of topics and names."""
    return [Case(path) for path in sorted(folder.rglob('*.case'))]


def named(cases, name):
    """The case of this name."""
    return next(case for case in cases if case.name == name)
