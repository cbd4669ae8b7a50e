"""What the tools count: trials that passed, failed and were left out, and the last line and the exit status that come of it. `./check` reads that line."""
import os
import re
import sys
import traceback

COUNTS = re.compile(r'(\d+) passed, (\d+) failed(?:, (\d+) skipped)?')
"""The last line of a tool."""
SHOWN = 30
"""Failures that are shown where there may be many."""


def counts(passed, failed, skipped=0):
    """The last line of a tool."""
    return f'{passed} passed, {failed} failed' + (f', {skipped} skipped' if skipped else '')


def ended(passed, failed, skipped=0):
    """Prints the counts, the last line of a tool, and gives its exit status. Where nothing was tried, that is a failure."""
    print(counts(passed, failed, skipped), flush=True)
    return int(failed > 0 or passed == 0)


def is_left_out(lack):
    """Whether the variable GOO_WITHOUT names a word of what is missing: then it is left out on purpose."""
    return bool(set(re.findall(r'[\w-]+', lack)) & set(os.environ.get('GOO_WITHOUT', '').split()))


class Tally:
    """Counts trials and tells each of them; where it is quiet, those alone that failed."""

    def __init__(self, is_quiet=False, width=900):
        self.is_quiet, self.width = is_quiet, width
        self.passed = self.failed = self.skipped = 0

    def count(self, good):
        """Counts one trial that is told elsewhere."""
        self.passed, self.failed = self.passed + bool(good), self.failed + (not good)
        return bool(good)

    def check(self, what, good, seen=''):
        """Counts one trial and tells it, with what was seen where it failed. Whether it is good."""
        return self.tell(what, good, seen)

    def tell(self, what, good, seen=''):
        """The same, whatever a tool of its own kind of trials makes of `check`."""
        if not self.count(good):
            print(f'FAILED {what}' + (f': {str(seen)[:self.width]}' if seen != '' else ''), flush=True)
        elif not self.is_quiet:
            print(f'ok     {what}', flush=True)
        return bool(good)

    def carry_out(self, name, trial):
        """Runs a trial to its end. One that breaks has failed, and others go on."""
        try:
            trial()
        except Exception as fault:
            traceback.print_exc()
            self.tell(f'{name}, to its end', False, repr(fault))

    def skip(self, what, lack):
        """What this machine lacks fails, unless it is left out on purpose."""
        if not is_left_out(lack):
            self.tell(what, False, f'this machine lacks {lack}')
            return
        self.skipped += 1
        print(f'skip   {what}: {lack}', flush=True)

    def ended(self):
        """Prints the counts and gives the exit status."""
        return ended(self.passed, self.failed, self.skipped)

    def end(self):
        """Prints the counts and ends the tool with the exit status."""
        sys.exit(self.ended())


class KeptTally(Tally):
    """Writes each failure to a file, with all that repeats it, and shows the first ones."""

    def __init__(self, file):
        super().__init__(is_quiet=True)
        self.file = file

    def keep(self, what, **told):
        """Counts a failure and keeps it."""
        self.count(False)
        text = '\n    '.join([f'FAILED {what}', *(f'{name}: {value}' for name, value in told.items())]) + '\n'
        with open(self.file, 'a', encoding='utf-8', errors='backslashreplace') as file:
            file.write(text)
        if self.failed <= SHOWN:
            print('\n'.join(line[:1500] for line in text.encode('utf-8', 'backslashreplace').decode().splitlines()), flush=True)
