"""Goes back to a copy of the registry, and applies the entries of the log since the copy to it.

usage: goo-copies restore COPY [--before N | --new-log [--as-copied]] [--with-configuration]
                               [--without-list] [--although-broken]
       goo-copies restore --open [--unsettled]

COPY is a folder of /var/backups/goo, by its name or by its path; `last` is the newest one, with
--before the newest that is older than that entry. In this order:

  1. the copy is held against the list of its files
  2. the front door is closed: the registry's socket no longer takes connections of nginx, also
     after a start of the host
  3. what runs by timers is stopped, and the registry with its log
  4. the copied files are put beside the registry's, audited and recounted there
  5. the registry's files go aside, into a folder that is named by this day and time, and the
     copied ones take their place
  6. the registry and its log are started: the entries since the copy are applied, and each comes
     to the outcome that the archive has
  7. the front door is opened

Nothing of the registry is changed before step 5: where a step before it fails, all is started
again as it was. Where this is cut off later, the door stays closed, and the same command once more
begins anew; what went aside is kept.

--before N undoes entry N of the log, such as a wrong date, on one host. The entries since the copy
are applied up to N - 1. Log and archive end there: what they had from N on is kept beside them, in
a folder `undone-N-..`. A new log begins, and the entries after N are sent again under their keys.
Those that come to another outcome are printed, and written to a file beside the copies. Entry N is
set aside for good. Copies of entry N or later are renamed, so that none is used any more.

--new-log is for a log that was lost or damaged, on one host. The entries that the archive still has
whole are applied, and a new log begins behind them. What there was of the log is kept beside it, in
a folder `lost-..`. The records of acts are made anew. What was accepted later has to be sent again.
With --as-copied nothing is applied that came after the copy: all of it is undone. It is for the way
back from a migration, before anybody has traded.

After --before and --new-log other registries may know what this one no longer does. So the exchange
gets a new generation: restored.json has it publish and trade nothing before the peers have told
which notices of ours they have. The front door stays closed until --open, which starts the timers
too, once the exchange is settled. What is left to do is printed.

/var/lib/goo-exchange is put back only where it isn't there: what is there knows more notices than
the copy does; so is the file of people, and /var/lib/goo-records/first, with which the records of
acts begin. Where
/etc/goo differs from the copy that is printed; --with-configuration puts the copied files in place,
and what they replace goes aside. A copy of before there was a list is taken by --without-list, and
one that recount finds at fault by --although-broken.

Exit status 0: done. 1: not done; the last line tells in which state the registry is. 2: wrong
command line.
"""
import argparse
import os
import pathlib
import shutil
import signal
import subprocess
import sys
from dataclasses import dataclass

from goo_service.common.owner import NotDone
from goo_service.copies import book
from goo_service.copies import contents
from goo_service.copies import going_back
from goo_service.copies import host
from goo_service.copies import new_log
from goo_service.copies import nightly
from goo_service.copies import people
from goo_service.copies import undo
from goo_service.copies.host import show
from goo_service.copies.places import FILE as PLACE
from goo_service.log.entries import Broken

SETTLE = ('systemctl start goo-exchange; journalctl -u goo-exchange: until it says that all peers '
          'have told and nothing has to be sent again. It prints each export that has')
SEND_AGAIN = ('send what was accepted later again: declarations, then corrections, then all else, '
              'each by whoever sent it')
LOOK = 'look at what came to another outcome, and tell those who sent it'


@dataclass(frozen=True)
class Plan:
    """To which copy a call goes back, and how."""
    copy: pathlib.Path
    before: int | None = None
    new_log: bool = False
    as_copied: bool = False
    with_configuration: bool = False
    without_list: bool = False
    although_broken: bool = False

    def loses(self) -> bool:
        """Whether other registries may then know what this one no longer does."""
        return self.before is not None or self.new_log

    def verify(self) -> None:
        """Raises Unfit where it can't be carried out: nothing is changed before."""
        going_back.verify_list(self.copy, self.without_list)
        if self.new_log:
            return new_log.verify()
        if not (self.copy / PLACE).is_file():
            raise contents.Unfit(f'{self.copy} has no {PLACE}: it is older than the '
                                 'log, or of another. To begin a new log with it: --new-log')
        if self.before:
            undo.verify(self.copy, self.before)

    def steps_left(self, generation: int | None, things: list[str]) -> list[str]:
        """What is left to the operator, in order."""
        steps = [*things, *([LOOK] if self.before else [])]
        if generation:
            steps.append(SETTLE)
        if self.new_log and not self.as_copied:
            steps.append(SEND_AGAIN)
        return [*steps, 'goo-copies restore --open: opens the front door and starts the timers',
                'systemctl start goo-advance: the date is that of the last entry']


def staged_copy(plan: Plan, ran: list[str]) -> tuple[pathlib.Path, pathlib.Path | None]:
    """The copy beside the registry's file, and for a new log the folder with its place.

    Nothing runs any more.
    """
    host.close_door()
    show('the front door is closed')
    host.stop_all(ran)
    staged, placed = going_back.verify_copy(plan.copy, plan.although_broken), None
    if plan.before:
        undo.bring_to(staged, plan.copy, plan.before - 1)
    elif plan.new_log:
        placed = new_log.brought_up(staged, plan.copy, plan.as_copied)
    return staged, placed


def leave_as_before(ran: list[str], was_closed: bool) -> None:
    host.start_as_before(ran, was_closed)
    show(f'Nothing was changed. Started again: {", ".join(ran) or "nothing"}; '
         f'the front door is {"closed" if was_closed else "open"}.')


def bring_up(folder: pathlib.Path) -> None:
    """The registry is started with its place in the log, the entries since are applied, and the
    door is opened."""
    host.run_log('place', folder)
    host.systemctl('start', host.REGISTRY_UNIT)
    host.open_door()
    host.systemctl('start', host.REPLICA)
    show(f'the registry runs, {host.wait_for_log()}: the entries since the copy are applied, '
         'and nothing has to be sent again')


def put_back(plan: Plan, staged: pathlib.Path, placed: pathlib.Path | None,
             ran: list[str]) -> list[str]:
    """The copy becomes the registry; what is left to do."""
    going_back.put_exchange_back(plan.copy)
    if said := people.put_back_where_none_is(plan.copy):
        show(said)
        host.systemctl('try-restart', *host.PEOPLE)     # each holds the file open
    if book.put_beginning_back(plan.copy / nightly.BEGINNING):
        show(f'{book.BOOK / book.FIRST}, the beginning of the book of acts, is that of the copy')
    generation = going_back.begin_generation(plan.copy) if plan.loses() else None
    show(f'what there was of the registry is in {going_back.change_files(staged)}')
    things = going_back.compare_configuration(plan.copy, plan.with_configuration)
    if not plan.loses():
        bring_up(plan.copy)
        host.start_again(ran, host.RECORDS, *host.TIMERS)
        return things
    if plan.before:
        undo.begin_before(plan.before)
    else:
        new_log.begin(placed)
    host.start_again(ran, host.RECORDS)
    return plan.steps_left(generation, things)


def restore(plan: Plan) -> None:
    plan.verify()
    was_closed = host.CLOSED.exists()
    ran: list[str] = []
    try:
        staged, placed = staged_copy(plan, ran)
    except BaseException:
        leave_as_before(ran, was_closed)
        raise
    try:
        left = put_back(plan, staged, placed, ran)
    except BaseException:
        show('Cut off: the front door is closed, and the same command goes back to the copy once '
             'more.')
        raise
    if plan.loses():
        show(f'the registry of {plan.copy.name} runs; the front door is closed to all but the '
             'agent, and the timers are stopped')
    if left:
        show('To do, in this order:')
    for at, step in enumerate(left, 1):
        show(f'  {at}. {step}')


def reopen(unsettled: bool) -> None:
    """Opens the front door and starts the timers, unless the exchange is not settled.

    The timers wait for the log: a date that is sent before it takes requests would fail.
    """
    if (host.EXCHANGE / 'restored.json').exists() and not unsettled:
        raise contents.Unfit('the exchange is not settled yet: systemctl start goo-exchange, and '
                             'see what it says. --open --unsettled opens all the same; '
                             'certificates may then have two homes')
    host.open_door()
    host.systemctl('start', host.REGISTRY_UNIT, host.REPLICA)
    show(f'the front door is open: {host.wait_for_log()}')
    if timers := [timer for timer in host.TIMERS if host.is_enabled(timer)]:
        host.systemctl('start', *timers)
    show('the timers run')


def parser() -> argparse.ArgumentParser:
    words = argparse.ArgumentParser(prog='goo-copies restore', description=__doc__,
                                    formatter_class=argparse.RawDescriptionHelpFormatter)
    words.add_argument('copy', nargs='?', metavar='COPY')
    way = words.add_mutually_exclusive_group()
    way.add_argument('--before', type=int, metavar='N', help='undo entry N of the log')
    way.add_argument('--new-log', action='store_true', help='begin a new log')
    for word in ('as-copied', 'with-configuration', 'without-list', 'although-broken', 'open',
                 'unsettled'):
        words.add_argument(f'--{word}', action='store_true', help=argparse.SUPPRESS)
    return words


def main() -> None:
    words = parser()
    given = words.parse_args()
    signal.signal(signal.SIGTERM, lambda *_: sys.exit('restore: ended by a signal'))
    if bool(given.copy) == given.open:
        words.error('a copy, or --open')
    if given.before is not None and (given.before < 1 or given.open):
        words.error('--before: the number of an entry, with a copy')
    if given.as_copied and not given.new_log:
        words.error('--as-copied goes with --new-log')
    if os.geteuid():
        words.error('only root can do this')
    try:
        if given.open:
            return reopen(given.unsettled)
        restore(Plan(going_back.folder_of(given.copy, given.before), given.before, given.new_log,
                     given.as_copied, given.with_configuration, given.without_list,
                     given.although_broken))
    except (contents.Unfit, NotDone, Broken, OSError, LookupError, ValueError, shutil.Error,
            subprocess.CalledProcessError) as error:
        sys.exit(f'restore: {error}')
    except KeyboardInterrupt:
        sys.exit('restore: interrupted')


if __name__ == '__main__':
    main()
