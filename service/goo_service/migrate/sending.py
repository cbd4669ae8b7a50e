"""Sends a plan to the registry, and goes on where an earlier run was cut off.

What belongs to a holder goes as a bundle: one entry of the log, or a few where there is much. After
each bundle the place in the plan is kept in the file `sent`. What was sent behind that place is
sent again, and answered `repeated`.
"""
import itertools
import json
import time
from collections.abc import Callable
from collections.abc import Iterable
from collections.abc import Iterator
from dataclasses import asdict
from dataclasses import dataclass
from pathlib import Path

from goo_service.common.client import Answer
from goo_service.common.client import Client
from goo_service.common.client import NoAnswer
from goo_service.common.files import write_whole
from goo_service.log import bundles
from goo_service.migrate import plan
from goo_service.migrate import work
from goo_service.migrate.plan import Step
from goo_service.migrate.tables import hash_of

NAME = 'sent'
MOST_LINES, MOST_BYTES = 500, 768 << 10
"""Of a bundle: the log takes more, but others wait while one is applied."""
TRIES, PAUSE = 10, 3.0
"""A log that is being started anew is asked again so often, after so many seconds."""


class Stopped(Exception):
    """Why nothing more was sent."""


@dataclass(frozen=True)
class Sent:
    """How far a plan was sent: its hash, and how many of its requests were answered."""

    plan: str
    requests: int


@dataclass(frozen=True)
class Progress:
    """How far a run is."""

    done: int
    of: int
    seconds: float
    """Since this run began."""
    here: int
    """Requests that this run has sent."""
    now: float
    """Seconds since 1970."""

    @property
    def text(self) -> str:
        rate = self.here / self.seconds if self.seconds else 0
        left = self.of - self.done
        end = time.localtime(self.now + left / rate) if rate else None
        told = f'ends at {time.strftime("%a %H:%M:%S", end)}' if end else 'no end is known yet'
        return f'{self.done:,} done, {left:,} left, {rate:,.1f} a second, {told}'


Show = Callable[[Progress], None]


class Meter:
    """Counts requests that are answered, and shows how far it is: once a second, and at the end."""

    def __init__(self, of: int, done: int, show: Show) -> None:
        self.of, self.done, self.start, self.show = of, done, done, show
        self.begun = self.shown = time.monotonic()

    def add(self, count: int) -> None:
        self.done += count
        now = time.monotonic()
        if self.done == self.of or now - self.shown > 1:
            self.shown = now
            self.show(Progress(self.done, self.of, now - self.begun, self.done - self.start,
                               time.time()))


def place(folder: Path, current: str) -> int:
    """How many requests of this plan were answered by earlier runs."""
    try:
        read = json.loads((folder / NAME).read_text(encoding='utf-8'))
        sent = Sent(**read)
    except FileNotFoundError:
        return 0
    except (ValueError, TypeError) as fault:
        raise Stopped(f'{folder / NAME} can not be read; remove the file, and all is sent '
                      'again') from fault
    if sent.plan != current:
        raise Stopped(f'{folder / NAME} tells of another plan than {plan.NAME}; the tables or the '
                      'settings have changed since the first request was sent')
    return sent.requests


def planned(folder: Path) -> tuple[str, int]:
    """Hash and length of the plan. Stopped where the file is not the one that was made."""
    with work.opened(folder) as database:
        current, count = work.noted(database, 'plan'), work.noted(database, 'requests')
    if not current or hash_of(folder / plan.NAME) != current:
        raise Stopped(f'{folder / plan.NAME} is not the plan of the last check: '
                      f'make it anew by goo-migrate plan {folder}')
    return current, int(count)


def steps_in(folder: Path, behind: int = 0) -> Iterator[Step]:
    """The requests of the plan, behind so many of them."""
    with (folder / plan.NAME).open(encoding='utf-8') as file:
        for line in itertools.islice(file, behind, None):
            yield plan.step_of(line)


@dataclass(frozen=True)
class Bundle:
    """Requests of a holder that go together."""

    steps: list[Step]
    body: bytes


def bundles_of(steps: Iterable[Step]) -> Iterator[Bundle]:
    """The requests as bundles, in their order: each of one holder, and of bounded size."""
    taken: list[Step] = []
    lines: list[bytes] = []
    for step in steps:
        line = json.dumps(step.body, ensure_ascii=False).encode()
        is_full = len(taken) == MOST_LINES or sum(map(len, lines)) + len(line) > MOST_BYTES
        if taken and (is_full or step.holder != taken[-1].holder):
            yield Bundle(taken, b'\n'.join(lines))
            taken, lines = [], []
        taken.append(step)
        lines.append(line)
    if taken:
        yield Bundle(taken, b'\n'.join(lines))


def run(folder: Path, client: Client, show: Show) -> int:
    """Sends what is left of a plan; how many requests it has. Stopped where one is not accepted."""
    current, count = planned(folder)
    done = place(folder, current)
    progress = Meter(count, done, show)
    for bundle in bundles_of(steps_in(folder, done)):
        send(client, bundle)
        done += len(bundle.steps)
        write_whole(folder / NAME, json.dumps(asdict(Sent(current, done))) + '\n')
        progress.add(len(bundle.steps))
    return count


def send(client: Client, bundle: Bundle) -> None:
    """Sends a bundle. What is answered otherwise than planned stops the run."""
    reason = ''
    for tried in range(1, TRIES + 1):
        try:
            answer = client.post(bundles.ROUTE, bundle.body)
        except NoAnswer as fault:
            reason = str(fault)
        else:
            if answer.status not in (429, 502, 503, 504):
                judge_all(bundle, answer)
                return
            reason = f'{answer.status} {answer.text[:300].strip()}'
        if tried < TRIES:
            time.sleep(PAUSE)
    first = bundle.steps[0].body
    raise Stopped(f'no answer to {first["command"]} ({first["key"]}) and what goes with it: '
                  f'{reason}; run it again, and it goes on here')


def judge_all(bundle: Bundle, answer: Answer) -> None:
    """Whether each outcome of a bundle is the one that was planned."""
    lines = answer.text.splitlines() if answer.status == 200 else []
    if len(lines) != len(bundle.steps):
        raise Stopped(f'a bundle of {bundle.steps[0].holder or "the registry"} was answered '
                      f'{answer.status} {answer.text[:300].strip()}')
    for step, line in zip(bundle.steps, lines):
        judge(step, json.loads(line), line)


def judge(step: Step, outcome: dict[str, object], text: str) -> None:
    """Whether an outcome is the one that was planned."""
    is_done = outcome.get('outcome') in ('accepted', 'repeated')
    if not is_done or outcome.get('reply') != step.reply:
        wanted = json.dumps(step.reply)
        raise Stopped(f'{step.body["command"]} of {step.holder or "the registry"} '
                      f'({step.body["key"]}) was answered {text}; planned was {wanted}')
