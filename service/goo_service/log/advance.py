"""Moves the registry's date to today, as the issuing body, by the socket of the log.

usage: goo-advance [DAY] [--confirm DAY] [--door PATH|HOST:PORT]

The key of the request is made of the day, so sent again it is repeated. A date never moves back,
and certificates that expired by a wrong one stay so. Hence a move of more than 40 days, and a day
after this host's, are refused unless the day is named once more by --confirm. A registry that is
more than a day ahead of this host's clock is told, and is a failure. The registry's date is taken
from the statement of the first account; where there is none, there are no certificates.

The log of requests takes a day after this host's only with that confirmation, which goes by the
socket, and only from root: whoever else reaches the socket acts for people who sign in.

Exit status 0: the registry has the date. 1: it has not, and why is told. 2: wrong command line.
"""
import argparse
import datetime
import json
import re
import sys

from goo_service.common.client import Answer
from goo_service.common.client import Client
from goo_service.common.client import NoAnswer

DOOR = '/run/goo/door.sock'
FARTHEST = datetime.timedelta(40)
"""How far the date may move unless the day is confirmed."""
AHEAD = datetime.timedelta(1)
"""How far the registry may be ahead of this host: its day may have begun in another time zone."""
HEAD = 4096
"""Bytes of a statement in which its date stands."""
DAY = re.compile(r'[0-9]{4}-[0-9]{2}-[0-9]{2}')
DATED = re.compile(r'date ([0-9-]+)')


class Refused(Exception):
    """Why the date was not moved."""


def day_of(text: str) -> datetime.date:
    """The day that a text such as 2025-04-05 states. Python by itself reads further forms."""
    try:
        if DAY.fullmatch(text):
            return datetime.date.fromisoformat(text)
    except ValueError:
        pass
    raise Refused(f'{text}: no day')


def parse_words() -> argparse.Namespace:
    parser = argparse.ArgumentParser(prog='goo-advance', description=__doc__,
                                     formatter_class=argparse.RawDescriptionHelpFormatter)
    parser.add_argument('day', nargs='?', metavar='DAY', help="the new date; this host's day, if "
                        'none is given')
    parser.add_argument('--confirm', default='', metavar='DAY',
                        help="the same day, where it is after this host's or far away")
    parser.add_argument('--door', default=DOOR, metavar='PATH|HOST:PORT',
                        help=f'where the log listens; {DOOR} unless told')
    return parser.parse_args()


def date_of(client: Client) -> datetime.date | None:
    """The registry's date; None where it has no account yet."""
    lines = client.beginning('/v1/accounts/1/statement', HEAD).text.splitlines()[:3]
    found = [match[1] for match in map(DATED.fullmatch, lines) if match]
    return day_of(found[0]) if found else None


def verify(day: datetime.date, today: datetime.date, date: datetime.date | None) -> None:
    """Raises Refused where a day has to be confirmed, or the registry's date is a wrong one."""
    hint = f'goo-advance {day} --confirm {day}'
    if day > today:
        raise Refused(f"{day} is after this host's day, {today}. If it is right: {hint}")
    if date and date - today > AHEAD:
        raise Refused(f"the registry's date is {date}, {(date - today).days} days after this "
                      f"host's, {today}: which of the two is wrong?")
    if date and day - date > FARTHEST:
        raise Refused(f'from {date} to {day} are {(day - date).days} days, and what expires by it '
                      f'stays expired. If {day} is right: {hint}')


def send_date(client: Client, day: datetime.date, confirmed: str) -> Answer:
    """The registry's answer to the request that moves its date."""
    request = {'command': 'advance', 'day': str(day), 'key': f'advance-{day}'}
    body = json.dumps(request, separators=(',', ':')).encode()
    return client.post('/v1/requests', body, {'GOO-Confirm': confirmed} if confirmed else {})


def has_date(answer: Answer) -> bool:
    """Whether the registry has the date now, or stands at a later one that somebody gave it."""
    told = answer.members()
    return told.get('outcome') in ('accepted', 'repeated') or told.get('name') == 'DateBackwards'


def advance(words: argparse.Namespace) -> int:
    today = datetime.date.today()
    day, client = day_of(words.day or str(today)), Client(words.door)
    if words.confirm and words.confirm != str(day):
        raise Refused(f'{day} is not {words.confirm}')
    try:
        date = date_of(client)
        if not words.confirm:
            verify(day, today, date)
        answer = send_date(client, day, words.confirm)
    except NoAnswer as fault:
        raise Refused(f'the registry does not answer: {fault}') from fault
    print(f'{day} {answer.text.rstrip()}')
    return 0 if has_date(answer) else 1


def main() -> int:
    try:
        return advance(parse_words())
    except Refused as fault:
        print(f'goo-advance: {fault}', file=sys.stderr)
        return 1


if __name__ == '__main__':
    sys.exit(main())
