"""Days, and the deadlines that are months after them."""
import calendar
import datetime
import functools


@functools.cache
def months_after(day: str, months: int) -> str | None:
    """The same day so many months on, or the last of that month; None after 2099."""
    year, month, date = map(int, day.split('-'))
    year, month = year + (month - 1 + months) // 12, (month - 1 + months) % 12 + 1
    if year > 2099:
        return None
    return f'{year:04}-{month:02}-{min(date, calendar.monthrange(year, month)[1]):02}'


def hours(first: str, last: str) -> int:
    """The hours of a period of whole days, and one for the change of the clocks."""
    days = datetime.date.fromisoformat(last) - datetime.date.fromisoformat(first)
    return 24 * (days.days + 1) + 1


def is_past(deadline: str | None, today: str) -> bool:
    """Whether the day after a deadline has come. One after 2099 never passes."""
    return deadline is not None and today > deadline
