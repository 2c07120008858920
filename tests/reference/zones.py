"""Zones: a fixed offset, in seconds east of Greenwich, or a rule as POSIX writes it.

Of rules those are known that have two offsets and change between them on the Nth weekday of a month,
as `CET-1CEST,M3.5.0,M10.5.0/3`: the last Sunday of March at 2 o'clock, to the last Sunday of October
at 3 o'clock. Offsets in a rule are west of Greenwich.
"""
import calendar
import datetime
import re

HOUR = 3600
DAY = 86400
RULE = re.compile(
    r"[A-Z]+(-?\d+)[A-Z]+,M(\d+)\.(\d)\.(\d)(?:/(\d+))?,M(\d+)\.(\d)\.(\d)(?:/(\d+))?"
)


def parse_rule(text):
    """The offset of the winter and the two changes of a rule, or None for another text."""
    match = RULE.fullmatch(text)
    if match is None:
        return None
    winter = -int(match[1]) * HOUR
    return winter, change_of(match.groups()[1:5]), change_of(match.groups()[5:])


def change_of(parts):
    """A change: the month, the week, the weekday from Sunday, and the hour, which is 2 where none is said."""
    month, week, weekday, hour = parts
    return int(month), int(week), int(weekday), 2 if hour is None else int(hour)


def change_second(year, change):
    """The local second of a change in a year, by the clock before it, since 1970-01-01T00:00:00."""
    month, week, weekday, hour = change
    first = datetime.date(year, month, 1)
    day = 1 + (weekday - first.isoweekday()) % 7 + 7 * (week - 1)
    if day > calendar.monthrange(year, month)[1]:
        day -= 7
    date = datetime.date(year, month, day)
    return (date - datetime.date(1970, 1, 1)).days * DAY + hour * HOUR


def offset_at(zone, second):
    """How many seconds a clock in the zone is ahead of Greenwich at a second there."""
    if isinstance(zone, int):
        return zone
    winter, to_summer, to_winter = zone
    year = datetime.datetime.fromtimestamp(second, datetime.timezone.utc).year
    begins = change_second(year, to_summer) - winter
    ends = change_second(year, to_winter) - winter - HOUR
    return winter + HOUR if begins <= second < ends else winter
