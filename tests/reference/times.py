"""Times: whole nanoseconds since 1970-01-01T00:00:00Z, and what a clock in a zone shows at them.

A zone is a fixed offset, this many seconds east of Greenwich, or a rule (see `zones.py`).
"""
import datetime

from .zones import offset_at

NANOS = 1000000000
DAY = 86400
LEAST_INSTANT = -377705023201 * NANOS
GREATEST_INSTANT = 253402207200 * NANOS + 999999999
# The calendar repeats itself after 400 years, which have this many days.
CYCLE_YEARS = 400
CYCLE_DAYS = 146097


def seconds_of(nanos):
    """`moment_of_nanos`: the whole seconds of a time, rounded down."""
    return nanos // NANOS


def nanoseconds_of(nanos):
    """`moment_of_nanos`: the nanoseconds of a time after its whole seconds."""
    return nanos % NANOS


def fits_nanos(nanos):
    """`FitsNanos`: the whole seconds fit 64 bits, two's complement."""
    return -(2**63) <= seconds_of(nanos) < 2**63


def is_instant(nanos):
    """`is_instant`: the time lies in `jiff`'s range of instants."""
    return LEAST_INSTANT <= nanos <= GREATEST_INSTANT


def local_second(nanos, zone):
    """`local_second`: what a clock in the zone shows, in seconds since 1970-01-01T00:00:00 there."""
    return seconds_of(nanos) + offset_at(zone, seconds_of(nanos))


def local_day(nanos, zone):
    """`local_day`: the number of the day that a clock in the zone shows, 1970-01-01 being day 0."""
    return local_second(nanos, zone) // DAY


def local_date(nanos, zone):
    """`local_date`: the year, the month from 1 and the day from 1 that a clock in the zone shows."""
    return date_of_day(local_day(nanos, zone))


def date_of_day(day):
    """`date_of_day`: the date of the calendar whose day has this number."""
    start = datetime.date(1970, 1, 1)
    cycles, rest = divmod(day, CYCLE_DAYS)
    date = start + datetime.timedelta(days=rest)
    return date.year + CYCLE_YEARS * cycles, date.month, date.day
