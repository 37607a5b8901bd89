"""Days as serial numbers: 0 is 1899-12-30, and 2,958,465 is 9999-12-31."""

import datetime

import values
from values import Stop

DAY_ZERO = datetime.date(1899, 12, 30).toordinal()
LAST = datetime.date(9999, 12, 31).toordinal() - DAY_ZERO
# The calendar is the same again after so many years, which have so many days.
YEARS, YEARS_DAYS = 400, 146_097


def in_range(serial):
    if not 0 <= serial <= LAST:
        raise Stop(values.NUM)
    return serial


def day(serial):
    """The day of a serial number."""
    return datetime.date.fromordinal(DAY_ZERO + in_range(serial))


def shown(serial):
    """A serial number as a value."""
    return values.whole(in_range(serial))


def serial(year, month, day_):
    """The serial number of a day of any year; its month and its day may lie outside of the year and
    the month, and the number out of range."""
    year, month = year + (month - 1) // 12, (month - 1) % 12 + 1
    turns, year = year // YEARS, year % YEARS
    first = datetime.date(year + YEARS, month, 1).toordinal()
    return first + (turns - 1) * YEARS_DAYS - DAY_ZERO + day_ - 1


def last_of(year, month):
    """The serial number of the month's last day."""
    return serial(year, month + 1, 0)
