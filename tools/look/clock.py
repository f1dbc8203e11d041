"""Dates, Settlement Periods and moments, by the rule in docs/market.md: clocks go forward at 01:00 UTC on the last Sunday of March,
and back at 01:00 UTC on that of October. No file of zones and no clock is asked."""

import datetime
import functools

EPOCH = datetime.date(1970, 1, 1)
FIRST, LAST = 11_323, 47_481  # the days of 2001-01-01 and 2099-12-31
DAY, HOUR, PERIOD, MINUTE = 86_400, 3_600, 1_800, 60
MARCH, OCTOBER = 3, 10


@functools.cache
def day_of(text):
    """The number of a date's day since 1970-01-01. A text that is no date, or one that isn't accepted, is a ValueError."""
    if len(text) != 10:
        raise ValueError(text)
    day = (datetime.date.fromisoformat(text) - EPOCH).days
    if not FIRST <= day <= LAST:
        raise ValueError(text)
    return day


def date_of(day):
    """The text of a day's date."""
    return (EPOCH + datetime.timedelta(day)).isoformat()


def weekday_of(day):
    return f"{EPOCH + datetime.timedelta(day):%A}"


@functools.cache
def last_sunday(year, month):
    """The day of the last Sunday of a month of 31 days."""
    end = datetime.date(year, month, 31)
    return (end - EPOCH).days - end.isoweekday() % 7


def is_summer(moment):
    """Whether clocks are an hour ahead of UTC at a moment."""
    year = (EPOCH + datetime.timedelta(moment // DAY)).year
    return last_sunday(year, MARCH) * DAY + HOUR <= moment < last_sunday(year, OCTOBER) * DAY + HOUR


@functools.cache
def midnight(day):
    """The second at which a Settlement Day begins."""
    ahead = day * DAY - HOUR
    return ahead if is_summer(ahead) else day * DAY


def count(day):
    """How many Settlement Periods a day has."""
    return (midnight(day + 1) - midnight(day)) // PERIOD


def start(day, period):
    """The second at which a Settlement Period begins."""
    return midnight(day) + PERIOD * (period - 1)


def place(moment):
    """The day and the period in which a moment is."""
    day = (moment + HOUR * is_summer(moment)) // DAY
    return day, (moment - midnight(day)) // PERIOD + 1


def wall_clock(moment):
    """What clocks show at a moment."""
    minutes = (moment + HOUR * is_summer(moment)) % DAY // MINUTE
    return f"{minutes // 60:02}:{minutes % 60:02}"


def zone(moment):
    return "BST" if is_summer(moment) else "GMT"


def in_utc(moment):
    """A moment as a text that ends with Z."""
    seconds = moment % DAY
    return f"{date_of(moment // DAY)}T{seconds // HOUR:02}:{seconds // MINUTE % 60:02}:{seconds % 60:02}Z"


def shown(moment):
    """A moment, with its date and time if it is in one."""
    if midnight(FIRST) <= moment < midnight(LAST + 1):
        return f"{in_utc(moment)} ({moment})"
    return str(moment)
