"""`look when`: the date, the period, the clock and the seconds of each other. It looks into no office, but for its lead time."""

from . import clock
from .figures import counted
from .telling import Fault, Told, WrongWords

LEAD_MINUTES = 60


def take_words(command):
    command.add_argument("--db", metavar="PATH", help="the office's file, for its lead time; it is an hour, if not given")
    command.add_argument("words", nargs="+", metavar="WORD", help="DATE, DATE PERIOD, DATE HH:MM, HH:MM or SECONDS")


def judge(asked):
    if len(asked.words) > 2 or (len(asked.words) == 2 and "-" not in asked.words[0]):
        raise WrongWords(f'"{asked.words[-1]}" is one word too many')


def tell(office, asked):
    """What the words say: a date, a date with a period or with a clock's time, a clock's time, or a moment."""
    lead = LEAD_MINUTES if office is None else office.lead_minutes
    words = asked.words
    if len(words) == 1 and ":" in words[0]:
        return Told(on_each_day(minutes_of(words[0])))
    if len(words) == 1 and words[0].lstrip("-").isdecimal():
        return Told(at_moment(int(words[0]), lead))
    day = day_of(words[0])
    if len(words) == 1:
        return Told(of_day(day))
    if ":" in words[1]:
        return Told(at_clock(day, minutes_of(words[1]), lead))
    return Told(of_period(day, period_of(day, words[1]), lead))


def day_of(text):
    try:
        return clock.day_of(text)
    except ValueError:
        raise WrongWords(f'"{text}" is no date from 2001-01-01 to 2099-12-31, no time as 08:10, and no number of seconds') from None


def minutes_of(text):
    """The minutes since midnight of a clock's time."""
    hours, _, minutes = text.partition(":")
    if not (len(hours) in (1, 2) and len(minutes) == 2 and (hours + minutes).isdecimal() and int(hours) < 24 and int(minutes) < 60):
        raise WrongWords(f'"{text}" is no time of a clock, as 08:10')
    return 60 * int(hours) + int(minutes)


def period_of(day, text):
    if not text.isdecimal():
        raise WrongWords(f'"{text}" is no period and no time of a clock')
    if not 1 <= int(text) <= clock.count(day):
        raise Fault(f"{clock.date_of(day)} has {clock.count(day)} periods, and no period {int(text)}")
    return int(text)


def kind_of_day(day):
    """What clocks do on a day."""
    return {46: ", on which clocks go forward", 48: "", 50: ", on which clocks go back"}[clock.count(day)]


def edge(word, moment):
    return f"{word:<5} {clock.wall_clock(moment)} {clock.zone(moment)}  {clock.in_utc(moment)}  {moment}"


def of_day(day):
    """A day's edges."""
    begin, end = clock.midnight(day), clock.midnight(day + 1)
    return [
        f"{clock.date_of(day)}, a {clock.weekday_of(day)}{kind_of_day(day)}: {clock.count(day)} periods",
        edge("from", begin),
        edge("to", end),
    ]


def of_period(day, period, lead):
    """A period's edges and its deadline."""
    begin = clock.start(day, period)
    return [
        f"{clock.date_of(day)}{kind_of_day(day)}: period {period} of {clock.count(day)}",
        edge("from", begin),
        edge("to", begin + clock.PERIOD),
        f"{edge('late', begin - lead * clock.MINUTE)}  {counted(lead, 'minute')} before it",
    ]


def at_moment(moment, lead):
    """The period in which a moment is."""
    if not clock.midnight(clock.FIRST) <= moment < clock.midnight(clock.LAST + 1):
        raise Fault(f"the moment {moment} is in no date from 2001-01-01 to 2099-12-31; moments are seconds, not milliseconds")
    return [edge("at", moment), *of_period(*clock.place(moment), lead)]


def periods_at(day, minutes):
    """The periods of a day in which clocks show a time: none, one or two."""
    shown = f"{minutes // 30 * 30 // 60:02}:{minutes // 30 * 30 % 60:02}"
    return [period for period in range(1, clock.count(day) + 1) if clock.wall_clock(clock.start(day, period)) == shown]


def at_clock(day, minutes, lead):
    """The periods in which clocks show a time."""
    periods = periods_at(day, minutes)
    if not periods:
        raise Fault(f"clocks never show {minutes // 60:02}:{minutes % 60:02} on {clock.date_of(day)}: they go forward at 01:00")
    return [line for period in periods for line in of_period(day, period, lead)]


# A day of each number of periods, of which the others have the same times.
SAMPLES = {48: clock.day_of("2024-07-01"), 46: clock.day_of("2024-03-31"), 50: clock.day_of("2024-10-27")}


def on_each_day(minutes):
    """The periods of a time, by the number of the day's periods."""
    lines = []
    for count, day in SAMPLES.items():
        periods = " and ".join(map(str, periods_at(day, minutes)))
        lines.append(f"{minutes // 60:02}:{minutes % 60:02} on a day of {count} periods: {'period ' + periods if periods else 'never'}")
    return lines
