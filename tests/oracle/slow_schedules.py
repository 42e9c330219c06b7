"""Calendars and schedules by their definitions: a plain slow program for whole buildings.

It shares no code with the desk. Days are Python's own dates, and an entry holds on a day where the day is one of
the set that the entry's text names.
"""
import calendar
import datetime
from dataclasses import dataclass

FIRST_YEAR, LAST_YEAR = 1970, 2154
HUNDREDTHS_A_DAY = 24 * 60 * 60 * 100
QUARTER = HUNDREDTHS_A_DAY // 96
WEEKDAYS = ["mon", "tue", "wed", "thu", "fri", "sat", "sun"]


# ---- which days an entry holds on


def in_months(text, month):
    return {"*": True, "odd": month % 2 == 1, "even": month % 2 == 0}.get(text, text == f"{month:02}")


def days_left(day):
    return calendar.monthrange(day.year, day.month)[1] - day.day


def in_days(text, day):
    wanted = {"*": True, "odd": day.day % 2 == 1, "even": day.day % 2 == 0, "last": days_left(day) == 0}
    return wanted.get(text, text == f"{day.day:02}")


def in_weeks(text, day):
    weeks = {str(week): 7 * (week - 1) < day.day <= 7 * week for week in range(1, 6)}
    weeks |= {str(week): 7 * (week - 6) <= days_left(day) <= 7 * (week - 6) + 6 for week in range(6, 10)}
    return text == "*" or weeks[text]


def in_weekday(text, day):
    return text == "*" or text == WEEKDAYS[day.weekday()]


def in_range(text, day):
    start, end = text.split("..")
    return (start == "*" or start <= day.isoformat()) and (end == "*" or day.isoformat() <= end)


def holds(entry, day):
    """Whether the day is one of the entry's, which its text says."""
    if entry.startswith("wnd:"):
        _, month, week, weekday = entry.split(":")
        return in_months(month, day.month) and in_weeks(week, day) and in_weekday(weekday, day)
    if ".." in entry:
        return in_range(entry, day)
    date, _, weekday = entry.partition("/")
    year, month, of_month = date.split("-")
    return (
        (year == "*" or int(year) == day.year)
        and in_months(month, day.month)
        and in_days(of_month, day)
        and in_weekday(weekday or "*", day)
    )


# ---- what a schedule says


@dataclass(frozen=True)
class Calendar:
    name: str
    entries: tuple


@dataclass(frozen=True)
class Exception_:
    """Days by an entry's text, or by the name of a calendar; time values as pairs of hundredths and value."""

    priority: int
    entry: str | None
    calendar: str | None
    times: tuple


@dataclass(frozen=True)
class Schedule:
    name: str
    period: str
    priority: int
    targets: tuple
    default: int | None
    weekly: tuple
    exceptions: tuple
    releases: bool

    def active(self, day):
        return in_range(self.period, day)


def list_value(times, now):
    """The value of the element that is greatest by time and place among those at or before now; else NULL."""
    passed = [(time, place, value) for place, (time, value) in enumerate(times) if time <= now]
    return max(passed, key=lambda element: element[:2])[2] if passed else None


def in_effect(exception, calendars, day):
    if exception.calendar is None:
        return holds(exception.entry, day)
    return any(holds(entry, day) for entry in calendars[exception.calendar])


def in_effect_on(schedule, calendars, day):
    """The exceptions of a day, each with its place, where the calendars are the entries under each name."""
    return [(place, each) for place, each in enumerate(schedule.exceptions) if in_effect(each, calendars, day)]


def value_among(schedule, exceptions, day, now):
    """The value now, with the exceptions that are in effect."""
    values = [(each.priority, place, list_value(each.times, now)) for place, each in exceptions]
    speaking = [spoken for spoken in values if spoken[2] is not None]
    if speaking:
        return min(speaking)[2]
    weekday = list_value(schedule.weekly[day.weekday()], now)
    return schedule.default if weekday is None else weekday


def schedule_value(schedule, calendars, day, now):
    """The value now."""
    return value_among(schedule, in_effect_on(schedule, calendars, day), day, now)


def segments(schedule, calendars, day):
    """00:00 and each moment at which the value differs from that a hundredth earlier, each with its value.

    The moments are looked for at each quarter of an hour: at other ones no list here has a time.
    """
    exceptions = in_effect_on(schedule, calendars, day)
    reported = [(0, value_among(schedule, exceptions, day, 0))]
    for time in range(QUARTER, HUNDREDTHS_A_DAY, QUARTER):
        earlier, value = (value_among(schedule, exceptions, day, now) for now in (time - 1, time))
        if value != earlier:
            reported.append((time, value))
    return reported


# ---- local time


def last_sunday(year, month):
    last = datetime.date(year, month, calendar.monthrange(year, month)[1])
    return last - datetime.timedelta(days=(last.weekday() + 1) % 7)


def offset(zone, seconds):
    """How many seconds the clock is ahead of UTC: always one hour in winter and two in summer, or none."""
    if zone == "UTC0":
        return 0
    if zone == "EST5":
        return -5 * 3600
    assert zone == "CET-1CEST,M3.5.0,M10.5.0/3"
    year = (datetime.datetime(1970, 1, 1) + datetime.timedelta(seconds=seconds)).year
    spring, autumn = last_sunday(year, 3), last_sunday(year, 10)
    one = datetime.time(1)
    start = (datetime.datetime.combine(spring, one) - datetime.datetime(1970, 1, 1)).total_seconds()
    end = (datetime.datetime.combine(autumn, one) - datetime.datetime(1970, 1, 1)).total_seconds()
    return 7200 if start <= seconds < end else 3600


def local_time(zone, moment):
    """The local day and the hundredths since midnight, or None where the moment is out of range."""
    if moment < 0 or moment > 10**13:
        return None
    shown = moment + 100 * offset(zone, moment // 100)
    day = datetime.date(1970, 1, 1) + datetime.timedelta(days=shown // HUNDREDTHS_A_DAY)
    return (day, shown % HUNDREDTHS_A_DAY) if FIRST_YEAR <= day.year <= LAST_YEAR else None
