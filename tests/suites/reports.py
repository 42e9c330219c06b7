"""Reports of days: what entries hold on, the segments of schedules, the period, and days that there are none of.

Each test takes the path of the program and a folder of its own, and raises where it finds something else. What is
wanted are worked rows, or what the plain slow program tells.
"""
import datetime
import itertools

from helpers import tables
from helpers.random_lists import toml_of
from helpers.serving import get, response, serving
from helpers.tables import ENTRIES
from helpers.trying import expect
from oracle.slow_desk import Building, Point, report_text, segment_line
from oracle.slow_schedules import HUNDREDTHS_A_DAY, WEEKDAYS, Calendar, Exception_, Schedule, holds, segments

HOUR = HUNDREDTHS_A_DAY // 24
SET = Point("SET", "analog", -9999, 9999, 0)

# Days at both ends of the calendar, and about each turn of a month and a leap day that is none.
FAR_DAYS = ["1900-01-01", "1900-01-02", "1900-01-31", "1900-02-01", "1900-02-28", "1900-03-01", "1900-12-31", "1999-12-31",
            "2000-02-28", "2000-02-29", "2000-03-01", "2100-02-28", "2100-03-01", "2154-01-01", "2154-02-28", "2154-12-30",
            "2154-12-31"]
NO_DAYS = ["1899-12-31", "2155-01-01", "2025-02-29", "1900-02-29", "2025-00-01", "2025-13-01", "2025-01-00", "2025-04-31",
           "2025-1-01", "2025-01-1", "2025-*-01", "*", "25-01-01", "02025-01-01", "2025-01-01..*"]
DAY = "2025-06-02"


def at(hour, value):
    return (hour * HOUR, value)


def everyday(priority, *times):
    return Exception_(priority, "*-*-*", None, times)


def holiday(priority, *times):
    return Exception_(priority, None, "HOLIDAYS", times)


# What a schedule says of each weekday, its exceptions, its default, and its segments of a day that is a holiday.
WORKED = {
    "of-equal-times-the-later-counts": ([at(8, 1), at(8, 2)], [], 0, [at(0, 0), at(8, 2)]),
    "a-list-need-not-be-sorted": ([at(12, 1), at(6, 2)], [], None, [at(0, None), at(6, 2), at(12, 1)]),
    "a-value-that-stays": ([at(6, 1), at(7, 1)], [], 1, [at(0, 1)]),
    "NULL-gives-way-to-the-week": ([at(8, 3)], [everyday(16, at(0, 5), at(9, None))], 0, [at(0, 5), at(9, 3)]),
    "by-priority-and-then-by-place": (
        [],
        [everyday(3, at(8, 1700), at(12, None)), everyday(3, at(0, 1500)), everyday(3, at(0, 1600)), everyday(2, at(13, 1400))],
        1800,
        [at(0, 1500), at(8, 1700), at(12, 1500), at(13, 1400)],
    ),
    "a-holiday-and-all-the-others": (
        [at(8, 2100)],
        [holiday(5, at(0, 1500), at(12, None)), everyday(3, at(6, 1700), at(7, None))],
        1600,
        [at(0, 1500), at(6, 1700), at(7, 1500), at(12, 2100)],
    ),
    "to-the-hundredth": (
        [(1, 1), (HOUR - 1, 2), (HUNDREDTHS_A_DAY - 100, None), (HUNDREDTHS_A_DAY - 1, 3)], [], 0,
        [at(0, 0), (1, 1), (HOUR - 1, 2), (HUNDREDTHS_A_DAY - 100, 0), (HUNDREDTHS_A_DAY - 1, 3)],
    ),
}

# Lists of time values: equal times, unsorted ones, NULL, and none.
LISTS = [
    [],
    [at(8, 1), at(8, 2), at(12, None)],
    [at(12, 1), at(6, 2), at(9, None), at(9, 4)],
    [at(0, 5), at(9, None)],
    [at(6, 1), at(7, 1), at(23, 2)],
    [at(0, None), at(13, 7)],
]


def schedule(name, week, exceptions, default, period="*..*"):
    return Schedule(name, period, 15, (), default, tuple(map(tuple, week)), tuple(exceptions), False)


def building_of(schedules, calendars=()):
    return Building((SET,), (), "UTC0", tuple(calendars), tuple(schedules))


def reported(program, folder, building, wanted):
    """Asks for the reports of days, each of which has to be the text that is wanted."""
    (folder / "building.toml").write_text(toml_of(building))
    with serving(program, folder, len(wanted)) as server:
        for day, text in wanted.items():
            expect((day, server.ask(get(f"/reports/{day}"))), (day, response(200, text.encode(), "text/plain")))
        server.end()


def day_text(day, schedules):
    """A report's text: a day, and the name, the state and the segments of each schedule."""
    lines = [f"DAY {day} {WEEKDAYS[datetime.date.fromisoformat(day).weekday()]}"]
    for name, state, reported in schedules:
        lines += [f"SCHEDULE {name} {state}"] + [segment_line(time, value) for time, value in reported]
    return "\n".join(lines) + "\nPOINT SET                                        0  0\n"


def worked_schedules_have_their_segments(program, folder):
    schedules = [schedule(name, [week] * 7, cases, default) for name, (week, cases, default, _) in WORKED.items()]
    building = building_of(schedules, [Calendar("HOLIDAYS", (DAY,))])
    text = day_text(DAY, [(name, "active", reported) for name, (_, _, _, reported) in WORKED.items()])
    reported(program, folder, building, {DAY: text})


def each_choice_of_lists_has_the_segments_of_the_definition(program, folder):
    """Lists for the week and for four exceptions, of which one is in effect by a calendar and one is not."""
    schedules = []
    for number, (week, first, second) in enumerate(itertools.product(LISTS, repeat=3)):
        cases = [holiday(3, *first), everyday(3, *second), Exception_(1, None, "OTHER", tuple(week)), everyday(16, *first)]
        cases = [each for each in cases if each.times]
        schedules.append(schedule(f"S{number}", [week] * 7, cases, 3 if first else None))
    building = building_of(schedules, [Calendar("HOLIDAYS", (DAY,)), Calendar("OTHER", ("2025-06-03",))])
    wanted = {day: report_text(building, datetime.date.fromisoformat(day)) for day in (DAY, "2025-06-03")}
    reported(program, folder, building, wanted)


def each_weekday_has_its_list(program, folder):
    building = building_of([schedule("S", [[at(0, place)] for place in range(1, 8)], [], None)])
    days = [datetime.date(2025, 6, 1) + datetime.timedelta(days=count) for count in range(10)]
    days += map(datetime.date.fromisoformat, FAR_DAYS)
    wanted = {str(day): day_text(str(day), [("S", "active", [at(0, day.isoweekday())])]) for day in days}
    reported(program, folder, building, wanted)


def a_schedule_is_active_in_its_period(program, folder):
    building = building_of([schedule("S", [[]] * 7, [], 1, "2025-06-01..2025-06-30"), schedule("T", [[]] * 7, [], None)])
    wanted = {}
    for day, state in (("2025-05-31", "quiet"), ("2025-06-01", "active"), ("2025-06-30", "active"), ("2025-07-01", "quiet")):
        wanted[day] = day_text(day, [("S", state, [at(0, 1)]), ("T", "active", [at(0, None)])])
    reported(program, folder, building, wanted)


def each_entry_holds_on_its_days(program, folder):
    """Each day of two years, and some far ones: a schedule for each entry says 1 where the entry holds."""
    schedules = [schedule(f"E{place}", [[]] * 7, [Exception_(1, entry, None, (at(0, 1),))], 0) for place, entry in enumerate(ENTRIES)]
    days = [datetime.date(2024, 1, 1) + datetime.timedelta(days=count) for count in range(731)]
    days += map(datetime.date.fromisoformat, FAR_DAYS)
    wanted = {
        str(day): day_text(str(day), [(f"E{place}", "active", [at(0, int(holds(entry, day)))]) for place, entry in enumerate(ENTRIES)])
        for day in days
    }
    reported(program, folder, building_of(schedules), wanted)


# On how many days of 2024 and 2025 an entry holds.
COUNTS = {"*..*": 731, "*-*-*": 731, "*-*-last": 24, "*-02-29": 1, "1900-02-29": 0, "2025-02-31": 0, "2025-12-25/fri": 0,
          "2025-06-02..2025-06-01": 0, "*-even-last": 12, "wnd:*:5:*": 59, "wnd:*:6:*": 168}
# The days of February 2024 on which an entry holds, from the first to the last.
FEBRUARY = {"wnd:*:1:*": (1, 7), "wnd:*:5:*": (29, 29), "wnd:*:6:*": (23, 29), "wnd:*:9:*": (2, 8), "*-even-last": (29, 29)}


def the_plain_program_knows_worked_days(program, folder):
    """So that what it tells of entries and schedules is no error of its own."""
    for week, cases, default, wanted in WORKED.values():
        if all(time % HOUR == 0 for time, _ in wanted):
            worked = schedule("S", [week] * 7, cases, default)
            expect(segments(worked, {"HOLIDAYS": (DAY,)}, datetime.date.fromisoformat(DAY)), wanted)
    days = [datetime.date(2024, 1, 1) + datetime.timedelta(days=count) for count in range(731)]
    expect({entry: sum(holds(entry, day) for day in days) for entry in COUNTS}, COUNTS)
    for entry, (first, last) in FEBRUARY.items():
        held = [day.day for day in days[31:60] if holds(entry, day)]
        expect((entry, held), (entry, list(range(first, last + 1))))


def a_day_that_there_is_none_of_is_reported(program, folder):
    (folder / "building.toml").write_text(tables.WORKED)
    with serving(program, folder, len(NO_DAYS)) as server:
        for day in NO_DAYS:
            expect((day, server.ask(get(f"/reports/{day}"))), (day, response(404, b'{"answer":"no_day"}')))
        server.end()


TESTS = [tables.in_worked(test) for test in (
    worked_schedules_have_their_segments,
    each_choice_of_lists_has_the_segments_of_the_definition,
    each_weekday_has_its_list,
    a_schedule_is_active_in_its_period,
    the_plain_program_knows_worked_days,
    each_entry_holds_on_its_days,
    a_day_that_there_is_none_of_is_reported,
)]
