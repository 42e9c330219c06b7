"""Tries `desk check --explain` on the building files of the suite `building_files` and on some of its own.

A file at fault gets two lines: that of `desk check`, and one that names the item and says what is expected there. Of each
file the item is found by the plain slow reading; of the cases here the whole line is wanted as it is written. Of a file
that is no TOML the line and the column are looked at. A good file gets what `desk check` prints.
"""
import re
import subprocess

from helpers import building_files
from helpers.building_files import (
    BINARY, DAY, EXCEPTION, HOLIDAYS, LIGHT, P2, SCHEDULE, SET, WEEK, ZONE, changed, entries, multi, points, targets, time_values,
)
from helpers.tables import WORKED
from helpers.trying import expect_none, named
from oracle.slow_reading import first_fault

ON_DISK = True

# ---- lines that are wanted as they are written

ZONE_RULE = "expected a POSIX rule of a time zone as text, as CET-1CEST,M3.5.0,M10.5.0/3 or UTC0"
NAME = "expected a text of 1 to 32 ASCII letters, digits, -, _ and ."
KIND = 'expected "binary", "multi" or "analog"'
STATES = "expected a whole number from 1 to 1000"
BOUND = "expected a whole number from -1000000000 to 1000000000"
WRITTEN = "expected a whole number from 1 to 16, not 6"
MINIMUM_TIMES = f"6 is for minimum on and off times alone; {WRITTEN}"
FORMS = "an entry is Y-M-D, Y-M-D/W, A..B or wnd:M:K:W, as 2025-12-25, *-*-last/fri, 2025-12-24..2026-01-06 or wnd:*:1:mon"
RANGE = "a period is a range A..B, each of A and B a date YYYY-MM-DD or *"
VALUE = "the value is NULL, or has 1 to 11 digits after an optional -"
POINT_KEYS = "no key of a point, which takes name, kind, states, low, high and default"
SCHEDULE_KEYS = "no key of a schedule, which takes name, period, priority, targets, default, weekly, exception and on_leave"
TIMES = 'times = ["00:00=1500"]'
ENTRY = "2025-12-25"
TWO = EXCEPTION.replace('calendar = "HOLIDAYS"', 'entry = "2025-12-24"')
SECOND_EXCEPTION = [(EXCEPTION, TWO + EXCEPTION)]


def second(old, new):
    """A change in the second of two exceptions, the first of which has an entry."""
    return [(EXCEPTION, TWO + EXCEPTION.replace(old, new))]


def entry(text):
    """A text as the third entry of a list."""
    return [(f'entries = ["{ENTRY}"]', f'entries = ["{ENTRY}", "wnd:*:1:mon", "{text}"]')]


def monday(text):
    """A text as the second time value of Monday."""
    return [('["08:00=2100"]', f'["08:00=2100", "{text}"]')]


def period(text):
    return [(DAY, f'{DAY}\nperiod = "{text}"')]


EXPLAINED = [
    # the top table
    ("B1 top 0 -", 'line 1, column 8: ', [(ZONE, "zone = ")]),
    ("B1 top 0 -", "line 2, column 1: duplicate key", [(ZONE, ZONE + "\n" + ZONE)]),
    ("B2 top 0 ?", "site: no key of the file, which takes zone, point, panel, calendar and schedule", [(ZONE, ZONE + "\nsite = 1")]),
    ("B2 top 0 ?", '"a \\"b\\" \\u{1b}\\né": no key of the file, which takes zone, point, panel, calendar and schedule',
     [(ZONE, ZONE + '\n"a \\"b\\" \\u001b\\né" = 1')]),
    ("B3 top 0 zone", f"zone is missing: {ZONE_RULE}", [(ZONE, "")]),
    ("B4 top 0 zone", f"zone 1: {ZONE_RULE}", [(ZONE, "zone = 1")]),
    ("B12 top 0 zone", f'zone "Europe/Berlin": {ZONE_RULE}', [(ZONE, 'zone = "Europe/Berlin"')]),
    ("B4 top 0 point", "point (a table): expected tables, each under [[point]]", [(WORKED, ZONE + "\n[point]\n")]),
    ("B4 top 0 point", "point[2] 2: expected a table under [[point]]", [(WORKED, ZONE + "\npoint = [{ name = 1 }, 2]")]),
    ("B4 top 0 panel", "panel 1: expected tables, each under [[panel]]", [(WORKED, ZONE + "\npanel = 1")]),
    ("B4 top 0 calendar", "calendar[1] 1: expected a table under [[calendar]]", [(WORKED, ZONE + "\ncalendar = [1]")]),
    ("B4 top 0 schedule", 'schedule "x": expected tables, each under [[schedule]]', [(WORKED, ZONE + '\nschedule = "x"')]),
    ("B13 top 0 point", "point has 1001 tables: at most 1000 are allowed", [(WORKED, ZONE + "\n" + points(1001))]),
    ("B13 top 0 panel", "panel has 201 tables: at most 200 are allowed", [(WORKED, ZONE + "\n" + building_files.panels(201))]),
    ("B13 top 0 calendar", "calendar has 101 tables: at most 100 are allowed", [(WORKED, ZONE + "\n" + building_files.calendars(101))]),
    ("B13 top 0 schedule", "schedule has 501 tables: at most 500 are allowed", [(WORKED, ZONE + "\n" + building_files.schedules(501))]),
    # points
    ("B2 point 1 ?", f"unit: {POINT_KEYS}", [(SET, SET + "\nunit = 1")]),
    ("B2 point 2 ?", 'states: no key of a point whose kind is "binary", which takes name, kind and default', [(BINARY, BINARY + "high = 1\nstates = 2\n")]),
    ("B2 point 2 ?", 'low: no key of a point whose kind is "multi", which takes name, kind, states and default', multi("3\nlow = 1")),
    ("B2 point 1 ?", 'states: no key of a point whose kind is "analog", which takes name, kind, low, high and default', [("low = 500", "states = 3\nlow = 500")]),
    ("B3 point 1 name", f"name is missing: {NAME}", [(SET, "[[point]]")]),
    ("B4 point 1 name", f"name 1: {NAME}", [(SET, "[[point]]\nname = 1")]),
    ("B5 point 2 name", 'name "": a name has at least one character', [(LIGHT, '[[point]]\nname = ""')]),
    ("B5 point 2 name", 'name "A B": a name has letters, digits, `-`, `_` and `.` alone', [(LIGHT, '[[point]]\nname = "A B"')]),
    ("B5 point 2 name", 'name "Zähler \\t\\"1\\" \\\\ \\u{85}\\u{7f}": a name has letters, digits, `-`, `_` and `.` alone',
     [(LIGHT, '[[point]]\nname = "Zähler \\t\\"1\\" \\\\ \\u0085\\u007f"')]),
    ("B5 point 2 name", 'name "' + "é" * 60 + '"..: a name has at most 32 characters', [(LIGHT, '[[point]]\nname = "' + "é" * 61 + '"')]),
    ("B6 point 2 name", 'name "R101-SET": point 1 has this name already', [(LIGHT, SET)]),
    ("B3 point 2 kind", f"kind is missing: {KIND}", [(BINARY, "")]),
    ("B4 point 2 kind", f"kind 2: {KIND}", [(BINARY, "kind = 2\n")]),
    ("B4 point 2 kind", f'kind "Binary": {KIND}', [(BINARY, 'kind = "Binary"\n')]),
    ("B3 point 2 states", f"states is missing: {STATES}", [(BINARY, 'kind = "multi"\n')]),
    ("B4 point 2 states", f'states "3": {STATES}', multi('"3"')),
    ("B13 point 2 states", f"states 1001: {STATES}", multi(1001)),
    ("B3 point 1 low", f"low is missing: {BOUND}", [("low = 500\n", "")]),
    ("B4 point 1 low", f"low 5.0: {BOUND}", [("low = 500", "low = 5.0")]),
    ("B13 point 1 low", f"low -1000000001: {BOUND}", [("low = 500", "low = -1000000001")]),
    ("B3 point 1 high", f"high is missing: {BOUND}", [("high = 3500\n", "")]),
    ("B11 point 1 high", "high 499: below low, which is 500", [("high = 3500", "high = 499")]),
    ("B13 point 1 high", f"high 1000000001: {BOUND}", [("high = 3500", "high = 1000000001")]),
    ("B3 point 2 default", "default is missing: expected a whole number, a value of the point's kind", [(BINARY + "default = 0", BINARY)]),
    ("B4 point 2 default", "default false: expected a whole number, a value of the point's kind", [(BINARY + "default = 0", BINARY + "default = false")]),
    ("B11 point 2 default", "default 2: 2 is outside 0 to 1, the values of LIGHT", [(BINARY + "default = 0", BINARY + "default = 2")]),
    ("B11 point 2 default", "default 4: 4 is outside 1 to 3, the values of LIGHT", multi(3, 4)),
    ("B11 point 1 default", "default 3501: 3501 is outside 500 to 3500, the values of R101-SET", [("default = 1800", "default = 3501")]),
    # panels
    ("B2 panel 2 ?", "room: no key of a panel, which takes name, points and priorities", [(P2, P2 + "\nroom = 1")]),
    ("B6 panel 2 name", 'name "P1": panel 1 has this name already', [('"P2"', '"P1"')]),
    ("B3 panel 2 points", "points is missing: expected a list of names of points", [('points = ["R101-SET"]\n', "")]),
    ("B4 panel 2 points", "points 1: expected a list of names of points", [('points = ["R101-SET"]', "points = 1")]),
    ("B4 panel 2 points", "points[2] 1: expected the name of a point as text", [('points = ["R101-SET"]', 'points = ["R101-SET", 1]')]),
    ("B7 panel 2 points", 'points[2] "R102": no point of the file has this name', [('points = ["R101-SET"]', 'points = ["R101-SET", "R102"]')]),
    ("B6 panel 2 points", 'points[3] "R101-SET": points[1] has this name already', [('points = ["R101-SET"]', 'points = ["R101-SET", "LIGHT", "R101-SET"]')]),
    ("B3 panel 2 priorities", "priorities is missing: expected a list of whole numbers from 1 to 16, not 6", [("priorities = [9, 15]\n", "")]),
    ("B4 panel 2 priorities", "priorities 9: expected a list of whole numbers from 1 to 16, not 6", [("priorities = [9, 15]", "priorities = 9")]),
    ("B4 panel 2 priorities", f'priorities[2] "15": {WRITTEN}', [("priorities = [9, 15]", 'priorities = [9, "15"]')]),
    ("B10 panel 2 priorities", f"priorities[2] 6: {MINIMUM_TIMES}", [("priorities = [9, 15]", "priorities = [9, 6]")]),
    ("B10 panel 2 priorities", f"priorities[1] 17: {WRITTEN}", [("priorities = [9, 15]", "priorities = [17]")]),
    # calendars
    ("B2 calendar 1 ?", "year: no key of a calendar, which takes name and entries", [(HOLIDAYS, HOLIDAYS + "\nyear = 2025")]),
    ("B3 calendar 1 entries", "entries is missing: expected a list of entries, each a text as 2025-12-25", [(f'entries = ["{ENTRY}"]\n', "")]),
    ("B4 calendar 1 entries", "entries[1] 2025-12-25: expected an entry as text, as 2025-12-25", [(f'["{ENTRY}"]', f"[{ENTRY}]")]),
    ("B13 calendar 1 entries", "entries has 1001 items: at most 1000 are allowed", [(f'entries = ["{ENTRY}"]', entries(1001))]),
    ("B8 E1 calendar 1 entries", f'entries[3] "2025-12": {FORMS}', entry("2025-12")),
    ("B8 E1 calendar 1 entries", 'entries[3] "wnd:1:2": a week of a month is wnd:M:K:W, as wnd:*:1:mon', entry("wnd:1:2")),
    ("B8 E1 calendar 1 entries", 'entries[3] "2025-06-02..": at the end of the range, a date is YYYY-MM-DD, or * stands in its place', entry("2025-06-02..")),
    ("B8 E2 calendar 1 entries", 'entries[3] "1899-12-25": a year has four digits, 1900 to 2154, or is *', entry("1899-12-25")),
    ("B8 E2 calendar 1 entries", 'entries[3] "*..2155-01-01": at the end of the range, a year has four digits, 1900 to 2154', entry("*..2155-01-01")),
    ("B8 E3 calendar 1 entries", 'entries[3] "2025-2-25": a month has two digits, 01 to 12, or is odd, even or *', entry("2025-2-25")),
    ("B8 E3 calendar 1 entries", 'entries[3] "wnd:13:1:mon": a month has two digits, 01 to 12, or is odd, even or *', entry("wnd:13:1:mon")),
    ("B8 E3 calendar 1 entries", 'entries[3] "2025-13-01..1899-01-01": at the start of the range, a month has two digits, 01 to 12', entry("2025-13-01..1899-01-01")),
    ("B8 E4 calendar 1 entries", 'entries[3] "2025-12-32": a day has two digits, 01 to 31, or is last, odd, even or *', entry("2025-12-32")),
    ("B8 E4 calendar 1 entries", 'entries[3] "2025-02-01..2025-02-30": at the end of the range, the calendar has no such day', entry("2025-02-01..2025-02-30")),
    ("B8 E4 calendar 1 entries", 'entries[3] "2025-02-30..*": at the start of the range, the calendar has no such day', entry("2025-02-30..*")),
    ("B8 E4 calendar 1 entries", 'entries[3] "*..2025-02-0": at the end of the range, a day has two digits, 01 to 31', entry("*..2025-02-0")),
    ("B8 E5 calendar 1 entries", 'entries[3] "2025-12-25/Thu": a weekday is mon, tue, wed, thu, fri, sat or sun', entry("2025-12-25/Thu")),
    ("B8 E5 calendar 1 entries", 'entries[3] "wnd:*:1:": a weekday is mon, tue, wed, thu, fri, sat, sun or *', entry("wnd:*:1:")),
    ("B8 E6 calendar 1 entries", 'entries[3] "wnd:*:0:*": a week is 1 to 9, or *', entry("wnd:*:0:*")),
    ("B8 E7 calendar 1 entries", 'entries[3] "2025-*-01..*": at the start of the range, year, month and day are each a number; * stands alone', entry("2025-*-01..*")),
    # schedules
    ("B2 schedule 1 ?", f"room: {SCHEDULE_KEYS}", [(DAY, DAY + "\nroom = 1")]),
    ("B4 schedule 1 period", "period 2025: expected a range A..B as text, each of A and B a date YYYY-MM-DD or *", [(DAY, DAY + "\nperiod = 2025")]),
    ("B8 E1 schedule 1 period", f'period "2025-06-01": {RANGE}', period("2025-06-01")),
    ("B8 E1 schedule 1 period", f'period "June": {RANGE}', period("June")),
    ("B8 E4 schedule 1 period", 'period "2025-06-31..*": at the start of the range, the calendar has no such day', period("2025-06-31..*")),
    ("B3 schedule 1 priority", f"priority is missing: {WRITTEN}", [("priority = 15\n", "")]),
    ("B4 schedule 1 priority", f'priority "15": {WRITTEN}', [("priority = 15", 'priority = "15"')]),
    ("B10 schedule 1 priority", f"priority 6: {MINIMUM_TIMES}", [("priority = 15", "priority = 6")]),
    ("B10 schedule 1 priority", f"priority 0: {WRITTEN}", [("priority = 15", "priority = 0")]),
    ("B3 schedule 1 targets", "targets is missing: expected a list of names of points", [('targets = ["R101-SET"]\n', "")]),
    ("B4 schedule 1 targets", 'targets "R101-SET": expected a list of names of points', [('targets = ["R101-SET"]', 'targets = "R101-SET"')]),
    ("B7 schedule 1 targets", 'targets[2] "R102": no point of the file has this name', [('targets = ["R101-SET"]', 'targets = ["R101-SET", "R102"]')]),
    ("B6 schedule 1 targets", 'targets[2] "R101-SET": targets[1] has this name already', [('targets = ["R101-SET"]', 'targets = ["R101-SET", "R101-SET"]')]),
    ("B13 schedule 1 targets", "targets has 101 items: at most 100 are allowed", targets(101)),
    ("B4 schedule 1 default", 'default "NULL": expected a whole number, a value of each target\'s kind', [("default = 1600", 'default = "NULL"')]),
    ("B11 schedule 1 default", "default 499: 499 is outside 500 to 3500, the values of R101-SET", [("default = 1600", "default = 499")]),
    ("B11 schedule 1 default", "default 1600: 1600 is outside 0 to 1, the values of LIGHT", [('targets = ["R101-SET"]', 'targets = ["R101-SET", "LIGHT"]')]),
    ("B4 schedule 1 weekly", "weekly 1: expected seven lists of time values, Monday's first", [(WEEK, "weekly = 1")]),
    ("B4 schedule 1 weekly", "weekly has 6 items: expected seven lists of time values, Monday's first", [(WEEK, "weekly = [[], [], [], [], [], []]")]),
    ("B4 schedule 1 weekly", 'weekly[7] (Sunday) "": expected a list of time values, each a text as 08:00=2100', [(WEEK, 'weekly = [[], [], [], [], [], [], ""]')]),
    ("B4 schedule 1 weekly", "weekly[7][1] (Sunday) 1: expected a time value as text, as 08:00=2100", [(WEEK, "weekly = [[], [], [], [], [], [], [1]]")]),
    ("B13 schedule 1 weekly", "weekly[1] (Monday) has 101 items: at most 100 are allowed", [('["08:00=2100"]', time_values(101))]),
    ("B9 schedule 1 weekly", 'weekly[1][2] (Monday) "8:00": a time value has = between its time and its value, as 08:00=2100', monday("8:00")),
    ("B9 schedule 1 weekly", 'weekly[1][2] (Monday) "8:00=2100": the hours have two digits, 00 to 23', monday("8:00=2100")),
    ("B9 schedule 1 weekly", 'weekly[7][1] (Sunday) "24:45=1900": the hours have two digits, 00 to 23', [("02:45=1900", "24:45=1900")]),
    ("B9 schedule 1 weekly", 'weekly[1][2] (Monday) "08:60=2100": the minutes follow a colon and have two digits, 00 to 59', monday("08:60=2100")),
    ("B9 schedule 1 weekly", 'weekly[1][2] (Monday) "08:00:60=1": the seconds, if any, follow a colon and have two digits, 00 to 59', monday("08:00:60=1")),
    ("B9 schedule 1 weekly", 'weekly[1][2] (Monday) "08:00:00.5=1": the hundredths, if any, follow a point and have two digits, before the =', monday("08:00:00.5=1")),
    ("B9 schedule 1 weekly", f'weekly[1][2] (Monday) "08:00=+1": {VALUE}', monday("08:00=+1")),
    ("B9 schedule 1 weekly", f'weekly[1][2] (Monday) "08:00=-": {VALUE}', monday("08:00=-")),
    ("B11 schedule 1 weekly", 'weekly[1][2] (Monday) "08:00=-1": -1 is outside 500 to 3500, the values of R101-SET', monday("08:00=-1")),
    ("B4 schedule 1 on_leave", 'on_leave "drop": expected "stay" or "release"', [(SCHEDULE, SCHEDULE.replace(EXCEPTION, 'on_leave = "drop"\n'))]),
    ("B4 schedule 1 on_leave", 'on_leave true: expected "stay" or "release"', [(SCHEDULE, SCHEDULE.replace(EXCEPTION, "on_leave = true\n"))]),
    # exceptions
    ("ok", "", SECOND_EXCEPTION),
    ("B4 schedule 1 exception", "exception 1: expected tables, each under [[schedule.exception]]", [(EXCEPTION, "exception = 1\n")]),
    ("B4 schedule 1 exception", "exception[2] 1: expected a table under [[schedule.exception]]", [(EXCEPTION, "exception = [{ priority = 17 }, 1]\n")]),
    ("B13 schedule 1 exception", "exception has 101 tables: at most 100 are allowed", [(EXCEPTION, EXCEPTION * 101)]),
    ("B2 schedule 1 ?", "exception[2].day: no key of an exception, which takes priority, entry or calendar, and times", second("times", "day = 1\ntimes")),
    ("B2 schedule 1 ?", "exception[2].calendar: an exception has entry or calendar, not both", second("times", 'entry = "2025-12-24"\ntimes')),
    ("B3 schedule 1 exception", "exception[2].priority is missing: expected a whole number from 1 to 16", second("priority = 5\n", "")),
    ("B4 schedule 1 exception", "exception[2].priority 5.0: expected a whole number from 1 to 16", second("priority = 5", "priority = 5.0")),
    ("B10 schedule 1 exception", "exception[2].priority 17: expected a whole number from 1 to 16", second("priority = 5", "priority = 17")),
    ("B3 schedule 1 exception", "exception[2].entry is missing: expected an entry as text, as 2025-12-25, or calendar in its place", second('calendar = "HOLIDAYS"\n', "")),
    ("B4 schedule 1 exception", "exception[2].entry 1: expected an entry as text, as 2025-12-25, or calendar in its place", second('calendar = "HOLIDAYS"', "entry = 1")),
    ("B8 E3 schedule 1 exception", 'exception[2].entry "2025-00-01": a month has two digits, 01 to 12, or is odd, even or *', second('calendar = "HOLIDAYS"', 'entry = "2025-00-01"')),
    ("B4 schedule 1 exception", "exception[2].calendar 1: expected the name of a calendar as text", second('"HOLIDAYS"', "1")),
    ("B7 schedule 1 exception", 'exception[2].calendar "NONE": no calendar of the file has this name', second('"HOLIDAYS"', '"NONE"')),
    ("B3 schedule 1 exception", "exception[2].times is missing: expected a list of time values, each a text as 08:00=2100", second(TIMES, "")),
    ("B4 schedule 1 exception", "exception[2].times 1: expected a list of time values, each a text as 08:00=2100", second(TIMES, "times = 1")),
    ("B4 schedule 1 exception", "exception[2].times[1] 1: expected a time value as text, as 08:00=2100", second(TIMES, "times = [1]")),
    ("B13 schedule 1 exception", "exception[2].times has 101 items: at most 100 are allowed", second(TIMES, "times = " + time_values(101))),
    ("B9 schedule 1 exception", 'exception[2].times[1] "8:00=2100": the hours have two digits, 00 to 23', second(TIMES, 'times = ["8:00=2100"]')),
    ("B11 schedule 1 exception", 'exception[2].times[2] "09:00=4000": 4000 is outside 500 to 3500, the values of R101-SET', second(TIMES, 'times = ["08:00=NULL", "09:00=4000"]')),
]

# bytes, and the line that is wanted of them or its beginning
BYTES = [
    ("line 1, column 1: a byte that is not UTF-8", b"\xff"),
    ("line 2, column 3: a byte that is not UTF-8", b"zone = 1\n\xc3\xa9 \xff"),
    ("line 2, column 12: ", 'zone = "UTC0"\nname = "é" x'.encode()),
    ("line 1, column 6: ", b"\xef\xbb\xbfzone x"),
    ("line 3, column 4: ", b"a = 1\r\nb = 2\r\nc =\r\n"),
    ("the file has more than 1048576 bytes: at most 1048576 are allowed", b"#" * 1_048_577),
]


# ---- the program


def run(program, words, folder):
    return subprocess.run([program, "check", *words, "building.toml"], cwd=folder, capture_output=True, timeout=60)


def as_found(wanted, file, line):
    """What the second line says other than what is found here, or nothing."""
    found, item = first_fault(file)
    if found != wanted:
        return f"the slow reading has {found}"
    if item is None:
        return "" if re.match(r"line [1-9][0-9]*, column [1-9][0-9]*: .", line) else "no line and column"
    return "" if line.startswith(f"{item}: ") and len(line) > len(item) + 2 else f"the slow reading has the item {item}"


def difference(program, wanted, file, explained, folder):
    """What is printed other than what is wanted, or nothing."""
    (folder / "building.toml").write_bytes(file)
    plain, ran = run(program, [], folder), run(program, ["--explain"], folder)
    if wanted.startswith("ok"):
        expected = [0, plain.stdout, b""]
        return "" if [ran.returncode, ran.stdout, ran.stderr] == expected and plain.stdout else f"{ran}, wanted {expected}"
    lines = ran.stderr.decode().split("\n")
    if [ran.returncode, ran.stdout, lines[0], len(lines), lines[-1]] != [1, b"", f"desk: {wanted}", 3, ""]:
        return f"{ran}, wanted {wanted} and one line more"
    if plain.stderr != f"desk: {wanted}\n".encode():
        return f"without --explain {plain.stderr}"
    if not lines[1].isprintable():
        return f"characters that are not printed: {lines[1]!r}"
    if explained is not None and not (lines[1] == explained or explained.endswith(": ") and lines[1].startswith(explained)):
        return f"{lines[1]!r}, wanted {explained!r}"
    return (reported := as_found(wanted, file, lines[1])) and f"{lines[1]!r}: {reported}"


def all_cases():
    """The fault's line or `ok`, the bytes of the file, the line that explains it where it is written here, and a name."""
    for wanted, file, reported in building_files.all_cases():
        yield wanted, file, None, reported
    for wanted, explained, changes in EXPLAINED:
        yield wanted, changed(changes), explained, explained or wanted
    for explained, file in BYTES:
        yield first_fault(file)[0], file, explained, explained


def of_file(wanted, file, explained, reported):
    """The test of a file of which this is wanted."""
    def test(program, folder):
        expect_none(difference(program, wanted, file, explained, folder))
    return named(f"{wanted}: {reported}", test)


TESTS = [of_file(*case) for case in all_cases()]
