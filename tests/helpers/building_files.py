"""Building files that are made from the worked one, one change or two at a time, and what is wanted of each.

A case is a fault's line, or `ok`, and changes: each is a text that stands in the worked building and what
takes its place. What is wanted follows from docs/BUILDING_FILE.md alone.
"""
import json
import tomllib

from helpers.tables import WORKED

ZONE = 'zone = "CET-1CEST,M3.5.0,M10.5.0/3"'
SET, LIGHT = '[[point]]\nname = "R101-SET"', '[[point]]\nname = "LIGHT"'
P1, P2 = '[[panel]]\nname = "P1"', '[[panel]]\nname = "P2"'
HOLIDAYS, DAY = 'name = "HOLIDAYS"', 'name = "R101-DAY"'
WEEK = 'weekly = [["08:00=2100"], [], [], [], [], [], ["02:45=1900"]]'
BINARY = 'kind = "binary"\n'
EXCEPTION = '[[schedule.exception]]\npriority = 5\ncalendar = "HOLIDAYS"\ntimes = ["00:00=1500"]\n'
SCHEDULE = WORKED[WORKED.index("[[schedule]]"):]
LONG = "A" * 32


def entries(count):
    return "entries = [" + ", ".join(['"2025-12-25"'] * count) + "]"


def time_values(count):
    return "[" + ", ".join(['"08:00=2100"'] * count) + "]"


def points(count):
    return "".join(f'[[point]]\nname = "N{n}"\nkind = "binary"\ndefault = 0\n' for n in range(count))


def panels(count):
    return "".join(f'[[panel]]\nname = "N{n}"\npoints = []\npriorities = []\n' for n in range(count))


def calendars(count):
    return "".join(f'[[calendar]]\nname = "N{n}"\nentries = []\n' for n in range(count))


def schedules(count):
    return "".join(f'[[schedule]]\nname = "N{n}"\npriority = 16\ntargets = []\n' for n in range(count))


def targets(count):
    names = ", ".join(f'"N{n}"' for n in range(count))
    return [(P1, points(count) + P1), ('targets = ["R101-SET"]', f"targets = [{names}]"), ("default = 1600\n", ""), (WEEK, ""), (EXCEPTION, "")]


def multi(states, default=1):
    return [(BINARY + "default = 0", f'kind = "multi"\nstates = {states}\ndefault = {default}')]


# what is wanted, and the changes
CASES = [
    ("ok", []),
    # the top table
    ("B3 top 0 zone", [(WORKED, "")]),
    ("B1 top 0 -", [(ZONE, "zone = ")]),
    ("B1 top 0 -", [(ZONE, ZONE + "\n" + ZONE)]),
    ("B2 top 0 ?", [(ZONE, ZONE + "\nsite = 1")]),
    ("B2 top 0 ?", [(ZONE, "site = 1")]),
    ("B4 top 0 zone", [(ZONE, "zone = 1")]),
    ("B12 top 0 zone", [(ZONE, 'zone = "Europe/Berlin"')]),
    ("B12 top 0 zone", [(ZONE, 'zone = ""')]),
    ("ok", [(ZONE, 'zone = "UTC0"')]),
    ("B4 top 0 point", [(WORKED, ZONE + "\npoint = 1")]),
    ("B4 top 0 point", [(WORKED, ZONE + "\n[point]\n")]),
    ("B4 top 0 point", [(WORKED, ZONE + "\npoint = [{ name = 1 }, 2]")]),
    ("B4 top 0 panel", [(WORKED, ZONE + "\npanel = 1")]),
    ("B4 top 0 calendar", [(WORKED, ZONE + "\ncalendar = [1]")]),
    ("B4 top 0 schedule", [(WORKED, ZONE + "\nschedule = \"x\"")]),
    ("ok: 0 points, 0 panels, 0 calendars, 0 schedules", [(WORKED, ZONE + "\npoint = []\npanel = []\ncalendar = []\nschedule = []")]),
    ("ok: 1 points, 0 panels, 0 calendars, 0 schedules", [(WORKED, ZONE + '\npoint = [{ name = "A", kind = "binary", default = 1 }]')]),
    ("ok: 1000 points, 0 panels, 0 calendars, 0 schedules", [(WORKED, ZONE + "\n" + points(1000))]),
    ("B13 top 0 point", [(WORKED, ZONE + "\n" + points(1001))]),
    ("ok: 0 points, 200 panels, 0 calendars, 0 schedules", [(WORKED, ZONE + "\n" + panels(200))]),
    ("B13 top 0 panel", [(WORKED, ZONE + "\n" + panels(201))]),
    ("ok: 0 points, 0 panels, 100 calendars, 0 schedules", [(WORKED, ZONE + "\n" + calendars(100))]),
    ("B13 top 0 calendar", [(WORKED, ZONE + "\n" + calendars(101))]),
    ("ok: 0 points, 0 panels, 0 calendars, 500 schedules", [(WORKED, ZONE + "\n" + schedules(500))]),
    ("B13 top 0 schedule", [(WORKED, ZONE + "\n" + schedules(501))]),
    # points
    ("B2 point 1 ?", [(SET, SET + "\nunit = 1")]),
    ("B3 point 1 name", [(SET, "[[point]]")]),
    ("B4 point 1 name", [(SET, "[[point]]\nname = 1")]),
    ("B5 point 2 name", [(LIGHT, '[[point]]\nname = ""')]),
    ("B5 point 2 name", [(LIGHT, '[[point]]\nname = "A B"')]),
    ("B5 point 2 name", [(LIGHT, f'[[point]]\nname = "{LONG}A"'), ('["R101-SET", "LIGHT"]', "[]")]),
    ("ok", [(LIGHT, f'[[point]]\nname = "{LONG}"'), ('["R101-SET", "LIGHT"]', "[]")]),
    ("B6 point 2 name", [(LIGHT, SET)]),
    ("B6 point 2 name", [('name = "LIGHT"', 'name = "R101-SET"')]),
    ("B3 point 2 kind", [(BINARY, "")]),
    ("B4 point 2 kind", [(BINARY, "kind = 2\n")]),
    ("B4 point 2 kind", [(BINARY, 'kind = "Binary"\n')]),
    ("B2 point 2 ?", [(BINARY, BINARY + "states = 2\n")]),
    ("B2 point 2 ?", [(BINARY, BINARY + "low = 0\n")]),
    ("B2 point 2 ?", [(BINARY, BINARY + "high = 1\n")]),
    ("B2 point 1 ?", [("low = 500", "states = 3\nlow = 500")]),
    ("B3 point 2 states", [(BINARY, 'kind = "multi"\n')]),
    ("B4 point 2 states", multi('"3"')),
    ("B13 point 2 states", multi(0)),
    ("ok", multi(1)),
    ("ok", multi(1000, 1000)),
    ("B13 point 2 states", multi(1001)),
    ("B2 point 2 ?", multi("3\nlow = 1")),
    ("B11 point 2 default", multi(3, 0)),
    ("B11 point 2 default", multi(3, 4)),
    ("B3 point 1 low", [("low = 500\n", "")]),
    ("B4 point 1 low", [("low = 500", "low = 5.0")]),
    ("ok", [("low = 500", "low = -1000000000")]),
    ("B13 point 1 low", [("low = 500", "low = -1000000001")]),
    ("B3 point 1 high", [("high = 3500\n", "")]),
    ("B4 point 1 high", [("high = 3500", 'high = "3500"')]),
    ("ok", [("high = 3500", "high = 1000000000")]),
    ("B13 point 1 high", [("high = 3500", "high = 1000000001")]),
    ("B11 point 1 high", [("high = 3500", "high = 400")]),
    ("B11 point 1 high", [("high = 3500", "high = 499")]),
    ("B3 point 2 default", [(BINARY + "default = 0", BINARY)]),
    ("B4 point 2 default", [(BINARY + "default = 0", BINARY + "default = false")]),
    ("B11 point 2 default", [(BINARY + "default = 0", BINARY + "default = 2")]),
    ("B11 point 1 default", [("default = 1800", "default = 499")]),
    ("ok", [("default = 1800", "default = 500")]),
    ("ok", [("default = 1800", "default = 3500")]),
    ("B11 point 1 default", [("default = 1800", "default = 3501")]),
    # panels
    ("B2 panel 2 ?", [(P2, P2 + "\nroom = 1")]),
    ("B3 panel 2 name", [(P2, "[[panel]]")]),
    ("B4 panel 2 name", [(P2, "[[panel]]\nname = 2")]),
    ("B5 panel 2 name", [(P2, '[[panel]]\nname = "P/2"')]),
    ("B6 panel 2 name", [(P2, P1)]),
    ("B3 panel 2 points", [('points = ["R101-SET"]\n', "")]),
    ("B4 panel 2 points", [('points = ["R101-SET"]', "points = 1")]),
    ("B4 panel 2 points", [('points = ["R101-SET"]', 'points = ["R101-SET", 1]')]),
    ("B7 panel 2 points", [('points = ["R101-SET"]', 'points = ["R101-SET", "R102"]')]),
    ("B7 panel 2 points", [('points = ["R101-SET"]', 'points = ["A B"]')]),
    ("B6 panel 2 points", [('points = ["R101-SET"]', 'points = ["R101-SET", "R101-SET"]')]),
    ("B3 panel 2 priorities", [("priorities = [9, 15]\n", "")]),
    ("B4 panel 2 priorities", [("priorities = [9, 15]", "priorities = 9")]),
    ("B4 panel 2 priorities", [("priorities = [9, 15]", 'priorities = [9, "15"]')]),
    ("B10 panel 2 priorities", [("priorities = [9, 15]", "priorities = [9, 6]")]),
    ("B10 panel 2 priorities", [("priorities = [9, 15]", "priorities = [0]")]),
    ("B10 panel 2 priorities", [("priorities = [9, 15]", "priorities = [17]")]),
    ("ok", [("priorities = [9, 15]", "priorities = [1, 16, 16]")]),
    # calendars
    ("B2 calendar 1 ?", [(HOLIDAYS, HOLIDAYS + "\nyear = 2025")]),
    ("B3 calendar 1 name", [(HOLIDAYS + "\n", "", 1)]),
    ("B4 calendar 1 name", [(HOLIDAYS, "name = []")]),
    ("B5 calendar 1 name", [(HOLIDAYS, 'name = "é"')]),
    ("B6 calendar 2 name", [("[[schedule]]", '[[calendar]]\nname = "HOLIDAYS"\nentries = []\n[[schedule]]')]),
    ("B3 calendar 1 entries", [('entries = ["2025-12-25"]\n', "")]),
    ("B4 calendar 1 entries", [('entries = ["2025-12-25"]', 'entries = "2025-12-25"')]),
    ("B4 calendar 1 entries", [('entries = ["2025-12-25"]', "entries = [2025-12-25]")]),
    ("B8 E1 calendar 1 entries", [("2025-12-25", "2025-12")]),
    ("B8 E2 calendar 1 entries", [("2025-12-25", "1899-12-25")]),
    ("B8 E3 calendar 1 entries", [("2025-12-25", "2025-2-25")]),
    ("B8 E4 calendar 1 entries", [("2025-12-25", "2025-12-32")]),
    ("B8 E5 calendar 1 entries", [("2025-12-25", "2025-12-25/Thu")]),
    ("B8 E6 calendar 1 entries", [("2025-12-25", "wnd:*:0:*")]),
    ("B8 E7 calendar 1 entries", [("2025-12-25", "2025-*-01..*")]),
    ("ok", [('entries = ["2025-12-25"]', entries(1000))]),
    ("B13 calendar 1 entries", [('entries = ["2025-12-25"]', entries(1001))]),
    # schedules
    ("B2 schedule 1 ?", [(DAY, DAY + "\nroom = 1")]),
    ("B3 schedule 1 name", [(DAY + "\n", "")]),
    ("B4 schedule 1 name", [(DAY, "name = 1")]),
    ("B5 schedule 1 name", [(DAY, 'name = "A,B"')]),
    ("B6 schedule 2 name", [(SCHEDULE, SCHEDULE + '[[schedule]]\nname = "R101-DAY"\n')]),
    ("ok", [(DAY, DAY + '\nperiod = "2025-06-01..2025-06-30"')]),
    ("B4 schedule 1 period", [(DAY, DAY + "\nperiod = 2025")]),
    ("B8 E1 schedule 1 period", [(DAY, DAY + '\nperiod = "2025-06-01"')]),
    ("B8 E1 schedule 1 period", [(DAY, DAY + '\nperiod = "wnd:*:1:*"')]),
    ("B8 E4 schedule 1 period", [(DAY, DAY + '\nperiod = "2025-06-31..*"')]),
    ("B8 E3 schedule 1 period", [(DAY, DAY + '\nperiod = "2025-13-01"')]),
    ("B3 schedule 1 priority", [("priority = 15\n", "")]),
    ("B4 schedule 1 priority", [("priority = 15", 'priority = "15"')]),
    ("B10 schedule 1 priority", [("priority = 15", "priority = 6")]),
    ("B10 schedule 1 priority", [("priority = 15", "priority = 0")]),
    ("ok", [("priority = 15", "priority = 1")]),
    ("ok", [("priority = 15", "priority = 16")]),
    ("B10 schedule 1 priority", [("priority = 15", "priority = 17")]),
    ("B3 schedule 1 targets", [('targets = ["R101-SET"]\n', "")]),
    ("B4 schedule 1 targets", [('targets = ["R101-SET"]', 'targets = "R101-SET"')]),
    ("B4 schedule 1 targets", [('targets = ["R101-SET"]', "targets = [1]")]),
    ("B7 schedule 1 targets", [('targets = ["R101-SET"]', 'targets = ["R102"]')]),
    ("B6 schedule 1 targets", [('targets = ["R101-SET"]', 'targets = ["R101-SET", "R101-SET"]')]),
    ("ok: 102 points, 2 panels, 1 calendars, 1 schedules", targets(100)),
    ("B13 schedule 1 targets", targets(101)),
    ("ok", [("default = 1600\n", "")]),
    ("B4 schedule 1 default", [("default = 1600", 'default = "NULL"')]),
    ("B11 schedule 1 default", [("default = 1600", "default = 499")]),
    ("ok", [("default = 1600", "default = 500")]),
    ("B11 schedule 1 default", [('targets = ["R101-SET"]', 'targets = ["R101-SET", "LIGHT"]')]),
    ("ok", [(WEEK + "\n", "")]),
    ("B4 schedule 1 weekly", [(WEEK, "weekly = 1")]),
    ("B4 schedule 1 weekly", [(WEEK, "weekly = [[], [], [], [], [], []]")]),
    ("B4 schedule 1 weekly", [(WEEK, "weekly = [[], [], [], [], [], [], [], []]")]),
    ("B4 schedule 1 weekly", [(WEEK, 'weekly = [[], [], [], [], [], [], ""]')]),
    ("B4 schedule 1 weekly", [(WEEK, "weekly = [[], [], [], [], [], [], [1]]")]),
    ("ok", [('["08:00=2100"]', time_values(100))]),
    ("B13 schedule 1 weekly", [('["08:00=2100"]', time_values(101))]),
    ("B9 schedule 1 weekly", [("08:00=2100", "8:00=2100")]),
    ("B9 schedule 1 weekly", [("08:00=2100", "24:00=2100")]),
    ("B9 schedule 1 weekly", [("08:00=2100", "08:60=2100")]),
    ("B9 schedule 1 weekly", [("08:00=2100", "08:00:60=2100")]),
    ("B9 schedule 1 weekly", [("08:00=2100", "08:00:00.5=2100")]),
    ("B9 schedule 1 weekly", [("08:00=2100", "08:00=")]),
    ("B9 schedule 1 weekly", [("08:00=2100", "08:00=+2100")]),
    ("B9 schedule 1 weekly", [("08:00=2100", "08:00=null")]),
    ("B9 schedule 1 weekly", [("08:00=2100", "08:00=000000002100")]),
    ("ok", [("08:00=2100", "08:00=00000002100")]),
    ("ok", [("08:00=2100", "23:59:59.99=NULL")]),
    ("ok", [("08:00=2100", "08:00:59=3500")]),
    ("B11 schedule 1 weekly", [("08:00=2100", "08:00=4000")]),
    ("B11 schedule 1 weekly", [("08:00=2100", "08:00=3501")]),
    ("B11 schedule 1 weekly", [("08:00=2100", "08:00=-99999999999")]),
    ("ok", [(SCHEDULE, SCHEDULE.replace(EXCEPTION, 'on_leave = "stay"\n'))]),
    ("ok", [(SCHEDULE, SCHEDULE.replace(EXCEPTION, 'on_leave = "release"\n'))]),
    ("B4 schedule 1 on_leave", [(SCHEDULE, SCHEDULE.replace(EXCEPTION, 'on_leave = "drop"\n'))]),
    ("B4 schedule 1 on_leave", [(SCHEDULE, SCHEDULE.replace(EXCEPTION, "on_leave = true\n"))]),
    # exceptions
    ("ok", [(EXCEPTION, "")]),
    ("B4 schedule 1 exception", [(EXCEPTION, "exception = 1\n")]),
    ("B4 schedule 1 exception", [(EXCEPTION, "exception = [{ priority = 17 }, 1]\n")]),
    ("ok", [(EXCEPTION, EXCEPTION * 100)]),
    ("B13 schedule 1 exception", [(EXCEPTION, EXCEPTION * 101)]),
    ("B2 schedule 1 ?", [(EXCEPTION, EXCEPTION + "day = 1\n")]),
    ("B3 schedule 1 exception", [("priority = 5\n", "")]),
    ("B4 schedule 1 exception", [("priority = 5", "priority = 5.0")]),
    ("B10 schedule 1 exception", [("priority = 5", "priority = 0")]),
    ("ok", [("priority = 5", "priority = 1")]),
    ("ok", [("priority = 5", "priority = 6")]),
    ("ok", [("priority = 5", "priority = 16")]),
    ("B10 schedule 1 exception", [("priority = 5", "priority = 17")]),
    ("B3 schedule 1 exception", [('calendar = "HOLIDAYS"\n', "")]),
    ("B2 schedule 1 ?", [('calendar = "HOLIDAYS"', 'calendar = "HOLIDAYS"\nentry = "2025-12-24"')]),
    ("ok", [('calendar = "HOLIDAYS"', 'entry = "2025-12-24"')]),
    ("B4 schedule 1 exception", [('calendar = "HOLIDAYS"', "calendar = 1")]),
    ("B7 schedule 1 exception", [('calendar = "HOLIDAYS"', 'calendar = "NONE"')]),
    ("B7 schedule 1 exception", [('calendar = "HOLIDAYS"', 'calendar = ""')]),
    ("B4 schedule 1 exception", [('calendar = "HOLIDAYS"', "entry = 1")]),
    ("B8 E3 schedule 1 exception", [('calendar = "HOLIDAYS"', 'entry = "2025-00-01"')]),
    ("B3 schedule 1 exception", [('times = ["00:00=1500"]\n', "")]),
    ("B4 schedule 1 exception", [('times = ["00:00=1500"]', "times = 1")]),
    ("B4 schedule 1 exception", [('times = ["00:00=1500"]', "times = [1]")]),
    ("ok", [('times = ["00:00=1500"]', "times = " + time_values(100))]),
    ("B13 schedule 1 exception", [('times = ["00:00=1500"]', "times = " + time_values(101))]),
    ("B9 schedule 1 exception", [("00:00=1500", "0:00=1500")]),
    ("B11 schedule 1 exception", [("00:00=1500", "00:00=4000")]),
    # two faults: the first in the order of the file's keys is reported
    ("B2 top 0 ?", [(ZONE, "zone = 1\nsite = 1")]),
    ("B12 top 0 zone", [(ZONE, 'zone = ""'), (SET, SET + "\nunit = 1")]),
    ("B2 point 1 ?", [(SET, '[[point]]\nname = ""\nunit = 1')]),
    ("B5 point 1 name", [(SET, '[[point]]\nname = ""'), ("default = 1800", "default = 1")]),
    ("B13 point 1 low", [("low = 500", "low = -1000000001"), ("high = 3500", "high = 1000000001")]),
    ("B13 point 1 high", [("low = 500", "low = 1000000000"), ("high = 3500", "high = -1000000001")]),
    ("B4 top 0 schedule", [(WORKED, ZONE + "\nschedule = 1\n" + LIGHT)]),
    ("B10 schedule 1 priority", [("priority = 15", "priority = 6"), ('targets = ["R101-SET"]', "targets = [1]")]),
    ("B7 panel 1 points", [('"R101-SET", "LIGHT"', '"NONE", 1')]),
    ("B4 panel 1 points", [('"R101-SET", "LIGHT"', '1, "NONE"')]),
    ("B11 schedule 1 weekly", [("08:00=2100", "08:00=4000"), ("02:45=1900", "2:45=1900")]),
    ("B9 schedule 1 weekly", [("08:00=2100", "8:00=2100"), ("00:00=1500", "00:00=4000")]),
    ("B10 schedule 1 exception", [("priority = 5", "priority = 17"), ('calendar = "HOLIDAYS"\n', "")]),
    ("B3 schedule 1 exception", [('calendar = "HOLIDAYS"\n', ""), ("00:00=1500", "x")]),
    ("B7 schedule 1 exception", [('calendar = "HOLIDAYS"', 'calendar = "NONE"'), ("00:00=1500", "x")]),
    ("B10 schedule 1 exception", [(EXCEPTION, 'on_leave = "drop"\n' + EXCEPTION.replace("5", "17", 1))]),
]

# entries at fault: of two faults the first is reported
ENTRIES = [
    ("", "E1"),
    ("2025-06", "E1"),
    ("2025-06-02..", "E1"),
    ("wnd:1:2", "E1"),
    ("WND:*:1:*", "E1"),
    ("1899-01-01", "E2"),
    ("2155-01-01", "E2"),
    ("2025-13-01", "E3"),
    ("2025-6-2", "E3"),
    ("2025-02-30..*", "E4"),
    ("*..2025-02-30", "E4"),
    ("2025-06-32", "E4"),
    ("2025-06-02/Mon", "E5"),
    ("2025-06-02/", "E5"),
    ("wnd:*:0:*", "E6"),
    ("2025-*-01..*", "E7"),
    ("2025-13-01..1899-01-01", "E3"),
]

# bytes that no change of a text makes
BYTES = [
    ("B1 top 0 -", b"\xff"),
    ("B13 top 0 -", b"#" * 1_048_577),
    ("B3 top 0 zone", b"#" * 1_048_576),
    ("B3 top 0 zone", b""),
    ("ok", b"\xef\xbb\xbf" + WORKED.encode()),
    ("ok", WORKED.replace("\n", "\r\n").encode()),
]


def changed(changes):
    text = WORKED
    for old, new, *_ in changes:
        if old not in text:
            raise SystemExit(f"the worked building has no {old!r}")
        text = text.replace(old, new, 1)
    return text.encode()


def description(file):
    """What a building that is not at fault is described as, by the library's own reading; nothing where it has no reading."""
    try:
        read = tomllib.loads(file.decode("utf-8-sig").replace("\r\n", "\n"))
    except tomllib.TOMLDecodeError:
        return None
    described = {
        "zone": read["zone"],
        "points": read.get("point", []),
        "panels": read.get("panel", []),
        "calendars": [calendar["name"] for calendar in read.get("calendar", [])],
        "schedules": [{"name": schedule["name"], "period": schedule.get("period", "*..*"), "priority": schedule["priority"],
                       "targets": schedule["targets"], "on_leave": schedule.get("on_leave", "stay")} for schedule in read.get("schedule", [])],
    }
    return json.dumps(described, sort_keys=True, separators=(",", ":"), ensure_ascii=False).encode() + b"\n"


def all_cases():
    """The fault's line or `ok`, the bytes of the file, and the words of the case."""
    for wanted, changes in CASES:
        yield wanted, changed(changes), "; ".join(f"{old[:40]!r} to {new[-60:]!r}" for old, new, *_ in changes) or "as it is"
    for entry, fault in ENTRIES:
        yield f"B8 {fault} calendar 1 entries", changed([("2025-12-25", entry)]), f"the entry {entry!r}"
    for wanted, file in BYTES:
        yield wanted, file, repr(file[:40])
