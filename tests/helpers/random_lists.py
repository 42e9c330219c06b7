"""Random buildings and lists of deliveries to them, as the plain slow desk has them: short ones over few numbers, long ones past
1,000 of them and ones about the window far from 1; and the texts of both, as the program reads them.
"""
import itertools
import json

from oracle.slow_desk import LAST_NUMBER, REMEMBERED, WINDOW, Building, Command, Content, Import, Panel, Point, Skip, Tick
from oracle.slow_schedules import HUNDREDTHS_A_DAY, Calendar, Exception_, Schedule

LONGEST = 24
NEAR = 3
NAMES = ["R101-SET", "LIGHT", "MODE", "fan_2.a"]
PRIORITIES = [1, 2, 5, 8, 9, 10, 15, 16]
ZONES = ["CET-1CEST,M3.5.0,M10.5.0/3", "CET-1CEST,M3.5.0,M10.5.0/3", "UTC0", "EST5"]
ENTRIES = ["*-*-*", "*-03-30", "*-10-26", "*-*-*/sun", "wnd:*:6:*", "2025-03-01..2025-10-25", "*-odd-*", "*-*-last"]
PERIODS = [
    "*..*", "*..*", "*..*", "2025-03-30..2025-10-25", "2025-03-29..2025-03-30", "*..2025-03-29",
    "2025-10-26..*", "2025-10-25..2025-10-25", "2026-01-01..2025-01-01",
]
# Midnight UTC before the two days of 2025 on which the clock is set.
ODD_DAYS = [174_329_280_000_00 // 100, 176_143_680_000_00 // 100]
HOUR = HUNDREDTHS_A_DAY // 24
# Lines that deliver nothing: empty ones, and holiday lists that are refused in every building here.
NOTHING = [
    "\n",
    "\r\n",
    '{"import":""}\n',
    '{"import":"calendar;entry"}\n',
    '{"import":"calendar,entry\\nC0\\n"}\n',
    '{"import":"calendar,entry\\nC0,2025-13-01\\n"}\n',
    '{"import":"calendar,entry\\nC0,*-*-*\\nNONE,*-*-*\\n"}\n',
]


def some_point(rng, name):
    kind = rng.choice(["binary", "multi", "analog"])
    low, high = {"binary": (0, 1), "multi": (1, rng.randint(1, 4)), "analog": (rng.randint(-9, 0), rng.randint(0, 9))}[kind]
    return Point(name, kind, low, high, rng.randint(low, high))


def some_building(rng):
    points = tuple(some_point(rng, name) for name in rng.sample(NAMES, rng.randint(1, 3)))
    names = [point.name for point in points]
    panels = tuple(
        Panel(
            f"P{place}",
            tuple(rng.sample(names, rng.randint(0, len(names)))),
            tuple(rng.sample(PRIORITIES, rng.randint(0, 6))),
        )
        for place in range(1, rng.randint(1, 3) + 1)
    )
    calendars = tuple(
        Calendar(f"C{place}", tuple(rng.sample(ENTRIES, rng.choice([0, 0, 1, 2])))) for place in range(rng.randint(0, 2))
    )
    schedules = tuple(some_schedule(rng, place, points, calendars) for place in range(rng.randint(0, 3)))
    return Building(points, panels, rng.choice(ZONES), calendars, schedules)


def some_times(rng, values, least=0):
    """Time values, many of them in the hours that the clock leaves out or goes through twice."""
    quarters = [0, 4, 8, 9, 10, 11, 12, 48, 92]
    return tuple((rng.choice(quarters) * HOUR // 4, rng.choice(values)) for _ in range(rng.randint(least, 3)))


def some_exception(rng, values, calendars):
    named = rng.choice(calendars).name if calendars and rng.random() < 0.7 else None
    return Exception_(rng.randint(1, 3), None if named else rng.choice(ENTRIES), named, some_times(rng, values, 1))


def some_schedule(rng, place, points, calendars):
    """A schedule of some points, at one of two priorities, so that several write to one place."""
    targets = rng.sample(points, rng.randint(1, len(points)))
    low, high = max(point.low for point in targets), min(point.high for point in targets)
    values = [None] + [value for value in (low, low + 1, high) if low <= value <= high]
    weekly = tuple(some_times(rng, values) for _ in range(7))
    exceptions = tuple(some_exception(rng, values, calendars) for _ in range(rng.randint(0, 3)))
    names = tuple(point.name for point in targets)
    return Schedule(
        f"S{place}", rng.choice(PERIODS), rng.choice([15, 16]), names, rng.choice(values), weekly, exceptions, rng.random() < 0.5
    )


def some_content(rng, building):
    """A content that a panel of the building may write, or one that a rule is against."""
    able = [panel for panel in building.panels if panel.points and panel.priorities]
    if able and rng.random() < 0.6:
        panel = rng.choice(able)
        point = building.point(rng.choice(panel.points))
        return Content(point.name, rng.choice(panel.priorities), rng.choice([None, point.low, point.high]))
    priority = rng.choice(PRIORITIES + [0, 6, 17, -1])
    value = rng.choice([None, 0, 1, 2, 3, -5, 12])
    return Content(rng.choice(NAMES), priority, value)


def some_delivery(rng, panel, next_number, contents):
    """A delivery near the next number that its panel would come to in order, or far from it."""
    near = [next_number, next_number, next_number, next_number - 1, next_number + 1, next_number + 2]
    edges = [next_number + WINDOW - 1, next_number + WINDOW, next_number - REMEMBERED, next_number - REMEMBERED - 1]
    number = rng.choice(near + [rng.choice(edges), rng.randint(-1, 9), rng.choice([LAST_NUMBER, LAST_NUMBER + 1])])
    if rng.random() < 0.15:
        return Skip(panel, rng.choice([number, number + 1, number + 3, LAST_NUMBER + 2]))
    return Command(panel, number, rng.choice(contents))


def some_deliveries(rng, building, longest=LONGEST):
    """A list of few numbers and contents, so that repeats, other contents, gaps and skips are common."""
    contents = [some_content(rng, building) for _ in range(4)]
    panels = [panel.name for panel in building.panels] + ["P9"]
    deliveries, nexts = [], dict.fromkeys(panels, 1)
    moment = rng.choice(ODD_DAYS) - rng.choice([0, 2, 26]) * HOUR
    for _ in range(rng.randint(0, longest)):
        if rng.random() < 0.4:
            moment += rng.choice([0, 0, HOUR // 4, HOUR // 2, HOUR, HOUR, 3 * HOUR, 20 * HOUR, -HOUR, 1])
            deliveries.append(some_clock_delivery(rng, building, moment))
            continue
        panel = rng.choice(panels)
        delivery = some_delivery(rng, panel, nexts[panel], contents)
        nexts[panel] += isinstance(delivery, Command) and delivery.number == nexts[panel]
        deliveries.append(delivery)
    return deliveries


def some_clock_delivery(rng, building, moment):
    """A tick about a moment or out of range, or an import, also of a calendar that the building lacks."""
    if rng.random() < 0.75:
        return Tick(rng.choice([moment] * 8 + [-1, 9223372036854775807]))
    named = [exception.calendar for schedule in building.schedules for exception in schedule.exceptions if exception.calendar]
    names = ([each.name for each in building.calendars] + named) * 4 + ["NONE"]
    entries = ENTRIES + ["*-*-*", "2025-*-*", "2025-10-26", "2025-03-30/sun"]
    return Import(tuple((rng.choice(names), rng.choice(entries)) for _ in range(rng.randint(0, 3))))


def long_deliveries(rng, building):
    """A list that passes 1,000 numbers of one panel, mostly in order, and then asks for old ones."""
    contents, panel = [some_content(rng, building) for _ in range(4)], building.panels[0].name
    deliveries = [Command(panel, number, rng.choice(contents)) for number in range(1, REMEMBERED + rng.randint(0, 90))]
    for _ in range(60):
        place = rng.randrange(len(deliveries) - 30)
        later = place + rng.randint(1, 30)
        deliveries[place], deliveries[later] = deliveries[later], deliveries[place]
    last = max(delivery.number for delivery in deliveries)
    asked = [Command(panel, rng.randint(1, last), rng.choice(contents)) for _ in range(60)]
    return deliveries + [Skip(panel, last + rng.randint(-40, 64))] + asked


def blocks(panel, count, content):
    """Deliveries that bring a panel's next number to 64 times so many, and one more, with a command of each 64."""
    asked = [(Command(panel, 64 * block + 1, content), Skip(panel, 64 * block + 65)) for block in range(count)]
    return [delivery for both in asked for delivery in both]


def far_deliveries(rng, building):
    """A list of commands and skips about the window of one panel, and 1,000 numbers before it."""
    contents, panel = [some_content(rng, building) for _ in range(2)], building.panels[0].name
    count = rng.choice([0, 1, 14, 15, 16, 17, 20])
    deliveries, next_number = blocks(panel, count, contents[0]), 64 * count + 1
    for _ in range(rng.randint(20, 60)):
        near = next_number + rng.choice([-3, -2, -1, 0, 0, 0, 1, 1, 2, 3, 4, 62, 63, 64, 65, 66])
        number = near - rng.choice([0, 0, 0, 0, 0, 999, 1000, 1001, 1002, 1003])
        skips = rng.random() < 0.25
        deliveries.append(Skip(panel, number) if skips else Command(panel, number, rng.choice(contents)))
        if number == next_number or skips and next_number < number <= next_number + WINDOW:
            next_number = number + (not skips)
    return deliveries


def clock_text(time):
    """A time of the day: its hours and minutes, and its seconds and hundredths where it has some."""
    seconds, hundredths = divmod(time, 100)
    text = f"{seconds // 3600:02}:{seconds // 60 % 60:02}"
    text += f":{seconds % 60:02}" if seconds % 60 or hundredths else ""
    return text + (f".{hundredths:02}" if hundredths else "")


def time_texts(times):
    return json.dumps([f"{clock_text(time)}={'NULL' if value is None else value}" for time, value in times])


def toml_of_schedule(schedule):
    text = f'[[schedule]]\nname = "{schedule.name}"\npriority = {schedule.priority}\n'
    text += f'period = "{schedule.period}"\ntargets = {json.dumps(schedule.targets)}\n'
    if schedule.default is not None:
        text += f"default = {schedule.default}\n"
    text += "weekly = [" + ", ".join(time_texts(times) for times in schedule.weekly) + "]\n"
    text += 'on_leave = "release"\n' if schedule.releases else ""
    for exception in schedule.exceptions:
        days = f'entry = "{exception.entry}"' if exception.calendar is None else f'calendar = "{exception.calendar}"'
        text += f"[[schedule.exception]]\npriority = {exception.priority}\n{days}\ntimes = {time_texts(exception.times)}\n"
    return text


def toml_of(building):
    text = f'zone = "{building.zone}"\n'
    for point in building.points:
        text += f'[[point]]\nname = "{point.name}"\nkind = "{point.kind}"\n'
        if point.kind == "multi":
            text += f"states = {point.high}\n"
        if point.kind == "analog":
            text += f"low = {point.low}\nhigh = {point.high}\n"
        text += f"default = {point.default}\n"
    for panel in building.panels:
        text += f'[[panel]]\nname = "{panel.name}"\npoints = {json.dumps(panel.points)}\n'
        text += f"priorities = {json.dumps(panel.priorities)}\n"
    for calendar in building.calendars:
        text += f'[[calendar]]\nname = "{calendar.name}"\nentries = {json.dumps(calendar.entries)}\n'
    return text + "".join(toml_of_schedule(schedule) for schedule in building.schedules)


def line_of(rng, delivery):
    """The line of a delivery: its keys in any order, and the lowest priority left out at times."""
    if isinstance(delivery, Tick):
        return json.dumps({"tick": delivery.at}) + "\n"
    if isinstance(delivery, Import):
        end = rng.choice(["\n", "\r\n"])
        records = ["calendar,entry"] + [f"{name},{entry}" for name, entry in delivery.rows]
        return json.dumps({"import": end.join(records) + end}) + "\n"
    if isinstance(delivery, Skip):
        keys = rng.sample(["panel", "skip"], 2)
        return json.dumps({key: {"panel": delivery.panel, "skip": delivery.upto}[key] for key in keys}) + "\n"
    command, content = delivery, delivery.content
    members = {"number": command.number, "panel": command.panel, "point": content.point, "value": content.value}
    if content.priority != 16 or rng.random() < 0.5:
        members["priority"] = content.priority
    if content.priority == 16 and rng.random() < 0.2:
        members["priority"] = None
    keys = rng.sample(list(members), len(members))
    return json.dumps({key: members[key] for key in keys}) + rng.choice(["\n", "\n", "\r\n", "\n\n"])


def near_lists():
    """Every list of a few deliveries of one panel near both ends of the window."""
    on, off = Content("LIGHT", 8, 1), Content("LIGHT", 9, 0)
    some = [Command("P1", number, on) for number in (1, 2, 3, 64, 65, 66)] + [Command("P1", number, off) for number in (1, 2)]
    some += [Skip("P1", upto) for upto in (2, 3, 65, 66)]
    return [list(few) for few in itertools.product(some, repeat=NEAR)]
