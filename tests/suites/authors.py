"""Compares `desk why` and `desk replay --until` with the plain slow desk: on random lists over small buildings, for each
point, up to the end of the list and up to moments about its ticks; and on worked lists.

What put each value in its place is computed here from the events of the list: the last that wrote the place. The next change
of a schedule is looked for at each later time that the day's lists name. Some lists stand on a base: of what was put there
before, no more is told.
"""
import pathlib
import random
import tempfile
from concurrent.futures import ThreadPoolExecutor

from helpers import random_lists
from helpers.listed import before, list_text, make_base, moment_words, run, some_base, some_moment, until_text
from helpers.trying import IN_MEMORY, expect, expect_none, named
from oracle.slow_desk import Building, Command, Content, Import, Machine, Panel, Point, Skip, Tick
from oracle.slow_desk import act, calendars_now, events_along, moment_text, point_line, printed, rule, time_text
from oracle.slow_schedules import Calendar, Exception_, Schedule, in_effect_on, list_value, local_time, schedule_value

LISTS = 1500
LONGEST = 60
HOUR = 360_000
USES = {
    1: "Manual-Life Safety",
    2: "Automatic-Life Safety",
    5: "Critical Equipment Control",
    6: "Minimum On/Off",
    8: "Manual Operator",
}
WEEKDAYS = ["Monday", "Tuesday", "Wednesday", "Thursday", "Friday", "Saturday", "Sunday"]


# ---- what put a value there


def source_text(schedule, calendars, day, now):
    """Which list of the schedule gives its value."""
    speaking = [
        (each.priority, place, each)
        for place, each in in_effect_on(schedule, calendars, day)
        if list_value(each.times, now) is not None
    ]
    if speaking:
        _, place, each = min(speaking, key=lambda spoken: spoken[:2])
        return f"exception {place + 1} ({each.entry if each.calendar is None else f'calendar {each.calendar}'})"
    if list_value(schedule.weekly[day.weekday()], now) is not None:
        return f"weekly ({WEEKDAYS[day.weekday()]})"
    return "its default"


def write(held, place, value, author):
    held.pop(place, None)
    if value is not None:
        held[place] = value, author


def note_settling(building, state, held, imported, moment, when):
    """What the schedules write at a moment: those that leave, and then those that are due."""
    day, now = local_time(building.zone, moment)
    calendars = calendars_now(building, imported)
    for schedule in building.schedules:
        if not schedule.active(day) and schedule.releases and schedule.name in state.shown:
            for target in schedule.targets:
                held.pop((target, schedule.priority), None)
    for schedule in building.schedules:
        value = schedule_value(schedule, calendars, day, now)
        if schedule.active(day) and state.shown.get(schedule.name) != (value,):
            source = source_text(schedule, calendars, day, now)
            for target in schedule.targets:
                write(held, (target, schedule.priority), value, f"schedule {schedule.name}, {source}, {when}")


def note(building, state, held, event):
    """What an event writes, over the machine before it."""
    if isinstance(event, Command):
        if rule(building, event.panel, event.content) is None:
            after = "before any tick" if state.last is None else f"after the tick at {moment_text(building, state.last)}"
            place = event.content.point, event.content.priority
            write(held, place, event.content.value, f"panel {event.panel} #{event.number}, {after}")
    elif isinstance(event, Tick):
        note_settling(building, state, held, state.imported, event.at, f"at the tick at {moment_text(building, event.at)}")
    elif state.last is not None:
        when = f"at an import after the tick at {moment_text(building, state.last)}"
        note_settling(building, state, held, state.imported | set(event.rows), state.last, when)


def held_after(building, earlier, deliveries):
    """The values with their authors by point and priority, and the machine, after a list on the base of an earlier one."""
    state, held = Machine(), {}
    for number, events in enumerate(events_along(building, [*earlier, *deliveries])[1], 1):
        for event in events:
            note(building, state, held, event)
            act(building, state, event)
        if number <= len(earlier):
            held = {place: (value, "before the record") for place, (value, _) in held.items()}
    expect({place: value for place, (value, _) in held.items()}, state.places)
    return held, state


# ---- when a schedule changes next


def named_times(schedule, calendars, day):
    """The times at which the value of the day may change, in rising order."""
    lists = [each.times for _, each in in_effect_on(schedule, calendars, day)] + [schedule.weekly[day.weekday()]]
    return sorted({time for times in lists for time, _ in times})


def next_line(time, value, schedule, source):
    title, value = f"Next at {time_text(time)}", "NULL" if value is None else value
    return f"    {title:<26}{value:>12}  schedule {schedule}, {source}"


def next_lines(building, state, point):
    """A line for each schedule that targets the point and has another value later on the day of the last tick."""
    if state.last is None:
        return []
    day, now = local_time(building.zone, state.last)
    calendars = calendars_now(building, state.imported)
    lines = []
    for schedule in building.schedules:
        if point.name not in schedule.targets:
            continue
        value = schedule_value(schedule, calendars, day, now)
        for time in named_times(schedule, calendars, day):
            then = schedule_value(schedule, calendars, day, time)
            if time > now and then != value:
                lines.append(next_line(time, then, schedule.name, source_text(schedule, calendars, day, time)))
                break
    return lines


# ---- the text


def explained(building, deliveries, point, earlier=()):
    """What `desk why` prints of a point, after a list on the base of an earlier one."""
    held, state = held_after(building, earlier, deliveries)
    lines = [point_line(building, state.places, point)]
    for priority in range(1, 17):
        if (point.name, priority) in held:
            value, author = held[point.name, priority]
            lines.append(f"{priority:>2}  {USES.get(priority, 'Available'):<26}{value:>12}  {author}")
    lines.append(f"    {'Relinquish Default':<26}{point.default:>12}")
    return "".join(line + "\n" for line in lines + next_lines(building, state, point))


# ---- what the program prints


def replayed(building, earlier, deliveries):
    """What `desk replay` prints of a list on the base of an earlier one."""
    return "".join(printed(building, [*earlier, *deliveries]).splitlines(keepends=True)[len(earlier):])


def look_at(program, building, deliveries, until, rng, earlier=None):
    """Raises where the program and the plain desk differ on one list, which may stand on the base of an earlier one."""
    with tempfile.TemporaryDirectory(prefix="desk-authors-", dir=IN_MEMORY) as room:
        file, listed = pathlib.Path(room) / "building.toml", pathlib.Path(room) / "list.jsonl"
        file.write_text(random_lists.toml_of(building))
        text = list_text(rng, deliveries, until)
        listed.write_text(text)
        cut = before(deliveries, until)
        if earlier is not None:
            make_base(program, file, listed, rng, earlier)
        earlier = earlier or []
        for point in building.points:
            found = run(program, "why", file, listed, point.name, *moment_words("until", until))
            wanted = explained(building, cut, point, earlier) + until_text(building, until)
            expect((point.name, until, earlier, text, found), (point.name, until, earlier, text, (wanted, "", 0)))
        if not any(line in text for line in random_lists.NOTHING[2:]):
            found = run(program, "replay", file, listed, *moment_words("until", until))
            wanted = replayed(building, earlier, cut) + until_text(building, until)
            expect((until, earlier, text, found), (until, earlier, text, (wanted, "", 0)))


def disagreement(program, seed, index):
    rng = random.Random(f"authors {seed} {index}")
    building = random_lists.some_building(rng)
    earlier, deliveries = some_base(rng, random_lists.some_deliveries(rng, building, LONGEST))
    try:
        look_at(program, building, deliveries, some_moment(rng, deliveries), rng, earlier)
    except AssertionError as error:
        return f"list {index}: {random_lists.toml_of(building)} found {error}"
    return None


# ---- worked lists

DAY = Schedule(
    "R101-DAY", "2025-01-01..2025-06-30", 15, ("R101-SET",), 1600, (((8 * HOUR, 2100),),) + ((),) * 6,
    (Exception_(5, None, "HOLIDAYS", ((0, 1500),)), Exception_(3, "2025-06-03", None, ((6 * HOUR, 1700), (7 * HOUR, None)))), True,
)
NIGHT = Schedule("R101-NIGHT", "2025-06-02..2025-06-02", 15, ("R101-SET",), 1700, ((),) * 7, (), False)
HOUSE = Building(
    (Point("R101-SET", "analog", 500, 3500, 1800),),
    (Panel("P1", ("R101-SET",), (8,)), Panel("P2", ("R101-SET",), (15,))),
    "UTC0",
    (Calendar("HOLIDAYS", ()),),
    (DAY, NIGHT),
)
MONDAY = 174882240000  # 2025-06-02 00:00


def command(panel, number, priority, value):
    return Command(panel, number, Content("R101-SET", priority, value))


def at(hour, minute=0, days=0):
    return Tick(MONDAY + days * 24 * HOUR + hour * HOUR + minute * 6000)


HOLIDAY = Import((("HOLIDAYS", "2025-06-02"),))
# Each list, the lines of its places that have a value (priority, value, what put it there), and those of the next changes
# (time, value, the schedule and what gives it), if there are any.
WORKED = [
    ([], []),
    ([command("P1", 1, 8, 2150)], [(8, 2150, "panel P1 #1, before any tick")]),
    ([command("P1", 1, 8, 2150), command("P1", 2, 9, 2000), command("P1", 1, 8, 2150)], [(8, 2150, "panel P1 #1, before any tick")]),
    ([command("P1", 2, 8, 2000), command("P1", 1, 8, 2100)], [(8, 2000, "panel P1 #2, before any tick")]),
    ([command("P1", 1, 8, 2150), command("P1", 2, 8, None)], []),
    (
        [at(7, 59)],
        [(15, 1700, "schedule R101-NIGHT, its default, at the tick at 2025-06-02 07:59:00.00")],
        [(8 * HOUR, 2100, "R101-DAY", "weekly (Monday)")],
    ),
    ([at(7, 59), at(8)], [(15, 2100, "schedule R101-DAY, weekly (Monday), at the tick at 2025-06-02 08:00:00.00")]),
    (
        [at(7, 59), at(8), command("P2", 1, 15, 2000), at(9), at(9)],
        [(15, 2000, "panel P2 #1, after the tick at 2025-06-02 08:00:00.00")],
    ),
    (
        [at(7, 59), at(8), at(9), HOLIDAY, HOLIDAY],
        [(15, 1500, "schedule R101-DAY, exception 1 (calendar HOLIDAYS), at an import after the tick at 2025-06-02 09:00:00.00")],
    ),
    (
        [at(7, 59), HOLIDAY],
        [(15, 1500, "schedule R101-DAY, exception 1 (calendar HOLIDAYS), at an import after the tick at 2025-06-02 07:59:00.00")],
    ),
    (
        [at(5, days=1)],
        [(15, 1600, "schedule R101-DAY, its default, at the tick at 2025-06-03 05:00:00.00")],
        [(6 * HOUR, 1700, "R101-DAY", "exception 2 (2025-06-03)")],
    ),
    (
        [at(6, days=1)],
        [(15, 1700, "schedule R101-DAY, exception 2 (2025-06-03), at the tick at 2025-06-03 06:00:00.00")],
        [(7 * HOUR, 1600, "R101-DAY", "its default")],
    ),
    ([at(6, days=1), at(7, days=1)], [(15, 1600, "schedule R101-DAY, its default, at the tick at 2025-06-03 07:00:00.00")]),
    ([at(7, 59), at(8), command("P2", 1, 15, 2000), at(0, days=29)], []),
    # of a Monday after the period: a quiet schedule has its values too
    ([at(0, days=35)], [], [(8 * HOUR, 2100, "R101-DAY", "weekly (Monday)")]),
    ([Skip("P1", 3), command("P1", 3, 8, 2000), command("P1", 2, 8, 2100)], [(8, 2000, "panel P1 #3, before any tick")]),
]


def worked_text(building, rows, changes=()):
    point = building.points[0]
    value, priority = next(((value, priority) for priority, value, _ in rows), (point.default, 0))
    lines = [f"POINT {point.name:<32}{value:>12} {priority:>2}"]
    lines += [f"{each:>2}  {USES.get(each, 'Available'):<26}{value:>12}  {author}" for each, value, author in rows]
    lines += [f"    {'Relinquish Default':<26}{point.default:>12}"] + [next_line(*change) for change in changes]
    return "".join(line + "\n" for line in lines)


def of_worked_list(place):
    """The test of the worked list of this place."""
    def test(program, folder):
        deliveries, *rows = WORKED[place]
        expect(explained(HOUSE, deliveries, HOUSE.points[0]), worked_text(HOUSE, *rows))
        look_at(program, HOUSE, deliveries, None, random.Random(place))
    return named(f"worked list {place}", test)


def an_unknown_point_is_a_fault(program, folder):
    file, listed = folder / "building.toml", folder / "list.jsonl"
    file.write_text(random_lists.toml_of(HOUSE))
    listed.write_text("")
    for name, reported in [("R102", "R102"), ("", ""), ("R1\n2", "R1\\n2"), ("r101-set", "r101-set")]:
        expect((name, run(program, "why", file, listed, name)), (name, ("", f"desk: no point {reported}\n", 1)))


def random_lists_have_their_authors(program, folder):
    seed = random.randrange(10**9)
    with ThreadPoolExecutor(4) as pool:
        reported = pool.map(lambda index: disagreement(program, seed, index), range(LISTS))
        expect_none([text for text in reported if text is not None])


TESTS = [an_unknown_point_is_a_fault, *map(of_worked_list, range(len(WORKED))), random_lists_have_their_authors]
