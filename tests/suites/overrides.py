"""Compares `desk overrides` with the plain slow desk: on random lists over small buildings, from and up to moments about their
ticks, also on bases; on worked lists; and in its faults.
"""
import dataclasses
import pathlib
import random
import tempfile
from concurrent.futures import ThreadPoolExecutor

from helpers import random_lists
from helpers.listed import before, list_text, make_base, moment_words, run, some_base, some_moment, until_text
from helpers.tables import in_worked
from helpers.trying import IN_MEMORY, expect, expect_none, named
from helpers.worked import BUILDING, HOLIDAY, HOUR, command
from oracle.slow_desk import Command, Content, Panel, Skip, Tick, delivery_line, overridden
from oracle.slow_schedules import Schedule

LISTS = 1500
LONGEST = 60
# Priorities at which panels write, of which the last two are those of the schedules.
BUSY = [8, 15, 16]


# ---- random lists


def busy_building(rng):
    """One whose panels write each point, also where the schedules do, of which one more comes and goes each day."""
    building = random_lists.some_building(rng)
    names, first = tuple(point.name for point in building.points), building.points[0]
    panels = tuple(Panel(name, names, tuple(rng.sample(BUSY, 2))) for name in ("P1", "P2"))
    times = (rng.randrange(24) * HOUR, first.high), (rng.randrange(24) * HOUR, None)
    daily = Schedule("DAILY", "*..*", 15, (first.name,), None, (times,) * 7, (), False)
    return dataclasses.replace(building, panels=panels, schedules=(*building.schedules, daily))


def busy_deliveries(rng, building):
    """Commands without a rule against them, nearly all in order, with ticks and imports between."""
    deliveries, numbers = [], dict.fromkeys(building.panels, 0)
    moment = rng.choice(random_lists.ODD_DAYS)
    for _ in range(rng.randint(0, LONGEST)):
        if rng.random() < 0.5:
            moment += rng.choice([1, 6000, HOUR // 4, HOUR, 3 * HOUR, 7 * HOUR, 20 * HOUR])
            deliveries.append(random_lists.some_clock_delivery(rng, building, moment))
            continue
        panel, point = rng.choice(building.panels), rng.choice(building.points)
        numbers[panel] += 1
        content = Content(point.name, rng.choice(panel.priorities), rng.choice([None, point.low, point.high]))
        deliveries.append(Command(panel.name, numbers[panel], content))
    for _ in range(len(deliveries) // 6):
        place = rng.randrange(len(deliveries))
        deliveries.insert(place + rng.randint(1, 8), deliveries[place] if rng.random() < 0.5 else deliveries.pop(place))
    return deliveries


def look_at(program, building, earlier, deliveries, since, until, rng):
    """Raises where the program and the plain desk differ on one list."""
    with tempfile.TemporaryDirectory(prefix="desk-overrides-", dir=IN_MEMORY) as room:
        file, listed = pathlib.Path(room) / "building.toml", pathlib.Path(room) / "list.jsonl"
        file.write_text(random_lists.toml_of(building))
        listed.write_text(list_text(rng, deliveries, until))
        if earlier is not None:
            make_base(program, file, listed, rng, earlier)
        found = run(program, "overrides", file, listed, *moment_words("from", since), *moment_words("until", until))
        wanted = overridden(building, earlier or [], before(deliveries, until), since) + until_text(building, until)
        told = since, until, earlier, listed.read_text()
        expect((*told, found), (*told, (wanted, "", 0)))


def disagreement(program, seed, index):
    rng = random.Random(f"overrides {seed} {index}")
    if index % 2:
        building = busy_building(rng)
        deliveries = busy_deliveries(rng, building)
    else:
        building = random_lists.some_building(rng)
        deliveries = random_lists.some_deliveries(rng, building, LONGEST)
    earlier, deliveries = some_base(rng, deliveries)
    try:
        look_at(program, building, earlier, deliveries, some_moment(rng, deliveries), some_moment(rng, deliveries), rng)
    except AssertionError as error:
        return f"list {index}: {random_lists.toml_of(building)} found {error}"
    return None


def random_lists_have_their_overrides(program, folder):
    seed = random.randrange(10**9)
    with ThreadPoolExecutor(4) as pool:
        reported = pool.map(lambda index: disagreement(program, seed, index), range(LISTS))
        expect_none([text for text in reported if text is not None])


# ---- worked lists

MONDAY = 174881520000  # 2025-06-02 00:00 in the worked building
# Its schedule writes 16.00 at 15, from 8 on 21.00. Here it writes 21.00 from 8 to 18, and else NULL; P2 may write below it.
RELEASING = dataclasses.replace(
    BUILDING,
    panels=(BUILDING.panels[0], Panel("P2", ("R101-SET",), (16,))),
    schedules=(Schedule("R101-DAY", "*..*", 15, ("R101-SET",), None, (((8 * HOUR, 2100), (18 * HOUR, None)),) * 7, (), False),),
)


def at(hour, minute=0, hundredths=0, days=0):
    return Tick(MONDAY + (24 * days + hour) * HOUR + minute * 6000 + hundredths)


def setpoint(number, priority, value, panel="P1"):
    return command(panel, number, "R101-SET", priority, value)


def lamp(number, value):
    return command("P1", number, "LIGHT", 8, value)


EIGHT, NINE, TEN = (f"2025-06-02 {hour}:00:00.00" for hour in ("08", "09", "10"))
TAKEN_OVER = [at(8), setpoint(1, 10, 2000), at(9), setpoint(1, 9, 2300, "P2"), at(10), setpoint(2, 9, None, "P2"), at(11)]
FIRST = ("R101-SET", 2000, 10, f"panel P1 #1, from {EIGHT} to {NINE}, 1 h 00 min")
SECOND = ("R101-SET", 2300, 9, f"panel P2 #1, from {NINE} to {TEN}, 1 h 00 min")
AGAIN = ("R101-SET", 2000, 10, f"panel P1 #1, since {TEN}, 1 h 00 min")
# Of each list what it is, its deliveries, and the lines: a point, its value, the priority, and the rest.
WORKED = [
    ("no delivery", [], []),
    ("before any tick", [setpoint(1, 8, 2150)], [("R101-SET", 2150, 8, "panel P1 #1, since before any tick")]),
    ("begun and ended before any tick", [setpoint(1, 8, 2150), setpoint(2, 8, None)],
     [("R101-SET", 2150, 8, "panel P1 #1, from before any tick to before any tick")]),
    ("begun before any tick", [setpoint(1, 8, 2150), at(8), setpoint(2, 8, None)],
     [("R101-SET", 2150, 8, f"panel P1 #1, from before any tick to {EIGHT}")]),
    ("repeats",
     [at(8), setpoint(1, 8, 2150), setpoint(1, 8, 2150), at(9), setpoint(1, 8, 2150), at(10), setpoint(2, 8, None), setpoint(1, 8, 2150)],
     [("R101-SET", 2150, 8, f"panel P1 #1, from {EIGHT} to {TEN}, 2 h 00 min")]),
    ("a minute that is not whole", [at(8), setpoint(1, 8, 2150), at(9, 30, -1), setpoint(2, 8, None)],
     [("R101-SET", 2150, 8, f"panel P1 #1, from {EIGHT} to 2025-06-02 09:29:59.99, 1 h 29 min")]),
    ("a week", [at(8), setpoint(1, 8, 2150), at(8, days=7)], [("R101-SET", 2150, 8, f"panel P1 #1, since {EIGHT}, 168 h 00 min")]),
    ("old ticks, and one out of range", [at(8), setpoint(1, 8, 2150), at(7), at(8), Tick(-1), at(9), setpoint(2, 8, None)],
     [("R101-SET", 2150, 8, f"panel P1 #1, from {EIGHT} to {NINE}, 1 h 00 min")]),
    # number 1 gives the room 20.00 at 10, and number 2, which waited for it, at once 21.50 at 8
    ("a command that waited", [at(8), setpoint(2, 8, 2150), at(9), setpoint(1, 10, 2000), at(10)],
     [("R101-SET", 2150, 8, f"panel P1 #2, since {NINE}, 1 h 00 min")]),
    ("a command and its release that waited", [at(8), setpoint(2, 8, 2150), setpoint(3, 8, None), at(9), lamp(1, 1)],
     [("LIGHT", 1, 8, f"panel P1 #1, since {NINE}, 0 h 00 min")]),
    ("a skip that frees a command", [at(8), setpoint(2, 8, 2150), at(9), Skip("P1", 2)],
     [("R101-SET", 2150, 8, f"panel P1 #2, since {NINE}, 0 h 00 min")]),
    ("a higher priority that goes again", TAKEN_OVER, [FIRST, SECOND, AGAIN]),
    ("a lower priority that is heard later", [at(8), setpoint(1, 8, 2150), at(9), setpoint(2, 10, 2000), at(10), setpoint(3, 8, None), at(11)],
     [("R101-SET", 2150, 8, f"panel P1 #1, from {EIGHT} to {TEN}, 2 h 00 min"),
      ("R101-SET", 2000, 10, f"panel P1 #2, since {TEN}, 1 h 00 min")]),
    ("a lower priority that is never heard", [at(8), setpoint(1, 8, 2150), setpoint(2, 10, 2000), setpoint(3, 10, None)],
     [("R101-SET", 2150, 8, f"panel P1 #1, since {EIGHT}, 0 h 00 min")]),
    ("the same value under another number", [at(8), setpoint(1, 8, 2150), at(9), setpoint(2, 8, 2150)],
     [("R101-SET", 2150, 8, f"panel P1 #1, from {EIGHT} to {NINE}, 1 h 00 min"),
      ("R101-SET", 2150, 8, f"panel P1 #2, since {NINE}, 0 h 00 min")]),
    ("the value of the relinquish default", [at(8), lamp(1, 0)], [("LIGHT", 0, 8, f"panel P1 #1, since {EIGHT}, 0 h 00 min")]),
    ("commands that rules are against",
     [at(8), setpoint(1, 8, 2150), setpoint(2, 6, 2000), setpoint(3, 8, 9999), setpoint(1, 8, 2000, "P2"), at(9)],
     [("R101-SET", 2150, 8, f"panel P1 #1, since {EIGHT}, 1 h 00 min")]),
    ("the order of the points", [at(8), lamp(1, 1), at(9), setpoint(2, 8, 2150), at(10), lamp(3, 0)],
     [("R101-SET", 2150, 8, f"panel P1 #2, since {NINE}, 1 h 00 min"),
      ("LIGHT", 1, 8, f"panel P1 #1, from {EIGHT} to {TEN}, 2 h 00 min"), ("LIGHT", 0, 8, f"panel P1 #3, since {TEN}, 0 h 00 min")]),
    # at 6 the schedule writes 16.00; at 7 it isn't due; at 8 it writes 21.00 where the panel's value is
    ("a schedule that writes there", [at(6), setpoint(1, 15, 2000, "P2"), at(7), at(8), at(9)],
     [("R101-SET", 2000, 15, f"panel P2 #1, from 2025-06-02 06:00:00.00 to {EIGHT}, 2 h 00 min")]),
    ("an import", [at(8), setpoint(1, 15, 2000, "P2"), at(9), HOLIDAY],
     [("R101-SET", 2000, 15, f"panel P2 #1, from {EIGHT} to {NINE}, 1 h 00 min")]),
    ("the hour that comes twice", [Tick(176143860000), setpoint(1, 8, 2150), Tick(176144220000)],
     [("R101-SET", 2150, 8, "panel P1 #1, since 2025-10-26 02:30:00.00, 1 h 00 min")]),
]
# The same on a base: its deliveries come first.
ON_BASES = [
    ("what was there before", [setpoint(1, 8, 2150), at(8)], [setpoint(1, 8, 2150), at(9)], []),
    ("what was there before, and comes again", [setpoint(1, 10, 2000), at(8)], [setpoint(2, 8, 2150), at(9), setpoint(3, 8, None)],
     [("R101-SET", 2150, 8, f"panel P1 #2, from {EIGHT} to {NINE}, 1 h 00 min")]),
    ("a command that waited before", [at(8), setpoint(2, 8, 2150)], [setpoint(1, 10, 2000)],
     [("R101-SET", 2150, 8, f"panel P1 #2, since {EIGHT}, 0 h 00 min")]),
]


def lines_of(rows):
    return "".join(f"{point:<32}{value:>12} {priority:>2}  {rest}\n" for point, value, priority, rest in rows)


def of_worked_list(name, earlier, deliveries, rows, building=BUILDING):
    """The test of a worked list."""
    def test(program, folder):
        expect(overridden(building, earlier or [], deliveries), lines_of(rows))
        look_at(program, building, earlier, deliveries, None, None, random.Random(name))
    return named(f"worked list: {name}", test)


def of_moments(since, until, rows):
    """The test of the list of a higher priority that goes again, from and up to moments as they are said."""
    def test(program, folder):
        (folder / "building.toml").write_text(random_lists.toml_of(BUILDING))
        (folder / "list.jsonl").write_text("".join(delivery_line(each) + "\n" for each in TAKEN_OVER))
        words = moment_words("from", since) + moment_words("until", until)
        last = "" if until is None else f"until {TEN}\n"
        found = run(program, "overrides", folder / "building.toml", folder / "list.jsonl", *words)
        expect(found, (lines_of(rows) + last, "", 0))
    return named(f"worked list from {since} up to {until}", test)


STANDING = (*AGAIN[:3], f"panel P1 #1, since {TEN}, 0 h 00 min")
MOMENTS = [
    ("2025-06-02T08:59:59.99", None, [FIRST, SECOND, AGAIN]),
    ("2025-06-02T09:00", None, [SECOND, AGAIN]),
    ("174885120000", None, [AGAIN]),
    ("2025-06-03", None, [AGAIN]),
    ("2025-06-02", "2025-06-02T10:00", [FIRST, SECOND, STANDING]),
    ("2025-06-03", "2025-06-02T10:00", [STANDING]),
]


# ---- faults


@in_worked
def the_first_fault_is_told(program, folder):
    """The base's, then FILE's, then that of FROM, of UNTIL, and of the list."""
    file, listed, bad = folder / "building.toml", folder / "none.jsonl", folder / "bad.jsonl"
    bad.write_text('{"tick":174884400000}\nno delivery\n')
    both = ["--until=night", "--from=noon"]
    for words, told in [
        ([folder / "none.toml", listed, *both], f"cannot read {folder}/none.toml"),
        ([file, listed, *both], "noon is not a moment"),
        ([file, listed, "--until=night", "--from=2025-03-30T02:30"], "the building's clock does not show 2025-03-30T02:30"),
        ([file, listed, "--until=night", "--from=2025-06-02"], "night is not a moment"),
        ([file, listed, "--from=2025-06-02"], f"cannot read {listed}"),
        ([file, bad, "--from=2025-06-02"], "line 2 is not a delivery"),
    ]:
        expect((words, run(program, "overrides", *words)), (words, ("", f"desk: {told}\n", 1)))
    (folder / "none.jsonl.base").write_text("no database\n" * 1000)
    out, told, status = run(program, "overrides", folder / "none.toml", listed, *both)
    expect((out, told.splitlines()[-1], status), ("", f"desk: store fault S2 at {listed}.base", 3))


@in_worked
def a_list_that_is_read_up_to_a_moment_is_read_no_further(program, folder):
    file, bad = folder / "building.toml", folder / "bad.jsonl"
    bad.write_text('{"tick":174884400000}\n{"tick":174884760000}\nno delivery\n')
    found = run(program, "overrides", file, bad, "--until", "2025-06-02T08:30")
    expect(found, ("until 2025-06-02 08:30:00.00\n", "", 0))


TESTS = [
    *(of_worked_list(name, None, *worked) for name, *worked in WORKED),
    *(of_worked_list(*worked) for worked in ON_BASES),
    *(of_moments(*worked) for worked in MOMENTS),
    of_worked_list("a schedule that releases what stood above", None, [at(8), setpoint(1, 16, 2000, "P2"), at(18), at(19)],
                   [("R101-SET", 2000, 16, "panel P2 #1, since 2025-06-02 18:00:00.00, 1 h 00 min")], RELEASING),
    the_first_fault_is_told,
    a_list_that_is_read_up_to_a_moment_is_read_no_further,
    random_lists_have_their_overrides,
]
