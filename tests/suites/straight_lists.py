"""Compares `desk straighten` with the plain slow desk: on random lists over small buildings, on every list of a few
deliveries near both ends of the window, and about every skip over commands that wait.

Of each list it is looked that what is printed is the straight list, and is its own straight list; that in a replay of
what was printed no reply is one to a repeat, a loss or a late delivery; and that it leaves all as a replay of the list
does: the points, and what the same list is answered after it. All but the first is looked at for the lists of the cases
too.
"""
import itertools
import json
import pathlib
import random
import re
import subprocess
import tempfile
from concurrent.futures import ThreadPoolExecutor
from dataclasses import replace

from helpers import cases, random_lists
from helpers.serving import SECONDS
from helpers.trying import IN_MEMORY, expect, expect_none
from oracle.slow_desk import Building, Command, Content, Import, Panel, Point, Skip, Tick, straight_list, straightened
from oracle.slow_schedules import Calendar

ON_DISK = True
LISTS = 3000
LONGEST = 60
LONG_LISTS = 6
FAR_LISTS = 60
# How many panels send short lists of their own in one list.
TOGETHER = 32


# ---- what is promised of one list


def printed_by(program, subcommand, building, listed):
    ran = subprocess.run([program, subcommand, building, listed], capture_output=True, text=True, timeout=SECONDS)
    expect((subcommand, listed.name, ran.returncode, ran.stderr), (subcommand, listed.name, 0, ""))
    return ran.stdout


def replayed(program, building, listed):
    """The replies of a replay, and the lines of its points."""
    lines = printed_by(program, "replay", building, listed).splitlines()
    points = [line for line in lines if line.startswith("POINT ")]
    return lines[: len(lines) - len(points)], points


def panel_line_is_in_turn(members, next_number, reply):
    """Whether a panel's line is the next one in turn, and is answered so; and the panel's next number after it."""
    if "skip" in members:
        upto = members["skip"]
        return upto > next_number and reply == f'{{"answer":"skip","next":{upto}}}', upto
    number = members["number"]
    if number > next_number:
        return reply == f'{{"answer":"parked","next":{next_number},"number":{number}}}', next_number
    acted = rf'{{"answer":("done","number":{number},"present":-?\d+,"priority":\d+|"refused","number":{number},"rule":"X[1-6]")}}'
    return number == next_number and re.fullmatch(acted, reply) is not None, number + 1


def clock_line_acts(members, reply):
    """Whether a tick is carried out, or each row of an import added, and there is one."""
    if "tick" in members:
        return re.fullmatch(r'{"answer":"tick","writes":\d+}', reply) is not None
    rows = members["import"].count("\n") - 1
    return rows > 0 and re.fullmatch(rf'{{"added":{rows},"answer":"import","known":0,"writes":\d+}}', reply) is not None


def out_of_turn(lines, replies):
    """The first line of a straight list that is answered as one that came twice, late or early, with its reply; or None.

    A command may wait only where nothing but commands that wait come after it, each panel's by rising number.
    """
    nexts, waiting = {}, {}
    for line, reply in zip(lines, replies):
        members = json.loads(line)
        panel, waits = members.get("panel"), '"answer":"parked"' in reply
        if panel is None:
            in_turn = clock_line_acts(members, reply)
        else:
            in_turn, nexts[panel] = panel_line_is_in_turn(members, nexts.get(panel, 1), reply)
        if waits:
            in_turn = in_turn and members["number"] > waiting.get(panel, 0)
            waiting[panel] = members["number"]
        if not in_turn or waiting and not waits:
            return line, reply
    return None


def after(program, building, first, second):
    """What is answered to a list, the points after it, and what both become where the second list comes after it."""
    both = first.with_suffix(".both")
    both.write_bytes(first.read_bytes() + b"\n" + second.read_bytes())
    replies, points = replayed(program, building, first)
    more, points_of_both = replayed(program, building, both)
    return replies, (points, more[len(replies) :], points_of_both)


def look_at(program, building, listed, wanted=None):
    """Raises where the straightening of a list is not what is promised of it, or not the text that is wanted."""
    straight = listed.with_suffix(".straight")
    text = printed_by(program, "straighten", building, listed)
    expect(text, text if wanted is None else wanted)
    straight.write_text(text)
    expect(printed_by(program, "straighten", building, straight), text)
    replies, left = after(program, building, straight, listed)
    lines = text.splitlines()
    expect((len(replies), out_of_turn(lines, replies)), (len(lines), None))
    expect(left, after(program, building, listed, listed)[1])


# ---- the lists


def some_lines(rng, deliveries):
    """The lines of deliveries, with some between them that deliver nothing."""
    lines = []
    for delivery in deliveries:
        lines += [rng.choice(random_lists.NOTHING)] * (rng.random() < 0.1) + [random_lists.line_of(rng, delivery)]
    return "".join(lines)


def some_deliveries(rng, building):
    return random_lists.some_deliveries(rng, building, LONGEST)


def deliveries_at(index):
    """How the list of this place is made."""
    if index < LONG_LISTS:
        return random_lists.long_deliveries
    return random_lists.far_deliveries if index < LONG_LISTS + FAR_LISTS else some_deliveries


def lists_about_a_skip():
    """Each choice of commands 2 to 6 that wait, a skip to a number about them, then number 1, and one past the skip."""
    on = Content("LIGHT", 8, 1)
    for some in itertools.product([False, True], repeat=5):
        waiting = [Command("P1", number, on) for number, waits in enumerate(some, 2) if waits]
        for upto in range(2, 10):
            yield waiting[::-1] + [Skip("P1", upto), Command("P1", 1, on), Command("P1", upto + 1, on)]


def wide_lists():
    """Lists in which each panel sends a short list of its own, the panels taking turns."""
    short = random_lists.near_lists() + list(lists_about_a_skip())
    for start in range(0, len(short), TOGETHER):
        sent = [
            [replace(delivery, panel=f"P{place}") for delivery in few]
            for place, few in enumerate(short[start : start + TOGETHER], 1)
        ]
        turns = itertools.zip_longest(*sent)
        yield [delivery for turn in turns for delivery in turn if delivery is not None]


WIDE = Building(
    (Point("LIGHT", "binary", 0, 1, 0),), tuple(Panel(f"P{place}", ("LIGHT",), (8, 9)) for place in range(1, TOGETHER + 1))
)


def differs(program, name, rng, building, deliveries):
    """Where the program and the promises differ on one list, or None."""
    with tempfile.TemporaryDirectory(prefix="desk-straightened-", dir=IN_MEMORY) as room:
        file, listed = pathlib.Path(room) / "building.toml", pathlib.Path(room) / "list.jsonl"
        file.write_text(random_lists.toml_of(building))
        listed.write_text(some_lines(rng, deliveries))
        try:
            look_at(program, file, listed, straightened(building, deliveries))
        except AssertionError as error:
            return f"straightened list {name}: {file.read_text()}{listed.read_text()}found {error}"
    return None


def disagreement(program, seed, index):
    rng = random.Random(f"straightened {seed} {index}")
    building = random_lists.some_building(rng)
    return differs(program, index, rng, building, deliveries_at(index)(rng, building))


# ---- worked lists


def the_lists_of_the_cases_are_straightened(program, folder):
    """Each list of a case that is replayed to its end."""
    building, listed = folder / "building.toml", folder / "deliveries.jsonl"
    for case in cases.all_cases():
        if "deliveries.jsonl" not in case.files or "\nstatus " in case.transcript:
            continue
        building.write_text(case.building())
        listed.write_bytes(case.files["deliveries.jsonl"])
        try:
            look_at(program, building, listed)
        except AssertionError as error:
            raise AssertionError(f"{case.name}: {error}") from error


HOUSE = Building(
    (Point("SET", "analog", 500, 3500, 1800), Point("LIGHT", "binary", 0, 1, 0)),
    (Panel("P1", ("SET", "LIGHT"), (8, 10)), Panel("P2", ("SET",), (9,))),
    "CET-1CEST,M3.5.0,M10.5.0/3",
    (Calendar("HOLIDAYS", ("2025-12-25",)),),
)
JUNE, MORE = Import((("HOLIDAYS", "2025-06-02"),)), Import((("HOLIDAYS", "2025-06-09"), ("NONE", "2025-06-10")))
SEVERAL = Import((("HOLIDAYS", "2025-12-25"), ("HOLIDAYS", "2025-06-09"), ("HOLIDAYS", "2025-06-02"), ("HOLIDAYS", "2025-06-09")))


def command(number, point, priority, value, panel="P1"):
    return Command(panel, number, Content(point, priority, value))


# Lists of deliveries, each with its straight list.
WORKED = [
    ([], []),
    (
        [command(3, "SET", 8, 2200), command(2, "SET", 8, 2100), command(2, "SET", 8, 2100), command(1, "SET", 8, 2000),
         command(2, "SET", 8, 2100)],
        [command(1, "SET", 8, 2000), command(2, "SET", 8, 2100), command(3, "SET", 8, 2200)],
    ),
    ([command(64, "LIGHT", 8, 1), command(65, "LIGHT", 8, 1)], [command(64, "LIGHT", 8, 1)]),
    (
        [command(2, "SET", 8, 2000), command(4, "LIGHT", 10, 1), Skip("P1", 4), command(3, "LIGHT", 8, 1), Skip("P1", 4)],
        [Skip("P1", 2), command(2, "SET", 8, 2000), Skip("P1", 4), command(4, "LIGHT", 10, 1)],
    ),
    (
        [command(2, "SET", 8, 2000), command(2, "SET", 8, 2400), command(1, "LIGHT", 8, 1)],
        [command(1, "LIGHT", 8, 1), command(2, "SET", 8, 2000)],
    ),
    (
        [Tick(174884399999), Tick(174884400000), Tick(174884400000), JUNE, JUNE, MORE],
        [Tick(174884399999), Tick(174884400000), JUNE],
    ),
    ([JUNE, SEVERAL, Tick(-1), Tick(0)], [JUNE, Import((("HOLIDAYS", "2025-06-09"),)), Tick(0)]),
    (
        [command(2, "SET", 9, 2000, "P2"), command(3, "LIGHT", 8, 1), command(2, "LIGHT", 8, 0), Skip("P2", 66), Tick(0)],
        [Tick(0), command(2, "LIGHT", 8, 0), command(3, "LIGHT", 8, 1), command(2, "SET", 9, 2000, "P2")],
    ),
    (
        [command(2, "SET", 8, 2000), command(5, "LIGHT", 8, 1), Skip("P1", 65), Skip("P9", 2), command(1, "SET", 8, 500)],
        [Skip("P1", 2), command(2, "SET", 8, 2000), Skip("P1", 5), command(5, "LIGHT", 8, 1), Skip("P1", 65)],
    ),
]


def the_plain_program_knows_worked_lists(program, folder):
    """So that what it tells of a straight list is no error of its own."""
    for deliveries, wanted in WORKED:
        reported, waiting = straight_list(HOUSE, deliveries)
        expect(reported + waiting, wanted)


# ---- random and wide lists


def random_lists_are_straightened(program, folder):
    seed = random.randrange(10**9)
    with ThreadPoolExecutor(4) as pool:
        reported = pool.map(lambda index: disagreement(program, seed, index), range(LISTS))
        expect_none([text for text in reported if text is not None])


def wide_lists_are_straightened(program, folder):
    wide = list(wide_lists())
    with ThreadPoolExecutor(4) as pool:
        reported = pool.map(lambda place: differs(program, f"wide {place}", random.Random(place), WIDE, wide[place]), range(len(wide)))
        expect_none([text for text in reported if text is not None])


TESTS = [the_plain_program_knows_worked_lists, the_lists_of_the_cases_are_straightened, random_lists_are_straightened,
         wide_lists_are_straightened]
