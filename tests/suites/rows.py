"""The worked rows, each over both stores: deliveries with the reply that each gets, and the points that they leave, in a
replay (tables in memory) and on a server over a new database. With ample memory none meets the want of it. And what is
worked of building files, entries, segments, days and straight lists.

Each test takes the path of the program and a folder of its own. What is wanted stands here as it was worked by hand; no
program computed it.
"""
import json
import shutil
import subprocess

from helpers import tables
from helpers.deliveries import request_of
from helpers.serving import SECONDS, answered, get, response, serving
from helpers.trying import expect

PERIOD = tables.WORKED.replace('name = "R101-DAY"\n', 'name = "R101-DAY"\nperiod = "2025-06-01..2025-06-30"\n')
RELEASED = PERIOD.replace("[[schedule.exception]]", 'on_leave = "release"\n[[schedule.exception]]')
NIGHT = tables.WORKED + '[[schedule]]\nname = "R101-NIGHT"\npriority = 15\ntargets = ["R101-SET"]\ndefault = 1700\n'


# ---- deliveries and replies, as lines

def reported(number, point, value, priority=8, panel="P1"):
    line = {"number": number, "panel": panel, "point": point, "priority": priority, "value": value}
    return json.dumps({key: each for key, each in line.items() if each is not None or key == "value"})


def skip(upto, panel="P1"):
    return json.dumps({"panel": panel, "skip": upto})


def tick(at):
    return json.dumps({"tick": at})


def holidays(*rows):
    return json.dumps({"import": "".join(f"{row}\n" for row in ("calendar,entry", *rows))})


def done(number, present, priority):
    return f'{{"answer":"done","number":{number},"present":{present},"priority":{priority}}}'


def parked(number, next_number=1):
    return f'{{"answer":"parked","next":{next_number},"number":{number}}}'


def against(number, rule):
    return f'{{"answer":"refused","number":{number},"rule":"{rule}"}}'


def numbered(answer, number):
    return f'{{"answer":"{answer}","number":{number}}}'


def skipped_to(number):
    return f'{{"answer":"skip","next":{number}}}'


def too_far(number, next_number=1):
    return f'{{"answer":"too_far","next":{next_number},"number":{number}}}'


def ticked(writes):
    return f'{{"answer":"tick","writes":{writes}}}'


def imported(added, known, writes):
    return f'{{"added":{added},"answer":"import","known":{known},"writes":{writes}}}'


def no_import(fault, record):
    return f'{{"answer":"import_refused","fault":"{fault}","record":{record}}}'


OLD, BAD_MOMENT = '{"answer":"old","writes":0}', '{"answer":"bad_moment"}'
BAD_NUMBER, NO_PANEL = '{"answer":"bad_number"}', '{"answer":"no_panel"}'
SET, LIGHT = "R101-SET", "LIGHT"
FIRST = [(reported(1, SET, 2150), done(1, 2150, 8))]
MORNING = [(tick(174884399999), ticked(1)), (tick(174884400000), ticked(1)), (tick(174884400000), OLD)]
FREED = [(reported(2, SET, 2000), parked(2)), (reported(4, LIGHT, 1, 10), parked(4)), (skip(4), skipped_to(5)),
         (reported(3, LIGHT, 1), numbered("skipped", 3)), (skip(4), skipped_to(5))]
WAITING = [(reported(number, LIGHT, 1), parked(number)) for number in range(2, 65)]
THOUSAND = [(reported(number, LIGHT, 1), done(number, 1, 8)) for number in range(1, 1001)]

# What it shows; the building; the deliveries, each with its reply; and what each point has then, with its priority.
ROWS = {
    "no deliveries": (tables.WORKED, [], (1800, 0), (0, 0)),
    "a command": (tables.WORKED, FIRST, (2150, 8), (0, 0)),
    "the six answers of commands in order": (tables.WORKED, FIRST + [
        (reported(2, SET, None), done(2, 1800, 0)),
        (reported(3, LIGHT, 1, 6), against(3, "X4")),
        (reported(3, LIGHT, 1, 6), against(3, "X4")),
        (reported(3, LIGHT, 1), numbered("differs", 3)),
        (reported(4, LIGHT, 1, None), against(4, "X5")),
        (reported(4, LIGHT, 1, 16), against(4, "X5")),
        (reported(5, SET, 2000, 10), done(5, 2000, 10)),
        (reported(1, SET, 2300, 9, "P2"), done(1, 2300, 9)),
        (reported(5, SET, 2000, 10), done(5, 2000, 10)),
    ], (2300, 9), (0, 0)),
    "commands that wait, and the one that they wait for": (tables.WORKED, [
        (reported(3, SET, 2200), parked(3)), (reported(2, SET, 2100), parked(2)), (reported(2, SET, 2100), parked(2)),
        (reported(1, SET, 2000), done(1, 2000, 8)), (reported(2, SET, 2100), done(2, 2100, 8)),
    ], (2200, 8), (0, 0)),
    "the end of the window": (tables.WORKED, [(reported(64, LIGHT, 1), parked(64)), (reported(65, LIGHT, 1), too_far(65))], (1800, 0), (0, 0)),
    "a skip frees what waits": (tables.WORKED, FREED, (2000, 8), (1, 10)),
    "what waits keeps its content": (tables.WORKED, [
        (reported(2, SET, 2000), parked(2)), (reported(2, SET, 2400), numbered("differs", 2)), (reported(1, LIGHT, 1), done(1, 1, 8)),
    ], (2000, 8), (1, 8)),
    "what waits keeps its content over a skip": (tables.WORKED, [
        (reported(2, SET, 2000), parked(2)), (reported(2, SET, 2400), numbered("differs", 2)), (skip(2), skipped_to(3)),
    ], (2000, 8), (0, 0)),
    "each rule": (tables.WORKED, FIRST + [
        (reported(3, LIGHT, 1), parked(3, 2)), (reported(1, LIGHT, 1, 8, "P9"), NO_PANEL), (reported(0, LIGHT, 1), BAD_NUMBER),
        (reported(2, SET, 3501), against(2, "X6")), (reported(1, LIGHT, 1, 9, "P2"), against(1, "X2")),
    ], (2150, 8), (1, 8)),
    "numbers out of range": (tables.WORKED, [(reported(0, LIGHT, 1), BAD_NUMBER), (reported(1_000_000_000_001, LIGHT, 1), BAD_NUMBER)], (1800, 0), (0, 0)),
    "63 that wait are acted on by one skip": (tables.WORKED, WAITING + [(skip(66), too_far(66)), (skip(65), skipped_to(65))], (1800, 0), (1, 8)),
    "ticks": (tables.WORKED, MORNING, (2100, 15), (0, 0)),
    "the hour that comes twice": (tables.WORKED, [(tick(at), ticked(1)) for at in (176143860000, 176143980000, 176144220000)], (1600, 15), (0, 0)),
    "imports": (tables.WORKED, MORNING + [
        (holidays("HOLIDAYS,2025-06-02"), imported(1, 0, 1)), (holidays("HOLIDAYS,2025-06-02"), imported(0, 1, 0)),
        (holidays("HOLIDAYS,2025-06-09", "NOSUCH,2025-06-10"), no_import("I3", 3)),
    ], (1500, 15), (0, 0)),
    "a holiday at rest and the next day": (tables.WORKED, MORNING[:2] + [
        (tick(174884400100), ticked(0)), (holidays("HOLIDAYS,2025-06-02"), imported(1, 0, 1)),
        (holidays("HOLIDAYS,2025-06-02"), imported(0, 1, 0)), (tick(174890160000), ticked(1)),
    ], (1600, 15), (0, 0)),
    "a schedule that says the same": (tables.WORKED, MORNING + [
        (reported(1, SET, 2000, 15, "P2"), done(1, 2000, 15)), (tick(174884400100), ticked(0)),
    ], (2000, 15), (0, 0)),
    "a period's end": (PERIOD, [(tick(175126320000), ticked(1)), (tick(175132080000), ticked(0))], (2100, 15), (0, 0)),
    "a release on leaving": (RELEASED, [(tick(175126320000), ticked(1)), (tick(175132080000), ticked(1)), (tick(175132080100), ticked(0))], (1800, 0), (0, 0)),
    "a release of what a panel wrote": (RELEASED, [
        (tick(175126320000), ticked(1)), (reported(1, SET, 2000, 15, "P2"), done(1, 2000, 15)), (tick(175132080000), ticked(1)),
    ], (1800, 0), (0, 0)),
    "no release of what was never shown": (RELEASED, [(tick(175132080000), ticked(0))], (1800, 0), (0, 0)),
    "two schedules of one place": (NIGHT, [(tick(174884399999), ticked(2))], (1700, 15), (0, 0)),
    "the one of two that changes": (NIGHT, [(tick(174884399999), ticked(2)), (tick(174884400000), ticked(1))], (2100, 15), (0, 0)),
    "moments out of range": (tables.WORKED, [(tick(-1), BAD_MOMENT), (tick(9223372036854775807), BAD_MOMENT), *MORNING], (2100, 15), (0, 0)),
    "imports before any tick": (tables.WORKED, [
        (holidays("HOLIDAYS,2025-06-02"), imported(1, 0, 0)), (holidays("HOLIDAYS,2025-06-09", "HOLIDAYS,2025-06-09"), imported(1, 1, 0)),
        (holidays("HOLIDAYS,2025-12-25"), imported(0, 1, 0)), (json.dumps({"import": "calendar;entry"}), no_import("I2", 1)),
        (holidays("HOLIDAYS,2025-06-09,x"), no_import("I1", 2)),
    ], (1800, 0), (0, 0)),
    "answers are kept for 1,000 numbers": (tables.WORKED, THOUSAND + [
        (reported(1, LIGHT, 1), done(1, 1, 8)), (reported(1001, LIGHT, 1), done(1001, 1, 8)), (reported(1, LIGHT, 1), numbered("forgotten", 1)),
        (reported(1, LIGHT, 0), numbered("forgotten", 1)), (reported(2, LIGHT, 1), done(2, 1, 8)), (reported(2, LIGHT, 0), numbered("differs", 2)),
    ], (1800, 0), (1, 8)),
    "a number that was given up is forgotten too": (tables.WORKED, [
        (skip(2), skipped_to(2)), *THOUSAND[1:], (reported(1001, LIGHT, 1), done(1001, 1, 8)), (reported(1, LIGHT, 1), numbered("forgotten", 1)),
    ], (1800, 0), (1, 8)),
}


def ran(program, folder, *words):
    ended = subprocess.run([program, *words], cwd=folder, capture_output=True, text=True, timeout=SECONDS)
    return ended.returncode, ended.stdout, ended.stderr


def point_lines(setting, light):
    return "".join(f"POINT {name:<32}{value:>12} {priority:>2}\n" for name, (value, priority) in ((SET, setting), (LIGHT, light)))


def each_row_in_memory(program, folder):
    for name, (building, deliveries, *points) in ROWS.items():
        (folder / "building.toml").write_text(building)
        (folder / "list.jsonl").write_text("".join(f"{line}\n" for line, _ in deliveries))
        wanted = "".join(f"{reply}\n" for _, reply in deliveries) + point_lines(*points)
        expect((name, ran(program, folder, "replay", "building.toml", "list.jsonl")), (name, (0, wanted, "")))


def present_of(server, name):
    reported_of = json.loads(server.ask(get(f"/points/{name}")).partition(b"\r\n\r\n")[2])
    return reported_of["present"], reported_of["priority"]


def each_row_in_a_database(program, folder):
    for name, (building, deliveries, *points) in ROWS.items():
        room = folder / "row"
        room.mkdir()
        (room / "building.toml").write_text(building)
        with serving(program, room, len(deliveries) + 2) as server:
            for line, reply in deliveries:
                expect((name, line, server.ask(request_of(json.loads(line)))), (name, line, answered(reply)))
            expect((name, present_of(server, SET), present_of(server, LIGHT)), (name, *points))
            server.end()
        shutil.rmtree(room)


# ---- straight lists

STRAIGHT = {
    "what waits for one": ([line for line, _ in ROWS["commands that wait, and the one that they wait for"][1]],
                           [reported(1, SET, 2000), reported(2, SET, 2100), reported(3, SET, 2200)]),
    "what still waits": ([reported(64, LIGHT, 1), reported(65, LIGHT, 1)], [reported(64, LIGHT, 1)]),
    "what a skip frees": ([line for line, _ in FREED], [skip(2), reported(2, SET, 2000), skip(4), reported(4, LIGHT, 1, 10)]),
    "the content that was accepted": ([reported(2, SET, 2000), reported(2, SET, 2400), reported(1, LIGHT, 1)], [reported(1, LIGHT, 1), reported(2, SET, 2000)]),
    "ticks and imports that did something": ([line for line, _ in MORNING + ROWS["imports"][1][3:5]],
                                             [tick(174884399999), tick(174884400000), holidays("HOLIDAYS,2025-06-02")]),
    "nothing": ([], []),
}


def each_list_is_straightened(program, folder):
    (folder / "building.toml").write_text(tables.WORKED)
    for name, (lines, straight) in STRAIGHT.items():
        (folder / "list.jsonl").write_text("".join(f"{line}\n" for line in lines))
        wanted = "".join(line.replace(": ", ":").replace(", ", ",") + "\n" for line in straight)
        expect((name, ran(program, folder, "straighten", "building.toml", "list.jsonl")), (name, (0, wanted, "")))


# ---- building files and entries

FAULTS = {
    "": "B3 top 0 zone",
    tables.WORKED.replace("CET-1CEST,M3.5.0,M10.5.0/3", "Europe/Berlin"): "B12 top 0 zone",
    tables.WORKED.replace('name = "LIGHT"', 'name = "R101-SET"'): "B6 point 2 name",
    tables.WORKED.replace('kind = "binary"\n', 'kind = "binary"\nstates = 2\n'): "B2 point 2 ?",
    tables.WORKED.replace("high = 3500", "high = 400"): "B11 point 1 high",
    tables.WORKED.replace('points = ["R101-SET"]', 'points = ["R101-SET", "R102"]'): "B7 panel 2 points",
    tables.WORKED.replace("priorities = [9, 15]", "priorities = [9, 6]"): "B10 panel 2 priorities",
    tables.WORKED.replace('"2025-12-25"', '"2025-2-25"'): "B8 E3 calendar 1 entries",
    tables.WORKED.replace("08:00=2100", "8:00=2100"): "B9 schedule 1 weekly",
    tables.WORKED.replace("08:00=2100", "08:00=4000"): "B11 schedule 1 weekly",
    tables.WORKED.replace('["02:45=1900"]', "").replace("[], ]", "[]]"): "B4 schedule 1 weekly",
    tables.WORKED.replace("priority = 5", "priority = 17"): "B10 schedule 1 exception",
    tables.WORKED.replace('name = "R101-DAY"\npriority = 15', 'name = "R101-DAY"\npriority = 6'): "B10 schedule 1 priority",
    RELEASED.replace('"release"', '"drop"'): "B4 schedule 1 on_leave",
}
NO_ENTRIES = {
    "2025-06-02..": "E1", "wnd:1:2": "E1", "WND:*:1:*": "E1", "": "E1", "2025-06": "E1", "1899-01-01": "E2", "2025-13-01": "E3",
    "2025-6-2": "E3", "*..2025-02-30": "E4", "2025-06-32": "E4", "2025-02-30..*": "E4", "2025-06-02/": "E5",
    "2025-06-02/Mon": "E5", "wnd:*:0:*": "E6", "2025-*-01..*": "E7",
}


def each_building_is_reported(program, folder):
    (folder / "building.toml").write_text(tables.WORKED)
    wanted = (0, "ok: 2 points, 2 panels, 1 calendars, 1 schedules\n", "")
    expect(ran(program, folder, "check", "building.toml"), wanted)
    faults = FAULTS | {tables.WORKED.replace("2025-12-25", text): f"B8 {fault} calendar 1 entries" for text, fault in NO_ENTRIES.items()}
    for building, fault in faults.items():
        (folder / "building.toml").write_text(building)
        expect(ran(program, folder, "check", "building.toml"), (1, "", f"desk: {fault}\n"))


# ---- days and segments

# An entry, and the days of those asked on which it holds.
ASKED = ["1900-03-01", "2024-02-01", "2024-02-02", "2024-02-08", "2024-02-22", "2024-02-23", "2024-02-28", "2024-02-29",
         "2025-02-28", "2025-05-05", "2025-06-01", "2025-06-02", "2025-06-09", "2025-12-25"]
HOLD = {
    "*-02-29": ["2024-02-29"], "1900-02-29": [], "2025-06-02..2025-06-01": [], "*..*": ASKED, "*-*-*": ASKED,
    "*-odd-odd/mon": ["2025-05-05"], "wnd:*:5:*": ["2024-02-29"], "wnd:*:6:*": ["2024-02-23", "2024-02-28", "2024-02-29", "2025-02-28", "2025-12-25"],
    "wnd:*:9:*": ["2024-02-02", "2024-02-08", "2025-05-05", "2025-06-09"], "*-even-last": ["2024-02-29", "2025-02-28"], "2025-02-31": [], "2025-12-25/fri": [],
}
HEAD = 'zone = "UTC0"\n[[point]]\nname = "S"\nkind = "analog"\nlow = -9999\nhigh = 9999\ndefault = 0\n'
SCHEDULE = '[[schedule]]\nname = "D"\npriority = 15\ntargets = ["S"]\n'
SEGMENTS = {
    "of two elements at one time the later": ('default = 0\nweekly = [["08:00=1", "08:00=2"], [], [], [], [], [], []]\n', ["00:00 0", "08:00 2"]),
    "a list that is not sorted": ('weekly = [["12:00=1", "06:00=2"], [], [], [], [], [], []]\n', ["00:00 NULL", "06:00 2", "12:00 1"]),
    "a value that stays": ('default = 1\nweekly = [["06:00=1", "07:00=1"], [], [], [], [], [], []]\n', ["00:00 1"]),
    "an exception's NULL": ('default = 0\nweekly = [["08:00=3"], [], [], [], [], [], []]\n[[schedule.exception]]\npriority = 16\nentry = "*-*-*"\ntimes = ["00:00=5", "09:00=NULL"]\n',
                            ["00:00 5", "09:00 3"]),
    "four exceptions": ("default = 1800\n" + "".join(
        f'[[schedule.exception]]\npriority = {priority}\nentry = "*-*-*"\ntimes = {json.dumps(times)}\n' for priority, times in
        ((3, ["08:00=1700", "12:00=NULL"]), (3, ["00:00=1500"]), (3, ["00:00=1600"]), (2, ["13:00=1400"]))),
        ["00:00 1500", "08:00 1700", "12:00 1500", "13:00 1400"]),
}


def segments_on(program, folder, schedule, day):
    """The segments of a day's report."""
    (folder / "building.toml").write_text(HEAD + SCHEDULE + schedule)
    status, printed, fault = ran(program, folder, "report", "building.toml", "desk.db", day)
    expect((status, fault), (0, ""))
    return [f"{line[:5]} {line[11:].strip()}" for line in printed.splitlines()[2:-1]]


def each_day_and_segment(program, folder):
    for name, (schedule, wanted) in SEGMENTS.items():
        expect((name, segments_on(program, folder, schedule, "2025-06-02")), (name, wanted))
    for entry, days in HOLD.items():
        schedule = f'default = 0\n[[schedule.exception]]\npriority = 1\nentry = "{entry}"\ntimes = ["00:00=1"]\n'
        found = [day for day in ASKED if segments_on(program, folder, schedule, day) == ["00:00 1"]]
        expect((entry, found), (entry, days))


REPORT = """DAY 2025-06-02 mon
SCHEDULE R101-DAY active
00:00:00.00         1600
08:00:00.00         2100
POINT R101-SET                                2100 15
POINT LIGHT                                      0  0
"""


def a_day_is_reported(program, folder):
    (folder / "building.toml").write_text(tables.WORKED)
    for line, reply in MORNING:
        at = str(json.loads(line)["tick"])
        expect(ran(program, folder, "tick", "building.toml", "desk.db", at), (0, reply + "\n", ""))
    expect(ran(program, folder, "report", "building.toml", "desk.db", "2025-06-02"), (0, REPORT, ""))
    expect(ran(program, folder, "report", "building.toml", "desk.db", "2025-02-30"), (1, "", "desk: not a day\n"))
    with serving(program, folder, 1) as server:
        expect(server.ask(get("/reports/2025-06-02")), response(200, REPORT.encode(), "text/plain"))
        server.end()


TESTS = (each_row_in_memory, each_row_in_a_database, each_list_is_straightened, each_building_is_reported, each_day_and_segment,
         a_day_is_reported)
