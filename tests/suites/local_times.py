"""What the clock of a zone shows at a moment, as schedules tell it: at worked moments, and in each year.

Each test takes the path of the program and a folder of its own, and raises where it finds something else. What is
wanted are worked rows, or what the C library tells of the same rule.
"""
import datetime
import json
import subprocess
import time

from helpers.clocks import CENTRAL_EUROPE, EASTERN_AMERICA, clock_of
from helpers.random_lists import clock_text
from helpers.serving import SECONDS
from helpers.trying import expect
from oracle.slow_schedules import HUNDREDTHS_A_DAY

ON_DISK = True
POINT = '[[point]]\nname = "{name}"\nkind = "analog"\nlow = -1\nhigh = 3000\ndefault = -1\n'
SCHEDULE = '[[schedule]]\nname = "{name}"\npriority = 15\ntargets = ["{name}"]\n'

NAMES = ("QUARTER", "DAY", "MONTH", "EARLY", "LATE")

# A rule, a moment, and the day and the time that the clock shows then, or none.
WORKED = [
    (CENTRAL_EUROPE, 0, "1970-01-01 01:00:00.00"),
    (CENTRAL_EUROPE, 174329639999, "2025-03-30 01:59:59.99"),
    (CENTRAL_EUROPE, 174329640000, "2025-03-30 03:00:00.00"),
    (CENTRAL_EUROPE, 174884400000, "2025-06-02 08:00:00.00"),
    (CENTRAL_EUROPE, 176143860000, "2025-10-26 02:30:00.00"),
    (CENTRAL_EUROPE, 176144039999, "2025-10-26 02:59:59.99"),
    (CENTRAL_EUROPE, 176144040000, "2025-10-26 02:00:00.00"),
    (CENTRAL_EUROPE, 176144220000, "2025-10-26 02:30:00.00"),
    (CENTRAL_EUROPE, -9223372036854775808, None),
    (CENTRAL_EUROPE, -1, None),
    (CENTRAL_EUROPE, 583804439999, "2154-12-31 23:59:59.99"),
    (CENTRAL_EUROPE, 583804440000, None),
    (CENTRAL_EUROPE, 9223372036854775807, None),
    (EASTERN_AMERICA, 0, None),
    (EASTERN_AMERICA, 1799999, None),
    (EASTERN_AMERICA, 1800000, "1970-01-01 00:00:00.00"),
    (EASTERN_AMERICA, 174150359999, "2025-03-09 01:59:59.99"),
    (EASTERN_AMERICA, 174150360000, "2025-03-09 03:00:00.00"),
]


def replayed(program, folder, building, lines):
    (folder / "building.toml").write_text(building)
    (folder / "list.jsonl").write_text("".join(json.dumps(line) + "\n" for line in lines))
    words = [program, "replay", "building.toml", "list.jsonl"]
    ran = subprocess.run(words, cwd=folder, capture_output=True, text=True, timeout=SECONDS)
    expect((ran.returncode, ran.stderr), (0, ""))
    return ran.stdout.splitlines()


def building_at(rule, reported):
    """A building whose schedule says 1 at one hundredth of one day alone, and else 0."""
    day, clock = reported.split(" ")
    times = [f"{clock}=1"] + ([f"{clock_after(clock)}=0"] if clock_after(clock) else [])
    text = f'zone = "{rule}"\n' + POINT.format(name="SET") + SCHEDULE.format(name="SET") + "default = 0\n"
    return text + f'[[schedule.exception]]\npriority = 1\nentry = "{day}"\ntimes = {json.dumps(times)}\n'


def clock_after(clock):
    """The time a hundredth later, or nothing at the end of the day."""
    hours, minutes, seconds = clock.split(":")
    later = int(hours) * 360_000 + int(minutes) * 6_000 + int(seconds.replace(".", "")) + 1
    return clock_text(later) if later < HUNDREDTHS_A_DAY else ""


def worked_moments_are_reported(program, folder):
    for rule, moment, reported in WORKED:
        building = building_at(rule, reported or "2025-01-01 00:00:00.00")
        wanted = ['{"answer":"tick","writes":1}', "POINT SET                                        1 15"]
        none = ['{"answer":"bad_moment"}', "POINT SET                                       -1  0"]
        expect((moment, replayed(program, folder, building, [{"tick": moment}])), (moment, wanted if reported else none))


# ---- each year

def telling(name, exceptions, weekly="[[], [], [], [], [], [], []]"):
    """A schedule that tells a part of the day and the time."""
    text = SCHEDULE.format(name=name) + f"weekly = {weekly}\n"
    for entry, value in exceptions:
        text += f'[[schedule.exception]]\npriority = 1\nentry = "{entry}"\ntimes = ["00:00={value}"]\n'
    return text


def building_that_tells(rule):
    """Points that have the quarter of an hour of the day, the day of the month, the month, and the year, early or late."""
    quarters = json.dumps([[f"{quarter // 4:02}:{quarter % 4 * 15:02}={quarter}" for quarter in range(96)]] * 7)
    return (
        f'zone = "{rule}"\n' + "".join(POINT.format(name=name) for name in NAMES)
        + f'[[panel]]\nname = "P"\npoints = {json.dumps(NAMES)}\npriorities = [16]\n'
        + telling("QUARTER", [], quarters)
        + telling("DAY", [(f"*-*-{day:02}", day) for day in range(1, 32)])
        + telling("MONTH", [(f"*-{month:02}-*", month) for month in range(1, 13)])
        + telling("EARLY", [(f"{year}-*-*", year) for year in range(1970, 2060)])
        + telling("LATE", [(f"{year}-*-*", year) for year in range(2060, 2155)])
    )


def sundays(year, month):
    days = [datetime.date(year, month, day) for day in range(1, 31)]
    return [day for day in days if day.weekday() == 6]


def moments_of_the_years():
    """Seconds of each year about the Sundays on which a clock may be set, and at its ends, by rising number."""
    reported = set()
    for year in range(1970, 2155):
        for day in sundays(year, 3) + sundays(year, 10)[-2:] + sundays(year, 11)[:2]:
            reported |= {(day, hour) for hour in (1, 2, 6, 7)}
        reported |= {(datetime.date(year, 1, 1), hour) for hour in (0, 1, 5, 6)}
        reported |= {(datetime.date(year, 7, 15), 12), (datetime.date(year, 12, 31), 23)}
    midnights = [((day - datetime.date(1970, 1, 1)).days * 86_400, hour) for day, hour in sorted(reported)]
    return sorted({midnight + 3600 * hour + more for midnight, hour in midnights for more in (-1, 0, 1800)})


def parts_of(second):
    """What the points have at a moment, by the C library; or nothing where the year is none of the desk's."""
    shown = time.localtime(second)
    if second < 0 or not 1970 <= shown.tm_year <= 2154:
        return []
    early, late = (shown.tm_year, -1) if shown.tm_year < 2060 else (-1, shown.tm_year)
    return [shown.tm_hour * 4 + shown.tm_min // 15, shown.tm_mday, shown.tm_mon, early, late]


def lines_of_the_years():
    """Ticks, each followed by commands that relinquish places which nobody has: their replies tell what the schedules
    wrote. With each line a part of its reply."""
    number, listed = 0, []
    for second in moments_of_the_years():
        parts = parts_of(second)
        listed.append(({"tick": second * 100}, ("answer", "tick" if parts else "bad_moment")))
        for name, part in zip(NAMES, parts):
            number += 1
            listed.append(({"number": number, "panel": "P", "point": name, "value": None}, ("present", part)))
    return listed


def each_year_has_its_nights(program, folder):
    for rule in (CENTRAL_EUROPE, EASTERN_AMERICA):
        with clock_of(rule):
            listed = lines_of_the_years()
        found = replayed(program, folder, building_that_tells(rule), [line for line, _ in listed])
        for (line, (key, value)), reply in zip(listed, found[: len(listed)], strict=True):
            expect((rule, line, json.loads(reply).get(key)), (rule, line, value))


TESTS = [worked_moments_are_reported, each_year_has_its_nights]
