"""What `desk check FILE DB` tells of random tables beside random buildings, against a plain reckoning: the tables as SQLite's
own library reads them, and the building as Python's TOML reader does. It shares no code with the desk.
"""
import contextlib
import random
import sqlite3
import subprocess
import tomllib

from helpers.adoptions import faults_of
from helpers.random_databases import content_of, fill, rows_of, some_building
from helpers.serving import SECONDS
from helpers.trying import expect_none

ON_DISK = True
ROUNDS = 150


def held_in(database):
    with contextlib.closing(sqlite3.connect(database)) as connection:
        read = lambda statement: connection.execute(statement).fetchall()
        return {
            "panels": sorted({name for name, in read("SELECT name FROM panel WHERE next <> 1 UNION SELECT panel FROM command")}),
            "places": sorted(read("SELECT point, priority, value FROM place")),
            "schedules": sorted(name for name, in read("SELECT schedule FROM shown")),
            "imported": read("SELECT calendar, entry FROM imported"),
            "last": read("SELECT last FROM desk")[0][0],
        }


def lines_of(building, held):
    names = {section: {each["name"] for each in building.get(section, [])} for section in ("panel", "point", "schedule", "calendar")}
    calendars = sorted({calendar for calendar, _ in held["imported"]})
    lines = [f"panel {name} is not in the building" for name in held["panels"] if name not in names["panel"]]
    for point in sorted({name for name, _, _ in held["places"]}):
        if point not in names["point"]:
            lines.append(f"point {point} is not in the building")
            continue
        of_building = next(each for each in building["point"] if each["name"] == point)
        for name, priority, value in held["places"]:
            lines += faults_of(building, of_building, priority, value) if name == point else []
    lines += [f"schedule {name} is not in the building" for name in held["schedules"] if name not in names["schedule"]]
    lines += [f"calendar {name} is not in the building" for name in calendars if name not in names["calendar"]]
    # the clock of UTC shows years to 2154
    if held["last"] is not None and held["last"] >= 583_804_800_000:
        lines.append(f"last tick {held['last']}: the building's clock shows no time then")
    return lines


def wanted(building, held):
    """The status and the text."""
    lines = lines_of(building, held)
    if lines:
        return 1, "".join(line + "\n" for line in lines)
    has = [len(building.get(section, [])) for section in ("point", "panel", "calendar", "schedule")]
    holds = [len(held["panels"]), len({name for name, _, _ in held["places"]}), len(held["schedules"]), len(held["imported"])]
    return 0, (
        "ok: {} points, {} panels, {} calendars, {} schedules\n".format(*has)
        + "tables: {} panels, {} points with values, {} schedules shown, {} imported entries\n".format(*holds)
    )


def difference(program, rng, folder):
    text = some_building(rng)
    (folder / "made.toml").write_text('zone = "UTC0"\n')
    (folder / "building.toml").write_text(text)
    subprocess.run([program, "tick", "made.toml", "desk.db", "0"], cwd=folder, check=True, capture_output=True, timeout=SECONDS)
    fill(folder / "desk.db", rows_of(rng))
    status, reported = wanted(tomllib.loads(text), held_in(folder / "desk.db"))
    before = content_of(folder)
    ran = subprocess.run([program, "check", "building.toml", "desk.db"], cwd=folder, capture_output=True, text=True, timeout=SECONDS)
    if (ran.returncode, ran.stdout, ran.stderr) != (status, reported, ""):
        return f"{ran.returncode} {ran.stdout!r} {ran.stderr!r}, wanted {status} {reported!r}, of\n{text}"
    return "" if content_of(folder) == before else "a file was changed"


def random_databases_are_checked(program, folder):
    seed, differing = random.randrange(10**9), []
    for index in range(ROUNDS):
        room = folder / str(index)
        room.mkdir()
        wrong = difference(program, random.Random(f"{seed} {index}"), room)
        differing += [f"check {index}: {wrong}"] if wrong else []
    expect_none(differing)


TESTS = [random_databases_are_checked]
