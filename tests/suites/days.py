"""What `desk days` lists of random buildings, with and without a database, against the plain slow program: each day of the
range, each active schedule, and each exception that has a value at some of its times.
"""
import datetime
import random
import subprocess

from helpers.random_lists import ENTRIES, HOUR, some_building, toml_of
from helpers.serving import SECONDS
from helpers.trying import expect_none
from oracle.slow_schedules import WEEKDAYS, in_effect_on, list_value

ON_DISK = True
ROUNDS = 100
FIRST_DAYS = [datetime.date(1900, 1, 2), datetime.date(2024, 2, 20), datetime.date(2025, 3, 1), datetime.date(2025, 10, 20),
              datetime.date(2025, 12, 20), datetime.date(2154, 12, 1)]
LAST_DAY = datetime.date(2154, 12, 31)


def time_text(now):
    return f"{now // HOUR:02}:{now // 6000 % 60:02}:{now // 100 % 60:02}.{now % 100:02}"


def times_of(exception):
    """Each time of its list once and in order, with the value from there on."""
    return [(time, list_value(exception.times, time)) for time in sorted({time for time, _ in exception.times})]


def lines_of(schedule, calendars, day):
    """The lines of a schedule: by event priority, and of equal ones in the file's order."""
    found = []
    for place, each in in_effect_on(schedule, calendars, day) if schedule.active(day) else []:
        if any(value is not None for _, value in times_of(each)):
            found.append((each.priority, place, each))
    for _, place, each in sorted(found, key=lambda line: line[:2]):
        days = each.entry if each.calendar is None else f"calendar {each.calendar}"
        values = " ".join(f"{time_text(time)}={'NULL' if value is None else value}" for time, value in times_of(each))
        yield f"{day} {WEEKDAYS[day.weekday()]} {schedule.name} exception {place + 1} ({days}) {values}\n"


def listing(building, imported, first, last):
    calendars = {each.name: each.entries + tuple(imported.get(each.name, ())) for each in building.calendars}
    days = [first + datetime.timedelta(days=count) for count in range((last - first).days + 1)]
    return "".join(line for day in days for schedule in building.schedules for line in lines_of(schedule, calendars, day))


def ran(program, folder, *words):
    return subprocess.run([program, *words], cwd=folder, capture_output=True, text=True, timeout=SECONDS)


def imported_into(program, rng, folder, building):
    """Entries that were imported into a new database, under the names of their calendars."""
    rows = [(rng.choice(building.calendars).name, rng.choice(ENTRIES + ["2025-12-24", "2025-03-30/sun"])) for _ in range(rng.randint(0, 3))]
    (folder / "rows.csv").write_text("calendar,entry\n" + "".join(f"{name},{entry}\n" for name, entry in rows))
    ran(program, folder, "import", "building.toml", "desk.db", "rows.csv").check_returncode()
    return {calendar.name: [entry for name, entry in rows if name == calendar.name] for calendar in building.calendars}


def difference(program, rng, folder):
    building = some_building(rng)
    (folder / "building.toml").write_text(toml_of(building))
    first = rng.choice(FIRST_DAYS)
    last = min(first + datetime.timedelta(days=rng.choice([-1, 0, 1, 30, 45, 400])), LAST_DAY)
    asked = [([], {})]
    if building.calendars and rng.random() < 0.5:
        asked.append((["desk.db"], imported_into(program, rng, folder, building)))
    for database, imported in asked:
        found = ran(program, folder, "days", "building.toml", *database, str(first), str(last))
        wanted = listing(building, imported, first, last)
        if (found.returncode, found.stdout, found.stderr) != (0, wanted, ""):
            return f"{database} {first} {last}: {found.stdout!r} {found.stderr!r}, wanted {wanted!r}, of\n{toml_of(building)}"
    return ""


def random_buildings_have_the_days_of_the_plain_program(program, folder):
    seed, differing = random.randrange(10**9), []
    for index in range(ROUNDS):
        room = folder / str(index)
        room.mkdir()
        wrong = difference(program, random.Random(f"{seed} {index}"), room)
        differing += [f"days {index}: {wrong}"] if wrong else []
    expect_none(differing)


TESTS = [random_buildings_have_the_days_of_the_plain_program]
