"""Tries `desk rebuild FILE RECORD DB`.

The database that is made of a record has the tables that the plain slow program tells of the list of its whole lines, and a
desk goes on with both. A line that is left out of a copy of the record is taken back. A rebuild that is killed at any
moment leaves no database or the whole one, and one that fails leaves nothing.

Each test takes the path of the program and a folder of its own.
"""
import json
import os
import random
import subprocess
import time

from helpers import databases, random_lists, recorded
from helpers.adoptions import holdings_of, tables_in
from helpers.deliveries import deliveries_at
from helpers.killed_records import killed_after
from helpers.serving import SECONDS
from helpers.tables import LINES_REFUSED, WORKED, in_worked
from helpers.trying import expect
from helpers.worked import BUILDING, HOLIDAY, command, light
from oracle.slow_desk import Import, Tick

RECORDS = 60
WORDS = ("rebuild", "building.toml", recorded.NAME, databases.NAME)
LINE = b'{"number":1,"panel":"P1","point":"R101-SET","priority":8,"value":2150}\n'
TORN = b'{"tick":1748'
# A record whose replay takes a while, and how often its rebuild is killed.
LONG, KILLS = 30_000, 40
MILLION, MOST_KILOBYTES = 1_000_000, 200_000
# Ten times what a million lines take, so that a busy machine passes.
MOST_SECONDS = 20


def rebuild(program, folder, *more):
    return subprocess.run([program, *WORDS, *more], cwd=folder, capture_output=True, timeout=SECONDS)


def files_of(folder):
    return sorted(path.name for path in folder.glob(databases.NAME + "*"))


def passed_over(count):
    return f"passed over: {count} bytes behind the last line end\n" if count else ""


def is_made(folder, ran, building, deliveries, torn=b""):
    """A rebuild has made the tables of these deliveries, and told what they hold."""
    expect((ran.returncode, ran.stderr), (0, b""))
    expect(files_of(folder), [databases.NAME])
    expect(databases.held(folder), databases.tables_after(building, deliveries))
    expect(ran.stdout.decode(), passed_over(len(torn)) + holdings_of(tables_in(folder / databases.NAME)) + "\n")


def random_record_is_rebuilt(program, folder, rng, number):
    building = random_lists.some_building(rng)
    deliveries = [each for each in deliveries_at(number + 1)(rng, building) if recorded.reaches_the_desk(building, each)]
    earlier, torn = deliveries[: rng.randint(0, len(deliveries))], rng.choice([b"", TORN, LINE[:-1]])
    later = deliveries[len(earlier):]
    (folder / "building.toml").write_text(random_lists.toml_of(building))
    record = folder / recorded.NAME
    record.write_bytes(recorded.lines_of(earlier) + torn)
    is_made(folder, rebuild(program, folder), building, earlier, torn)
    expect(record.read_bytes(), recorded.lines_of(earlier) + torn, "the record is only read")
    checked = subprocess.run([program, "check", "building.toml", databases.NAME, *recorded.KEPT], cwd=folder, capture_output=True)
    expect((checked.returncode, checked.stdout), (0, f"record: {len(earlier)} deliveries\n".encode()))
    if later:
        recorded.goes_on(program, folder, building, earlier, later)


def random_records_are_rebuilt(program, folder):
    """The tables are those of the whole lines, a check finds them level with the record, and a desk goes on with both."""
    for number in range(RECORDS):
        room = folder / str(number)
        room.mkdir()
        random_record_is_rebuilt(program, room, random, number)


@in_worked
def a_record_of_no_line_makes_empty_tables(program, folder):
    for content in (b"", b"\n\r\n", TORN):
        (folder / recorded.NAME).write_bytes(content)
        ran = rebuild(program, folder)
        torn = len(content.rpartition(b"\n")[2])
        nothing = "tables: 0 panels, 0 points with values, 0 schedules shown, 0 imported entries\n"
        expect((ran.returncode, ran.stdout.decode(), ran.stderr), (0, passed_over(torn) + nothing, b""))
        (folder / databases.NAME).unlink()


@in_worked
def a_line_that_is_no_delivery_is_named(program, folder):
    """Nothing is left then, wherever it stands."""
    for line in LINES_REFUSED:
        for before in (0, 3):
            (folder / recorded.NAME).write_bytes(LINE * before + line + b"\n" + LINE)
            ran = rebuild(program, folder)
            fault = f"desk: line {before + 1} is not a delivery\n".encode()
            expect((ran.returncode, ran.stdout, ran.stderr, files_of(folder)), (1, b"", fault, []), repr(line))


@in_worked
def what_cannot_be_read_is_named(program, folder):
    ran = rebuild(program, folder)
    expect((ran.returncode, ran.stderr, files_of(folder)), (1, f"desk: cannot read {recorded.NAME}\n".encode(), []))
    (folder / recorded.NAME).write_bytes(LINE)
    (folder / "building.toml").write_text(WORKED.replace("points", "point", 1))
    ran = rebuild(program, folder)
    expect((ran.returncode, ran.stderr[:7], files_of(folder)), (1, b"desk: B", []))


@in_worked
def what_stands_at_the_place_stays(program, folder):
    """A database is never overwritten, nor is what another run has left beside it."""
    (folder / recorded.NAME).write_bytes(LINE)
    for end, told in (("", ""), ("-wal", ""), (".part", ".part"), (".part-wal", ".part-wal")):
        standing = folder / (databases.NAME + end)
        standing.write_bytes(b"of another")
        ran = rebuild(program, folder)
        fault = f"desk: {databases.NAME}{told} is there already\n".encode()
        expect((ran.returncode, ran.stdout, ran.stderr), (1, b"", fault))
        expect((files_of(folder), standing.read_bytes()), ([standing.name], b"of another"))
        standing.unlink()


@in_worked
def a_rebuild_whose_output_fails_leaves_nothing(program, folder):
    (folder / recorded.NAME).write_bytes(LINE)
    with open("/dev/full", "w") as full:
        ran = subprocess.run([program, *WORDS], cwd=folder, stdout=full, stderr=subprocess.PIPE, timeout=SECONDS)
    expect((ran.returncode, ran.stderr, files_of(folder)), (1, b"desk: cannot write\n", []))


@in_worked
def a_line_left_out_is_taken_back(program, folder):
    """The recipe of docs/BACKUPS.md: an imported day and a tick from the future go with their lines."""
    future, day = Tick(400_000_000_000), Import((("HOLIDAYS", "2025-06-03"),))
    stays = [Tick(174884400000), command("P1", 1, "R101-SET", 8, 2150), HOLIDAY, light(2)]
    record = folder / recorded.NAME
    record.write_bytes(recorded.lines_of([*stays[:2], day, stays[2], future, stays[3]]))
    is_made(folder, rebuild(program, folder), BUILDING, [*stays[:2], day, stays[2], future, stays[3]])
    (folder / databases.NAME).unlink()
    copy = subprocess.run(["grep", "-v", "-e", '"tick":400000000000', "-e", "2025-06-03", recorded.NAME], cwd=folder, capture_output=True)
    record.write_bytes(copy.stdout)
    is_made(folder, rebuild(program, folder), BUILDING, stays)
    recorded.goes_on(program, folder, BUILDING, stays, [Tick(174884400001), light(3)])


# ---- long records

def long_record(folder, count):
    """A record of so many commands and ticks of the worked building."""
    with open(folder / recorded.NAME, "w") as record:
        for number in range(1, count // 2 + 1):
            members = {"number": number, "panel": "P1", "point": "R101-SET", "priority": 8, "value": 1800 + number % 500}
            record.write(f'{{"tick":{174884400000 + number}}}\n{json.dumps(members, separators=(",", ":"))}\n')


@in_worked
def a_rebuild_is_killed_at_random_moments(program, folder):
    """There is no database then, or the whole one; once what a kill left is removed, the same run makes it."""
    long_record(folder, LONG)
    began = time.monotonic()
    rebuild(program, folder).check_returncode()
    lasts = time.monotonic() - began
    whole = databases.held(folder)
    (folder / databases.NAME).unlink()
    for _ in range(KILLS):
        with subprocess.Popen([program, *WORDS], cwd=folder, stdout=subprocess.DEVNULL) as ran, killed_after(ran, random.uniform(0, 1.1 * lasts)):
            ran.wait(timeout=SECONDS)
        if databases.NAME in files_of(folder):
            expect(databases.held(folder) == whole, True, "the whole database")
        for name in files_of(folder):
            (folder / name).unlink()
    rebuild(program, folder).check_returncode()
    expect(databases.held(folder) == whole, True, "the whole database")


@in_worked
def a_million_lines_take_seconds_and_little_memory(program, folder):
    long_record(folder, MILLION)
    began = time.monotonic()
    with subprocess.Popen([program, *WORDS], cwd=folder, stdout=subprocess.DEVNULL) as ran:
        _, status, used = os.wait4(ran.pid, 0)
    lasted = time.monotonic() - began
    expect(status, 0)
    if lasted > MOST_SECONDS or used.ru_maxrss > MOST_KILOBYTES:
        raise AssertionError(f"{lasted:.1f} s and {used.ru_maxrss} kB, wanted {MOST_SECONDS} and {MOST_KILOBYTES} at most")


TESTS = (
    random_records_are_rebuilt,
    a_record_of_no_line_makes_empty_tables,
    a_line_that_is_no_delivery_is_named,
    what_cannot_be_read_is_named,
    what_stands_at_the_place_stays,
    a_rebuild_whose_output_fails_leaves_nothing,
    a_line_left_out_is_taken_back,
    a_rebuild_is_killed_at_random_moments,
    a_million_lines_take_seconds_and_little_memory,
)
