"""Lists of deliveries, one by one over `desk serve`: each gets the reply that a replay of the list prints.

So the tables in memory and those in a database say the same. The lists are those of tests/cases that have replies, once with
one server and once with one that is killed and started anew before each delivery, and random ones. What is wanted of a
random list is what the plain slow program tells: its replies, its points, and the reports of some days.
"""
import datetime
import json
import random
import shutil

from helpers import cases, random_lists, tables
from helpers.deliveries import deliver, deliveries_at, members_of, request_of
from helpers.serving import all_rows, get, response, serving
from helpers.trying import expect
from oracle.slow_desk import point_text, report_text, run_of

LISTS = 200
# A list that is longer is served by one server up to its last so many deliveries, and from there on by a new one each.
ANEW = 10
DAYS = ["2025-03-30", "2025-10-26", "2025-06-30", "2024-02-29", "1900-01-01", "2154-12-31"]


# ---- the lists of the cases

def worked_lists():
    """The name, the building, the deliveries and the replies of each case of a replay, and what is reported of its points."""
    for case, shown in cases.replays():
        lines = [line for line in case.files["deliveries.jsonl"].splitlines() if line]
        reported = shown.splitlines()
        expect((case.name, [line[:5] for line in reported[len(lines):]]), (case.name, ["POINT"] * (len(reported) - len(lines))))
        asked = [(request_of(json.loads(line)), reply) for line, reply in zip(lines, reported)]
        yield case.name, case.building(), asked, reported[len(lines):]


def points_agree(server, lines):
    """Each point has the present value and the priority that its line tells, and they are those of its highest place."""
    for line in lines:
        _, name, value, priority = line.split()
        reported = json.loads(server.ask(get(f"/points/{name}")).partition(b"\r\n\r\n")[2])
        expect((reported["answer"], reported["point"], reported["present"], reported["priority"]), ("point", name, int(value), int(priority)))
        held = [(place, each) for place, each in enumerate(reported["places"], 1) if each is not None]
        expect((name, held[:1]), (name, [(int(priority), int(value))] if priority != "0" else []))


def served_at_once(program, folder, asked, points):
    with serving(program, folder, len(asked) + len(points) + 1) as server:
        deliver(server, asked)
        points_agree(server, points)


def served_anew(program, folder, asked, points):
    """Each of the last deliveries finds a server of its own, and the one before it was killed."""
    beginning, rest = asked[:-ANEW], asked[-ANEW:]
    if beginning:
        with serving(program, folder, len(beginning) + 1) as server:
            deliver(server, beginning)
    for delivery in rest:
        with serving(program, folder, 2) as server:
            deliver(server, [delivery])
    with serving(program, folder, len(points) + 1) as server:
        points_agree(server, points)


def worked_lists_are_served(program, folder):
    for name, building, asked, points in worked_lists():
        held = []
        for way in (served_at_once, served_anew):
            room = folder / f"{name}-{way.__name__}"
            room.mkdir()
            (room / "building.toml").write_text(building)
            way(program, room, asked, points)
            held.append(all_rows(room))
        expect((name, held[1]), (name, held[0]))


# ---- random lists

def random_list_is_served(program, folder, rng, number):
    building = random_lists.some_building(rng)
    deliveries = deliveries_at(number)(rng, building)
    replies, state = run_of(building, deliveries)
    days = [datetime.date.fromisoformat(day) for day in rng.sample(DAYS, 2)]
    days.append(datetime.date(2025, 1, 1) + datetime.timedelta(days=rng.randrange(365)))
    (folder / "building.toml").write_text(random_lists.toml_of(building))
    with serving(program, folder, len(deliveries) + len(building.points) + len(days)) as server:
        deliver(server, [(request_of(members_of(delivery)), reply) for delivery, reply in zip(deliveries, replies)])
        for point in building.points:
            expect(server.ask(get(f"/points/{point.name}")), response(200, point_text(building, state.places, point).encode()))
        for day in days:
            text = report_text(building, day, state.imported, state.places)
            expect(server.ask(get(f"/reports/{day}")), response(200, text.encode(), "text/plain"))
        server.end()


def random_lists_are_served(program, folder):
    """Of each the replies, the points and the reports of three days are those of the definitions."""
    seed = random.randrange(10**9)
    for number in range(LISTS):
        rng = random.Random(f"{seed} {number}")
        room = folder / str(number)
        room.mkdir()
        try:
            random_list_is_served(program, room, rng, number)
        except AssertionError as error:
            raise AssertionError(f"list {number}, {(room / 'building.toml').read_text()}: {error}") from error
        shutil.rmtree(room)


TESTS = [tables.in_worked(test) for test in (worked_lists_are_served, random_lists_are_served)]
