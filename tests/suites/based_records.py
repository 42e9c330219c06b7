"""Tries records that stand on a base, `PATH.base`: the tables that a desk had when its record began.

What is wanted is what the plain slow program tells of the earlier deliveries with the record's list behind them. The script
`desk-record` of deploy/ begins a record anew while a panel sends commands, and is killed at any moment: the record that the
desk keeps then belongs to its database. Each test takes the path of the program and a folder of its own, or a room.
"""
import json
import os
import random
import shutil
import signal
import subprocess
import threading
import time

from helpers import databases, random_lists, recorded
from helpers.deliveries import deliver, deliveries_at, members_of, request_of
from helpers.rooms import NAMED, PANEL, Panel, in_room
from helpers.serving import SECONDS, serving
from helpers.tables import WORKED, in_worked
from helpers.trying import expect
from helpers.worked import BUILDING, HOLIDAY, command, light
from oracle.slow_desk import Tick

RECORDS = 40
KILLS = 40
BASE = f"{recorded.NAME}.base"
EIGHT = Tick(174884400000)  # 2025-06-02 08:00 in the worked building
BEFORE = [command("P1", 1, "R101-SET", 8, 2150), EIGHT]


def run(program, folder, *words):
    ran = subprocess.run([program, *words], cwd=folder, capture_output=True, text=True, timeout=SECONDS)
    return ran.stdout, ran.stderr, ran.returncode


def make(program, folder, deliveries, name):
    """Makes a database of this name from a list of deliveries."""
    (folder / "earlier.jsonl").write_bytes(recorded.lines_of(deliveries))
    expect(run(program, folder, "rebuild", "building.toml", "earlier.jsonl", name)[1:], ("", 0))


def stand(program, folder, earlier, listed):
    """A database after earlier deliveries and those of a record, which stands on the base of the earlier ones."""
    make(program, folder, earlier, BASE)
    make(program, folder, [*earlier, *listed], databases.NAME)
    (folder / recorded.NAME).write_bytes(recorded.lines_of(listed))


def check(program, folder):
    return run(program, folder, "check", "building.toml", databases.NAME, *recorded.KEPT)


# ---- random records

def random_record_stands_on_a_base(program, folder, rng, number):
    building = random_lists.some_building(rng)
    deliveries = [each for each in deliveries_at(number + 1)(rng, building) if recorded.reaches_the_desk(building, each)]
    first, second = sorted(rng.randint(0, len(deliveries)) for _ in range(2))
    earlier, listed, later = deliveries[:first], deliveries[first:second], deliveries[second:]
    (folder / "building.toml").write_text(random_lists.toml_of(building))
    stand(program, folder, earlier, listed)
    base = (folder / BASE).read_bytes()
    expect(check(program, folder), (f"record: {len(listed)} deliveries\n", "", 0))
    if later:
        recorded.goes_on(program, folder, building, listed, later, earlier)
    (folder / databases.NAME).rename(folder / "lost.db")
    (folder / f"{databases.NAME}-wal").unlink(missing_ok=True)
    expect(run(program, folder, "rebuild", "building.toml", recorded.NAME, databases.NAME)[1:], ("", 0))
    expect(databases.held(folder), databases.tables_after(building, deliveries))
    expect(((folder / BASE).read_bytes() == base, list(folder.glob(f"{BASE}-*"))), (True, []), "the base is only read")


def random_records_stand_on_a_base(program, folder):
    """A database is level with its record, goes on beside it, and is made again from both."""
    for number in range(RECORDS):
        room = folder / str(number)
        room.mkdir()
        random_record_stands_on_a_base(program, room, random, number)


# ---- what does not belong together

@in_worked
def a_database_without_the_base_is_not_the_records_own(program, folder):
    stand(program, folder, BEFORE, [light(2)])
    (folder / databases.NAME).unlink()
    make(program, folder, [light(2)], databases.NAME)
    before = databases.held(folder)
    told = f"desk: {recorded.NAME} is not the record of {databases.NAME}: panel {PANEL}: next number 1, and 3 by the record; desk rebuild makes it from the record\n"
    expect(run(program, folder, "tick", "building.toml", databases.NAME, str(EIGHT.at + 1), *recorded.KEPT), ("", told, 1))
    expect((databases.held(folder), recorded.bytes_of(folder)), (before, recorded.lines_of([light(2)])))


@in_worked
def no_database_is_made_beside_a_base(program, folder):
    """Also where the record is empty, or not there yet."""
    stand(program, folder, BEFORE, [])
    for path in folder.glob(f"{databases.NAME}*"):
        path.unlink()
    told = f"desk: {recorded.NAME} is not the record of {databases.NAME}: no database is there; desk rebuild makes it from the record\n"
    for _ in range(2):
        expect(run(program, folder, "tick", "building.toml", databases.NAME, str(EIGHT.at + 1), *recorded.KEPT), ("", told, 1))
        expect((folder / databases.NAME).exists(), False)
        (folder / recorded.NAME).unlink(missing_ok=True)


@in_worked
def a_base_that_is_none_is_named(program, folder):
    stand(program, folder, BEFORE, [light(2)])
    (folder / BASE).write_text("no database\n" * 1000)
    for words in (("replay", "building.toml", recorded.NAME), ("why", "building.toml", recorded.NAME, "LIGHT"),
                  ("overrides", "building.toml", recorded.NAME),
                  ("check", "building.toml", databases.NAME, *recorded.KEPT), ("rebuild", "building.toml", recorded.NAME, "new.db"),
                  ("tick", "building.toml", databases.NAME, str(EIGHT.at + 1), *recorded.KEPT)):
        out, told, status = run(program, folder, *words)
        expect((words, out, told.splitlines(), status), (words, "", [f"desk: {BASE}: it is no SQLite database", f"desk: store fault S2 at {BASE}"], 3))
    expect((folder / "new.db").exists(), False)


@in_worked
def a_list_on_a_base_is_not_straightened(program, folder):
    stand(program, folder, BEFORE, [light(2)])
    told = f"desk: {recorded.NAME} stands on {BASE}: only a whole list is straightened\n"
    expect(run(program, folder, "straighten", "building.toml", recorded.NAME), ("", told, 1))


# ---- a building file that is edited

EDITED = WORKED.replace("08:00=2100", "08:00=2200")


@in_worked
def a_start_tells_that_the_record_makes_other_values(program, folder):
    """It goes on; once the record begins anew it has nothing to tell."""
    expect(EDITED == WORKED, False)
    stand(program, folder, [], BEFORE)
    (folder / BASE).unlink()
    (folder / "building.toml").write_text(EDITED)
    told = "desk: with this building file the record makes other values: point R101-SET 15: 2100, and 2200 by the record\n"
    tick = ("tick", "building.toml", databases.NAME, str(EIGHT.at), *recorded.KEPT)
    expect(run(program, folder, *tick), ('{"answer":"old","writes":0}\n', told, 0))
    with serving(program, folder, 1, *recorded.KEPT) as server:
        deliver(server, [(request_of(members_of(EIGHT)), '{"answer":"old","writes":0}')])
        server.end(0, told.encode())
    shutil.copy(folder / databases.NAME, folder / "anew.jsonl.base")
    anew = ("--record", "anew.jsonl")
    expect(run(program, folder, *tick[:4], *anew), ('{"answer":"old","writes":0}\n', "", 0))
    expect(run(program, folder, "check", "building.toml", databases.NAME, *anew), ("record: 1 deliveries\n", "", 0))
    shown = run(program, folder, "why", "building.toml", "anew.jsonl", "R101-SET")[0].splitlines()
    expect([line[44:] for line in shown[1:3]], ["before the record"] * 2)


@in_worked
def a_last_import_makes_no_other_value(program, folder):
    """It changes nothing by which a record is known, so that the start can't tell whether it was made."""
    listed = [EIGHT, HOLIDAY]
    for made in (listed, listed[:1]):
        make(program, folder, made, databases.NAME)
        (folder / recorded.NAME).write_bytes(recorded.lines_of(listed))
        tick = ("tick", "building.toml", databases.NAME, str(EIGHT.at), *recorded.KEPT)
        expect(run(program, folder, *tick), ('{"answer":"old","writes":0}\n', "", 0))
        recorded.in_step(folder, BUILDING, [*listed, EIGHT])
        for path in databases.files_in(folder):
            path.unlink()


# ---- a record that begins anew

def begun(ran):
    """A record was begun anew; its path."""
    expect((ran.returncode, ran.stderr), (0, ""))
    return ran.stdout.strip()


def deliveries_in(record):
    try:
        with open(record, encoding="utf-8") as lines:
            return [json.loads(line) for line in lines]
    except FileNotFoundError:
        return []


def a_record_begins_anew_while_a_panel_goes_on(room):
    """Each command is acted on once; each record with its base is a whole history of its time."""
    panel = Panel(room)
    room.start()
    panel.presses(5)
    beside = threading.Thread(target=panel.presses, args=(200,))
    beside.start()
    records = [room.folder / recorded.NAME]
    for _ in range(3):
        records.append(begun(room.begin_anew()))
        time.sleep(1.1)
    beside.join()
    panel.expect_answers(1, 7, 205)
    room.stop()
    expect(str(room.kept()), records[-1])
    expect(databases.held(room.folder)["panel"], [(PANEL, 206)])
    expect(room.check(room.kept()), f"record: {len(deliveries_in(room.kept()))} deliveries\n")
    numbers = [each["number"] for record in records for each in deliveries_in(record)]
    expect(sorted({*numbers}), [*range(1, 206)])
    # A stop may come between a line and its delivery, which the panel repeats then.
    for record, later in zip(records, records[1:]):
        told, whole = room.check(record, f"{later}.base"), f"record: {len(deliveries_in(record))} deliveries"
        expect(told in (f"{whole}\n", f"{whole}, the last of which is not made yet\n"), True, told)


def a_desk_without_a_record_begins_one(room):
    panel = Panel(room)
    room.start()
    panel.presses(3)
    record = begun(room.begin_anew())
    panel.presses(2)
    expect([each["number"] for each in deliveries_in(record)], [4, 5])
    panel.expect_answers(1, 3, 5)


def a_stop_at_any_moment_leaves_a_record_that_belongs(room):
    panel = Panel(room)
    room.start()
    panel.presses(3)
    began = time.monotonic()
    begun(room.begin_anew())
    lasts = time.monotonic() - began
    for _ in range(KILLS):
        with subprocess.Popen(room.words_anew(), env=room.environment({}), stdout=subprocess.DEVNULL, stderr=subprocess.DEVNULL,
                              start_new_session=True) as ran:
            time.sleep(random.uniform(0, 1.1 * lasts))
            if ran.poll() is None:
                os.killpg(ran.pid, signal.SIGKILL)
        # a desk that was being stopped ends by then
        time.sleep(0.3)
        if not room.runs():
            room.start()
        panel.press()
        expect(panel.repeat(panel.number - 1), panel.answers[panel.number - 1])
        room.stop()
        expect(room.check(room.kept()), f"record: {len(deliveries_in(room.kept()))} deliveries\n")
        room.start()
    begun_last = begun_anew_once_more(room)
    panel.press()
    expect([each["number"] for each in deliveries_in(begun_last)], [panel.number])


def begun_anew_once_more(room):
    """A name has a second in it, so that the next one is not there yet."""
    time.sleep(1.1)
    return begun(room.begin_anew())


def what_cannot_begin_changes_nothing(room):
    panel = Panel(room)
    room.start()
    panel.press()
    building = (room.folder / "building.toml").read_text()
    (room.folder / "building.toml").write_text("[[point]]\n")
    ran = room.begin_anew()
    expect((ran.returncode, ran.stderr), (1, f"desk-record: {room.folder / 'building.toml'} is at fault: desk: B3 top 0 zone\n"))
    (room.folder / "building.toml").write_text(building)
    expect(room.begin_anew(DESK=str(room.folder / "no-database")).returncode, 1)
    expect([path.name for path in room.folder.glob("record-*")] + [name for name in (NAMED,) if (room.folder / name).exists()], [])
    panel.press()
    expect(panel.repeat(1), panel.answers[1])


TESTS = [
    random_records_stand_on_a_base,
    a_database_without_the_base_is_not_the_records_own,
    no_database_is_made_beside_a_base,
    a_base_that_is_none_is_named,
    a_list_on_a_base_is_not_straightened,
    a_start_tells_that_the_record_makes_other_values,
    a_last_import_makes_no_other_value,
    *(in_room(test) for test in (a_record_begins_anew_while_a_panel_goes_on, a_stop_at_any_moment_leaves_a_record_that_belongs, what_cannot_begin_changes_nothing)),
    in_room(a_desk_without_a_record_begins_one, record=""),
]
