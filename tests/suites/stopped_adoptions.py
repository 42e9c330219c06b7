"""Stops `desk adopt` (SIGKILL) at each call in turn by which it writes the new database or its folder, on a real file, and
has each such call fail in turn, as on a disk that is full (ENOSPC) or broken (EIO). Has its output fail, too, and puts
files of others in its way.

After each the earlier database is as it was to the byte, and where the new one is to be there is nothing, or the whole of
it; after a failure nothing of its files is left at all. Nothing is printed before the new one is in its place, and its
folder is synced. The same run, once what a stop left is removed, makes it whole.

Each test takes the path of the program and a folder of its own. It needs `cc`.
"""
import os
import signal
import subprocess

from helpers import shims
from helpers.adoptions import adopted, holdings_of, tables_in
from helpers.serving import SECONDS
from helpers.trying import expect

HOUSE = """zone = "UTC0"
[[point]]
name = "R101"
kind = "analog"
low = 500
high = 3500
default = 1800
[[panel]]
name = "P1"
points = ["R101"]
priorities = [8]
[[schedule]]
name = "HEAT"
priority = 15
targets = ["R101"]
default = 1600
"""
BUILDING = {
    "point": [{"name": "R101", "kind": "analog", "low": 500, "high": 3500, "default": 1800}],
    "panel": [{"name": "P1", "points": ["R101"], "priorities": [8]}],
    "schedule": [{"name": "HEAT", "priority": 15, "targets": ["R101"]}],
}
# The tables are made, filled and closed.
LEAST_CALLS = 20
# The new database has a folder of its own, whose calls are watched too.
MADE = "made"
NEW = f"{MADE}/new.db"
ADOPT = ("adopt", "building.toml", "desk.db", NEW)


def run(program, folder, *words, environment=None, stdout=subprocess.PIPE):
    how = {"cwd": folder, "stdout": stdout, "stderr": subprocess.PIPE, "text": True, "timeout": SECONDS}
    return subprocess.run([program, *words], **how, env=environment)


def made_before(program, folder):
    """The earlier database, after a tick and with a value in a place."""
    (folder / MADE).mkdir()
    (folder / "building.toml").write_text(HOUSE)
    run(program, folder, "tick", "building.toml", "desk.db", "174884400000").check_returncode()
    return (folder / "desk.db").read_bytes(), tables_in(folder / "desk.db")


def left(folder):
    return sorted(path.name for path in (folder / MADE).iterdir())


def look_at(program, folder, ran, met, wanted):
    """What a run that met trouble, or none, has left."""
    printed = holdings_of(wanted) + "\n"
    if ran.returncode == 0:
        expect((ran.stdout, ran.stderr, left(folder)), (printed, "", ["new.db"]))
    elif ran.returncode == -signal.SIGKILL and met:
        expect((ran.stdout, ran.stderr), ("", ""))
    else:
        reported = (f"desk: store fault S2 at {NEW}\n", f"desk: cannot write {NEW}\n", "desk: out of memory\n")
        expect((ran.returncode, ran.stdout, met, left(folder)), (3, "", True, []))
        expect(ran.stderr, ran.stderr if ran.stderr in reported else reported)
    if "new.db" in left(folder):
        expect(tables_in(folder / NEW), wanted)


def clear(folder):
    for name in left(folder):
        os.remove(folder / MADE / name)


def each_call(program, folder, before, wanted, how):
    at, met, lefts = 0, True, []
    while met:
        at += 1
        trouble = shims.Trouble(folder, at, path=f"/{MADE}", **how)
        ran = run(program, folder, *ADOPT, environment=trouble.environment)
        met = trouble.met()
        lefts += [left(folder)] if met else []
        try:
            look_at(program, folder, ran, met, wanted)
            expect(("the earlier database is as it was", (folder / "desk.db").read_bytes() == before), ("the earlier database is as it was", True))
        except AssertionError as error:
            raise AssertionError(f"{trouble.text}: {error}") from error
        clear(folder)
    if at <= LEAST_CALLS:
        raise AssertionError(f"only {at - 1} calls wrote the new database")
    # the last call syncs its folder, once it is in its place
    if how in shims.STOPS:
        expect(lefts[-1], ["new.db"])


def an_adoption_is_stopped_at_each_write(program, folder):
    before, held = made_before(program, folder)
    wanted = adopted(BUILDING, held, [])
    for way in (*shims.STOPS, *shims.FAULTS):
        each_call(program, folder, before, wanted, way)


def an_adoption_whose_output_fails_leaves_nothing(program, folder):
    before, _ = made_before(program, folder)
    with open("/dev/full", "w") as full:
        ran = run(program, folder, *ADOPT, stdout=full)
    expect((ran.returncode, ran.stderr, left(folder)), (1, "desk: cannot write\n", []))
    expect((folder / "desk.db").read_bytes() == before, True)


def a_file_in_the_way_of_an_adoption_stays(program, folder):
    before, held = made_before(program, folder)
    for name, reported in (("new.db", NEW), ("new.db-wal", NEW), ("new.db.part", f"{NEW}.part"), ("new.db.part-wal", f"{NEW}.part-wal")):
        (folder / MADE / name).write_text("of another")
        ran = run(program, folder, *ADOPT)
        expect((ran.returncode, ran.stdout, ran.stderr), (1, "", f"desk: {reported} is there already\n"))
        expect((left(folder), (folder / MADE / name).read_text()), ([name], "of another"))
        clear(folder)
    run(program, folder, *ADOPT).check_returncode()
    expect(tables_in(folder / NEW), adopted(BUILDING, held, []))
    expect((folder / "desk.db").read_bytes() == before, True)


TESTS = (
    an_adoption_is_stopped_at_each_write,
    an_adoption_whose_output_fails_leaves_nothing,
    a_file_in_the_way_of_an_adoption_stays,
)
