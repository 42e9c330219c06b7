"""The database file at rest: once a run has ended it is whole without its log, and a file that has lost its log, or a log
that has lost its file, is reported and never begun anew.

Each test takes the path of the program and a folder of its own.
"""
import contextlib
import datetime
import json
import os
import shutil
import signal
import sqlite3
import subprocess
import time

from helpers import databases, random_lists, shims
from helpers.deliveries import members_of, request_of
from helpers.runs import Ended
from helpers.serving import SECONDS, answered, serving
from helpers.trying import ROOT, expect
from helpers.worked import BUILDING, EACH_KIND, light
from oracle.slow_desk import Import, Tick, report_text, run_of

FAULT = b"desk: store fault S2\n"
DAY = "2025-06-02"
TICK = Tick(174890160000)
IMPORT = Import((("HOLIDAYS", "2025-06-09"),))
NOT_WRITTEN = b"desk: cannot write\n"
PAGE_SIZES = (512, 1024, 4096, 65_536)


def run(program, folder, *words, **how):
    ran = subprocess.run([program, *words], cwd=folder, capture_output=True, timeout=SECONDS, **how)
    return Ended(ran.stdout, ran.stderr, ran.returncode)


def building_in(folder, building=BUILDING):
    folder.mkdir(exist_ok=True)
    (folder / "building.toml").write_text(random_lists.toml_of(building))
    return folder


def alone(folder, name):
    """A folder with the building and the database file alone, without its log."""
    room = building_in(folder / name)
    shutil.copy(folder / databases.NAME, room)
    return room


def expect_whole(folder, name, deliveries):
    """The file alone holds the tables of the deliveries. Its folder."""
    room = alone(folder, name)
    wanted = databases.tables_after(BUILDING, list(deliveries))
    expect((name, databases.held(room)), (name, wanted))
    expect((name, databases.held(folder)), (name, wanted))
    return room


def reported(deliveries):
    """The report of the day after the deliveries."""
    state = run_of(BUILDING, list(deliveries))[1]
    return report_text(BUILDING, datetime.date.fromisoformat(DAY), state.imported, state.places).encode()


def serve(program, folder, deliveries, earlier=()):
    """Serves deliveries, each with the reply of the definitions, to the end of the server."""
    replies = run_of(BUILDING, [*earlier, *deliveries])[0][len(earlier):]
    with serving(program, folder, len(deliveries)) as server:
        for delivery, reply in zip(deliveries, replies):
            expect(server.ask(request_of(members_of(delivery))), answered(reply))
        server.end()


def repeat_in(program, room, delivery, deliveries):
    """Makes a delivery to the file alone, which gets the reply that it gets after the deliveries."""
    serve(program, room, [delivery], deliveries)


# ---- whole after each run

def a_new_database_is_whole_after_a_report(program, folder):
    building_in(folder)
    expect(run(program, folder, "report", "building.toml", databases.NAME, DAY), Ended(reported(()), b"", 0))
    room = expect_whole(folder, "reported", ())
    repeat_in(program, room, light(1), ())
    expect_whole(room, "delivered", (light(1),))


def a_tick_and_an_import_leave_it_whole(program, folder):
    building_in(folder)
    (folder / "holidays.csv").write_text(members_of(IMPORT)["import"])
    replies = run_of(BUILDING, [TICK, IMPORT])[0]
    expect(run(program, folder, "tick", "building.toml", databases.NAME, str(TICK.at)), Ended(replies[0].encode() + b"\n", b"", 0))
    room = expect_whole(folder, "ticked", (TICK,))
    repeat_in(program, room, TICK, (TICK,))
    expect(run(program, folder, "import", "building.toml", databases.NAME, "holidays.csv"), Ended(replies[1].encode() + b"\n", b"", 0))
    room = expect_whole(folder, "imported", (TICK, IMPORT))
    repeat_in(program, room, IMPORT, (TICK, IMPORT))


def a_server_that_ends_leaves_it_whole(program, folder):
    """Each command, made again over the file alone, gets its first answer."""
    building_in(folder)
    deliveries = list(EACH_KIND)
    serve(program, folder, deliveries)
    room = expect_whole(folder, "served", deliveries)
    again = [delivery for delivery in deliveries if hasattr(delivery, "number")]
    serve(program, room, again, deliveries)
    expect(databases.held(room), databases.tables_after(BUILDING, deliveries))


def a_server_that_is_stopped_leaves_both_files(program, folder):
    """They are whole together, and the next run makes the file whole alone: so a backup is made."""
    building_in(folder)
    replies = run_of(BUILDING, list(EACH_KIND))[0]
    with serving(program, folder, len(EACH_KIND) + 1) as server:
        for delivery, reply in zip(EACH_KIND, replies):
            expect(server.ask(request_of(members_of(delivery))), answered(reply))
        server.ran.send_signal(signal.SIGTERM)
        server.ran.wait(timeout=SECONDS)
    expect(databases.held(folder), databases.tables_after(BUILDING, list(EACH_KIND)))
    # The tables were in the file before the first delivery.
    expect(databases.held(alone(folder, "stopped")), databases.tables_after(BUILDING, []))
    expect(run(program, folder, "report", "building.toml", databases.NAME, DAY), Ended(reported(EACH_KIND), b"", 0))
    expect_whole(folder, "reported", EACH_KIND)


def by_the_unit(program, folder, when, address="127.0.0.1:8080", **environment):
    """Runs what the unit runs before or after each start of the desk, or after each end, over the files of a folder."""
    unit = (ROOT / "deploy" / "desk.service").read_text()
    line = [line for line in unit.splitlines() if line.startswith(f"{when}=")][-1].partition("=")[2].lstrip("+-")
    for path, here in (("/usr/local/lib/desk", ROOT / "deploy"), ("/etc/desk", folder), ("/var/lib/desk", folder), ("127.0.0.1:8080", address)):
        line = line.replace(path, str(here))
    environment = {**os.environ, "DESK": program, "RUNTIME_DIRECTORY": str(folder), **environment}
    return subprocess.run(line.split(), capture_output=True, timeout=SECONDS, env=environment)


def a_building_at_fault_leaves_the_description(program, folder):
    """The page goes on with the old one, and the desk does not start."""
    building_in(folder)
    described = run(program, folder, "describe", "building.toml").printed
    expect(by_the_unit(program, folder, "ExecStartPre").returncode, 0)
    expect((folder / "description.json").read_bytes(), described)
    expect((folder / "description.json").stat().st_mode & 0o777, 0o644)
    (folder / "building.toml").write_text("[[point]]\n")
    expect(by_the_unit(program, folder, "ExecStartPre").returncode, 1)
    expect((folder / "description.json").read_bytes(), described)


def the_unit_leaves_it_whole_after_a_kill(program, folder):
    """And begins no database where there is none."""
    building_in(folder)
    expect((by_the_unit(program, folder, "ExecStopPost").returncode, sorted(folder.glob("*.db*"))), (0, []))
    replies = run_of(BUILDING, list(EACH_KIND))[0]
    with serving(program, folder, len(EACH_KIND) + 1) as server:
        for delivery, reply in zip(EACH_KIND, replies):
            expect(server.ask(request_of(members_of(delivery))), answered(reply))
        server.ran.kill()
        server.ran.wait(timeout=SECONDS)
    ended = by_the_unit(program, folder, "ExecStopPost")
    expect((ended.returncode, ended.stdout, ended.stderr), (0, b"", b""))
    expect_whole(folder, "after", EACH_KIND)


def a_start_waits_for_the_desk_and_fails_where_it_is_gone(program, folder):
    """Where there is no curl it waits for nothing."""
    building_in(folder)
    with serving(program, folder, 2) as server:
        process, address = str(server.ran.pid), server.address
        if shutil.which("curl"):
            expect(by_the_unit(program, folder, "ExecStartPost", address, MAINPID=process).returncode, 0)
    (folder / "bin").mkdir()
    for word in ("rm", "sh"):
        (folder / "bin" / word).symlink_to(shutil.which(word))
    expect(by_the_unit(program, folder, "ExecStartPost", address, MAINPID=process, PATH=str(folder / "bin")).returncode, 0)
    if shutil.which("curl"):
        expect(by_the_unit(program, folder, "ExecStartPost", address, MAINPID=process).returncode, 1)


def by_the_helper(folder, *words, **environment):
    """Runs the units' helper: its status, and what it says."""
    environment = {**os.environ, "RUNTIME_DIRECTORY": str(folder), **environment}
    ran = subprocess.run([ROOT / "deploy" / "desk-unit", *words], capture_output=True, text=True, timeout=SECONDS, env=environment)
    return ran.returncode, ran.stdout + ran.stderr


def stand_in(folder, word, script):
    """A program of this name, which comes before that of the system."""
    (folder / "bin").mkdir(exist_ok=True)
    (folder / "bin" / word).write_text(f"#!/bin/sh\n{script}\n")
    (folder / "bin" / word).chmod(0o755)
    return f"{folder}/bin:{os.environ['PATH']}"


def the_journal_names_the_status(program, folder):
    for status, named in (("1", "the data, a file or the address"), ("2", "the command line"), ("3", "the database, the record or memory")):
        ended = by_the_helper(folder, "ended", "building.toml", "desk.db", DESK=program, EXIT_CODE="exited", EXIT_STATUS=status)
        expect(ended, (0, f"desk-unit: status {status}: {named}\n"))
    expect(by_the_helper(folder, "ended", "building.toml", "desk.db", DESK=program, EXIT_CODE="exited", EXIT_STATUS="0"), (0, ""))


def failed_starts_wait_the_longer(program, folder):
    path = stand_in(folder, "sleep", f'echo "sleep $1" >> {folder}/done')
    stand_in(folder, "systemctl", f'test "$1" = show && cat {folder}/restarts || echo "systemctl $*" >> {folder}/done')
    for restarts in [*range(9), 0]:
        (folder / "restarts").write_text(str(restarts))
        expect(by_the_helper(folder, "slow", "desk.service", PATH=path), (0, ""))
    told = "systemctl start --no-block desk-failed@desk.service.service"
    expect((folder / "done").read_text().splitlines(), [*(f"sleep {seconds}" for seconds in (0, 1, 2, 4, 8)), told,
                                                        *(f"sleep {seconds}" for seconds in (16, 32, 60, 60, 0))])


def a_tick_that_is_skipped_for_an_hour_is_a_failure(program, folder):
    path = stand_in(folder, "timedatectl", "echo no")
    skipped = "desk-unit: no tick: the machine's clock is not synchronized\n"
    expect(by_the_helper(folder, "tick", "127.0.0.1:1", PATH=path), (0, skipped))
    hour_ago = time.time() - 3700
    os.utime(folder / "last-tick", (hour_ago, hour_ago))
    expect(by_the_helper(folder, "tick", "127.0.0.1:1", PATH=path), (1, skipped.replace("no tick:", "no tick for an hour:")))
    building_in(folder)
    stand_in(folder, "timedatectl", "echo yes")
    if shutil.which("curl"):
        with serving(program, folder, 1) as server:
            status, reply = by_the_helper(folder, "tick", server.address, PATH=path)
        expect((status, json.loads(reply)["answer"]), (0, "tick"))
        expect((folder / "last-tick").stat().st_mtime > hour_ago + 3000, True)


def a_run_that_ends_with_a_fault_leaves_it_whole(program, folder):
    """Its output fails, its address can't be listened on, a moment is none, and the building is another one."""
    building_in(folder)
    with open("/dev/full", "wb") as full:
        ran = subprocess.run([program, "tick", "building.toml", databases.NAME, str(TICK.at)], cwd=folder, stdout=full,
                             stderr=subprocess.PIPE, timeout=SECONDS)
    expect((ran.returncode, ran.stderr), (1, NOT_WRITTEN))
    expect_whole(folder, "unwritten", (TICK,))
    (folder / "other").mkdir()
    new = building_in(folder / "other")
    ended = run(program, new, "serve", "building.toml", databases.NAME, "256.0.0.1:1", "--requests", "1")
    expect(ended, Ended(b"", b"desk: cannot listen on 256.0.0.1:1\n", 1))
    expect_whole(new, "unheard", ())
    expect(run(program, new, "tick", "building.toml", databases.NAME, "--", "-1").status, 1)
    expect_whole(new, "no-moment", ())
    serve(program, new, [light(1)])
    (new / "building.toml").write_text('zone = "UTC0"\n')
    expect(run(program, new, "report", "building.toml", databases.NAME, DAY), Ended(b"", b"desk: store fault S5\n", 3))
    building_in(new)
    expect_whole(new, "another-building", (light(1),))


# ---- a close that fails

def calls_of(program, folder, words):
    """How many calls of a run change its database."""
    at, met = 0, True
    while met:
        at += 1
        trouble = shims.Trouble(folder, at, error=shims.Error.EIO)
        begin(folder)
        run(program, folder, *words, env=trouble.environment)
        met = trouble.met()
    return at - 1


def begin(folder):
    """A database of each kind of delivery, as it was before a tick."""
    databases.put_back(folder / "kept", folder)


def a_close_that_fails_is_reported_and_loses_nothing(program, folder):
    """The last call of a tick that changes the files is one of its close. The reply is printed, the status tells it, and the
    log has all."""
    building_in(folder)
    serve(program, folder, EACH_KIND)
    databases.keep(folder, folder / "kept")
    words = ("tick", "building.toml", databases.NAME, str(TICK.at))
    last = calls_of(program, folder, words)
    begin(folder)
    trouble = shims.Trouble(folder, last, error=shims.Error.EIO)
    reply = run_of(BUILDING, [*EACH_KIND, TICK])[0][-1].encode() + b"\n"
    expect(run(program, folder, *words, env=trouble.environment), Ended(reply, FAULT, 3))
    expect(databases.held(folder), databases.tables_after(BUILDING, [*EACH_KIND, TICK]))
    expect(run(program, folder, "report", "building.toml", databases.NAME, DAY), Ended(reported([*EACH_KIND, TICK]), b"", 0))
    expect_whole(folder, "reported", [*EACH_KIND, TICK])


# ---- a part that is missing

def one_page(folder, size):
    """A database of one page, with no table and no log, as SQLite's own library makes it."""
    with contextlib.closing(sqlite3.connect(folder / databases.NAME)) as connection:
        connection.execute(f"PRAGMA page_size = {size}")
        connection.execute("PRAGMA journal_mode = WAL")
        connection.execute("VACUUM")
    expect((folder / databases.NAME).stat().st_size, size)


def files_of(folder):
    return {path.name: path.read_bytes() for path in databases.files_in(folder)}


def each_tells(program, folder):
    """Each run over the files tells S2, twice, and leaves them as they are."""
    (folder / "holidays.csv").write_text(members_of(IMPORT)["import"])
    before = files_of(folder)
    words = (("tick", str(TICK.at)), ("import", "holidays.csv"), ("report", DAY), ("serve", "127.0.0.1:0", "--requests", "1"))
    for name, *last in (*words, *words):
        expect((name, run(program, folder, name, "building.toml", databases.NAME, *last)), (name, Ended(b"", FAULT, 3)))
        expect((name, files_of(folder)), (name, before))


def a_file_without_its_log_is_reported(program, folder):
    for size in PAGE_SIZES:
        room = building_in(folder / str(size))
        one_page(room, size)
        each_tells(program, room)


def a_log_without_its_file_is_reported(program, folder):
    """The file is missing, or empty, or a link leads to where it was."""
    building_in(folder)
    with serving(program, folder, len(EACH_KIND) + 1) as server:
        for delivery in EACH_KIND:
            server.ask(request_of(members_of(delivery)))
        server.stop()
    (folder / databases.NAME).unlink()
    each_tells(program, folder)
    (folder / databases.NAME).touch()
    each_tells(program, folder)


def a_beginning_that_was_stopped_is_taken_for_none(program, folder):
    """A file that is empty, with a log that is, and a database of one page, also of an older desk, beside a log of no length."""
    for size in (0, 512, 1024):
        room = building_in(folder / str(size))
        if size:
            one_page(room, size)
        else:
            (room / databases.NAME).touch()
        (room / f"{databases.NAME}-wal").touch()
        serve(program, room, [light(1)])
        expect_whole(room, "begun", (light(1),))


def not_opened(name, reason):
    """How a check ends that does not open a database."""
    return Ended(b"", f"desk: {name}: {reason}\ndesk: store fault S2\n".encode(), 3)


def a_check_says_why_a_database_is_not_opened(program, folder):
    """Another process holds it, it is a folder, or it has a second name."""
    building_in(folder)
    with serving(program, folder, 1) as server:
        expect(run(program, folder, "check", "building.toml", databases.NAME), not_opened(databases.NAME, "another process holds it"))
        server.ask(request_of(members_of(light(1))))
    (folder / "folder").mkdir()
    os.link(folder / databases.NAME, folder / "second.db")
    for name in ("folder", databases.NAME):
        expect(run(program, folder, "check", "building.toml", name), not_opened(name, "it is no plain file, or has a second name"))


def a_check_begins_nothing(program, folder):
    """Beside a database of one page without its log it tells S2, and with a log of no length S4; the file stays."""
    room = building_in(folder / "begun")
    one_page(room, 512)
    page = (room / databases.NAME).read_bytes()
    expect(run(program, room, "check", "building.toml", databases.NAME), not_opened(databases.NAME, "it or its -wal is missing"))
    expect([path.name for path in room.glob(databases.NAME + "*")], [databases.NAME])
    (room / f"{databases.NAME}-wal").touch()
    expect(run(program, room, "check", "building.toml", databases.NAME), Ended(b"", b"desk: store fault S4\n", 3))
    expect((room / databases.NAME).read_bytes(), page)


TESTS = (
    a_check_begins_nothing,
    a_check_says_why_a_database_is_not_opened,
    a_new_database_is_whole_after_a_report,
    a_tick_and_an_import_leave_it_whole,
    a_server_that_ends_leaves_it_whole,
    a_server_that_is_stopped_leaves_both_files,
    the_unit_leaves_it_whole_after_a_kill,
    a_building_at_fault_leaves_the_description,
    a_start_waits_for_the_desk_and_fails_where_it_is_gone,
    the_journal_names_the_status,
    failed_starts_wait_the_longer,
    a_tick_that_is_skipped_for_an_hour_is_a_failure,
    a_run_that_ends_with_a_fault_leaves_it_whole,
    a_close_that_fails_is_reported_and_loses_nothing,
    a_file_without_its_log_is_reported,
    a_log_without_its_file_is_reported,
    a_beginning_that_was_stopped_is_taken_for_none,
)
