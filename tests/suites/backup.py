"""Tries the backup of deploy/ over the loopback, and a restore: a panel sends commands during a backup, and more after it; the
backup is put back, and the panel goes on. A desk with a record goes on meanwhile; one without is stopped and started again.

The commands that stop and start the desk, and tell whether it runs, are those of this test in place of systemd's.
"""
import datetime
import json
import os
import pathlib
import shutil
import threading
import time

from helpers import databases, recorded
from helpers.rooms import DAYS, PANEL, WINDOW, Panel, in_room
from helpers.trying import expect
from helpers.worked import BUILDING, command
from oracle.slow_desk import Skip


def expect_backed_up(ran):
    """A backup ended well, and has printed the path of its copy."""
    expect((ran.returncode, ran.stderr), (0, ""))
    return pathlib.Path(ran.stdout.strip())


def record_of(copy):
    return copy.with_suffix(".jsonl")


def expect_backups(room, *copies):
    """The folder of backups has these copies, each with its record, and no other file."""
    expect(sorted(room.backups.iterdir()), sorted(path for copy in copies for path in (copy, record_of(copy))))


def recorded_list(path):
    """The commands and skips of a record."""
    reported = [json.loads(line) for line in path.read_text().splitlines()]
    return [Skip(each["panel"], each["skip"]) if "skip" in each
            else command(each["panel"], each["number"], each["point"], each["priority"], each["value"]) for each in reported]


def put_back(room, copy):
    """Restores a backup as docs/BACKUPS.md tells it."""
    room.stop()
    (room.folder / "desk.db-wal").unlink(missing_ok=True)
    shutil.copy(copy, room.folder / "desk.db")
    shutil.copy(record_of(copy), room.folder / recorded.NAME)
    room.start()


def rows(room, table):
    return databases.held(room.folder)[table]


def tables_of(room, copy):
    """What a backup's database holds, alone in a folder."""
    alone = room.folder / "alone"
    shutil.rmtree(alone, ignore_errors=True)
    alone.mkdir()
    shutil.copy(copy, alone / databases.NAME)
    return databases.held(alone)


def backups_beside_presses(room):
    """Two backups while a panel sends commands, each of which is acted on once and has its answer."""
    panel = Panel(room)
    room.start()
    panel.presses(5)
    beside = threading.Thread(target=panel.presses, args=(300,))
    beside.start()
    copies = [expect_backed_up(room.backup())]
    time.sleep(1.1)
    copies.append(expect_backed_up(room.backup()))
    beside.join()
    expect((len(panel.answers), panel.number), (305, 305))
    panel.expect_answers(1, 7, 305)
    return copies


def a_panel_goes_on_during_a_backup(room):
    """The desk is not stopped; a copy has the whole lines of its record, and the tables that they make."""
    copies = backups_beside_presses(room)
    process = room.process()
    time.sleep(1.1)
    copies.append(expect_backed_up(room.backup()))
    expect(room.process(), process)
    room.stop()
    expect(rows(room, "panel"), [(PANEL, 306)])
    expect_backups(room, *copies)
    kept = (room.folder / recorded.NAME).read_bytes()
    for copy in copies:
        lines = record_of(copy).read_bytes()
        expect((kept.startswith(lines), lines[-1:]), (True, b"\n"))
        expect(tables_of(room, copy), databases.tables_after(BUILDING, recorded_list(record_of(copy))))


def a_desk_without_a_record_is_stopped_for_a_copy(room):
    copies = backups_beside_presses(room)
    room.stop()
    expect(rows(room, "panel"), [(PANEL, 306)])
    expect(sorted(room.backups.iterdir()), sorted(copies))
    process = room.process()
    copy = expect_backed_up(room.backup())
    expect((room.runs(), room.process()), (False, process))
    expect(tables_of(room, copy), databases.held(room.folder))


def an_incomplete_last_line_is_no_part_of_a_copy(room):
    panel = Panel(room)
    room.start()
    panel.presses(3)
    whole = (room.folder / recorded.NAME).read_bytes()
    with open(room.folder / recorded.NAME, "ab") as record:
        record.write(b'{"number":4,"pan')
    copy = expect_backed_up(room.backup())
    expect(record_of(copy).read_bytes(), whole)


def a_base_goes_along(room):
    """The record stands on the tables of another one, of which a backup has a copy too."""
    panel = Panel(room)
    room.start()
    panel.presses(3)
    expect(room.begin_anew().returncode, 0)
    for _ in range(2):
        copy = expect_backed_up(room.backup())
        base = copy.with_suffix(".jsonl.base")
        expect(base.read_bytes(), pathlib.Path(f"{room.kept()}.base").read_bytes())
        expect(tables_of(room, copy)["panel"], [(PANEL, panel.number + 1)])
        expect(room.check(record_of(copy), copy), f"record: {len(recorded_list(record_of(copy)))} deliveries\n")
        panel.press()
        time.sleep(1.1)


def a_panel_goes_on_after_a_restore(room):
    """The desk no longer knows the commands after the backup: the gap is given up, 64 at a time, and the next one counts."""
    panel = Panel(room)
    room.start()
    panel.presses(10)
    copy = expect_backed_up(room.backup())
    for lost in (WINDOW // 2, 200):
        panel.presses(lost)
        put_back(room, copy)
        panel.press()
        expect(panel.repeat(panel.number), panel.answers[panel.number])
        expect(panel.repeat(10), panel.answers[10])
        expect(panel.repeat(11)["answer"], "skipped")
    room.stop()
    expect([row[1] for row in rows(room, "command")], [*range(1, 11), panel.number])
    listed = recorded_list(room.folder / recorded.NAME)
    expect(databases.held(room.folder), databases.tables_after(BUILDING, listed))


def a_copy_alone_is_the_desk_as_it_was(room):
    panel = Panel(room)
    room.start()
    panel.presses(3)
    copy = expect_backed_up(room.backup())
    expect(tables_of(room, copy), databases.held(room.folder))
    expect(tables_of(room, copy)["panel"], [(PANEL, 4)])


def old_copies_go_once_a_new_one_is_whole(room):
    room.start()
    Panel(room).press()
    room.backups.mkdir()
    old, young = room.backups / "desk-old.db", room.backups / "desk-young.db"
    for copy, days in ((old, DAYS + 2), (young, DAYS - 2)):
        for path in (copy, record_of(copy)):
            path.touch()
            then = (datetime.datetime.now() - datetime.timedelta(days=days)).timestamp()
            os.utime(path, (then, then))
    expect(room.backup(DESK=str(room.folder / "no-database")).returncode, 1)
    expect_backups(room, old, young)
    copy = expect_backed_up(room.backup())
    expect_backups(room, copy, young)


def the_desk_goes_on_where_a_backup_fails(room):
    """Where no database can be made, or the folder takes no copy; and there is no copy of no record."""
    panel = Panel(room)
    room.start()
    panel.press()
    expect(room.backup(DESK=str(room.folder / "no-database")).returncode, 1)
    panel.press()
    expect(list(room.backups.iterdir()), [])
    shutil.rmtree(room.backups)
    room.backups.write_text("no folder")
    expect(room.backup().returncode == 0, False)
    panel.press()
    room.backups.unlink()
    room.record = "none.jsonl"
    ran = room.backup()
    expect((ran.returncode, ran.stdout, ran.stderr), (1, "", f"desk-backup: no record at {room.folder / 'none.jsonl'}\n"))
    panel.press()


def an_unrecorded_desk_goes_on_where_a_backup_fails(room):
    """It is started again where the database is not whole; and none is made of no database."""
    panel = Panel(room)
    room.start()
    panel.press()
    expect(room.backup(DESK=str(room.folder / "no-database")).returncode, 1)
    panel.press()
    ran = room.backup("none.db")
    expect((ran.returncode, ran.stdout), (1, ""))
    expect([path.name for path in room.folder.glob("none.db*")], [])
    panel.press()


def a_building_at_fault_leaves_the_desk_running(room):
    """It would not start again: so it is not stopped, and the fault is told."""
    panel = Panel(room)
    room.start()
    panel.press()
    before = room.process()
    (room.folder / "building.toml").write_text("[[point]]\n")
    ran = room.backup()
    expect((ran.returncode, ran.stdout), (1, ""))
    expect(ran.stderr, f"desk-backup: {room.folder / 'building.toml'} is at fault: desk: B3 top 0 zone\n")
    panel.press()
    expect(room.process(), before)


TESTS = [
    *(in_room(test) for test in (
        a_panel_goes_on_during_a_backup,
        an_incomplete_last_line_is_no_part_of_a_copy,
        a_base_goes_along,
        a_panel_goes_on_after_a_restore,
        a_copy_alone_is_the_desk_as_it_was,
        old_copies_go_once_a_new_one_is_whole,
        the_desk_goes_on_where_a_backup_fails,
    )),
    *(in_room(test, record="") for test in (
        a_desk_without_a_record_is_stopped_for_a_copy,
        an_unrecorded_desk_goes_on_where_a_backup_fails,
        a_building_at_fault_leaves_the_desk_running,
    )),
]
