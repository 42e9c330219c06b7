"""Files and file systems that are not as the desk wants them: a full disk, one that can't be locked, files and folders
that can't be written, a hard link, a journal of SQLite's, and large pages. Each run ends as docs/ENDINGS.md says, and
nothing is lost.

Each test takes the path of the program and a folder of its own. The test of a full disk begins this page anew, with mounts
of its own.
"""
import contextlib
import errno
import os
import pathlib
import re
import shutil
import subprocess
import sys

from helpers import databases, shims
from helpers.deliveries import members_of, request_of
from helpers.runs import ByRequest, ByWords, Ended, Trial
from helpers.serving import SECONDS, answered, response, serving
from helpers.trying import ROOT, Missing, expect
from helpers.worked import BUILDING, EACH_KIND, light
from oracle.slow_desk import Import, Tick, run_of

FAULT = b"desk: store fault S2\n"
FAILED = response(500, b'{"answer":"store"}')
TICK = Tick(174890160000)
# Entries whose rows fill some pages.
IMPORT = Import(tuple(("HOLIDAYS", f"{year}-{month:02}-09") for year in range(2026, 2034) for month in range(1, 13)))
HOLIDAYS = "calendar,entry\nHOLIDAYS,2025-06-09\n"


def is_refusal(run):
    """How a run ends whose database can't be opened."""
    return Ended(b"", FAULT, 3, listened=isinstance(run, ByWords))


def each_refuses(trial):
    """A tick, an import, a report and a server tell S2 and change no table."""
    (trial.folder / "holidays.csv").write_text(HOLIDAYS)
    words = (("tick", str(TICK.at)), ("import", "holidays.csv"), ("report", "2025-06-02"))
    runs = [ByWords((name, "building.toml", databases.NAME, last), b"") for name, last in words]
    for run in [*runs, ByRequest(b"", b"")]:
        expect((run, run.run(trial.program, trial.folder)), (run, is_refusal(run)))
        expect(databases.held(trial.folder), trial.before)


def begun(program, folder):
    """A tick that is to be made over tables of each kind."""
    trial = Trial(program, folder, BUILDING, EACH_KIND, TICK)
    trial.begin()
    return trial


# ---- a full disk

# The size of the file system, and how much of it is free for a run, in steps and at most.
DISK, STEP, MOST_FREE = 2 << 20, 8 << 10, 512 << 10


def with_own_mounts():
    """The words that begin a run with mounts of its own, or None where the machine lets none be made."""
    words = ["unshare", "--mount", *([] if os.geteuid() == 0 else ["--user", "--map-root-user"])]
    mount = ["mount", "-t", "tmpfs", "-o", f"size={DISK}", "desk", "/mnt"]
    try:
        made = subprocess.run([*words, *mount], capture_output=True, timeout=SECONDS)
    except FileNotFoundError:
        return None
    return words if made.returncode == 0 else None


def a_full_disk_is_reported_and_loses_nothing(program, folder):
    """With ever more room on a small file system in memory, up to what a delivery wants."""
    words = with_own_mounts()
    if words is None:
        raise Missing("the right to mount a file system")
    words += [sys.executable, "-m", "suites.file_systems", program, folder]
    ran = subprocess.run(words, cwd=ROOT / "tests", capture_output=True, text=True, timeout=10 * SECONDS)
    if ran.returncode != 0:
        raise AssertionError((ran.stdout + ran.stderr)[-2000:])


def fill(filler, free):
    """Fills a file system up to so many bytes."""
    with contextlib.suppress(OSError), filler.open("wb", buffering=0) as file:
        while True:
            file.write(bytes(STEP))
    os.truncate(filler, max(filler.stat().st_size - free, 0))


def make_with(trial, filler, free):
    """Makes a delivery with so many bytes free, looks at what is left, and makes it again with room. Whether it was made."""
    run = trial.begin()
    fill(filler, free)
    ended = run.run(trial.program, trial.folder)
    # The room may end as the database is closed, once the reply was printed.
    if ended not in (Ended(run.answer, b"", 0), is_refusal(run), Ended(FAILED, b"", 3), Ended(run.answer, FAULT, 3)):
        raise AssertionError(f"with {free} bytes free {ended!r}")
    is_made = ended.printed == run.answer
    filler.unlink()
    trial.again(trial.left(answered=is_made))
    return is_made


def on_a_small_disk(program, folder):
    """Mounts the file system, which goes with this process, and makes deliveries of each kind with ever more room."""
    disk = folder / "disk"
    disk.mkdir()
    subprocess.run(["mount", "-t", "tmpfs", "-o", f"size={DISK}", "desk", disk], check=True)
    for name, earlier, delivery, by_request in (("tick", EACH_KIND, TICK, False), ("import", EACH_KIND, IMPORT, False),
                                                ("command", EACH_KIND, light(5), True), ("new", None, TICK, False)):
        room = disk / name
        room.mkdir()
        trial = Trial(program, room, BUILDING, earlier, delivery, by_request)
        made = [make_with(trial, disk / "filler", free) for free in range(0, MOST_FREE, STEP)]
        expect((name, made[0], made[-1]), (name, False, True))
        shutil.rmtree(room)


# ---- files that can't be had


def a_file_system_without_locks_is_reported(program, folder):
    """The lock of a file fails with the errors that file systems without locks give."""
    trial = begun(program, folder)
    run = ByWords(("tick", "building.toml", databases.NAME, str(TICK.at)), b"")
    for error in (errno.ENOLCK, errno.EOPNOTSUPP, errno.ENOSYS, errno.EINVAL):
        ended = run.run(program, folder, shims.environment("disk_trouble", TROUBLE_LOCKS=error))
        expect((error, ended), (error, is_refusal(run)))
        expect(databases.held(folder), trial.before)
    trial.again(False)


def a_hard_link_is_reported(program, folder):
    trial = begun(program, folder)
    os.link(folder / databases.NAME, folder / "other")
    each_refuses(trial)
    (folder / "other").unlink()
    trial.again(False)


def a_journal_that_is_to_be_played_back_is_reported(program, folder):
    """What SQLite's own library left in the midst of a transaction, which it alone can play back."""
    trial = begun(program, folder)
    journal = folder / f"{databases.NAME}-journal"
    journal.write_bytes(b"\xd9\xd5\x05\xf9\x20\xa1\x63\xd7" + bytes(504))
    run = ByWords(("tick", "building.toml", databases.NAME, str(TICK.at)), b"")
    expect(run.run(program, folder), is_refusal(run))
    journal.unlink()
    expect(databases.held(folder), trial.before)
    trial.again(False)


# ---- files and folders that can't be written

NOBODY = 65_534


class Bound:
    """A tick by a user whom permissions bind: another one where this is root."""

    def __init__(self, program, folder):
        self.folder, self.given = folder, {}
        shutil.copy2(program, folder / "desk")
        folder.chmod(0o755)
        if os.geteuid() == 0:
            self.given = {"user": NOBODY, "group": NOBODY, "extra_groups": []}

    def own(self):
        """Has that user own the folder and what is in it."""
        if self.given:
            for path in (self.folder, *self.folder.iterdir()):
                os.chown(path, NOBODY, NOBODY)

    def tick(self, at):
        self.own()
        words = ["./desk", "tick", "building.toml", databases.NAME, str(at)]
        ran = subprocess.run(words, cwd=self.folder, capture_output=True, timeout=SECONDS, **self.given)
        return Ended(ran.stdout, ran.stderr, ran.returncode)


def refused_to(bound, trial):
    expect(bound.tick(TICK.at), Ended(b"", FAULT, 3))
    expect(databases.held(trial.folder), trial.before)


def a_file_that_cannot_be_written_is_reported(program, folder):
    trial = begun(program, folder)
    bound, log = Bound(program, folder), folder / f"{databases.NAME}-wal"
    log.touch()
    for path in (folder / databases.NAME, log):
        path.chmod(0o444)
        refused_to(bound, trial)
        path.chmod(0o644)
    expect(bound.tick(TICK.at), Ended(trial.replies[0].encode() + b"\n", b"", 0))
    expect(databases.held(folder), trial.after)


def a_folder_that_cannot_be_written_is_reported(program, folder):
    """No log can be made in it, and no database."""
    trial = begun(program, folder)
    bound = Bound(program, folder)
    folder.chmod(0o555)
    try:
        refused_to(bound, trial)
    finally:
        folder.chmod(0o755)
    (folder / databases.NAME).unlink()
    folder.chmod(0o555)
    try:
        expect(bound.tick(TICK.at), Ended(b"", FAULT, 3))
    finally:
        folder.chmod(0o755)
    expect([path.name for path in folder.glob(databases.NAME + "*")], [])


# ---- large pages

LARGEST_PAGE = 65_536
# So many commits pass the length at which the log is copied into the database.
COMMITS = 900


def memory_of_the_unit():
    """What the unit in deploy/ lets the desk have, in bytes."""
    unit = (ROOT / "deploy" / "desk.service").read_text()
    return int(re.search(r"^MemoryMax=(\d+)M$", unit, re.M)[1]) << 20


def within(most, program, folder):
    """The program with so many bytes of memory at most."""
    limited = folder / "limited"
    limited.write_text(f'#!/bin/sh\nulimit -v {most >> 10}\nexec "{program}" "$@"\n')
    limited.chmod(0o755)
    return limited


def largest_pages_fit_the_unit(program, folder):
    """A database of the largest pages is served in a quarter of the unit's memory, past the copying of its log."""
    asked = [light(number) for number in range(5, 5 + COMMITS) if number not in (6, 7)]
    whole = [*EACH_KIND, *asked]
    trial = Trial(program, folder, BUILDING, EACH_KIND, asked[0], by_request=True, page_size=LARGEST_PAGE)
    trial.begin()
    replies = run_of(BUILDING, whole)[0][len(EACH_KIND):]
    with serving(within(memory_of_the_unit() // 4, program, folder), folder, len(asked)) as server:
        for delivery, reply in zip(asked, replies):
            expect((delivery, server.ask(request_of(members_of(delivery)))), (delivery, answered(reply)))
        server.end()
    expect(databases.held(folder), databases.tables_after(BUILDING, whole))


TESTS = (
    a_full_disk_is_reported_and_loses_nothing,
    a_file_system_without_locks_is_reported,
    a_hard_link_is_reported,
    a_journal_that_is_to_be_played_back_is_reported,
    a_file_that_cannot_be_written_is_reported,
    a_folder_that_cannot_be_written_is_reported,
    largest_pages_fit_the_unit,
)

if __name__ == "__main__":
    on_a_small_disk(sys.argv[1], pathlib.Path(sys.argv[2]))
