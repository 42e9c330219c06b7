"""Kills `desk tick` and `desk import` on a real file, at random moments or as they print, and looks at what is left.

It goes on for some seconds, in a sweep for ten minutes, and on a slow disk until fifty kills have met a delivery, for ten
minutes at most; and then as long again with runs that keep a record, servers among them (`helpers/killed_records.py`).
After each kill the database and its log are copied and read by the C library of SQLite. What they hold has to be
what was there before the delivery or what is there after it, and after it where a byte of the reply was printed.
Then the same delivery is made again, without a kill, and has to be answered as what is held asks. The tables and
replies that are wanted are reckoned here, for a building whose one schedule says 2 on a holiday and else 1. A kill
while the tables are made may leave a file without them, or one that is no database yet: the next run makes them, or
tells S4.
"""
import contextlib
import dataclasses
import datetime
import pathlib
import random
import select
import shutil
import sqlite3
import subprocess
import tempfile
import time

from helpers import killed_records, trying
from helpers.trying import expect

BUILDING = """zone = "UTC0"
[[point]]
name = "SET"
kind = "analog"
low = 0
high = 9
default = 0
[[calendar]]
name = "HOLIDAYS"
entries = []
[[schedule]]
name = "DAY"
priority = 15
targets = ["SET"]
default = 1
[[schedule.exception]]
priority = 5
calendar = "HOLIDAYS"
times = ["00:00=2"]
"""
TABLES = ("desk", "panel", "command", "place", "shown", "imported")
HUNDREDTHS_A_DAY = 8_640_000
FIRST_DAY = datetime.date(1970, 1, 1)
DELIVERIES_A_FILE = 25
LEAST_KILLS = 50
SECONDS, MOST_SECONDS = 20, 600
PATIENCE = 60


@dataclasses.dataclass(frozen=True)
class State:
    """What the tables hold: the last tick, what the schedule shows, and the holidays."""

    last: int | None = None
    shown: int | None = None
    days: frozenset = frozenset()

    def settled(self):
        """The state once the schedule is settled at the last tick, and how many writes that takes."""
        if self.last is None:
            return self, 0
        day = FIRST_DAY + datetime.timedelta(days=self.last // HUNDREDTHS_A_DAY)
        value = 2 if day in self.days else 1
        return dataclasses.replace(self, shown=value), int(value != self.shown)

    def tables(self):
        shown = [] if self.shown is None else [self.shown]
        return {
            "desk": [(1, 2, self.last)],
            "panel": [],
            "command": [],
            "place": [("SET", 15, value) for value in shown],
            "shown": [("DAY", value) for value in shown],
            "imported": [("HOLIDAYS", str(day)) for day in sorted(self.days)],
        }


@dataclasses.dataclass(frozen=True)
class Tick:
    at: int

    def words(self, room):
        return ["tick", "building.toml", "desk.db", str(self.at)]

    def delivered(self, state):
        if state.last is not None and self.at <= state.last:
            return state, '{"answer":"old","writes":0}\n'
        after, writes = dataclasses.replace(state, last=self.at).settled()
        return after, f'{{"answer":"tick","writes":{writes}}}\n'


@dataclasses.dataclass(frozen=True)
class Import:
    days: tuple

    def words(self, room):
        rows = "".join(f"HOLIDAYS,{day}\n" for day in self.days)
        (room / "holidays.csv").write_text("calendar,entry\n" + rows)
        return ["import", "building.toml", "desk.db", "holidays.csv"]

    def delivered(self, state):
        days = state.days | set(self.days)
        added = len(days) - len(state.days)
        after, writes = dataclasses.replace(state, days=days).settled()
        known = len(self.days) - added
        return after, f'{{"added":{added},"answer":"import","known":{known},"writes":{writes}}}\n'


def some_delivery(rng, state):
    day = rng.randrange(20_000, 20_200)
    if rng.random() < 0.5:
        at = rng.randrange(day * HUNDREDTHS_A_DAY) if state.last is None else state.last + rng.randint(-9, 3 * HUNDREDTHS_A_DAY)
        return Tick(max(at, 0))
    days = [FIRST_DAY + datetime.timedelta(days=day + rng.randrange(300)) for _ in range(rng.choice([1, 3, 30, 300]))]
    return Import(tuple(days))


def held(room, copies):
    """What the tables of a copy of the database hold, or None where there are none."""
    shutil.rmtree(copies, ignore_errors=True)
    copies.mkdir()
    for path in room.glob("desk.db*"):
        if not path.name.endswith("-shm"):
            shutil.copy(path, copies)
    with contextlib.closing(sqlite3.connect(copies / "desk.db")) as connection:
        if connection.execute("PRAGMA integrity_check").fetchall() != [("ok",)]:
            raise AssertionError("the database is damaged")
        if connection.execute("SELECT count(*) FROM sqlite_schema").fetchone() == (0,):
            return None
        return {table: sorted(connection.execute(f"SELECT * FROM {table}").fetchall()) for table in TABLES}


def killed(program, words, room, seconds):
    """Runs the program for so long at most, or where no time is given until it prints; what it printed, its fault,
    and its status."""
    with subprocess.Popen([program, *words], cwd=room, stdout=subprocess.PIPE, stderr=subprocess.PIPE, text=True) as ran:
        if seconds is None:
            select.select([ran.stdout], [], [], PATIENCE)
        else:
            with contextlib.suppress(subprocess.TimeoutExpired):
                ran.wait(seconds)
        ran.kill()
        printed, reported = ran.communicate(timeout=PATIENCE)
    return printed, reported, ran.returncode


def left_by(printed, before, after, reply, room):
    """Which of the two states the files hold, or None where they hold no tables, with what was printed in mind."""
    try:
        found = held(room / "room", room / "copies")
    except sqlite3.DatabaseError:
        # The file's first byte is written last: until then SQLite's own library takes it for no database.
        if before is not None or printed or (room / "room" / "desk.db").read_bytes()[:1] != b"\0":
            raise
        found = None
    expect(reply.startswith(printed), True, f"printed {printed!r}, wanted {reply!r}")
    if found is None and before is None and not printed:
        return None
    states = [after] if printed or before is None else [before, after]
    if before is None and not printed:
        states.append(State())
    for state in states:
        if found == state.tables():
            return state
    wanted = [state.tables() for state in states]
    raise AssertionError(f"the tables hold {found!r}, after {printed!r}, wanted one of {wanted!r}")


class Trial:
    """Deliveries to one database, each killed and then made again."""

    def __init__(self, program, rng, room):
        self.program, self.rng, self.room = program, rng, room
        self.state, self.is_lost = None, False
        (room / "room").mkdir()
        (room / "room" / "building.toml").write_text(BUILDING)

    def deliver(self, seconds):
        """Kills a delivery after so long at most, or as it prints, and makes it again. Tells which end the kill had,
        and how long the second run took."""
        before = self.state or State()
        delivery = some_delivery(self.rng, before)
        after, reply = delivery.delivered(before)
        words = delivery.words(self.room / "room")
        printed, reported, status = killed(self.program, words, self.room / "room", seconds)
        expect((reported, status in (0, -9)), ("", True), f"{words}, killed: its fault, with status {status}")
        expect(status == 0 and printed != reply, False, f"{words} printed {printed!r}, wanted {reply!r}")
        left = left_by(printed, self.state, after, reply, self.room)
        started = time.monotonic()
        self.again(delivery, left or State(), left is None)
        took = time.monotonic() - started
        return "ended" if status == 0 else "after it" if left == after else "before it", took

    def again(self, delivery, state, may_be_refused):
        after, reply = delivery.delivered(state)
        words = delivery.words(self.room / "room")
        printed, reported, status = killed(self.program, words, self.room / "room", PATIENCE)
        if may_be_refused and (printed, reported, status) == ("", "desk: store fault S4\n", 3):
            self.is_lost = True
            return
        expect((printed, reported, status), (reply, "", 0), f"{words}, made again")
        expect(held(self.room / "room", self.room / "copies"), after.tables(), f"after {words}, made again, the tables")
        self.state = after


def kills(ends):
    return ends.get("before it", 0) + ends.get("after it", 0)


def try_file(program, rng, typical, ends, goes_on):
    """Kills deliveries to one database, and returns how long one takes."""
    with tempfile.TemporaryDirectory(prefix="desk-kill-") as folder:
        trial = Trial(program, rng, pathlib.Path(folder))
        for _ in range(DELIVERIES_A_FILE):
            if trial.is_lost or not goes_on():
                break
            end, took = trial.deliver(rng.choice([None, rng.uniform(0, 1.2 * typical), rng.uniform(0, 1.2 * typical)]))
            ends[end] = ends.get(end, 0) + 1
            typical = 0.9 * typical + 0.1 * took
    return typical


def has_time(begun, ends):
    """Whether to go on: for so many seconds, and then as long as too few kills have met a delivery."""
    spent, seconds = time.monotonic() - begun, MOST_SECONDS if trying.SWEEP else SECONDS
    return spent < seconds or (kills(ends) < LEAST_KILLS and spent < MOST_SECONDS)


def kill_runs(what, try_some, program):
    """Kills runs as long as there is time, and tells of them."""
    rng, begun, typical, ends = random.Random(random.randrange(10**9)), time.monotonic(), 0.02, {}
    try:
        while has_time(begun, ends):
            typical = try_some(program, rng, typical, ends, lambda: has_time(begun, ends))
    finally:
        reported = ", ".join(f"{count} {end}" for end, count in sorted(ends.items()))
        print(f"kills of {what} of some {1000 * typical:.0f} ms: {reported}", flush=True)
    if kills(ends) < LEAST_KILLS:
        raise AssertionError(f"only {kills(ends)} kills met a delivery, wanted {LEAST_KILLS}")


def a_killed_delivery_is_made_or_not(program, folder):
    kill_runs("a delivery", try_file, program)


def a_killed_run_leaves_its_record_in_step(program, folder):
    kill_runs("a recorded delivery", killed_records.try_file, program)


TESTS = [a_killed_delivery_is_made_or_not, a_killed_run_leaves_its_record_in_step]
