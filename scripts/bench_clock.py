#!/usr/bin/env python3
"""Measures the desk's ticks, imports, reports and commands over a database, and its replays, beside a plain C++ program.

Usage: bench_clock.py [PROGRAM]: the desk is build/desk where no other one is named.

The large building of bench.py has 4,000 entries imported and has had its first tick. `desk serve` and the server of
`scripts/plain_schedules.cpp`, each over a database of its own, take the same requests in turns, block by block, and so do
whole runs of `replay` and `import`. Each reply of the one is compared with that of the other, first over requests of all
kinds and then in each block: where they differ the run ends with a line that says where. Which server is started first,
and what their databases are called, is drawn anew for each of some runs: one program over files of other names comes to
figures that lie some hundredths apart.

What is reported is the processor's time of the program that is meant, user and system, as the kernel counts it for the process,
and of a request also the time on the clock, from its connection to the end of its response, with the disk's syncs: the middle
of some blocks, and the middle, the least and the greatest ratio of a pair of them, the speed of the desk over that of the C++
program. Where `valgrind` is installed the instructions of a request are counted too. What a row wants is printed beside it; the
run ends well whatever the rows come to.
"""
import ctypes
import dataclasses
import filecmp
import json
import os
import pathlib
import random
import re
import shutil
import socket
import sqlite3
import statistics
import subprocess
import sys
import tomllib
from dataclasses import dataclass
from time import clock_gettime, monotonic, sleep

import bench
import bench_database
import proved_apart

ROOT = pathlib.Path(__file__).resolve().parent.parent
FOLDER = ROOT / "build" / "bench"
LARGEST, QUARTER, NEW_YEAR = bench.LARGEST, bench.QUARTER, bench.NEW_YEAR
# The same points and panels, with schedules of forty targets each.
FORTY = bench.Building(panels=200, points=1_000, granted=40, calendars=100, schedules=25, targets=40)
HOUR, MINUTE = 4 * QUARTER, QUARTER // 15
ROUNDS = 15
# The runs of a row that is served, each with servers of its own.
RUNS = 3
# The requests of a block, and the panels that its commands come from.
TICKS, STILL, REPORTS, NUMBERS, POINTS, PANELS = 384, 300, 20, 66, 500, 4
# Those that are counted by valgrind.
TICKS_COUNTED, COUNTED, REPORTS_COUNTED = 96, 100, 5
STARTS = 5
# Each list that is replayed, its lines, and what its row wants.
REPLAYED = {"ticks": (bench.QUARTERS, 1.0), "mixed": (200_000, 1.0), "in order": (200_000, 1.0), "lossy": (200_000, 1.0)}
# What a row that is served wants: of the processor, and of the clock.
AS_FAST, A_TICK = (0.95, 0.95), (0.75, 0.95)
COMPARED = 20_000
MOST_REQUESTS = 100_000
# How many requests the one server takes before the other does: few, so that what else the machine does comes to both.
IN_TURN = 100
LIBC = ctypes.CDLL(None)


@dataclass(frozen=True)
class Program:
    """The desk or the plain program: its path, and the building in the form that it reads."""

    name: str
    path: pathlib.Path
    building: pathlib.Path

    def serve(self, database, port, requests):
        if self.name == "desk":
            return [self.path, "serve", self.building, database, f"127.0.0.1:{port}", "--requests", str(requests)]
        return [self.path, "serve", self.building, database, str(port), str(requests)]

    def database(self, name):
        return FOLDER / f"clock-{self.name}-{name}.db"

    def copied(self, name, run="run"):
        """A copy of a database that is kept under this name."""
        bench_database.fresh(self.database(run))
        return shutil.copy(self.database(name), self.database(run))


# ---- what is asked

def get(target):
    return f"GET {target} HTTP/1.1\r\nHost: desk\r\n\r\n".encode()


def post(target, body):
    return f"POST {target} HTTP/1.1\r\nHost: desk\r\nContent-Length: {len(body)}\r\n\r\n{body}".encode()


def tick(at):
    return post("/tick", f'{{"at":{at}}}')


def as_desk(members):
    return json.dumps(members, separators=(",", ":"))


def as_node(members):
    """What a client writes that names a command's members in an order of its own."""
    return as_desk({key: members[key] for key in ("point", "value", "priority", "number")})


def command(panel, number, more=0, spell=as_desk):
    members = json.loads(LARGEST.command(panel, number))
    name = members.pop("panel")
    members["value"] += more
    return post(f"/panels/{name}/commands", spell(members))


def commands(numbers, spell=as_desk):
    return [command(panel, number, spell=spell) for number in numbers for panel in range(PANELS)]


def points(count):
    return [get(f"/points/ROOM-{place * 7 % LARGEST.points + 1}") for place in range(count)]


def reports(first, count):
    return [get(f"/reports/2025-{day % 12 + 1:02}-{day % 28 + 1:02}") for day in range(first, first + count)]


def rows_of(year, places):
    """A holiday list of days of a year, for each calendar those of its places among forty."""
    rows = [f"CALENDAR-{calendar},{year}-{day % 12 + 1:02}-{day % 28 + 1:02}"
            for calendar in range(1, LARGEST.calendars + 1) for day in (calendar + place for place in places)]
    return "\n".join(["calendar,entry", *rows]) + "\n"


FIRST_ROWS, SECOND_ROWS, NEW_ROWS = rows_of(2026, range(20)), rows_of(2026, range(20, 40)), rows_of(2027, range(20))
# What brings a new database to the state that is measured.
READY = [post("/imports", FIRST_ROWS), post("/imports", SECOND_ROWS), tick(NEW_YEAR)]


def of_all_kinds():
    """Requests of all kinds over a database that is ready, with repeats, gaps and skips among the commands."""
    day = NEW_YEAR + 96 * QUARTER
    yield from [tick(NEW_YEAR + place * QUARTER) for place in range(96)]
    yield from [tick(day + place) for place in range(3)] + [tick(day), tick(-1), tick(10**14)]
    yield from commands(range(1, 12)) + commands(range(5, 20))
    yield from [command(0, 7, more=1), command(0, 30), command(0, 25), command(0, 200)]
    yield from [post("/panels/PANEL-1/skip", '{"upto":25}'), post("/panels/PANEL-1/skip", '{"upto":900}'), command(0, 22)]
    yield from [post("/imports", SECOND_ROWS), post("/imports", NEW_ROWS), post("/imports", rows_of(2025, range(60)[40:]))]
    for quarters in range(97, 365 * 96, 96 * 13 + 5):
        yield tick(NEW_YEAR + quarters * QUARTER)
        yield get(f"/reports/2025-{quarters // 96 % 12 + 1:02}-{quarters // 96 % 28 + 1:02}")
    yield from points(LARGEST.points)
    # behind the end of the schedules' period, and a report of a day there
    yield from [tick(NEW_YEAR + 800 * 96 * QUARTER), get("/reports/2027-05-05"), *points(20)]


# ---- who answers

def processor_seconds(process):
    """What a process has used of the processor, once it stands still."""
    clock, before = ctypes.c_int(), -1.0
    if LIBC.clock_getcpuclockid(process, ctypes.byref(clock)) != 0:
        sys.exit("a server ended early")
    while (now := clock_gettime(clock.value)) != before:
        before = now
        sleep(0.002)
    return now


class Server:
    """A server of a database, for so many requests at most."""

    def __init__(self, program, database, requests=MOST_REQUESTS, before=()):
        self.program = program
        with socket.create_server(("127.0.0.1", 0)) as free:
            self.port = free.getsockname()[1]
        words = [*before, *map(str, program.serve(database, self.port, requests))]
        self.ran = subprocess.Popen(words, stdout=subprocess.PIPE, stderr=subprocess.PIPE if before else None)
        if not self.ran.stdout.readline().startswith(b"listening"):
            sys.exit(f"{program.path} does not serve")

    def ask(self, request):
        with socket.create_connection(("127.0.0.1", self.port), timeout=60) as connection:
            connection.sendall(request)
            return b"".join(iter(lambda: connection.recv(65_536), b""))

    def take(self, requests):
        """The processor's seconds for these requests, those of the clock, and what they were answered."""
        before, began = processor_seconds(self.ran.pid), monotonic()
        answers = [self.ask(request) for request in requests]
        clock = monotonic() - began
        return (processor_seconds(self.ran.pid) - before, clock), answers

    def stop(self):
        self.ran.terminate()
        self.ran.communicate()


def compare(requests, answers):
    """Ends the run at the first request to which the two did not answer alike."""
    for request, desk, plain in zip(requests, *answers):
        if desk != plain:
            sys.exit(f"the plain program's reply is not the desk's, to {request[:200]!r}:\n{desk[:2000]!r}\n{plain[:2000]!r}")


def taken(servers, requests, turn=0):
    """What each of the two servers takes of the processor and on the clock for a request of these, in turns."""
    seconds, answers = [[0.0, 0.0], [0.0, 0.0]], [[], []]
    for count, first in enumerate(range(0, len(requests), IN_TURN), turn):
        for place in (count % 2, 1 - count % 2):
            spent, told = servers[place].take(requests[first:first + IN_TURN])
            seconds[place] = [sum(both) for both in zip(seconds[place], spent)]
            answers[place] += told
    compare(requests, answers)
    return [[each / len(requests) for each in spent] for spent in seconds]


def keep(programs, name, start, requests):
    """Keeps databases under a name, of servers that end after these requests to those that are kept, or to new ones."""
    answers = []
    for program in programs:
        bench_database.fresh(program.database("run"))
        server = Server(program, program.copied(start) if start else program.database("run"), len(requests))
        answers.append([server.ask(request) for request in requests])
        if server.ran.wait() != 0:
            sys.exit(f"{program.path} ended with status {server.ran.returncode}")
        bench_database.fresh(program.database(name))
        shutil.copy(program.database("run"), program.database(name))
    compare(requests, answers)


def serving(programs, name="ready"):
    return [Server(program, program.copied(name)) for program in programs]


def stop(servers):
    for server in servers:
        server.stop()


# ---- rows

def amount(seconds):
    return f"{seconds * 1e3:.1f} ms" if seconds > 2e-3 else f"{seconds * 1e6:.{0 if seconds > 2e-5 else 2}f} µs"


def show_both(name, pairs, wanted):
    """The rows of a request: by the processor's time and by the clock's."""
    for place, said in enumerate(("", ", on the clock")):
        show(name + said, [[spent[place] for spent in pair] for pair in pairs], wanted[place])


def show(name, pairs, wanted, least=None):
    """A row of pairs of seconds. Of two whose ratio doesn't matter none is wanted, but that of the desk alone."""
    ratios = sorted(plain / desk for desk, plain in pairs)
    middles = [statistics.median(column) for column in zip(*pairs)]
    reported = f"{statistics.median(ratios):.2f} ({ratios[0]:.2f} to {ratios[-1]:.2f})"
    meant, met = "", ""
    if least is not None:
        meant, met = f"at most {amount(least)}", "yes" if middles[0] <= least else "no"
    elif wanted is not None:
        meant, met = f"at least {wanted}", "yes" if statistics.median(ratios) >= wanted else "no"
    print(f"| {name} | {amount(middles[0])} | {amount(middles[1])} | {reported} | {meant} | {met} |", flush=True)


def blocks():
    """Each row of a server: its name, the ratio that it wants, and the requests of its blocks; none wants those left out."""
    def parted(requests):
        size = len(requests) // ROUNDS
        return [requests[first:first + size] for first in range(0, ROUNDS * size, size)]

    last = NEW_YEAR + ROUNDS * TICKS * QUARTER
    below = ROUNDS * NUMBERS
    past = 1002 + below
    yield "a tick each quarter of an hour", A_TICK, parted([tick(NEW_YEAR + (place + 1) * QUARTER) for place in range(ROUNDS * TICKS)])
    yield "a tick at which nothing is due", AS_FAST, parted([tick(last + place + 1) for place in range(ROUNDS * STILL)])
    yield "a report of a day", AS_FAST, parted(reports(0, ROUNDS * REPORTS))
    yield "a command below its panel's 1,000th", AS_FAST, parted(commands(range(1, below + 1)))
    yield None, None, [commands(range(below + 1, 1002))]
    yield "a command past it", AS_FAST, parted(commands(range(1002, past)))
    yield "a command as Python writes JSON", AS_FAST, parted(commands(range(past, past + below), json.dumps))
    yield "a command with its keys in another order", AS_FAST, parted(commands(range(past + below, past + 2 * below), as_node))
    yield "a GET of a point", AS_FAST, parted(points(ROUNDS * POINTS))


def forty_blocks():
    """Ticks each of which moves one schedule of forty targets: one a minute, in the hours in which they change."""
    days = [[tick(NEW_YEAR + day * 24 * HOUR + hour * HOUR + minute * MINUTE) for hour in (5, 8, 17, 21) for minute in range(1, 26)]
            for day in range(1, ROUNDS + 1)]
    yield "a tick that moves forty targets", A_TICK, days


def served(programs, ready, rows):
    """The pairs of each row, of servers that are started in an order drawn anew, over databases of names drawn anew."""
    run = "run" + "-" * random.randrange(40)
    started = {program: Server(program, program.copied(ready, run)) for program in random.sample(programs, len(programs))}
    servers = [started[program] for program in programs]
    try:
        taken(servers, [tick(NEW_YEAR + 1), *reports(0, 1)])
        for name, wanted, requests in rows():
            first = random.randrange(2)
            pairs = [taken(servers, block, first + turn) for turn, block in enumerate(requests)]
            if name:
                yield name, wanted, pairs
    finally:
        stop(servers)
        for program in programs:
            bench_database.fresh(program.database(run))


def show_served(programs, ready, blocks):
    rows = {}
    for run in range(RUNS):
        print(f"run {run + 1} of {RUNS} of the rows that are served", file=sys.stderr, flush=True)
        for name, wanted, pairs in served(programs, ready, blocks):
            rows.setdefault((name, wanted), []).extend(pairs)
    for (name, wanted), pairs in rows.items():
        show_both(name, pairs, wanted)


def show_starts(programs):
    """Whole runs of a server that answers one request, over tables in which each panel has its 1,000 rows."""
    full = [f"('PANEL-{panel + 1}', {number}, 'ROOM-1', 8, 2000, 1, 2000, 8)" for panel in range(LARGEST.panels) for number in range(1, 1001)]
    nexts = [f"('PANEL-{panel + 1}', 1001)" for panel in range(LARGEST.panels)]
    for program in programs:
        path = program.copied("ready", "full")
        with sqlite3.connect(path) as tables:
            tables.execute("INSERT INTO command VALUES " + ", ".join(full))
            tables.execute("INSERT INTO panel VALUES " + ", ".join(nexts))
        tables.close()
    pairs = [[started(program) for program in programs] for _ in range(STARTS)]
    show_both("a start over 200,000 rows, with one GET", pairs, (None, None))


def started(program):
    """What a run of a server takes that is asked once, of the processor and on the clock."""
    began = monotonic()
    server = Server(program, program.database("full"), 1)
    server.ask(points(1)[0])
    _, status, used = os.wait4(server.ran.pid, 0)
    server.ran.returncode = os.waitstatus_to_exitcode(status)
    if status != 0:
        sys.exit(f"{program.path} ended with status {server.ran.returncode}")
    return used.ru_utime + used.ru_stime, monotonic() - began


def show_served_imports(programs):
    """Imports to servers that have had a tick, so that they know what a serving desk knows."""
    pairs = []
    for turn in range(ROUNDS):
        servers = serving(programs)
        try:
            taken(servers, [tick(NEW_YEAR + 1)], turn)
            pairs.append([[spent[0] for spent in taken(servers, [post("/imports", rows)], turn)] for rows in (SECOND_ROWS, NEW_ROWS)])
        finally:
            stop(servers)
    known, new = zip(*pairs)
    show("an import of 2,000 known rows, served", known, None, 0.010)
    show("an import of 2,000 new rows, served", new, None, 0.040)


def run(words, out=os.devnull):
    """The processor's seconds of a whole run."""
    with open(out, "wb") as sink:
        ran = subprocess.Popen(list(map(str, words)), stdout=sink)
    _, status, used = os.wait4(ran.pid, 0)
    ran.returncode = os.waitstatus_to_exitcode(status)
    if ran.returncode != 0:
        sys.exit(f"{words[0]} {words[1]} ended with status {ran.returncode}")
    return used.ru_utime + used.ru_stime


def run_in_turn(words_of, outs, turn=0):
    """What each of two whole runs takes, the one first and then the other by turns, and whether they print the same."""
    seconds = {place: run(words_of(place), outs[place]) for place in (turn % 2, 1 - turn % 2)}
    if not filecmp.cmp(*outs, shallow=False):
        sys.exit(f"the plain program prints something else than the desk: compare {outs[0]} with {outs[1]}")
    return [seconds[place] for place in (0, 1)]


def outs_of(programs):
    return [FOLDER / f"clock-{program.name}.out" for program in programs]


def show_whole_imports(programs):
    for name, rows, least in (("known", SECOND_ROWS, 0.010), ("new", NEW_ROWS, 0.040)):
        path = FOLDER / f"clock-{name}.csv"
        path.write_text(rows)

        def words_of(place):
            return [programs[place].path, "import", programs[place].building, programs[place].copied("ready"), path]

        pairs = [run_in_turn(words_of, outs_of(programs), turn) for turn in range(ROUNDS)]
        show(f"an import of 2,000 {name} rows, a whole run", pairs, None, least)


def replayed(programs, size, load, turn=0):
    _, deliveries = bench.written(LARGEST, size, load)
    return run_in_turn(lambda place: [programs[place].path, "replay", programs[place].building, deliveries], outs_of(programs), turn)


def show_replays(programs):
    """What each takes without its run of an empty list, which reads the building."""
    reading = [min(column) for column in zip(*(replayed(programs, 0, "in order", turn) for turn in range(ROUNDS)))]
    for load, (size, wanted) in REPLAYED.items():
        pairs = [replayed(programs, size, load, turn) for turn in range(ROUNDS)]
        own = [[(seconds - start) / size for seconds, start in zip(pair, reading)] for pair in pairs]
        show(f"a line of {size:,} {load}, replayed", own, wanted)


def micros_an_exception(words):
    reported = subprocess.run(list(map(str, words)), capture_output=True, text=True, check=True).stdout
    calls, micros, known = re.search(r"value_now: (\d+) calls in (\d+) microseconds, (\d+) with a value", reported).groups()
    return int(micros) / int(calls) / 100, known


def show_value_now(plain):
    program = proved_apart.built("schedules_bench", "dates points sched")
    runs = [(micros_an_exception([program, "measure"]), micros_an_exception([plain, "value_now"])) for _ in range(ROUNDS)]
    if len({known for pair in runs for _, known in pair}) != 1:
        sys.exit(f"the plain program's value_now has other values than the desk's: {runs[0]}")
    desk, beside = (statistics.median(micros for micros, _ in column) for column in zip(*runs))
    print(f"| value_now, an exception in effect | {desk:.3f} µs | {beside:.3f} µs | {beside / desk:.2f} | at most 0.5 µs | "
          f"{'yes' if desk <= 0.5 else 'no'} |", flush=True)


# ---- instructions

def counted(program, name, requests):
    """The instructions of a server of a database that is kept, for these requests, its start and its end."""
    server = Server(program, program.copied(name), len(requests), ["valgrind", "--tool=callgrind", "--callgrind-out-file=/dev/null"])
    for request in requests:
        server.ask(request)
    reported = server.ran.communicate()[1].decode()
    return int(re.search(r"Collected : (\d+)", reported).group(1))


def show_instructions(programs):
    keep(programs, "thousand", "ready", [tick(NEW_YEAR + 1)] + commands(range(1, 1002)))
    # a report reads each point, which is known from then on
    first = [tick(NEW_YEAR + 2), *reports(0, 1)]
    start = {name: [counted(program, name, first) for program in programs] for name in ("ready", "thousand")}
    rows = [
        ("a tick each quarter of an hour", "ready", [tick(NEW_YEAR + (place + 1) * QUARTER) for place in range(TICKS_COUNTED)]),
        ("a tick at which nothing is due", "ready", [tick(NEW_YEAR + place + 3) for place in range(COUNTED)]),
        ("a report of a day", "ready", reports(0, REPORTS_COUNTED)),
        ("a command below its panel's 1,000th", "ready", commands(range(1, COUNTED // PANELS + 1))),
        ("a command past it", "thousand", commands(range(1002, 1002 + COUNTED // PANELS))),
        ("a GET of a point", "ready", points(COUNTED)),
        ("an import of 2,000 known rows, served", "ready", [post("/imports", SECOND_ROWS)]),
        ("an import of 2,000 new rows, served", "ready", [post("/imports", NEW_ROWS)]),
    ]
    print("\n| Instructions, each | The desk | The C++ program | Ratio |\n|---|---|---|---|")
    for name, kept, requests in rows:
        counts = [(counted(program, kept, first + requests) - begun) / len(requests) for program, begun in zip(programs, start[kept])]
        print(f"| {name} | {counts[0]:,.0f} | {counts[1]:,.0f} | {counts[1] / counts[0]:.2f} |", flush=True)


# ---- the run

def hundredths(text):
    """A time value as the plain program reads it."""
    time, value = text.split("=")
    hour, minute, second = (time + ":00")[:8].split(":")
    return f"{((int(hour) * 60 + int(minute)) * 60 + int(second)) * 100 + int(time[9:] or 0)}={value}"


def plain_lines(building):
    """A building as the plain program reads it, a line for each thing."""
    for point in building["point"]:
        low, high = {"binary": (0, 1), "multi": (1, point.get("states"))}.get(point["kind"], (point.get("low"), point.get("high")))
        yield f"point {point['name']} {low} {high} {point['default']}"
    for panel in building["panel"]:
        yield " ".join(["panel", panel["name"], ",".join(map(str, panel["priorities"])), *panel["points"]])
    for calendar in building["calendar"]:
        yield " ".join(["calendar", calendar["name"], *calendar["entries"]])
    for schedule in building["schedule"]:
        releases = int(schedule.get("on_leave") == "release")
        yield " ".join(map(str, ["schedule", schedule["name"], schedule.get("period", "*..*"), schedule["priority"], releases,
                                 schedule.get("default", "NULL"), *schedule["targets"]]))
        for place, day in enumerate(schedule.get("weekly", []), 1):
            yield " ".join(["weekday", str(place), *map(hundredths, day)])
        for exception in schedule.get("exception", []):
            when = exception.get("calendar") or exception["entry"]
            yield " ".join(["exception", str(exception["priority"]), when, *map(hundredths, exception["times"])])


def built_plain():
    path = FOLDER / "plain_schedules"
    words = ["g++", "-O2", "-std=c++17", "-o", str(path), str(ROOT / "scripts" / "plain_schedules.cpp"), "-lsqlite3"]
    if not shutil.which("g++") or subprocess.run(words).returncode != 0:
        sys.exit("the plain program was not built: it wants g++ and libsqlite3")
    return path


def check_same(programs):
    """Ends the run where the two differ over requests of all kinds, or in a replay."""
    keep(programs, "ready", None, READY)
    servers = serving(programs)
    try:
        for request in of_all_kinds():
            taken_answers = [[server.ask(request)] for server in servers]
            compare([request], taken_answers)
    finally:
        stop(servers)
    for load in REPLAYED:
        replayed(programs, COMPARED // 20 if load == "ticks" else COMPARED, load)


def written(building, name):
    """The files of a building, as the desk and as the plain program read it."""
    toml, text = FOLDER / f"{name}.toml", FOLDER / f"{name}.txt"
    building.write(toml)
    text.write_text("\n".join(plain_lines(tomllib.loads(toml.read_text()))) + "\n")
    return toml, text


def of_forty(programs):
    """The two programs over the building whose schedules have forty targets each, once it has had its first tick."""
    files = written(FORTY, "forty-targets")
    programs = [dataclasses.replace(program, building=file) for program, file in zip(programs, files)]
    keep(programs, "forty", None, [tick(NEW_YEAR)])
    return programs


def main(words):
    FOLDER.mkdir(parents=True, exist_ok=True)
    toml, text = written(LARGEST, f"{LARGEST.points}-points")
    desk = pathlib.Path(words[0]).resolve() if words else ROOT / "build" / "desk"
    programs = [Program("desk", desk, toml), Program("plain", built_plain(), text)]
    check_same(programs)
    print("| Processor time, each | The desk | The C++ program | Ratio | Wanted | Met |\n|---|---|---|---|---|---|")
    show_served(programs, "ready", blocks)
    show_served(of_forty(programs), "forty", forty_blocks)
    show_starts(programs)
    show_served_imports(programs)
    show_whole_imports(programs)
    show_replays(programs)
    show_value_now(programs[1].path)
    if shutil.which("valgrind"):
        show_instructions(programs)


if __name__ == "__main__":
    main(sys.argv[1:])
