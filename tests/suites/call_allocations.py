"""Refuses requests for memory of single calls: the plans of a command and of a skip, the segments of a day, a straightening,
a run of a list and a point over both stores, and over the database with what a run remembers; and over tables in memory 63
commands that wait with the skip that frees them, and the worked request as it is read, served and served again.

`helpers/refused_calls/main.rattle` makes one again and again. It is compiled once in a copy of the repository, by the kit's `rt try
--fail-alloc`, which refuses one request of a number; with one more request before the calls it is the one before of a call.
Every answer is the unrefused one or the want of memory, what a store holds is what it held before what was not answered,
and the calls after it answer. What is wanted comes from the plain slow program, or was worked by hand.
In a sweep each request of a call is refused, else some.
"""
import functools
import pathlib
import re
import shutil
import subprocess
import tempfile

from helpers import trying
from helpers.trying import ROOT, Missing, named
from helpers.worked import BUILDING, HOLIDAY, OTHER, SKIPPED, TICKS, WAITING, command
from oracle.slow_desk import Skip, present, run_of, straightened

NAME = "refused_calls"
LIBRARIES = ("building", "dates", "deliveries", "delivery_json", "desk", "desk_record", "desk_straighten", "json",
             "panel_http", "points", "sched", "sqlite", "store", "store_cache", "store_memory", "store_sql", "window")
# The number of the request that is refused, as the program has it.
REFUSED = 12_000
# At most so many requests a call makes, with what is looked at between two; and each of which is refused but in a sweep.
REQUESTS = {"plan_command": (2, 1), "plan_skip": (2, 1), "segments": (6, 2), "straighten": (100, 20), "run-memory": (300, 30), "run-parked": (600, 60), "request": (200, 10),
            "run-database": (6_000, 750), "run-remembered": (5_000, 625), "point-memory": (1, 1), "point-database": (24, 8),
            "point-remembered": (1, 1)}
# What needs no memory: a point that is remembered is asked for once before.
WITHOUT = {"point-memory", "point-remembered"}
# The commands behind the first three set a place again whose row's number is known, or was noted before a refusal.
LIST = (*SKIPPED, *TICKS, HOLIDAY, *(command("P1", number, "R101-SET", 8, 1500 + 100 * number) for number in (7, 6, 5, 8, 9, 10)), OTHER)
NO_MEMORY = {"no memory", "fault S1"}
PARKED = (*WAITING, Skip("P1", 2))
# What a request gets: the answer; or, where memory was refused, that, or nothing after it was acted on.
DONE = '200 {"answer":"done","number":1,"present":2150,"priority":8}'
NOT_SERVED = {'503 {"answer":"no_memory"}', "no reply"}


def copy_of_the_crates(to):
    """A copy of what the program of the trials stands on, with the program."""
    shutil.copytree(ROOT / "crates", to / "crates", ignore=shutil.ignore_patterns("out", "must-fail", "wrong-bodies.edit"))
    shutil.copy2(ROOT / "HANDLES", to / "HANDLES")
    lines = (ROOT / "crates.txt").read_text() + f"{NAME}: {' '.join(LIBRARIES)}\n"
    (to / "crates.txt").write_text(lines)
    crate = to / "crates" / NAME
    (crate / "src").mkdir(parents=True)
    shutil.copy2(ROOT / "tests" / "helpers" / NAME / "main.rattle", crate / "src" / "main.rt")
    return crate


def write_cases(folder):
    """A file for each call and each number of requests before it; its words stand beside it."""
    folder.mkdir()
    for call, (most, each) in REQUESTS.items():
        for earlier in range(0, most, 1 if trying.SWEEP else each):
            name = f"{call}+{earlier:06}"
            (folder / name).write_bytes(b"")
            (folder / f"{name}.args").write_text(f"{call}\n{earlier}\n")


def reported_by(crate, cases):
    """What each case printed, or a text that tells why none did."""
    words = ["rt", "try", "--fail-alloc", str(REFUSED), "--cases", str(cases)]
    ran = subprocess.run(words, cwd=crate, capture_output=True, text=True)
    blocks = re.split(r"^== (.*)\n", ran.stdout, flags=re.M)[1:]
    return dict(zip(blocks[::2], blocks[1::2])) or f"nothing was tried: {(ran.stdout + ran.stderr)[-3000:]}"


@functools.lru_cache(maxsize=None)
def all_reported():
    """What each case printed, of a program that is compiled once; or a text that tells why none did."""
    if not shutil.which("rt"):
        raise Missing("rt")
    print("compiling the calls that are refused memory, some two minutes", flush=True)
    with tempfile.TemporaryDirectory(prefix="desk-calls-") as room:
        folder = pathlib.Path(room)
        write_cases(folder / "cases")
        return reported_by(copy_of_the_crates(folder / "copy"), folder / "cases")


# ---- what is wanted

PLANNED = {"plan_command": ["applies next 4: 1 2 3"], "plan_skip": ["skip done next 5: 2 4"],
           "segments": ["0=Some(1500) 2880000=Some(1700) 4320000=Some(1500) 4680000=Some(1400)"]}


def wanted_of(call):
    """What a call prints with memory, line for line."""
    if call in PLANNED:
        return PLANNED[call]
    if call == "request":
        return [DONE, DONE]
    if call == "run-parked":
        return [*run_of(BUILDING, PARKED)[0], "same"]
    if call == "straighten":
        return straightened(BUILDING, LIST).splitlines()
    replies, state = run_of(BUILDING, LIST)
    if call.startswith("run-"):
        return [*replies, "same"]
    value, priority = present(BUILDING, state.places, "R101-SET")
    return [f"{value} {priority} {some(state.places.get(('R101-SET', 15)))}"]


def some(value):
    return "None" if value is None else f"Some({value})"


def is_missed(call, lines):
    """Whether the lines of one call tell the want of memory as they should: alone, or in its place."""
    if call == "request":
        return len(lines) == 2 and DONE in lines and not NOT_SERVED.isdisjoint(lines)
    if not call.startswith("run-"):
        return lines in ([each] for each in NO_MEMORY)
    return lines.count("fault S1") == 1 and [line for line in lines if line != "fault S1"] == wanted_of(call)


# ---- what came of it


def judged(call, text):
    """What came of the refused request: the want of memory, or nothing that shows."""
    wanted, lines = wanted_of(call), [line.rstrip() for line in text.splitlines()]
    usual, rest = lines[:len(wanted)], lines[len(wanted):]
    if usual == wanted and rest in ([], ["between"]):
        return "no call missed it"
    if usual == wanted and rest[0] == "once" and is_missed(call, rest[1:]):
        return "the want of memory was reported"
    if usual == wanted and rest == ["not met"] and call in WITHOUT:
        return "it needs no memory"
    raise AssertionError(f"{lines!r}, wanted {wanted!r}")


def of_call(call):
    """The test of what a call printed with each request refused in turn."""
    def test(program, folder):
        reported, ends = all_reported(), {}
        if isinstance(reported, str):
            raise AssertionError(reported)
        for name in sorted(name for name in reported if name.startswith(f"{call}+")):
            try:
                end = judged(call, reported[name])
            except AssertionError as error:
                raise AssertionError(f"{name}: {error}") from error
            ends[end] = ends.get(end, 0) + 1
        if "the want of memory was reported" not in ends and call not in WITHOUT:
            raise AssertionError(f"{call}: {ends}")
        print(f"{call}: " + ", ".join(f"{end} {count} times" for end, count in sorted(ends.items())), flush=True)
    return named(call, test)


TESTS = [of_call(call) for call in REQUESTS]
