"""Tries the program: the cases, lines and words that are refused, and what two documents show.

A case is a file of tests/cases, named for what it shows: a transcript, and the files that it reads, each after a line
`-- NAME --`, building.toml among them (without one, the worked building). The transcript is commands that are run one after
the other, each after `$ `, and under it what is wanted. Words before the first command say how that was worked out. A command
is `desk` with its words, `sql` with a database and a statement, which the C library of SQLite runs; its rows are shown with
`|` between the columns; or `cat` with a file, which is shown as it is. Of a `desk`, a line `desk: ..` is wanted on the
standard error, a last line `status N` is the status (without it, 0), and where a fault is reported that ends the run each
file has to be as it was before.
"""
import contextlib
import re
import sqlite3
import subprocess

from helpers import cases, tables
from helpers.trying import ROOT, expect_none, named

# The header of a log and that of a frame.
LEAST_LOG = 32 + 24
ON_DISK = True
COMMAND = b'{"number":1,"panel":"P1","point":"R101-SET","priority":8,"value":2150}\n'
DONE = b'{"answer":"done","number":1,"present":2150,"priority":8}\n'
SECONDS = 60


def run(program, words, folder):
    return subprocess.run([program, *words], cwd=folder, capture_output=True, timeout=SECONDS)


def difference(ran, status, stdout, stderr):
    """What differs from what is wanted, or nothing."""
    found = {"status": ran.returncode, "stdout": ran.stdout, "stderr": ran.stderr}
    wanted = {"status": status, "stdout": stdout, "stderr": stderr}
    return "; ".join(f"{key} {found[key]!r}, wanted {wanted[key]!r}" for key in found if found[key] != wanted[key])


def files_of(room):
    """What each file of the folder holds, but for empty ones and logs of a database that hold no frame."""
    held = {path.name: path.read_bytes() for path in room.iterdir() if path.is_file()}
    return {name: content for name, content in held.items() if len(content) >= (LEAST_LOG if name.endswith("-wal") else 1)}


def rows_of(database, statement):
    """Runs a statement, and shows its rows."""
    with contextlib.closing(sqlite3.connect(database, isolation_level=None)) as connection:
        rows = connection.execute(statement).fetchall()
    return "".join("|".join("NULL" if cell is None else str(cell) for cell in row) + "\n" for row in rows)


def desk_differs(program, words, shown, room):
    """What differs from what a transcript shows of a run of the desk, or nothing."""
    lines = shown.splitlines(keepends=True)
    status = int(lines.pop().split()[1]) if lines and lines[-1].startswith("status ") else 0
    reported = "".join(line for line in lines if line.startswith("desk: "))
    printed = "".join(line for line in lines if not line.startswith("desk: "))
    before = files_of(room)
    found = difference(run(program, words, room), status, printed.encode(), reported.encode())
    changed = status and reported and files_of(room) != before
    return found or ("a file was changed though a fault was reported" if changed else "")


def try_case(program, case, room):
    """Runs the commands of a case's transcript, to the first that differs."""
    (room / "building.toml").write_text(case.building())
    for name, content in case.files.items():
        (room / name).write_bytes(content)
    for command, (name, *words), shown in case.commands():
        if name in ("sql", "cat"):
            found = rows_of(room / words[0], words[1]) if name == "sql" else (room / words[0]).read_text()
            wrong = "" if found == shown else f"found {found!r}, wanted {shown!r}"
        else:
            wrong = desk_differs(program, words, shown, room)
        if wrong:
            return f"{command}: {wrong}"
    return ""


def try_line(program, line, room):
    (room / "building.toml").write_text(tables.WORKED)
    (room / "list.jsonl").write_bytes(COMMAND + line + b"\n" + COMMAND)
    names = ("replay", "straighten", "overrides")
    replayed, straight, overridden = (run(program, [name, "building.toml", "list.jsonl"], room) for name in names)
    reported = b"desk: line 2 is not a delivery\n"
    wrong = difference(replayed, 1, DONE, reported) or difference(straight, 1, b"", reported)
    return wrong or difference(overridden, 1, b"", reported)


def try_words(program, words, part, room):
    ran = run(program, words, room)
    if part.encode() not in ran.stderr:
        return f"stderr {ran.stderr!r} has no {part!r}"
    return difference(ran, 2, b"", ran.stderr)


def first_run_of_the_document(program, room):
    """The first run that docs/FIRST_STEPS.md shows is what a reader gets."""
    text = (ROOT / "docs" / "FIRST_STEPS.md").read_text()
    building, deliveries, shown = re.findall(r"^```\w*\n(.*?)^```$", text, re.S | re.M)[:3]
    (room / "building.toml").write_text(building)
    (room / "day.jsonl").write_text(deliveries)
    command, printed = shown.split("\n", 1)
    return difference(run(program, command.split()[2:], room), 0, printed.encode(), b"")


def straightened_day_of_the_document(program, room):
    """The day that docs/RECORDS.md shows before and after it is straightened is what a reader gets, also replayed."""
    text = (ROOT / "docs" / "RECORDS.md").read_text()
    section = text[text.index("## Straightening a list\n") : text.index("## The record\n")]
    day, straight, replayed = re.findall(r"^```\n(.*?)^```$", section, re.S | re.M)
    (room / "examples").mkdir()
    (room / "examples" / "building.toml").write_text(tables.WORKED)
    (room / "monday.jsonl").write_text(day)
    command, printed = straight.split("\n", 1)
    (room / "straight.jsonl").write_text(printed)
    again, command_after, replies = replayed.split("\n", 2)
    wrong = "" if again == f"{command} > straight.jsonl" else f"{again!r} makes no straight.jsonl"
    for words, wanted in ((command, printed), (command_after, replies)):
        wrong = wrong or difference(run(program, words.split()[2:], room), 0, wanted.encode(), b"")
    points = [line for line in replies.splitlines() if line.startswith("POINT ")]
    before = run(program, ["replay", "examples/building.toml", "monday.jsonl"], room).stdout.decode().splitlines()
    return wrong or ("" if before[-len(points):] == points else f"the day leaves {before!r}, wanted {points!r}")


def overrides_of_the_document(program, room):
    """The overrides that docs/RECORDS.md shows are those of the record that it shows."""
    text = (ROOT / "docs" / "RECORDS.md").read_text()
    shown, = re.findall(r"^```\n(\$ desk overrides .*?)^```$", text, re.S | re.M)
    record, = re.findall(r"As `record.jsonl`:\n\n```\n(.*?)^```$", text, re.S | re.M)
    (room / "examples").mkdir()
    (room / "examples" / "building.toml").write_text(tables.WORKED)
    (room / "record.jsonl").write_text(record)
    command, printed = shown.split("\n", 1)
    return difference(run(program, command.split()[2:], room), 0, printed.encode(), b"")


def tried(name, look, *what):
    """The test that looks, with this, whether something is wrong."""
    return named(name, lambda program, folder: expect_none(look(program, *what, folder)))


TESTS = [
    *(tried(case.name, try_case, case) for case in cases.all_cases()),
    *(tried(f"line refused: {line!r}", try_line, line) for line in tables.LINES_REFUSED),
    *(tried(f"words refused: {words!r}, {part!r}", try_words, words, part) for words, part in tables.WORDS_REFUSED),
    tried("the first run of docs/FIRST_STEPS.md", first_run_of_the_document),
    tried("the straightened day of docs/RECORDS.md", straightened_day_of_the_document),
    tried("the overrides of docs/RECORDS.md", overrides_of_the_document),
]
