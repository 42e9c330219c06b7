"""Holiday lists: those that are read, by the rows that stand in the database, and those at fault, by what is reported.

Each test takes the path of the program and a folder of its own, and raises where it finds something else. What is
wanted follows from docs/RECORDS.md.
"""
import contextlib
import json
import sqlite3
import subprocess

from helpers.serving import SECONDS
from helpers.tables import ENTRIES
from helpers.trying import expect

ON_DISK = True
BUILDING = 'zone = "UTC0"\n[[calendar]]\nname = "HOLIDAYS"\nentries = []\n[[calendar]]\nname = "BREAKS"\nentries = []\n'
HEADER = b"calendar,entry\n"
ROW = b"BREAKS,*-*-*\n"

# A list, and the fault of the first record at fault.
FAULTS = [
    (b"", "I2", 1),
    (b"\n\n", "I2", 1),
    (b"\xef\xbb\xbf", "I2", 1),
    (b"calendar;entry", "I2", 1),
    (b"calendar, entry\n", "I2", 1),
    (b"Calendar,entry\n", "I2", 1),
    (b"entry,calendar\n", "I2", 1),
    (b"calendar,entry,more\n", "I2", 1),
    (b"HOLIDAYS,2025-06-02\n", "I2", 1),
    (b"calendar,entry,\xff\n", "I1", 1),
    (HEADER + b"HOLIDAYS,2025-06-02,x\n", "I1", 2),
    (HEADER + b"HOLIDAYS\nNOSUCH,x", "I1", 2),
    (HEADER + b"HOLIDAYS,\xff\n", "I1", 2),
    (HEADER + b"\nHOLIDAYS,*-*-*\nNOSUCH,*-*-*\n", "I3", 3),
    (HEADER + b"NO NAME,2025-13-01\n", "I3", 2),
    (HEADER + b" HOLIDAYS,2025-06-02\n", "I3", 2),
    (HEADER + b"HOLIDAYS,2025-13-01\nNOSUCH,x", "I4", 2),
    (HEADER + b"HOLIDAYS, 2025-06-02\n", "I4", 2),
    (HEADER + b"HOLIDAYS,\n", "I4", 2),
    (HEADER + ROW * 2_001, "I5", 2002),
    (HEADER + ROW * 2_000 + b"NOSUCH,x", "I5", 2002),
    (HEADER + ROW * 2_000 + b"BREAKS", "I1", 2002),
    (HEADER + ROW * 1_999 + b"NOSUCH,x", "I3", 2001),
]

# A list, and its rows without those that stand there before.
READ = [
    (HEADER + b"HOLIDAYS,2025-06-02\n", [("HOLIDAYS", "2025-06-02")]),
    (b"calendar,entry", []),
    (HEADER + b"\n\n", []),
    (
        b'\xef\xbb\xbf"calendar",entry\r\n\r\nBREAKS,"2025-12-24..*"\rHOLIDAYS,wnd:*:6:fri',
        [("BREAKS", "2025-12-24..*"), ("HOLIDAYS", "wnd:*:6:fri")],
    ),
    (HEADER + b"BREAKS,*..*\nHOLIDAYS,*..*\nBREAKS,*..*\n", [("BREAKS", "*..*"), ("HOLIDAYS", "*..*")]),
    (HEADER + ROW * 2_000, [("BREAKS", "*-*-*")]),
    (HEADER + b"".join(f"HOLIDAYS,{entry}\n".encode() for entry in ENTRIES), [("HOLIDAYS", entry) for entry in ENTRIES]),
    (HEADER + b"".join(f"BREAKS,{year}-{month:02}-{day:02}\n".encode() for year in range(2025, 2031) for month in range(1, 13) for day in range(1, 28))[:-1],
     [("BREAKS", f"{year}-{month:02}-{day:02}") for year in range(2025, 2031) for month in range(1, 13) for day in range(1, 28)]),
]


def reported_of(program, folder, listed):
    """The status and the texts of the import of a list into a database that is new."""
    (folder / "building.toml").write_text(BUILDING)
    (folder / "list.csv").write_bytes(listed)
    for name in ("desk.db", "desk.db-wal", "desk.db-shm"):
        (folder / name).unlink(missing_ok=True)
    words = [program, "import", "building.toml", "desk.db", "list.csv"]
    ran = subprocess.run(words, cwd=folder, capture_output=True, text=True, timeout=SECONDS)
    return ran.returncode, ran.stdout, ran.stderr


def lists_at_fault_are_reported(program, folder):
    for listed, fault, record in FAULTS:
        expect((listed[:90], reported_of(program, folder, listed)), (listed[:90], (1, "", f"desk: {fault} record {record}\n")))
        expect((listed[:90], (folder / "desk.db").exists()), (listed[:90], False))


def lists_are_read(program, folder):
    """The rows that the C library of SQLite finds are those of the list, each as it was written there."""
    for listed, rows in READ:
        records = len([record for record in listed.replace(b"\r", b"\n").split(b"\n") if record]) - 1
        reported = f'{{"added":{len(rows)},"answer":"import","known":{records - len(rows)},"writes":0}}\n'
        expect((listed[:90], reported_of(program, folder, listed)), (listed[:90], (0, reported, "")))
        with contextlib.closing(sqlite3.connect(folder / "desk.db")) as connection:
            expect(connection.execute("SELECT * FROM imported ORDER BY 1, 2").fetchall(), sorted(rows))


def a_replay_tells_the_same_of_lists(program, folder):
    """Each list that is UTF-8 as a line of deliveries, over tables in memory."""
    replies, lines, known = [], [], set()
    for listed, fault, record in FAULTS:
        with contextlib.suppress(UnicodeDecodeError):
            lines.append({"import": listed.decode()})
            replies.append(f'{{"answer":"import_refused","fault":"{fault}","record":{record}}}')
    for listed, rows in READ:
        records = len([record for record in listed.replace(b"\r", b"\n").split(b"\n") if record]) - 1
        added = len(set(rows) - known)
        known |= set(rows)
        lines.append({"import": listed.decode()})
        replies.append(f'{{"added":{added},"answer":"import","known":{records - added},"writes":0}}')
    (folder / "building.toml").write_text(BUILDING)
    (folder / "list.jsonl").write_text("".join(json.dumps(line) + "\n" for line in lines))
    words = [program, "replay", "building.toml", "list.jsonl"]
    ran = subprocess.run(words, cwd=folder, capture_output=True, text=True, timeout=SECONDS)
    expect((ran.returncode, ran.stdout.splitlines(), ran.stderr), (0, replies, ""))


def a_straightening_has_the_rows_that_lists_added(program, folder):
    """Of the same lines: nothing of a list at fault, and of another one the rows that no list before it has."""
    lines, wanted, known = [], [], []
    for listed, *_ in FAULTS:
        with contextlib.suppress(UnicodeDecodeError):
            lines.append({"import": listed.decode()})
    for listed, rows in READ:
        lines.append({"import": listed.decode()})
        added = [row for row in rows if row not in known]
        known += added
        if added:
            wanted.append({"import": "".join(f"{name},{entry}\n" for name, entry in [("calendar", "entry"), *added])})
    (folder / "building.toml").write_text(BUILDING)
    (folder / "list.jsonl").write_text("".join(json.dumps(line) + "\n" for line in lines))
    words = [program, "straighten", "building.toml", "list.jsonl"]
    ran = subprocess.run(words, cwd=folder, capture_output=True, text=True, timeout=SECONDS)
    printed = "".join(json.dumps(line, separators=(",", ":")) + "\n" for line in wanted)
    expect((ran.returncode, ran.stdout, ran.stderr), (0, printed, ""))


TESTS = [
    lists_at_fault_are_reported,
    lists_are_read,
    a_replay_tells_the_same_of_lists,
    a_straightening_has_the_rows_that_lists_added,
]
