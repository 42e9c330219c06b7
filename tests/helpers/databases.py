"""What the database of a folder holds, as SQLite's own library reads it, and what it has to hold after a list of
deliveries, by the plain slow program."""
import contextlib
import pathlib
import shutil
import sqlite3
import tempfile

from helpers.serving import TABLES
from helpers.trying import IN_MEMORY
from oracle.slow_desk import REMEMBERED, run_of, taken_along

NAME = "desk.db"
# The six tables as each version has them.
SCHEMA = """
CREATE TABLE desk (id INTEGER PRIMARY KEY CHECK (id = 1), version INTEGER NOT NULL, last INTEGER) STRICT;
CREATE TABLE panel (name TEXT PRIMARY KEY NOT NULL, next INTEGER NOT NULL CHECK (next >= 1)) STRICT;
CREATE TABLE command (panel TEXT NOT NULL, number INTEGER NOT NULL, point TEXT NOT NULL, priority INTEGER NOT NULL, value INTEGER, state INTEGER NOT NULL CHECK (state >= 0 AND state <= 2), a INTEGER, b INTEGER, PRIMARY KEY (panel, number)) STRICT;
CREATE TABLE place (point TEXT NOT NULL, priority INTEGER NOT NULL CHECK (priority >= 1 AND priority <= 16), value INTEGER NOT NULL, PRIMARY KEY (point, priority)) STRICT;
CREATE TABLE shown (schedule TEXT PRIMARY KEY NOT NULL, value INTEGER) STRICT;
CREATE TABLE imported (calendar TEXT NOT NULL, entry TEXT NOT NULL, PRIMARY KEY (calendar, entry)) STRICT;
"""


# ---- what the tables have to be


def state_of(number, front, answer):
    """The columns `state`, `a` and `b` of a command."""
    if number > front:
        return 0, None, None
    kind, *reported = answer
    return (1, *reported) if kind == "done" else (2, int(reported[0][1:]), None)


def command_rows(panel, taken, answers, remembered):
    front = taken.front()
    return [
        (panel, number, content.point, content.priority, content.value, *state_of(number, front, answers.get((panel, number))))
        for number, content in taken.keys.items()
        if remembered is None or number >= front - remembered
    ]


def tables_after(building, deliveries, version=2):
    """The six tables after a list of deliveries; those of version 1 keep the rows of each number."""
    state = run_of(building, deliveries)[1]
    taken = {panel.name: taken_along(building, deliveries, panel.name)[-1] for panel in building.panels}
    remembered = None if version == 1 else REMEMBERED
    rows = [row for name, each in taken.items() for row in command_rows(name, each, state.answers, remembered)]
    return {
        "desk": [(1, version, state.last)],
        "panel": sorted((name, each.front()) for name, each in taken.items() if each.front() > 1),
        "command": sorted(rows, key=lambda row: row[:2]),
        "place": sorted((point, priority, value) for (point, priority), value in state.places.items()),
        "shown": sorted((name, value) for name, (value,) in state.shown.items()),
        "imported": sorted(state.imported),
    }


# ---- what they are


def files_in(folder):
    """The files that make the database of a folder."""
    return [path for path in sorted(folder.glob(NAME + "*")) if not path.name.endswith("-shm")]


def held(folder):
    """The six tables of the database in a folder, whose files stay as they are; None where there is no table."""
    with tempfile.TemporaryDirectory(prefix="desk-look-", dir=IN_MEMORY) as room:
        for path in files_in(folder):
            shutil.copy(path, room)
        with contextlib.closing(sqlite3.connect(pathlib.Path(room) / NAME)) as connection:
            if connection.execute("PRAGMA integrity_check").fetchall() != [("ok",)]:
                raise AssertionError("the database is damaged")
            if connection.execute("SELECT count(*) FROM sqlite_schema").fetchone() == (0,):
                return None
            return {table: connection.execute(f"SELECT * FROM {table} ORDER BY 1, 2").fetchall() for table in TABLES}


def make(folder, tables, page_size=512):
    """Makes a database of these tables, by SQLite's own library."""
    with contextlib.closing(sqlite3.connect(folder / NAME)) as connection, connection:
        connection.execute(f"PRAGMA page_size = {page_size}")
        connection.executescript(SCHEMA)
        for table in TABLES:
            for row in tables[table]:
                connection.execute(f"INSERT INTO {table} VALUES ({', '.join('?' * len(row))})", row)


def keep(folder, to):
    """Copies the files of a folder's database."""
    to.mkdir()
    for path in files_in(folder):
        shutil.copy(path, to)


def put_back(kept, folder):
    """Has a folder hold the files that were kept, and no other of a database."""
    for path in folder.glob(NAME + "*"):
        path.unlink()
    for path in files_in(kept):
        shutil.copy(path, folder)
