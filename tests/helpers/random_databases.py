"""Random buildings and random rows of tables for them, and what the files of a folder hold."""
import contextlib
import sqlite3

# The header of a log and that of a frame.
LEAST_LOG = 32 + 24
POINTS = ["AHU-MODE", "LIGHT", "R101", "R101-SET", "r101.a", "STAIR_2"]
PANELS = ["P1", "P10", "P2", "p1"]
SCHEDULES = ["DAY", "NIGHT", "X-9"]
CALENDARS = ["FEASTS", "HOLIDAYS"]
KINDS = ['kind = "binary"', 'kind = "multi"\nstates = 2', 'kind = "multi"\nstates = 3', 'kind = "analog"\nlow = -5\nhigh = 9']
PRIORITIES = [1, 2, 3, 5, 8, 10, 15, 16]


def quoted(names):
    return "[" + ", ".join(f'"{name}"' for name in names) + "]"


def some_of(rng, names):
    return [name for name in names if rng.random() < 0.8]


def some_building(rng):
    """The text of a building of some of the names, each section in an order of its own."""
    points = rng.sample(POINTS, rng.randint(1, len(POINTS)))
    parts = ['zone = "UTC0"']
    parts += [f'[[point]]\nname = "{name}"\n{rng.choice(KINDS)}\ndefault = 1' for name in points]
    for name in rng.sample(PANELS, rng.randint(0, len(PANELS))):
        granted = rng.sample(PRIORITIES, rng.randint(0, 5))
        parts.append(f'[[panel]]\nname = "{name}"\npoints = {quoted(some_of(rng, points))}\npriorities = {granted}')
    for name in rng.sample(CALENDARS, rng.randint(0, len(CALENDARS))):
        parts.append(f'[[calendar]]\nname = "{name}"\nentries = []')
    for name in rng.sample(SCHEDULES, rng.randint(0, len(SCHEDULES))):
        targets = rng.sample(points, rng.randint(0, len(points)))
        parts.append(f'[[schedule]]\nname = "{name}"\npriority = {rng.choice(PRIORITIES)}\ntargets = {quoted(targets)}')
    return "\n".join(parts) + "\n"


def rows_of(rng):
    """Rows for each table; in half of the databases of few names, so that many suit a building."""
    few = rng.random() < 0.5
    share = 0.25 if few else 0.7
    places = [
        (point, priority, rng.choice([-6, -5, 0, 1, 2, 3, 9, 10]) if not few else 1)
        for point in POINTS for priority in range(1, 17) if rng.random() < share / 8
    ]
    return {
        "panel": [(name, rng.choice([1, 2, 70])) for name in PANELS if rng.random() < share],
        "command": [(name, 1, "GONE", 8, 1, 1, 1, 8) for name in PANELS if rng.random() < share / 3],
        "place": places,
        "shown": [(name, rng.choice([None, 0, 7])) for name in SCHEDULES if rng.random() < share],
        "imported": [(name, f"2025-06-0{day}") for name in CALENDARS for day in range(1, 6) if rng.random() < share / 2],
        "last": rng.choice([None, 0, 174884400000, 583_800_000_000, 600_000_000_000]),
    }


def fill(database, rows):
    with contextlib.closing(sqlite3.connect(database)) as connection:
        for table in ("panel", "command", "place", "shown", "imported"):
            for row in rows[table]:
                connection.execute(f"INSERT INTO {table} VALUES ({', '.join('?' * len(row))})", row)
        connection.execute("UPDATE desk SET last = ?", (rows["last"],))
        connection.commit()


def lies_in(point, value):
    low, high = {"binary": (0, 1), "multi": (1, point.get("states")), "analog": (point.get("low"), point.get("high"))}[point["kind"]]
    return low <= value <= high


def content_of(folder):
    """What each file holds, but for a log that has no frame, as one that is made beside a database."""
    held = {path.name: path.read_bytes() for path in folder.iterdir()}
    return {name: content for name, content in held.items() if not name.endswith("-wal") or len(content) >= LEAST_LOG}
