"""What `desk adopt` makes and prints of the tables of a database, by a plain reckoning that shares no code with the desk."""
import contextlib
import sqlite3

from helpers.random_databases import lies_in

# How many numbers below a panel's next one it may still repeat, and how many from there on it may use.
REMEMBERED, WINDOW = 1000, 64
SECTIONS = ("panel", "point", "schedule", "calendar")


def former(renamings, name):
    """The name that one of the building's has in the tables, or nothing."""
    for old, new in renamings:
        if new == name:
            return old
    return None if any(old == name for old, _ in renamings) else name


def read(database, statement):
    with contextlib.closing(sqlite3.connect(database)) as connection:
        return connection.execute(statement).fetchall()


def tables_in(database):
    """The tables, a row of which says nothing left out."""
    return {
        "next": {name: next for name, next in read(database, "SELECT name, next FROM panel") if next != 1},
        "command": sorted(read(database, "SELECT * FROM command")),
        "place": sorted(read(database, "SELECT point, priority, value FROM place WHERE value IS NOT NULL")),
        "shown": sorted(read(database, "SELECT schedule, value FROM shown")),
        "imported": sorted(read(database, "SELECT calendar, entry FROM imported")),
        "last": read(database, "SELECT last FROM desk")[0][0],
    }


def faults_of(building, point, priority, value):
    """Why a value may not stay in a place of a point of the building."""
    name = point["name"]
    schedules = [each for each in building.get("schedule", []) if each["priority"] == priority and name in each["targets"]]
    panels = [each for each in building.get("panel", []) if priority in each["priorities"] and name in each["points"]]
    if not schedules and not panels:
        yield f"point {name} {priority}: no schedule and no panel writes there"
    if not lies_in(point, value):
        yield f"point {name} {priority}: {value} is outside its kind"


def names_in(held):
    """The names that stand in the tables, by section."""
    return {
        "panel": sorted({*held["next"], *(row[0] for row in held["command"])}),
        "point": sorted({row[0] for row in held["place"]}),
        "schedule": sorted({row[0] for row in held["shown"]}),
        "calendar": sorted({row[0] for row in held["imported"]}),
    }


def counting(building, held, renamings, section):
    """Those of the renamings that count in a section: of what stands there in the tables, to what the building has there."""
    has, stand = {each["name"] for each in building.get(section, [])}, names_in(held)[section]
    return [(old, new) for old, new in renamings if old in stand and new in has]


def joined(building, held, renamings):
    """The first renaming by which two things that stand in a section of the tables would be one, or nothing."""
    for section in SECTIONS:
        counted = counting(building, held, renamings, section)
        for old, new in counted:
            if new in names_in(held)[section] and new not in [other for other, _ in counted]:
                return old, new
    return None


def notes_of(building, held, renamings):
    """The lines of what has another name, then of what stays behind, then of renamings that count nowhere."""
    names, left, unused = names_in(held), [], []
    for section in SECTIONS:
        counted = counting(building, held, renamings, section)
        for old in names[section]:
            item = next((each for each in building.get(section, []) if former(counted, each["name"]) == old), None)
            if item is None:
                left.append(f"left: {section} {old} is not in the building")
                continue
            if item["name"] != old:
                yield f"renamed: {section} {old} is {item['name']}"
            if section == "point":
                places = [(priority, value) for name, priority, value in held["place"] if name == old]
                left += [f"left: {fault}" for priority, value in places for fault in faults_of(building, item, priority, value)]
    for old, new in renamings:
        if not any((old, new) in counting(building, held, renamings, section) for section in SECTIONS):
            stands = any(old in names[section] for section in SECTIONS)
            why = f"{new} is in another section" if stands else f"{old} is not in the tables"
            unused.append(f"unused: {old}={new}: {why}")
    yield from [*left, *unused]


def refusal(building, held, renamings):
    """The line of a run that makes nothing, if it is one."""
    # the clock of UTC shows years to 2154
    if held["last"] is not None and held["last"] >= 583_804_800_000:
        return f"desk: last tick {held['last']}: the building's clock shows no time then"
    merged = joined(building, held, renamings)
    return f"desk: --rename {'='.join(merged)}: both are in the tables" if merged else None


def adopted(building, held, renamings):
    """The tables that are made."""
    def moved(section):
        counted = counting(building, held, renamings, section)
        return [(former(counted, each["name"]), each) for each in building.get(section, [])]

    made = {"next": {}, "command": [], "place": [], "shown": [], "imported": [], "last": held["last"]}
    for old, panel in moved("panel"):
        next = held["next"].get(old, 1)
        if next != 1:
            made["next"][panel["name"]] = next
        made["command"] += [(panel["name"], *row[1:]) for row in held["command"]
                            if row[0] == old and next - REMEMBERED <= row[1] < next + WINDOW]
    for old, point in moved("point"):
        made["place"] += [(point["name"], priority, value) for name, priority, value in held["place"]
                          if name == old and not list(faults_of(building, point, priority, value))]
    for old, calendar in moved("calendar"):
        made["imported"] += [(calendar["name"], entry) for name, entry in held["imported"] if name == old]
    return {table: sorted(rows) if isinstance(rows, list) else rows for table, rows in made.items()}


def holdings_of(made):
    names = names_in(made)
    counts = [len(names["panel"]), len(names["point"]), len(made["shown"]), len(made["imported"])]
    return "tables: {} panels, {} points with values, {} schedules shown, {} imported entries".format(*counts)
