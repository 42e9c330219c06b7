"""The reading of a building file, plain and slow, by the tables of docs/BUILDING_FILE.md: it stops at the first fault.

It shares no code with the desk; the text is read by Python's own library of TOML.
"""
import datetime
import re
import tomllib

from oracle.slow_schedules import WEEKDAYS

DAYS = ["Monday", "Tuesday", "Wednesday", "Thursday", "Friday", "Saturday", "Sunday"]
MOST_QUOTED = 60


class Found(Exception):
    """A fault: its line, and what is said of the item before the colon."""

    def __init__(self, line, item):
        super().__init__(line)
        self.line, self.item = line, item


def quoted(text):
    """A text as it is quoted: escaped, and cut where it is very long."""
    escapes = {'"': '\\"', "\\": "\\\\", "\n": "\\n", "\r": "\\r", "\t": "\\t"}

    def shown(character):
        is_control = ord(character) < 32 or 127 <= ord(character) < 160
        return escapes.get(character, f"\\u{{{ord(character):x}}}" if is_control else character)

    return '"' + "".join(map(shown, text[:MOST_QUOTED])) + '"' + (".." if len(text) > MOST_QUOTED else "")


def value_text(value):
    if isinstance(value, bool):
        return str(value).lower()
    if isinstance(value, (datetime.date, datetime.time, datetime.datetime)):
        return value.isoformat()
    return {str: quoted, list: lambda _: "(a list)", dict: lambda _: "(a table)"}.get(type(value), repr)(value)


def key_text(key):
    return key if re.fullmatch("[A-Za-z0-9_-]+", key) else quoted(key)


class Table:
    """A table of the file, and where it stands."""

    def __init__(self, section, place, table, exception=None):
        self.section, self.place, self.table = section, place, table
        self.exception = exception

    def fault(self, cause, key, item):
        reported = key if self.exception is None or key == "?" else "exception"
        prefix = "" if self.exception is None else f"exception[{self.exception}]."
        raise Found(f"{cause} {self.section} {self.place} {reported}", prefix + item)

    def has_only(self, known):
        for key in sorted(self.table, key=str.encode):
            if key not in known.split():
                self.fault("B2", "?", key_text(key))

    def has_none(self, keys):
        for key in keys.split():
            if key in self.table:
                self.fault("B2", "?", key)

    def value(self, key, wanted):
        if key not in self.table:
            self.fault("B3", key, f"{key} is missing")
        return self.typed(key, key, self.table[key], wanted)

    def typed(self, key, path, value, wanted):
        if type(value) is not wanted:
            self.fault("B4", key, f"{path} {value_text(value)}")
        return value

    def items(self, key, path, value, most, wanted="items"):
        listed = self.typed(key, path, value, list)
        if len(listed) > most:
            self.fault("B13", key, f"{path} has {len(listed)} {wanted}")
        return listed

    def tables(self, key, most):
        listed = self.items(key, key, self.table.get(key, []), most, "tables")
        return [self.typed(key, f"{key}[{at}]", item, dict) for at, item in enumerate(listed, 1)]


def number_faults(text, limits):
    return not (re.fullmatch(r"[0-9]{%d}" % len(str(limits[1])), text) and limits[0] <= int(text) <= limits[1])


def date_fault(text):
    parts = text.split("-")
    if len(parts) != 3:
        return "E1"
    year, month, day = parts
    if year != "*" and number_faults(year, (1900, 2154)):
        return "E2"
    if month not in ("odd", "even", "*") and number_faults(month, (1, 12)):
        return "E3"
    return "E4" if day not in ("last", "odd", "even", "*") and number_faults(day, (1, 31)) else None


def end_fault(text):
    if text == "*":
        return None
    fault = "E1" if "/" in text else date_fault(text)
    if fault is None and not re.fullmatch("[0-9-]*", text):
        fault = "E7"
    if fault is None:
        try:
            datetime.date.fromisoformat(text)
        except ValueError:
            fault = "E4"
    return fault


def entry_fault(text):
    if text.startswith("wnd:"):
        parts = text[4:].split(":")
        if len(parts) != 3:
            return "E1"
        month, week, weekday = parts
        if month not in ("odd", "even", "*") and number_faults(month, (1, 12)):
            return "E3"
        if not re.fullmatch(r"[1-9]|\*", week):
            return "E6"
        return None if weekday in [*WEEKDAYS, "*"] else "E5"
    if ".." in text:
        start, end = text.split("..", 1)
        return end_fault(start) or end_fault(end)
    date, slash, weekday = text.partition("/")
    return date_fault(date) or ("E5" if slash and weekday not in WEEKDAYS else None)


class Reading:
    """The building that was read so far."""

    def __init__(self):
        self.kinds, self.names = {}, {"point": [], "panel": [], "calendar": [], "schedule": []}

    def file(self, tree):
        top = Table("top", 0, tree)
        top.has_only("zone point panel calendar schedule")
        zone = top.value("zone", str)
        if not re.fullmatch("[A-Za-z]{3,15}-?[0-9].*", zone):
            top.fault("B12", "zone", f"zone {quoted(zone)}")
        limits = {"point": 1000, "panel": 200, "calendar": 100, "schedule": 500}
        tables = {section: top.tables(section, most) for section, most in limits.items()}
        for section, read in [("point", self.point), ("panel", self.panel), ("calendar", self.calendar), ("schedule", self.schedule)]:
            for place, table in enumerate(tables[section], 1):
                read(Table(section, place, table))

    def named(self, table, known):
        table.has_only("name " + known)
        name = table.value("name", str)
        if not re.fullmatch("[A-Za-z0-9_.-]{1,32}", name):
            table.fault("B5", "name", f"name {quoted(name)}")
        if name in self.names[table.section]:
            table.fault("B6", "name", f"name {quoted(name)}")
        self.names[table.section].append(name)
        return name

    def point(self, table):
        name = self.named(table, "kind states low high default")
        kind = table.value("kind", str)
        if kind == "binary":
            table.has_none("states low high")
            low, high = 0, 1
        elif kind == "multi":
            low, high = 1, self.within(table, "states", 1, 1000)
            table.has_none("low high")
        elif kind == "analog":
            table.has_none("states")
            low, high = (self.within(table, key, -(10**9), 10**9) for key in ("low", "high"))
        else:
            table.fault("B4", "kind", f"kind {quoted(kind)}")
        if low > high:
            table.fault("B11", "high", f"high {high}")
        self.kinds[name] = low, high
        default = table.value("default", int)
        if not low <= default <= high:
            table.fault("B11", "default", f"default {default}")

    def within(self, table, key, least, most):
        number = table.value(key, int)
        if not least <= number <= most:
            table.fault("B13", key, f"{key} {number}")
        return number

    def references(self, table, key, most):
        listed = table.items(key, key, table.value(key, list), most)
        for at, item in enumerate(listed, 1):
            path = f"{key}[{at}] "
            table.typed(key, path.rstrip(), item, str)
            if item not in self.kinds:
                table.fault("B7", key, path + quoted(item))
            if item in listed[: at - 1]:
                table.fault("B6", key, path + quoted(item))
        return listed

    def priority(self, table, key, path, value, refused=()):
        number = table.typed(key, path, value, int)
        if not 1 <= number <= 16 or number in refused:
            table.fault("B10", key, f"{path} {number}")

    def panel(self, table):
        self.named(table, "points priorities")
        self.references(table, "points", 10**9)
        for at, number in enumerate(table.value("priorities", list), 1):
            self.priority(table, "priorities", f"priorities[{at}]", number, (6,))

    def entry(self, table, key, path, value):
        fault = entry_fault(table.typed(key, path, value, str))
        if fault:
            table.fault(f"B8 {fault}", key, f"{path} {quoted(value)}")

    def calendar(self, table):
        self.named(table, "entries")
        for at, entry in enumerate(table.items("entries", "entries", table.value("entries", list), 1000), 1):
            self.entry(table, "entries", f"entries[{at}]", entry)

    def times(self, table, key, path, value, kinds, day=""):
        for at, item in enumerate(table.items(key, path + day, value, 100), 1):
            where = f"{path}[{at}]{day}"
            text = table.typed(key, where, item, str)
            if not re.fullmatch(r"([01][0-9]|2[0-3]):[0-5][0-9](:[0-5][0-9](\.[0-9]{2})?)?=(NULL|-?[0-9]{1,11})", text):
                table.fault("B9", key, f"{where} {quoted(text)}")
            number = text.partition("=")[2]
            if number != "NULL" and any(not low <= int(number) <= high for low, high in kinds):
                table.fault("B11", key, f"{where} {quoted(text)}")

    def schedule(self, table):
        self.named(table, "period priority targets default weekly exception on_leave")
        if "period" in table.table:
            period = table.value("period", str)
            fault = entry_fault(period) or (None if ".." in period else "E1")
            if fault:
                table.fault(f"B8 {fault}", "period", f"period {quoted(period)}")
        self.priority(table, "priority", "priority", table.value("priority", int), (6,))
        kinds = [self.kinds[name] for name in self.references(table, "targets", 100)]
        if "default" in table.table:
            default = table.value("default", int)
            if any(not low <= default <= high for low, high in kinds):
                table.fault("B11", "default", f"default {default}")
        if "weekly" in table.table:
            week = table.value("weekly", list)
            if len(week) != 7:
                table.fault("B4", "weekly", f"weekly has {len(week)} items")
            for at, day in enumerate(week, 1):
                self.times(table, "weekly", f"weekly[{at}]", day, kinds, f" ({DAYS[at - 1]})")
        for at, exception in enumerate(table.tables("exception", 100), 1):
            self.exception(Table("schedule", table.place, exception, at), kinds)
        if "on_leave" in table.table and table.value("on_leave", str) not in ("stay", "release"):
            table.fault("B4", "on_leave", f"on_leave {quoted(table.table['on_leave'])}")

    def exception(self, table, kinds):
        table.has_only("priority entry calendar times")
        self.priority(table, "priority", "priority", table.value("priority", int))
        if "calendar" not in table.table:
            self.entry(table, "entry", "entry", table.value("entry", str))
        elif "entry" in table.table:
            table.fault("B2", "?", "calendar")
        elif table.value("calendar", str) not in self.names["calendar"]:
            table.fault("B7", "calendar", f"calendar {quoted(table.table['calendar'])}")
        self.times(table, "times", "times", table.value("times", list), kinds)


def first_fault(file):
    """The line of the first fault of a file, and what is said of its item before the colon; None of a file without one."""
    if len(file) > 1_048_576:
        return "B13 top 0 -", "the file has more than 1048576 bytes"
    try:
        tree = tomllib.loads(file.decode("utf-8-sig").replace("\r\n", "\n"))
    except (UnicodeDecodeError, tomllib.TOMLDecodeError):
        return "B1 top 0 -", None
    try:
        Reading().file(tree)
    except Found as found:
        return found.line, found.item
    return None
