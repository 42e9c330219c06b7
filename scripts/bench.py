"""Measures the desk: lines a second of `desk replay`, its peak memory, how both grow, what `desk straighten` takes beside
it, how long a building is read, how long a day is reported, and how long a database is made from a record.

Writes a building of 20 panels, one of the largest size with calendars and schedules, and lists of deliveries to
them into build/bench, runs each five times and takes the fastest run. A list is of commands in order; or it came
over a lossy network: with repeats, numbers out of order, gaps that are filled late, skips, other contents and far
numbers; or it is of ticks, one each quarter of an hour; or it is mixed: what a lossy network brings, with a tick and
an old one each hundred lines, and an import each thousand.
Where valgrind is installed it counts instructions too, which come out the same however busy the machine is. A list is
replayed and straightened in turn, and what is reported of the two says whether it is within what is meant.
"""
import itertools
import json
import os
import pathlib
import random
import re
import resource
import shutil
import subprocess
import sys
import time
from dataclasses import dataclass

SIZES = (50_000, 100_000, 200_000)
COUNTED = (10_000, 20_000, 40_000)
# A quarter of an hour, in hundredths of a second; the quarters of a year; 2025-01-01T00:00:00Z.
QUARTER = 15 * 60 * 100
QUARTERS = 365 * 24 * 4
NEW_YEAR = 173_568_960_000
TICKS_COUNTED = 4 * 24 * 4
RUNS = 5
MILLION = 1_000_000
# What straightening a list may take in replays of it, and what twice the lines may take in times of the lines.
REPLAYS_MEANT = 2.0
GROWTH_MEANT = 2.1
ROOT = pathlib.Path(__file__).resolve().parent.parent
FOLDER = ROOT / "build" / "bench"


@dataclass(frozen=True)
class Building:
    """So many panels and points, each panel with its own share of the points granted, calendars and schedules."""

    panels: int
    points: int
    granted: int
    calendars: int = 0
    schedules: int = 0
    targets: int = 1

    def granted_to(self, panel):
        """The numbers of the points that are granted to a panel, from 1."""
        first = panel * self.granted
        return [(first + place) % self.points + 1 for place in range(self.granted)]

    def write(self, path):
        with open(path, "w") as out:
            out.write('zone = "UTC0"\n')
            for point in range(1, self.points + 1):
                out.write(f'[[point]]\nname = "ROOM-{point}"\nkind = "analog"\n')
                out.write("low = 500\nhigh = 3500\ndefault = 1800\n")
            for panel in range(self.panels):
                names = ", ".join(f'"ROOM-{point}"' for point in self.granted_to(panel))
                out.write(f'[[panel]]\nname = "PANEL-{panel + 1}"\npoints = [{names}]\npriorities = [8, 10]\n')
            for calendar in range(1, self.calendars + 1):
                entries = ", ".join(f'"2025-{day % 12 + 1:02}-{day % 28 + 1:02}"' for day in range(calendar, calendar + 40))
                out.write(f'[[calendar]]\nname = "CALENDAR-{calendar}"\nentries = [{entries}]\n')
            for schedule in range(1, self.schedules + 1):
                self.write_schedule(out, schedule)

    def write_schedule(self, out, schedule):
        """A schedule with seven lists of four time values, and four exceptions of four each."""
        first = (schedule - 1) * self.targets
        targets = ", ".join(f'"ROOM-{point}"' for point in range(first + 1, first + self.targets + 1))
        day = "[" + ", ".join(f'"{hour:02}:{schedule % 60:02}:00.00={2000 + hour}"' for hour in (5, 8, 17, 21)) + "]"
        out.write(f'[[schedule]]\nname = "SCHEDULE-{schedule}"\nperiod = "2025-01-01..2026-12-31"\npriority = 15\n')
        out.write(f'targets = [{targets}]\ndefault = 1600\nweekly = [\n    ' + ",\n    ".join([day] * 7) + "\n]\n")
        for number in range(4):
            calendar = (schedule + number) % self.calendars + 1
            out.write(f'[[schedule.exception]]\npriority = {number + 3}\ncalendar = "CALENDAR-{calendar}"\ntimes = {day}\n')

    def write_commands(self, path, count):
        with open(path, "w") as out:
            for index in range(count):
                panel, number = index % self.panels, index // self.panels + 1
                points = self.granted_to(panel)
                point, value = points[index % len(points)], 500 + index * 7 % 3001
                out.write(
                    f'{{"number":{number},"panel":"PANEL-{panel + 1}","point":"ROOM-{point}",'
                    f'"priority":8,"value":{value}}}\n'
                )

    def command(self, panel, number, other=False):
        """The line of a panel's command: its content follows from its number, but for another one."""
        points = self.granted_to(panel)
        value = 500 + (number * 7 + other) % 3001
        return (
            f'{{"number":{number},"panel":"PANEL-{panel + 1}","point":"ROOM-{points[number % len(points)]}",'
            f'"priority":8,"value":{value}}}\n'
        )

    def lossy_lines(self, rng, panel, first):
        """What a panel sends of ten numbers from one on, as a lossy network brings it."""
        numbers = list(range(first, first + 10))
        if rng.random() < 0.3:
            rng.shuffle(numbers)
        lost = rng.choice(numbers) if rng.random() < 0.2 else None
        lines = [self.command(panel, number) for number in numbers if number != lost]
        lines += [self.command(panel, max(1, first - rng.randint(1, 1500))) for _ in range(3)]
        lines.append(self.command(panel, max(1, first - rng.randint(1, 900)), other=True))
        lines.append(self.command(panel, first + rng.randint(64, 10**6)))
        if lost is not None and rng.random() < 0.5:
            return lines + [f'{{"panel":"PANEL-{panel + 1}","skip":{first + 10}}}\n']
        return lines + [self.command(panel, lost)] if lost is not None else lines

    def lossy(self, rng):
        """The lines of a lossy network, without end."""
        for first in itertools.count(1, 10):
            for panel in range(self.panels):
                yield from self.lossy_lines(rng, panel, first)

    def write_lossy(self, path, count):
        with open(path, "w") as out:
            out.writelines(itertools.islice(self.lossy(random.Random(count)), count))

    def write_ticks(self, path, count):
        """A tick each quarter of an hour, from the beginning of 2025 on."""
        with open(path, "w") as out:
            out.writelines(tick_line(NEW_YEAR + place * QUARTER) for place in range(count))

    def import_line(self, place):
        """The line of an import of three rows for one calendar, of which the last is that of the import before."""
        rows = [f"CALENDAR-{place % self.calendars + 1},2026-{day % 12 + 1:02}-{day % 28 + 1:02}" for day in (place, place + 1)]
        rows.append(f"CALENDAR-{(place - 1) % self.calendars + 1},2026-{place % 12 + 1:02}-{place % 28 + 1:02}")
        return json.dumps({"import": "\n".join(["calendar,entry", *rows]) + "\n"}) + "\n"

    def mixed(self, count):
        """Lines of a lossy network, with a tick and an old one each hundred lines and an import each thousand."""
        commands = self.lossy(random.Random(count))
        for place in range(count):
            if place % 1000 == 50:
                yield self.import_line(place // 1000 + 1)
            elif place % 100 in (25, 75):
                yield tick_line(NEW_YEAR + (place // 100 - (place % 100 == 75)) * QUARTER)
            else:
                yield next(commands)

    def write_mixed(self, path, count):
        with open(path, "w") as out:
            out.writelines(self.mixed(count))


def tick_line(at):
    return f'{{"tick":{at}}}\n'


USUAL = Building(panels=20, points=40, granted=40)
LARGEST = Building(panels=200, points=1_000, granted=40, calendars=100, schedules=500)


def run_desk(*words):
    """Seconds and peak kilobytes of one run, in a process of its own."""
    reader, writer = os.pipe()
    child = os.fork()
    if child == 0:
        start = time.perf_counter()
        with open(os.devnull, "wb") as sink:
            status = subprocess.call([str(ROOT / "build" / "desk"), *words], stdout=sink)
        seconds = time.perf_counter() - start
        peak = resource.getrusage(resource.RUSAGE_CHILDREN).ru_maxrss
        os.write(writer, f"{seconds} {peak} {status}".encode())
        os._exit(0)
    os.close(writer)
    seconds, peak, status = os.read(reader, 200).split()
    os.waitpid(child, 0)
    os.close(reader)
    if int(status) != 0:
        sys.exit(f"desk {' '.join(words)} ended with status {int(status)}")
    return float(seconds), int(peak)


# Each load: its words, and how its list is written.
LOADS = {
    "in order": ("", Building.write_commands),
    "lossy": (", over a lossy network", Building.write_lossy),
    "ticks": (", a tick each quarter of an hour", Building.write_ticks),
    "mixed": (", a lossy network with ticks and imports", Building.write_mixed),
}


def written(building, size, load="in order"):
    """The paths of the building and of a list of so many deliveries to it."""
    file = FOLDER / f"{building.points}-points.toml"
    deliveries = FOLDER / f"{building.points}-points-{size}-{load.replace(' ', '-')}.jsonl"
    building.write(file)
    LOADS[load][1](building, deliveries, size)
    return str(file), str(deliveries)


def measure(building, size, load="in order"):
    """The fastest of some runs of a list of so many deliveries: its seconds and peak kilobytes."""
    file, deliveries = written(building, size, load)
    return min(run_desk("replay", file, deliveries) for _ in range(RUNS))


def measure_in_turn(building, size, load):
    """The fastest of some runs of a list that is replayed and straightened in turn: seconds and peak kilobytes of each."""
    file, deliveries = written(building, size, load)
    pairs = [[run_desk(subcommand, file, deliveries) for subcommand in ("replay", "straighten")] for _ in range(RUNS)]
    return [min(runs) for runs in zip(*pairs)]


def meant(ratio, most):
    """A ratio, and whether it is at most what is meant."""
    return f"{ratio:.2f} times ({'at most' if ratio <= most else 'MORE THAN'} {most})"


def counted(*words):
    """The instructions of one run."""
    run = subprocess.run(
        ["valgrind", "--tool=callgrind", "--callgrind-out-file=/dev/null", str(ROOT / "build" / "desk"), *words],
        stdout=subprocess.DEVNULL,
        stderr=subprocess.PIPE,
        text=True,
        check=True,
    )
    return int(re.search(r"Collected : (\d+)", run.stderr).group(1))


def instructions(building, size, load="in order", subcommand="replay"):
    """The instructions of a list of so many deliveries, without those of reading the building."""
    file, deliveries = written(building, size, load)
    return counted(subcommand, file, deliveries) - counted("check", file)


def show_seconds():
    earlier = None
    for size in SIZES:
        seconds, peak = measure(USUAL, size)
        growth = "" if earlier is None else f", {seconds / earlier:.2f} times the time for twice the lines"
        print(f"{size} lines: {size / seconds:,.0f} lines a second, {peak / 1024:.0f} MB at most{growth}")
        earlier = seconds
    to_largest = f"to {LARGEST.panels} panels and {LARGEST.points} points"
    lossy = [(size, "lossy") for size in SIZES]
    for size, load in [(SIZES[-1], "in order"), *lossy, (QUARTERS, "ticks"), (SIZES[0], "mixed"), (SIZES[2], "mixed")]:
        seconds, peak = measure(LARGEST, size, load)
        reported = f"{size / seconds:,.0f} lines a second, {peak / 1024:.0f} MB at most"
        print(f"{size} lines {to_largest}{LOADS[load][0]}: {reported}")


def show_reading():
    for building in (USUAL, LARGEST):
        file, _ = written(building, 0)
        seconds, peak = min(run_desk("check", file) for _ in range(RUNS))
        size = pathlib.Path(file).stat().st_size
        print(f"a building file of {size:,} bytes: read in {seconds * 1000:.0f} ms, {peak / 1024:.0f} MB at most")


def show_report():
    """The report of a day on which all schedules have exceptions, from a database that has had a tick."""
    file, _ = written(LARGEST, 0)
    database = FOLDER / "report.db"
    for path in FOLDER.glob("report.db*"):
        path.unlink()
    run_desk("tick", file, str(database), str(NEW_YEAR))
    seconds, peak = min(run_desk("report", file, str(database), "2025-01-01") for _ in range(RUNS))
    around = min(run_desk("tick", file, str(database), str(NEW_YEAR)) for _ in range(RUNS))[0]
    reported = f"{seconds * 1000:.0f} ms, {peak / 1024:.0f} MB at most; an old tick, which opens the same files, {around * 1000:.0f} ms"
    print(f"the report of a day of {LARGEST.schedules} schedules and {LARGEST.points} points: {reported}")


def rebuilt(file, record):
    for path in FOLDER.glob("rebuilt.db*"):
        path.unlink()
    return run_desk("rebuild", file, record, str(FOLDER / "rebuilt.db"))


def show_rebuild():
    """A database that is made from a record of a million lines."""
    words = written(LARGEST, MILLION, "mixed")
    seconds, peak = min(rebuilt(*words) for _ in range(RUNS))
    print(f"a database from a record of {MILLION:,} lines: {seconds:.1f} s, {peak / 1024:.0f} MB at most")


def show_growth():
    """How much longer the same list takes over the largest building, its reading included."""
    usual, largest = (measure(building, SIZES[1])[0] for building in (USUAL, LARGEST))
    print(f"{SIZES[1]} lines to the largest building take {largest / usual:.2f} times the seconds of the usual one")


def show_straightening():
    """How long a list is straightened, beside its replay."""
    size = SIZES[1]
    for load in ("lossy", "mixed"):
        (replayed, _), (seconds, peak) = measure_in_turn(LARGEST, size, load)
        reported = f"{size / seconds:,.0f} lines a second, {peak / 1024:.0f} MB at most"
        beside = f"{meant(seconds / replayed, REPLAYS_MEANT)} the seconds of a replay, {size / replayed:,.0f} lines a second"
        print(f"{size} lines to the largest building{LOADS[load][0]}, straightened: {reported}; {beside}")


def show_instructions_of_straightening():
    """The instructions of straightening lists, beside a replay of one and beside those of half the lines."""
    size = SIZES[1]
    for load in ("lossy", "mixed"):
        replayed = instructions(LARGEST, size, load)
        few, many = (instructions(LARGEST, count, load, "straighten") for count in (size, 2 * size))
        reported = f"{few / size:,.0f} instructions a line, {meant(few / replayed, REPLAYS_MEANT)} those of a replay"
        growth = f"{many / (2 * size):,.0f} a line of {2 * size}, {meant(many / few, GROWTH_MEANT)} as many for twice the lines"
        print(f"{size} lines to the largest building{LOADS[load][0]}, straightened: {reported}; {growth}")


def show_instructions():
    earlier = None
    for size in COUNTED:
        count = instructions(USUAL, size)
        growth = "" if earlier is None else f", {count / earlier:.2f} times as many for twice the lines"
        print(f"{size} lines: {count / size:,.0f} instructions a line{growth}")
        earlier = count
    to_largest = f"to {LARGEST.panels} panels and {LARGEST.points} points"
    in_order = [(size, "in order") for size in (COUNTED[0], COUNTED[2])]
    others = [(size, load) for load in ("lossy", "mixed") for size in COUNTED[:2]]
    for size, load in [*in_order, *others, (TICKS_COUNTED, "ticks")]:
        count = instructions(LARGEST, size, load)
        print(f"{size} lines {to_largest}{LOADS[load][0]}: {count / size:,.0f} instructions a line")


def main():
    FOLDER.mkdir(parents=True, exist_ok=True)
    show_reading()
    show_report()
    show_seconds()
    show_rebuild()
    show_growth()
    show_straightening()
    if shutil.which("valgrind"):
        show_instructions()
        show_instructions_of_straightening()


if __name__ == "__main__":
    main()
