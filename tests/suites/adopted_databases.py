"""What `desk adopt` makes and prints of random tables for random buildings, with random renamings, against a plain reckoning:
the tables as SQLite's own library reads them, and the building as Python's TOML reader does.
"""
import random
import subprocess
import tomllib

from helpers.adoptions import SECTIONS, adopted, holdings_of, notes_of, refusal, tables_in
from helpers.random_databases import CALENDARS, PANELS, POINTS, SCHEDULES, content_of, fill, rows_of, some_building
from helpers.serving import SECONDS
from helpers.trying import expect_none

ON_DISK = True
ROUNDS = 150
NAMES = [*POINTS, *PANELS, *SCHEDULES, *CALENDARS]


def rows_at(rng):
    """Rows as those of a check, with commands below, at and past what a panel may still repeat or use."""
    rows = rows_of(rng)
    rows["panel"] = [(name, rng.choice([2, 70, 1001, 1002, 5000])) for name, _ in rows["panel"]]
    rows["command"] = [
        (name, number, "GONE", 8, 1, 1, 1, 8)
        for name, next in rows["panel"]
        for number in {max(1, next - 1001), max(1, next - 1000), next, next + 63, next + 64} if rng.random() < 0.6
    ]
    if rng.random() < 0.7:
        rows["last"] = rng.choice([None, 0, 174884400000])
    return rows


def some_renamings(rng, building):
    """Pairs of an old name and a new one; no name twice on a side, and each new one the building's."""
    olds = rng.sample([*NAMES, "NOT-THERE"], rng.randint(0, 4))
    has = sorted({each["name"] for section in SECTIONS for each in building.get(section, [])})
    return list(zip(olds, rng.sample(has, min(len(olds), len(has)))))


def ran(program, folder, *words):
    return subprocess.run([program, *words], cwd=folder, capture_output=True, text=True, timeout=SECONDS)


def differs(what, found, wanted):
    return "" if found == wanted else f"{what} {found!r}, wanted {wanted!r}"


def difference(program, rng, folder):
    text = some_building(rng)
    building = tomllib.loads(text)
    (folder / "made.toml").write_text('zone = "UTC0"\n')
    (folder / "building.toml").write_text(text)
    ran(program, folder, "tick", "made.toml", "desk.db", "0").check_returncode()
    fill(folder / "desk.db", rows_at(rng))
    held, renamings = tables_in(folder / "desk.db"), some_renamings(rng, building)
    words = ["adopt", "building.toml", "desk.db", "new.db", *(word for pair in renamings for word in ("--rename", "=".join(pair)))]
    before = content_of(folder)
    tried, made = ran(program, folder, *words, "--dry-run"), None
    if content_of(folder) != before:
        return f"a dry run leaves {sorted(path.name for path in folder.iterdir())}"
    done = ran(program, folder, *words)
    how = f"{words} of\n{text}{held}"
    refused = refusal(building, held, renamings)
    if refused:
        reported = (1, "", refused + "\n")
        wrong = differs("a dry run", (tried.returncode, tried.stdout, tried.stderr), reported)
        wrong = wrong or differs("a run", (done.returncode, done.stdout, done.stderr), reported)
        wrong = wrong or differs("files", content_of(folder), before)
        return wrong and f"{wrong} by {how}"
    made = adopted(building, held, renamings)
    printed = "".join(line + "\n" for line in [*notes_of(building, held, renamings), holdings_of(made)])
    wrong = differs("a dry run", (tried.returncode, tried.stdout, tried.stderr), (0, printed, ""))
    wrong = wrong or differs("a run", (done.returncode, done.stdout, done.stderr), (0, printed, ""))
    wrong = wrong or differs("files", sorted(content_of(folder)), sorted([*before, "new.db"]))
    wrong = wrong or differs("the earlier file", content_of(folder)["desk.db"], before["desk.db"])
    wrong = wrong or differs("tables", tables_in(folder / "new.db"), made)
    checked = ran(program, folder, "check", "building.toml", "new.db") if not wrong else None
    wrong = wrong or differs("a check", (checked.returncode, checked.stdout.splitlines()[1:]), (0, [holdings_of(made)]))
    return wrong and f"{wrong} by {how}"


def random_databases_are_adopted(program, folder):
    seed, differing = random.randrange(10**9), []
    for index in range(ROUNDS):
        room = folder / str(index)
        room.mkdir()
        wrong = difference(program, random.Random(f"{seed} {index}"), room)
        differing += [f"adoption {index}: {wrong}"] if wrong else []
    expect_none(differing)


TESTS = [random_databases_are_adopted]
