"""Refuses each request for memory of a run in turn, alone and from there on, by a page of C put before the C library.

A run of which a request was refused prints what it prints with memory, or a beginning of it (of `straighten` and `overrides`
nothing, or a beginning once the whole list is known) and then the want of memory, with status 3; a request to a server gets its
response, the text of the want of memory, or nothing. Over a database the tables are then those before the delivery or
those with it, and the same delivery, made again with memory, gets its reply and leaves the tables with it.

Each test takes the path of the program and a folder of its own. A run over a database makes 10,000 requests and more, most
of them for the pages that it keeps, so there those are tried that come after the database is open, and before that each
whose size and those of the two before it were not tried yet. In a sweep each is tried. It needs `cc`.
"""
import dataclasses
import datetime

from helpers import databases, shims, trying
from helpers.building_files import description
from helpers.random_lists import toml_of
from helpers.runs import ByRequest, ByWords, Ended, Trial
from helpers.serving import get, response
from helpers.trying import expect
from helpers.worked import BUILDING, EACH_KIND, PAST_1000, WAITING, light
from oracle.slow_desk import Import, Skip, Tick, delivery_line, overridden, point_text, printed, report_text, run_of, straightened

NO_MEMORY = b"desk: out of memory\n"
NOT_PLACED = f"desk: cannot write {databases.NAME}\n".encode()
REFUSED = response(503, b'{"answer":"no_memory"}')
CHECKED = b"ok: 2 points, 2 panels, 1 calendars, 1 schedules\n"
DAY = datetime.date(2025, 6, 2)
# The next day, and a holiday that is new beside one that is known.
TICK = Tick(174890160000)
IMPORT = Import((("HOLIDAYS", "2025-06-02"), ("HOLIDAYS", "2025-06-09")))
# How many requests before it a request is known by.
CONTEXT = 2
# A request to a server, and its response, take so many requests at most beside what is asked of the desk.
OF_A_REQUEST = 100
# Of a delivery that makes many requests each of so many is tried.
MANY, EACH = 2_000, 10
tried_contexts = set()


def sizes_of(run, program, folder):
    """The size of each request for memory that a run makes."""
    listed = folder / "requests"
    listed.unlink(missing_ok=True)
    run.run(program, folder, shims.environment("refuse_memory", REFUSE_LOG=listed))
    return [int(line.split()[0]) for line in listed.read_text().splitlines()]


def is_new(sizes, place):
    """Whether no request was chosen yet that comes after requests of the same sizes."""
    context = tuple(sizes[max(place - CONTEXT, 0):place + 1])
    known = context in tried_contexts
    tried_contexts.add(context)
    return not known


def chosen(sizes, opening):
    """The numbers of the requests that are tried of a run that has opened a database after so many."""
    if trying.SWEEP:
        return range(1, len(sizes) + 1)
    each = EACH if len(sizes) - opening > MANY else 1
    new = [place for place in range(len(sizes)) if is_new(sizes, place)]
    later = range(max(opening - OF_A_REQUEST, 0), len(sizes), each)
    return sorted({place + 1 for place in (*new, *later)})


def each_refused(folder, numbers, tried):
    """Tries each request of these numbers, refused alone and with each after it, and goes on to a run that makes fewer."""
    missed, last, goes_further = 0, 0, True
    numbers = iter(numbers)
    while goes_further:
        last = next(numbers, last + 1)
        goes_further = False
        for goes_on in (False, True):
            refusing = shims.Refusing(folder, last, goes_on)
            try:
                missed += tried(refusing)
            except AssertionError as error:
                raise AssertionError(f"{refusing.text}: {error}") from error
            goes_further = goes_further or refusing.met()
    if missed == 0:
        raise AssertionError("no request was missed")


def whole(ended, run):
    """Whether a run was answered whole. What is neither that nor a beginning and the want of memory is an error."""
    if isinstance(run, ByRequest) and ended.listened:
        expect((ended.reported, ended.status), (b"", 0))
        if ended.printed not in (run.answer, REFUSED, b""):
            raise AssertionError(f"the request got {ended.printed!r}, wanted {run.answer!r}")
        return ended.printed == run.answer
    if ended == Ended(run.answer, b"", 0):
        return True
    if (ended.status, ended.reported) != (3, NO_MEMORY) or not run.answer.startswith(ended.printed):
        raise AssertionError(f"{ended!r}, wanted {run.answer!r}")
    return False


# ---- runs without a database, and the one that makes it


def try_words(program, folder, words, answer):
    """Tries each request of a run that begins with the reading of the building, which `check` tries alone."""
    run = ByWords(words, answer)
    expect(run.run(program, folder), Ended(answer, b"", 0))
    numbers = chosen(sizes_of(run, program, folder), 0)
    each_refused(folder, numbers, lambda refusing: not whole(run.run(program, folder, refusing.environment), run))


def files_for(folder, deliveries):
    (folder / "building.toml").write_text(toml_of(BUILDING))
    (folder / "list.jsonl").write_text("".join(delivery_line(each) + "\n" for each in deliveries))


def check_answers_or_tells_the_want_of_memory(program, folder):
    files_for(folder, ())
    try_words(program, folder, ("check", "building.toml"), CHECKED)


def describe_prints_all_or_nothing(program, folder):
    files_for(folder, ())
    try_words(program, folder, ("describe", "building.toml"), description((folder / "building.toml").read_bytes()))


def replay_prints_all_or_a_beginning(program, folder):
    files_for(folder, EACH_KIND)
    try_words(program, folder, ("replay", "building.toml", "list.jsonl"), printed(BUILDING, EACH_KIND).encode())


class Rebuilding(ByWords):
    """A run that makes a database, which is there with status 0 alone, and whole. What tells that it could not be put in its
    place stands for the want of memory there."""

    def run(self, program, folder, environment=None):
        ended = super().run(program, folder, environment)
        made = databases.held(folder) if (folder / databases.NAME).exists() else None
        expect(made, databases.tables_after(BUILDING, EACH_KIND) if ended.status == 0 else None)
        for path in folder.glob(databases.NAME + "*"):
            path.unlink()
        return dataclasses.replace(ended, reported=NO_MEMORY) if ended.reported == NOT_PLACED else ended


def rebuild_makes_all_or_nothing(program, folder):
    files_for(folder, EACH_KIND)
    tables = databases.tables_after(BUILDING, EACH_KIND)
    names = [{row[0] for row in tables[each]} for each in ("panel", "command", "place", "shown")]
    counts = len(names[0] | names[1]), len(names[2]), len(names[3]), len(tables["imported"])
    answer = "tables: {} panels, {} points with values, {} schedules shown, {} imported entries\n".format(*counts).encode()
    run = Rebuilding(("rebuild", "building.toml", "list.jsonl", databases.NAME), answer)
    expect(run.run(program, folder), Ended(answer, b"", 0))
    sizes = sizes_of(run, program, folder)
    each_refused(folder, chosen(sizes, len(sizes)), lambda refusing: not whole(run.run(program, folder, refusing.environment), run))


def straighten_prints_all_or_a_beginning(program, folder):
    files_for(folder, EACH_KIND)
    try_words(program, folder, ("straighten", "building.toml", "list.jsonl"), straightened(BUILDING, EACH_KIND).encode())


def overrides_prints_all_or_a_beginning(program, folder):
    files_for(folder, EACH_KIND)
    try_words(program, folder, ("overrides", "building.toml", "list.jsonl"), overridden(BUILDING, [], EACH_KIND).encode())


# ---- deliveries to a database


def try_refused(trial, refusing):
    """Makes the delivery with requests refused, looks at the tables, and makes it again. Whether it missed memory."""
    run = trial.begin()
    ended = run.run(trial.program, trial.folder, refusing.environment)
    is_whole, is_reported = whole(ended, run), ended.printed == REFUSED
    is_delivered = trial.left(answered=bool(ended.printed) and not is_reported)
    if is_reported and is_delivered:
        raise AssertionError("the want of memory was reported of a delivery that was made")
    trial.again(is_delivered)
    return not is_whole


def try_each(trial):
    """Tries the requests of a run over a database, of which those that open it are found by one that asks for no point."""
    trial.begin()
    opening = len(sizes_of(ByRequest(get("/points/NONE"), b""), trial.program, trial.folder))
    run = trial.begin()
    numbers = chosen(sizes_of(run, trial.program, trial.folder), opening)
    each_refused(trial.folder, numbers, lambda refusing: try_refused(trial, refusing))


def try_delivery(program, folder, earlier, delivery, **how):
    try_each(Trial(program, folder, BUILDING, earlier, delivery, **how))


def a_tick_makes_a_database(program, folder):
    try_delivery(program, folder, None, TICK)


def an_import_makes_a_database(program, folder):
    try_delivery(program, folder, None, IMPORT)


def a_tick_is_made_or_not(program, folder):
    try_delivery(program, folder, EACH_KIND, TICK)


def an_import_is_made_or_not(program, folder):
    try_delivery(program, folder, EACH_KIND, IMPORT)


def tables_of_version_1_are_moved_or_stay(program, folder):
    try_delivery(program, folder, PAST_1000, TICK, version=1)


def a_command_over_http_is_made_or_not(program, folder):
    try_delivery(program, folder, EACH_KIND, light(5), by_request=True)


def a_skip_over_63_that_wait_is_made_or_not(program, folder):
    try_delivery(program, folder, WAITING, Skip("P1", 65), by_request=True)


def a_tick_over_http_is_made_or_not(program, folder):
    try_delivery(program, folder, EACH_KIND, TICK, by_request=True)


def an_import_over_http_is_made_or_not(program, folder):
    try_delivery(program, folder, EACH_KIND, IMPORT, by_request=True)


# ---- what is asked of a database


class Look:
    """A run that changes nothing, over a database that holds the tables of a list of deliveries."""

    def __init__(self, program, folder, earlier, run):
        self.program, self.folder, self.answering = program, folder, run
        (folder / "building.toml").write_text(toml_of(BUILDING))
        self.tables = databases.tables_after(BUILDING, earlier)
        databases.make(folder, self.tables)

    def begin(self):
        return self.answering

    def left(self, answered):
        expect(databases.held(self.folder), self.tables)
        return False

    def again(self, is_delivered):
        expect(self.answering.run(self.program, self.folder), Ended(self.answering.answer, b"", 0))


def try_look(program, folder, run):
    try_each(Look(program, folder, EACH_KIND, run))


def day_reported():
    state = run_of(BUILDING, EACH_KIND)[1]
    return report_text(BUILDING, DAY, state.imported, state.places).encode()


def a_report_prints_all_or_a_beginning(program, folder):
    try_look(program, folder, ByWords(("report", "building.toml", databases.NAME, str(DAY)), day_reported()))


def tables_reported():
    tables = databases.tables_after(BUILDING, EACH_KIND)
    panels = {name for name, _ in tables["panel"]} | {row[0] for row in tables["command"]}
    points = {point for point, _, _ in tables["place"]}
    held = (len(panels), len(points), len(tables["shown"]), len(tables["imported"]))
    return CHECKED + b"tables: %d panels, %d points with values, %d schedules shown, %d imported entries\n" % held


def a_check_of_a_database_prints_all_or_a_beginning(program, folder):
    try_look(program, folder, ByWords(("check", "building.toml", databases.NAME), tables_reported()))


def a_report_over_http_is_reported_or_not(program, folder):
    try_look(program, folder, ByRequest(get(f"/reports/{DAY}"), response(200, day_reported(), "text/plain")))


def a_point_over_http_is_reported_or_not(program, folder):
    text = point_text(BUILDING, run_of(BUILDING, EACH_KIND)[1].places, BUILDING.points[0])
    try_look(program, folder, ByRequest(get("/points/R101-SET"), response(200, text.encode())))


TESTS = (
    check_answers_or_tells_the_want_of_memory,
    describe_prints_all_or_nothing,
    replay_prints_all_or_a_beginning,
    straighten_prints_all_or_a_beginning,
    overrides_prints_all_or_a_beginning,
    rebuild_makes_all_or_nothing,
    a_tick_makes_a_database,
    an_import_makes_a_database,
    a_tick_is_made_or_not,
    an_import_is_made_or_not,
    tables_of_version_1_are_moved_or_stay,
    a_command_over_http_is_made_or_not,
    a_skip_over_63_that_wait_is_made_or_not,
    a_tick_over_http_is_made_or_not,
    an_import_over_http_is_made_or_not,
    a_report_prints_all_or_a_beginning,
    a_check_of_a_database_prints_all_or_a_beginning,
    a_report_over_http_is_reported_or_not,
    a_point_over_http_is_reported_or_not,
)
