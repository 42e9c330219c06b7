"""Runs of the program that may have ever more descriptors: each names the first of its own files that it could not open,
or tells S2 where that is one of the database's, up to the number with which it ends whole; before that it changes nothing.

Each test takes the path of the program and a folder of its own. It needs `cc`: the loader of a program takes a descriptor
too, so the limit is set after it, by a page of C.
"""
import datetime

from helpers import databases, shims
from helpers.random_lists import toml_of
from helpers.runs import ByRequest, ByWords, Trial
from helpers.serving import get, response
from helpers.trying import expect
from helpers.worked import BUILDING, EACH_KIND
from oracle.slow_desk import Import, Tick, delivery_line, overridden, point_text, printed, report_text, run_of, straightened

# The standard descriptors alone, and more than any run wants.
LEAST, MOST = 3, 24
DAY = datetime.date(2025, 6, 2)
CHECKED = b"ok: 2 points, 2 panels, 1 calendars, 1 schedules\n"
NO_BUILDING, NO_HOLIDAYS = (f"desk: cannot read {name}\n".encode() for name in ("building.toml", "holidays.csv"))
NO_STORE = b"desk: store fault S2\n"
# A server wants a descriptor to listen, and one to be told which connections are ready.
NO_LISTENER = b"desk: cannot listen on "
STATUSES = {b"": 0, NO_BUILDING: 1, NO_HOLIDAYS: 1, NO_STORE: 3, NO_LISTENER: 1}


def expect_ends(begin, faults, may_be_lost=False):
    """With ever more descriptors a run tells these faults in their order, each at least once, and then it answers; a
    connection that could not be taken gets nothing."""
    reported, answered = [], []
    for most in range(LEAST, MOST):
        run, program, folder = begin()
        ended = run.run(program, folder, shims.environment("disk_trouble", TROUBLE_DESCRIPTORS=most))
        fault = NO_LISTENER if ended.reported.startswith(NO_LISTENER) else ended.reported
        expect((most, ended.reported, ended.status), (most, ended.reported, STATUSES.get(fault)))
        reported.append(fault)
        answered.append(ended.printed == run.answer)
        if ended.printed not in (run.answer, b"") or not (ended.reported or may_be_lost or answered[-1]):
            raise AssertionError(f"with {most} descriptors {ended!r}, wanted {run.answer!r}")
    expect(reported, sorted(reported, key=[*faults, b""].index))
    expect((list(dict.fromkeys(reported)), answered[-1]), ([*faults, b""], True))


def the_file_that_cannot_be_read_is_named(program, folder):
    (folder / "building.toml").write_text(toml_of(BUILDING))
    (folder / "list.jsonl").write_text("".join(delivery_line(each) + "\n" for each in EACH_KIND))
    answers = {("check", "building.toml"): CHECKED,
               ("replay", "building.toml", "list.jsonl"): printed(BUILDING, EACH_KIND).encode(),
               ("straighten", "building.toml", "list.jsonl"): straightened(BUILDING, EACH_KIND).encode(),
               ("overrides", "building.toml", "list.jsonl"): overridden(BUILDING, [], EACH_KIND).encode()}
    for words, answer in answers.items():
        expect_ends(lambda: (ByWords(words, answer), program, folder), [NO_BUILDING])


def over_tables(trial, faults, asked=None, may_be_lost=False):
    """So of a run over a database: the trial's delivery, or what is asked. What it left is looked at before the next one."""
    def begin():
        if databases.files_in(trial.folder):
            found = databases.held(trial.folder)
            if found not in (trial.before, trial.after):
                raise AssertionError(f"the tables hold {found!r}")
        run = trial.begin()
        return asked or run, trial.program, trial.folder

    expect_ends(begin, faults, may_be_lost)


def a_database_that_cannot_be_opened_is_reported(program, folder):
    trial = Trial(program, folder, BUILDING, EACH_KIND, Tick(174890160000))
    over_tables(trial, [NO_BUILDING, NO_STORE])
    state = run_of(BUILDING, EACH_KIND)[1]
    reported = report_text(BUILDING, DAY, state.imported, state.places).encode()
    over_tables(trial, [NO_BUILDING, NO_STORE], ByWords(("report", "building.toml", databases.NAME, str(DAY)), reported))
    point = point_text(BUILDING, state.places, BUILDING.points[0]).encode()
    server = ByRequest(get("/points/R101-SET"), response(200, point))
    over_tables(trial, [NO_BUILDING, NO_STORE, NO_LISTENER], server, may_be_lost=True)


def a_holiday_list_that_cannot_be_read_is_named(program, folder):
    """Both files are open at once, and the building's is reported first."""
    trial = Trial(program, folder, BUILDING, EACH_KIND, Import((("HOLIDAYS", "2025-06-09"),)))
    over_tables(trial, [NO_BUILDING, NO_HOLIDAYS, NO_STORE])


TESTS = (
    the_file_that_cannot_be_read_is_named,
    a_database_that_cannot_be_opened_is_reported,
    a_holiday_list_that_cannot_be_read_is_named,
)
