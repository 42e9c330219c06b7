"""Stops the program (SIGKILL) at each call in turn by which it changes its database, on a real file: before the call, and
with the half of a write done. And has each such call fail in turn, alone and from there on, as on a disk that is full
(ENOSPC) or broken (EIO).

A page of C put before the C library does both. After each the tables, as SQLite's own library reads them, are whole those
before the delivery or those with it, and with it where a byte of the answer came; they are compared row for row with
what the plain slow program says. The same delivery, made again, gets its reply and leaves the tables with it. The calls
by which a run closes its database, after it answered, are among them.

Each test takes the path of the program and a folder of its own. It needs `cc`. The same on a disk in memory that loses
what was not synced is in crates/trials_database.
"""
import signal

from helpers import shims
from helpers.runs import ByWords, Ended, Trial
from helpers.serving import response
from helpers.trying import expect
from helpers.worked import BUILDING, EACH_KIND, PAST_1000, WAITING, light
from oracle.slow_desk import Import, Skip, Tick

FAULT = b"desk: store fault S2\n"
FAILED = response(500, b'{"answer":"store"}')
TICK = Tick(174890160000)
IMPORT = Import((("HOLIDAYS", "2025-06-02"), ("HOLIDAYS", "2025-06-09")))
# A commit writes its pages, and syncs them.
LEAST_CALLS = 3


def expect_stopped(ended, run, met):
    """A run that was stopped printed nothing, or a beginning of the answer, and no fault."""
    if not met:
        expect(ended, Ended(run.answer, b"", 0))
    elif (ended.status, ended.reported) != (-signal.SIGKILL, b"") or not run.answer.startswith(ended.printed):
        raise AssertionError(f"{ended!r}, wanted a beginning of {run.answer!r} and the stop")


def expect_failed(ended, run, met):
    """A run over a disk that failed answers whole, or tells the failure by its fault or the response to the request. Where
    it answered whole and then could not close the database, it tells that by its fault too."""
    if ended == Ended(run.answer, b"", 0):
        return
    reported = Ended(b"", FAULT, 3, listened=isinstance(run, ByWords))
    if not met or ended not in (reported, Ended(FAILED, b"", 3), Ended(run.answer, FAULT, 3)):
        raise AssertionError(f"{ended!r}, wanted {run.answer!r} or the fault")


def try_trouble(trial, trouble, expected):
    """Makes the delivery with trouble, looks at the tables, and makes it again. Whether it came to the call."""
    run = trial.begin()
    ended = run.run(trial.program, trial.folder, trouble.environment)
    expected(ended, run, trouble.met())
    trial.again(trial.left(answered=bool(ended.printed) and ended.printed != FAILED))
    return trouble.met()


def each_call(trial, expected, how):
    """Has each call in turn meet trouble, up to a run that makes fewer."""
    at, met = 0, True
    while met:
        at += 1
        trouble = shims.Trouble(trial.folder, at, **how)
        try:
            met = try_trouble(trial, trouble, expected)
        except AssertionError as error:
            raise AssertionError(f"{trouble.text}: {error}") from error
    if at <= LEAST_CALLS:
        raise AssertionError(f"only {at - 1} calls changed the database")


def try_delivery(program, folder, earlier, delivery, **how):
    trial = Trial(program, folder, BUILDING, earlier, delivery, **how)
    for expected, ways in ((expect_stopped, shims.STOPS), (expect_failed, shims.FAULTS)):
        for way in ways:
            each_call(trial, expected, way)


def a_tick_is_stopped(program, folder):
    try_delivery(program, folder, EACH_KIND, TICK)


def an_import_is_stopped(program, folder):
    try_delivery(program, folder, EACH_KIND, IMPORT)


def a_command_is_stopped(program, folder):
    try_delivery(program, folder, EACH_KIND, light(5), by_request=True)


def a_skip_over_63_that_wait_is_stopped(program, folder):
    try_delivery(program, folder, WAITING, Skip("P1", 65), by_request=True)


def a_move_from_version_1_is_stopped(program, folder):
    try_delivery(program, folder, PAST_1000, TICK, version=1)


def a_database_that_is_being_made_is_stopped(program, folder):
    """What is left of it is taken for none by the next run."""
    try_delivery(program, folder, None, TICK)


TESTS = (
    a_database_that_is_being_made_is_stopped,
    a_tick_is_stopped,
    an_import_is_stopped,
    a_command_is_stopped,
    a_skip_over_63_that_wait_is_stopped,
    a_move_from_version_1_is_stopped,
)
