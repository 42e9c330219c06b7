"""What a test is, and how one is tried.

A suite is a module of `suites` with a list TESTS. A test is a function that takes the path of the program and a folder of
its own, and raises where it finds something else than it wants; it draws from `random`, which the runner seeds. The
folder is on a disk in memory where there is one, or where the suite says ON_DISK among the temporary files.
"""
import contextlib
import os
import pathlib
import tempfile

ROOT = pathlib.Path(__file__).resolve().parent.parent.parent
# Where there is a disk in memory, so many databases are made on it.
IN_MEMORY = "/dev/shm" if os.access("/dev/shm", os.W_OK) else None
# Whether all is tried that a run of hours has time for; the runner sets it.
SWEEP = False
MOST_TOLD = 4_000
# Ends, when all tests were tried, what some of them share.
END = contextlib.ExitStack()


class Missing(Exception):
    """What a test needs is not here: the test is passed over."""


def expect(found, wanted, what=""):
    """Raises where something else was found than is wanted."""
    if found != wanted:
        raise AssertionError(f"{what}{': ' if what else ''}{found!r}, wanted {wanted!r}")


def expect_none(wrong):
    """Raises what is wrong: a text, or the first of many, if there is any."""
    if wrong:
        raise AssertionError(wrong if isinstance(wrong, str) else f"{len(wrong)} differ: " + "\n".join(wrong[:3]))


def named(name, test):
    """The test under a name of any words."""
    test.__name__ = name
    return test


def name_of(test):
    name = test.__name__
    return name.replace("_", " ") if name.isidentifier() else name


def fault_of(suite, test, program):
    """What is wrong with a test of a suite, or nothing."""
    place = None if getattr(suite, "ON_DISK", False) else IN_MEMORY
    with tempfile.TemporaryDirectory(prefix="desk-test-", dir=place, ignore_cleanup_errors=True) as folder:
        try:
            test(program, pathlib.Path(folder))
        except Missing:
            raise
        except Exception as error:
            return f"{type(error).__name__}: {str(error)[:MOST_TOLD]}"
    return ""
