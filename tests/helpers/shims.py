"""Pages of C that stand before the C library of a run of the program (LD_PRELOAD): `refuse_memory.c`, which refuses its
requests for memory, and `disk_trouble.c`, which stops it at a write to its database or has the write fail.

They are made by `cc` when a test first wants one.
"""
import atexit
import errno
import functools
import os
import pathlib
import shutil
import subprocess
import tempfile
from enum import IntEnum

from helpers.trying import Missing

HERE = pathlib.Path(__file__).resolve().parent


class Error(IntEnum):
    ENOSPC = errno.ENOSPC
    EIO = errno.EIO


# What befalls a call: nothing more of the program, or an error, alone or from there on.
STOPS = ({}, {"halves": True})
FAULTS = ({"error": Error.ENOSPC}, {"error": Error.ENOSPC, "goes_on": True, "halves": True}, {"error": Error.EIO},
          {"error": Error.EIO, "goes_on": True})


@functools.lru_cache(maxsize=None)
def library(name):
    """The page of C of that name as a library."""
    if not shutil.which("cc"):
        raise Missing("cc")
    folder = pathlib.Path(tempfile.mkdtemp(prefix="desk-shim-"))
    atexit.register(shutil.rmtree, folder, ignore_errors=True)
    made = folder / f"{name}.so"
    subprocess.run(["cc", "-shared", "-fPIC", "-O2", "-o", made, HERE / f"{name}.c"], check=True)
    return made


def environment(name, **settings):
    """The environment of a run behind the page of that name, with its settings."""
    return {**os.environ, "LD_PRELOAD": str(library(name))} | {key: str(value) for key, value in settings.items()}


class Refusing:
    """What refuses the request for memory of a number, and each after it where it goes on."""

    def __init__(self, folder, at, goes_on):
        self.mark = folder / "refused"
        self.mark.unlink(missing_ok=True)
        settings = {"REFUSE_AT": at, "REFUSE_MARK": self.mark} | ({"REFUSE_ON": 1} if goes_on else {})
        self.environment = environment("refuse_memory", **settings)
        self.text = f"request {at} refused{' and each after it' if goes_on else ''}"

    def met(self):
        """Whether a request was refused."""
        return self.mark.exists()


class Trouble:
    """What stops a run at the call of a number that changes the files of a database, or has the call fail with an error."""

    def __init__(self, folder, at, error=None, goes_on=False, halves=False, path="desk.db"):
        self.mark = folder / "met"
        self.mark.unlink(missing_ok=True)
        settings = {"TROUBLE_AT": at, "TROUBLE_MARK": self.mark, "TROUBLE_PATH": path}
        settings |= {"TROUBLE_ERROR": int(error)} if error else {}
        settings |= ({"TROUBLE_ON": 1} if goes_on else {}) | ({"TROUBLE_HALF": 1} if halves else {})
        self.environment = environment("disk_trouble", **settings)
        how = f"fails with {error.name}{' and each after it' if goes_on else ''}" if error else "is where it stops"
        self.text = f"call {at} {how}{', half of a write done' if halves else ''}"

    def met(self):
        """Whether it came to the call."""
        return self.mark.exists()
