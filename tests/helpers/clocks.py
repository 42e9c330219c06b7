"""Rules of clocks, and the C library's times of one."""
import contextlib
import os
import time

CENTRAL_EUROPE = "CET-1CEST,M3.5.0,M10.5.0/3"
EASTERN_AMERICA = "EST5EDT,M3.2.0,M11.1.0"


@contextlib.contextmanager
def clock_of(rule):
    """Has the C library tell the times of a rule."""
    before = os.environ.get("TZ")
    os.environ["TZ"] = rule
    time.tzset()
    try:
        yield
    finally:
        os.environ.pop("TZ")
        if before is not None:
            os.environ["TZ"] = before
        time.tzset()
