"""Runs over a list of deliveries in a file, which may end at a moment and stand on a base.

Behind the end of a list that is read up to a moment stands a line that is no delivery, which must not be read.
"""
import subprocess

from helpers import random_lists
from helpers.serving import SECONDS
from helpers.trying import expect
from oracle.slow_desk import Tick, moment_text


def run(program, *words):
    ran = subprocess.run([program, *words], capture_output=True, text=True, timeout=SECONDS)
    return ran.stdout, ran.stderr, ran.returncode


# ---- moments

def before(deliveries, until):
    """Those before the first tick that is later than the moment."""
    late = (place for place, each in enumerate(deliveries) if isinstance(each, Tick) and until is not None and each.at > until)
    return deliveries[: next(late, len(deliveries))]


def some_moment(rng, deliveries):
    """No moment, or one about a tick of the list, in 64 bits."""
    moments = [each.at for each in deliveries if isinstance(each, Tick)]
    if not moments or rng.random() < 0.3:
        return None
    return max(-(2**63), min(rng.choice(moments) + rng.choice([-1, 0, 0, 1]), 2**63 - 1))


def moment_words(name, moment):
    """The option of this name with a moment, if there is one."""
    # one word, since a moment may begin with `-`
    return [] if moment is None else [f"--{name}={moment}"]


def until_text(building, until):
    """The last line of a list that is read up to a moment."""
    return "" if until is None else f"until {moment_text(building, until)}\n"


# ---- files

def list_text(rng, deliveries, until):
    lines = []
    for delivery in deliveries:
        lines += [rng.choice(random_lists.NOTHING)] * (rng.random() < 0.1) + [random_lists.line_of(rng, delivery)]
    if len(before(deliveries, until)) < len(deliveries):
        lines.append("no delivery\n")
    return "".join(lines)


def some_base(rng, deliveries):
    """Divides a list into one that makes its base and one that stands on it, or into none and the list."""
    if rng.random() >= 0.3:
        return None, deliveries
    count = rng.randint(0, len(deliveries))
    return deliveries[:count], deliveries[count:]


def make_base(program, file, listed, rng, earlier):
    """Makes the base of a list, from an earlier list."""
    before_it = listed.with_name("earlier.jsonl")
    before_it.write_text(list_text(rng, earlier, None))
    expect(run(program, "rebuild", file, before_it, f"{listed}.base")[1:], ("", 0))
