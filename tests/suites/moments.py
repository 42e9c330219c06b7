"""Moments in people's words, as `--until` takes them: worked ones, and against the C library, about the changes of ten clocks
and at random.

Which moment is meant is seen in what a list is read up to: of three ticks, at the hundredth before it, at it and after it, the
first two are answered. Which one it was says the last line.
"""
import json
import random
import subprocess
import time
from concurrent.futures import ThreadPoolExecutor

from helpers.clocks import CENTRAL_EUROPE, EASTERN_AMERICA, clock_of
from helpers.serving import SECONDS
from helpers.trying import expect, expect_none

HOUR = 3600
DAY = 24 * HOUR
ZONES = [
    CENTRAL_EUROPE,
    EASTERN_AMERICA,
    "GMT0BST,M3.5.0/1,M10.5.0",
    "EET-2EEST,M3.5.0/3,M10.5.0/4",
    "PST8PDT,M3.2.0,M11.1.0",
    "NST3:30NDT,M3.2.0,M11.1.0",
    "AEST-10AEDT,M10.1.0,M4.1.0/3",
    "<+1030>-10:30<+11>-11,M10.1.0,M4.1.0",
    "NZST-12NZDT,M9.5.0,M4.1.0/3",
    "<+0530>-5:30",
]
RANDOM = 2_000
LAST = 5_800_000_000  # in 2153

# A rule, a text, and the moment that it means, or what is said of it.
WORKED = [
    (CENTRAL_EUROPE, "174886560000", 174886560000),
    (CENTRAL_EUROPE, "0", 0),
    (CENTRAL_EUROPE, "2025-06-02", 174881520000),
    (CENTRAL_EUROPE, "2025-06-02T14:00", 174886560000),
    (CENTRAL_EUROPE, "2025-06-02T08:00:00.01", 174884400001),
    (CENTRAL_EUROPE, "2025-06-02T08:00:30", 174884403000),
    (CENTRAL_EUROPE, "2025-06-02T06:00Z", "does not show"),
    (CENTRAL_EUROPE, "2025-06-02T08:00+02:00", 174884400000),
    (CENTRAL_EUROPE, "2025-06-02T08:00+01:00", "does not show"),
    (CENTRAL_EUROPE, "2025-10-26T02:30", 176143860000),
    (CENTRAL_EUROPE, "2025-10-26T02:30+02:00", 176143860000),
    (CENTRAL_EUROPE, "2025-10-26T02:30+01:00", 176144220000),
    (CENTRAL_EUROPE, "2025-03-30T02:30", "does not show"),
    (CENTRAL_EUROPE, "2025-03-30T03:00", 174329640000),
    (CENTRAL_EUROPE, "1970-01-01T00:30", "does not show"),
    (CENTRAL_EUROPE, "1970-01-01T01:00", 0),
    (CENTRAL_EUROPE, "1969-12-31", "does not show"),
    ("UTC0", "2025-06-02T06:00Z", 174884400000),
    (EASTERN_AMERICA, "2025-06-02T02:00-04:00", 174884400000),
    (EASTERN_AMERICA, "1970-01-01", 1800000),
] + [
    (CENTRAL_EUROPE, text, "is not a moment")
    for text in (
        "noon", "2025-02-29", "2025-6-2", "2025-06-02T", "2025-06-02T8:00", "2025-06-02T24:00", "2025-06-02 08:00",
        "2025-06-02t08:00", "2025-06-02T08:00+1", "2025-06-02T08:00Z2", "2025-06-02T08:00:60", "1899-12-31", "1.5",
        "9223372036854775808", "2025-06-02T08:00+01:00+01:00",
    )
]


def read_up_to(program, folder, zone, text, ticks):
    """What a replay of ticks up to a moment answers."""
    building, listed = folder / "building.toml", folder / "ticks.jsonl"
    building.write_text(f'zone = "{zone}"\n')
    listed.write_text("".join(json.dumps({"tick": tick}) + "\n" for tick in ticks))
    ran = subprocess.run([program, "replay", building, listed, f"--until={text}"], capture_output=True, text=True, timeout=SECONDS)
    return ran.stdout.splitlines(), ran.stderr, ran.returncode


def shown_text(shown, hundredths):
    return time.strftime("%Y-%m-%d %H:%M:%S", shown) + f".{hundredths:02}"


def wrong_of(program, folder, zone, text, wanted, last_line):
    """What is wrong with how a text is read, or nothing."""
    if isinstance(wanted, str):
        reason = f"desk: {text} {wanted}\n" if wanted == "is not a moment" else f"desk: the building's clock {wanted} {text}\n"
        found, reported = read_up_to(program, folder, zone, text, [1]), ([], reason, 1)
    else:
        lines, fault, status = read_up_to(program, folder, zone, text, [wanted - 1, wanted, wanted + 1])
        found, reported = (len(lines), lines[-1:], fault, status), (3, [last_line], "", 0)
    return "" if found == reported else f"{zone} {text!r}: {found!r}, wanted {reported!r}"


def worked_moments_are_read(program, folder):
    for zone, text, wanted in WORKED:
        last_line = ""
        if not isinstance(wanted, str):
            with clock_of(zone):
                last_line = "until " + shown_text(time.localtime(wanted // 100), wanted % 100)
        expect_none(wrong_of(program, folder, zone, text, wanted, last_line))


# ---- against the C library

def offset_at(second):
    return time.localtime(second).tm_gmtoff


def seconds_that_show(clock):
    """The seconds at which the C library's clock shows so many seconds since 1970, first to last."""
    ahead = {offset_at(second) for second in (clock - 2 * DAY, clock - DAY, clock, clock + DAY, clock + 2 * DAY)}
    return sorted(clock - each for each in ahead if offset_at(clock - each) == each and clock >= each)


def changes_of(year):
    """The seconds of a year at which the offset changes."""
    begin = (year - 1970) * 31_556_952
    hours = [begin + HOUR * place for place in range(366 * 24)]
    coarse = [(one, other) for one, other in zip(hours, hours[1:]) if offset_at(one) != offset_at(other)]
    return [next(second for second in range(one, other + 1, 60) if offset_at(second) != offset_at(one)) for one, other in coarse]


def clocks_about(change):
    """What the clock shows about a change: each quarter of an hour of the hours before and after it, on both sides."""
    shown = change + min(offset_at(change - 1), offset_at(change))
    return [shown + 900 * place for place in range(-5, 14)]


def offset_text(ahead):
    return f"{'-' if ahead < 0 else '+'}{abs(ahead) // 3600:02}:{abs(ahead) // 60 % 60:02}"


def asked_of(clock, rng):
    """A text of what the clock shows, the hundredth that it means or what is said of it, and the last line."""
    hundredths, seconds = rng.choice([(0, clock), (0, clock), (rng.randrange(100), clock)])
    found = seconds_that_show(seconds)
    shown = time.gmtime(seconds)
    text = time.strftime("%Y-%m-%dT%H:%M", shown)
    if shown.tm_sec or hundredths or rng.random() < 0.3:
        text += time.strftime(":%S", shown) + (f".{hundredths:02}" if hundredths or rng.random() < 0.5 else "")
    if found and rng.random() < 0.4:
        meant = rng.choice(found)
        text += offset_text(offset_at(meant))
    elif not found:
        return text, "does not show", ""
    else:
        meant = found[0]
    return text, 100 * meant + hundredths, "until " + shown_text(shown, hundredths)


def texts_of(zone, rng):
    """Texts about the changes of some years, and at random, with what they mean."""
    with clock_of(zone):
        clocks = [each for year in (1999, 2025, 2026) for change in changes_of(year) for each in clocks_about(change)]
        clocks += [rng.randrange(2 * DAY, LAST) for _ in range(RANDOM // len(ZONES))]
        return [(zone, *asked_of(clock, rng)) for clock in clocks]


def the_c_library_agrees(program, folder):
    rng = random.Random(random.random())
    asked = [each for zone in ZONES for each in texts_of(zone, rng)]

    def wrong_at(place):
        room = folder / str(place)
        room.mkdir()
        return wrong_of(program, room, *asked[place])

    with ThreadPoolExecutor() as pool:
        expect_none([wrong for wrong in pool.map(wrong_at, range(len(asked))) if wrong])
    expect(len(asked) > RANDOM, True)


TESTS = [worked_moments_are_read, the_c_library_agrees]
