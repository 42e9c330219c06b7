"""Hostile input: each of these is refused with its fault, and changes nothing.

Each test takes the path of the program and a folder of its own. What is wanted are the documented faults.
"""
import subprocess

from helpers import databases, tables
from helpers.serving import SECONDS, post, refused, response, serving
from helpers.trying import expect

MOST_BYTES = 1_048_576
MOST_ROWS = 2_000
HEADER = b"calendar,entry\n"
ROW = b"HOLIDAYS,2025-06-09\n"
COMMAND = b'{"number":1,"point":"R101-SET","priority":8,"value":2150}'
NO_POINT = response(404, b'{"answer":"no_point"}')


def ended(program, folder, *words):
    ran = subprocess.run([program, *words], cwd=folder, capture_output=True, timeout=SECONDS)
    return ran.returncode, ran.stdout, ran.stderr


# ---- files

def filled(size):
    """The worked building with a comment that brings it to a size."""
    text = tables.WORKED.encode()
    return text + b"#" + b"x" * (size - len(text) - 2) + b"\n"


BUILDINGS = [
    (filled(MOST_BYTES), b"ok: 2 points, 2 panels, 1 calendars, 1 schedules\n", b""),
    (filled(MOST_BYTES + 1), b"", b"desk: B13 top 0 -\n"),
    (tables.WORKED.encode() + b"# \xff\n", b"", b"desk: B1 top 0 -\n"),
    (tables.WORKED.encode().replace(b"LIGHT", b"LIG\xffT", 1), b"", b"desk: B1 top 0 -\n"),
    (b"\xff" * (MOST_BYTES + 1), b"", b"desk: B13 top 0 -\n"),
    (b"[" * 100_000, b"", b"desk: B1 top 0 -\n"),
    (b"a=" + b"[" * 100_000, b"", b"desk: B1 top 0 -\n"),
]


def each_building_is_reported(program, folder):
    for number, (content, printed, reported) in enumerate(BUILDINGS):
        (folder / "building.toml").write_bytes(content)
        expect((number, ended(program, folder, "check", "building.toml")), (number, (1 if reported else 0, printed, reported)))


LISTS = [
    (HEADER + ROW + b"HOLIDAYS,2025\xff06-09\n", "I1", 3),
    (HEADER + b"HOLIDAYS\xff,2025-06-09\n" + ROW, "I1", 2),
    (HEADER + b'"HOLIDAYS\xff",2025-06-09\n', "I1", 2),
    (HEADER + ROW * (MOST_ROWS + 1), "I5", 2_002),
    (HEADER + ROW * MOST_ROWS + b"NOSUCH,2025-06-09\n", "I5", 2_002),
    (HEADER + ROW * MOST_ROWS + b"\xff,\xff\n", "I1", 2_002),
    (b"\xff" + HEADER + ROW, "I1", 1),
    (b"", "I2", 1),
]


def each_holiday_list_is_reported(program, folder):
    (folder / "building.toml").write_text(tables.WORKED)
    for number, (content, fault, record) in enumerate(LISTS):
        (folder / "holidays.csv").write_bytes(content)
        reported = ended(program, folder, "import", "building.toml", databases.NAME, "holidays.csv")
        expect((number, reported), (number, (1, b"", f"desk: {fault} record {record}\n".encode())))
        expect((number, databases.files_in(folder)), (number, []))


# ---- requests

def headed(count, size=None):
    """A request whose head has so many fields, and where it says so many bytes."""
    head = b"GET /points/NOPE HTTP/1.1\r\n" + b"A: b\r\n" * count
    return head + (b"B: " + b"c" * (size - len(head) - 7) + b"\r\n" if size else b"") + b"\r\n"


def of_length(reported):
    return b"POST /panels/P1/commands HTTP/1.1\r\nContent-Length: " + reported + b"\r\n\r\n" + COMMAND


def bodies():
    """Bodies that are no command: one word of it is another, or it lies too deep."""
    deep = b"[" * 200 + b"]" * 200
    for value in (b"2150.0", b"9223372036854775808", b"-9223372036854775809", b"1e400", b"2150.", b"+2150", b"02150", b"NaN", deep):
        yield COMMAND.replace(b"2150", value)
    for name in (b'"R 1"', b'"R101-SET\\u0000"', b'""', b'"' + b"R" * 33 + b'"', b'"R\xff"', deep):
        yield COMMAND.replace(b'"R101-SET"', name)
    yield deep
    yield b'{"a":' * 200 + b"1" + b"}" * 200
    yield COMMAND + b"\0"
    yield COMMAND[:-1]


REQUESTS = [
    (headed(64), NO_POINT),
    (headed(65), refused("H1")),
    (headed(1, 8_192), NO_POINT),
    (headed(1, 8_193), refused("H1")),
    *((of_length(reported), refused("H2")) for reported in (b"+57", b"57a", b"1000000000", b"-57", b"0x39", b"57,57", b"5 7", b"", b"57.0",
                                                    b"18446744073709551616", b"\xd9\xa5\xd9\xa7")),
    (of_length(b"999999999"), refused("H4")),
    *((post("/panels/P1/commands", body), refused("H6")) for body in bodies()),
]
# These are not: leading zeros count as digits, and the text is reported with its length.
RIGHT = [(of_length(b"000000057"), b"HTTP/1.1 200 OK")]


def each_request_is_reported(program, folder):
    (folder / "building.toml").write_text(tables.WORKED)
    with serving(program, folder, len(REQUESTS) + len(RIGHT)) as server:
        for request, wanted in REQUESTS:
            expect((request[:120], server.ask(request)), (request[:120], wanted))
        nothing = databases.held(folder)
        for request, wanted in RIGHT:
            expect((request, server.ask(request)[:len(wanted)]), (request, wanted))
        server.end()
    expect({name: rows for name, rows in nothing.items() if rows}, {"desk": [(1, 2, None)]})
    expect(databases.held(folder)["panel"], [("P1", 2)])


TESTS = (each_building_is_reported, each_holiday_list_is_reported, each_request_is_reported)
