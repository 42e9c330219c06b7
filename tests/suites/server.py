"""Tries `desk serve` over the loopback, as panels and as curl would, and with requests that are broken.

Each test has a folder and servers of its own, on free ports of 127.0.0.1. What is wanted are the texts of the
documented requests and replies.
"""
import contextlib
import random
import shutil
import socket
import sqlite3
import subprocess
import time

from helpers import databases, tables
from helpers.serving import SECONDS, answered, get, post, refused, response, rows, serving
from helpers.trying import Missing, expect
from helpers.worked_requests import ASKED, COMMAND, HEADS, NO_POINT, POINT, REQUEST, RESPONSE, ROUTES, SKIP, request

# How many seconds a client may wait for the others.
PATIENCE = 1
# The sizes of the pieces of a request that comes in many.
SIZES = (1, 2, 7)
BROKEN = 2_000
REPORT = b"""DAY 2025-06-02 mon
SCHEDULE R101-DAY active
00:00:00.00         1600
08:00:00.00         2100
POINT R101-SET                                2100 15
POINT LIGHT                                      0  0
"""


# ---- what panels get

def a_request_is_answered_however_it_is_cut(program, folder):
    with serving(program, folder, len(REQUEST) + len(SIZES)) as server:
        for cut in range(1, len(REQUEST)):
            expect(server.ask(REQUEST[:cut], REQUEST[cut:]), RESPONSE)
        for size in SIZES:
            pieces = [REQUEST[place:place + size] for place in range(0, len(REQUEST), size)]
            expect(server.ask(*pieces), RESPONSE)
        expect(server.ask(REQUEST), RESPONSE)
        server.end()
    expect(rows(folder, "SELECT * FROM place"), [("R101-SET", 8, 2150)])


def cut_each(program, folder):
    """The request ended after each byte: after none it is none, in its head H1 and in its body H5. Nothing is changed."""
    head = len(REQUEST) - len(COMMAND)
    with serving(program, folder, len(REQUEST) + 1) as server:
        for end in range(len(REQUEST)):
            wanted = refused("H1" if end < head else "H5") if end else b""
            expect((end, server.ask(REQUEST[:end])), (end, wanted))
        expect((databases.held(folder)["command"], databases.held(folder)["place"]), ([], []))
        expect(server.ask(REQUEST), RESPONSE)
        server.end()
    expect(rows(folder, "SELECT panel, number FROM command"), [("P1", 1)])


def filled(body, size, byte=b" "):
    """A body that is filled up to a size with what changes nothing of it."""
    return body + byte * (size - len(body))


HOLIDAYS = b"calendar,entry\nHOLIDAYS,2025-06-09\n"
LIGHT = b'{"number":1,"point":"LIGHT","priority":8,"value":1}'
DONE = answered('{"answer":"done","number":1,"present":1,"priority":8}')
SIZED = [
    (post("/panels/P1/commands", filled(LIGHT, 65_536)), DONE),
    (post("/panels/P1/commands", filled(LIGHT, 65_537)), refused("H4")),
    (post("/panels/P1/commands", filled(b"{", 65_536)), refused("H6")),
    (post("/panels/P1/skip", filled(SKIP, 65_536)), answered('{"answer":"skip","next":4}')),
    (post("/panels/P1/skip", filled(SKIP, 65_537)), refused("H4")),
    (post("/tick", filled(b'{"at":1}', 65_536)), answered('{"answer":"tick","writes":1}')),
    (post("/tick", filled(b'{"at":2}', 65_537)), refused("H4")),
    (post("/imports", filled(HOLIDAYS, 262_144, b"\n")), answered('{"added":1,"answer":"import","known":0,"writes":0}')),
    (post("/imports", filled(HOLIDAYS, 262_145, b"\n")), refused("H4")),
    (post("/tick", filled(b'{"at":2}', 65_536)), answered('{"answer":"tick","writes":0}')),
]


def each_request_gets_its_answer(program, folder):
    with serving(program, folder, len(ASKED) + 1) as server:
        expect(server.ask(REQUEST), RESPONSE)
        for request, wanted in ASKED:
            expect((request, server.ask(request)), (request, wanted))
        server.end()
    expect(rows(folder, "SELECT panel, number FROM command"), [("P1", 1)])


def each_of_these_gets(program, folder, table):
    with serving(program, folder, len(table)) as server:
        for asked, wanted in table:
            reported = (asked[:90], len(asked))
            expect((reported, server.ask(asked)), (reported, wanted))
        server.end()


def each_head_gets_its_answer(program, folder):
    each_of_these_gets(program, folder, HEADS)
    expect(rows(folder, "SELECT * FROM command"), [])


def each_target_has_its_route(program, folder):
    each_of_these_gets(program, folder, [(request(method, target, body), wanted) for method, target, body, wanted in ROUTES])
    expect(rows(folder, "SELECT * FROM command"), [])


def each_body_has_its_limit(program, folder):
    each_of_these_gets(program, folder, SIZED)


DELIVERED = [
    ("/panels/P1/commands", b'{"number":2,"point":"R101-SET","priority":8,"value":null}', 202, b'{"answer":"parked","next":1,"number":2}'),
    ("/panels/P1/commands", b'{"number":2,"point":"R101-SET","priority":8,"value":2000}', 409, b'{"answer":"differs","number":2}'),
    ("/panels/P1/commands", b'{"number":65,"point":"LIGHT","priority":8,"value":1}', 409, b'{"answer":"too_far","next":1,"number":65}'),
    ("/panels/P1/commands", b'{"number":0,"point":"LIGHT","priority":8,"value":1}', 400, b'{"answer":"bad_number"}'),
    ("/panels/P1/skip", b'{"upto":2}', 200, b'{"answer":"skip","next":3}'),
    ("/panels/P1/commands", b'{"number":1,"point":"LIGHT","priority":8,"value":1}', 410, b'{"answer":"skipped","number":1}'),
    ("/panels/P1/commands", b'{"number":3,"point":"LIGHT","priority":6,"value":1}', 422, b'{"answer":"refused","number":3,"rule":"X4"}'),
    ("/tick", b'{"at":174884399999}', 200, b'{"answer":"tick","writes":1}'),
    ("/tick", b'{"at":174884400000}', 200, b'{"answer":"tick","writes":1}'),
    ("/tick", b'{"at":174884400000}', 200, b'{"answer":"old","writes":0}'),
    ("/tick", b'{"at":-1}', 400, b'{"answer":"bad_moment"}'),
    ("/imports", b"calendar,entry\nNOSUCH,2025-06-10\n", 422, b'{"answer":"import_refused","fault":"I3","record":2}'),
    ("/panels/P1/commands", b'{"number":5,"point":"LIGHT","priority":10,"value":1} ', 202, b'{"answer":"parked","next":4,"number":5}'),
    ("/imports", b"calendar,entry\nHOLIDAYS,2025-06-09\n", 200, b'{"added":1,"answer":"import","known":0,"writes":0}'),
    ("/imports", b"calendar,entry\nHOLIDAYS,2025-06-09\nNOSUCH,2025-06-10\n", 422, b'{"answer":"import_refused","fault":"I3","record":3}'),
]


def each_delivery_gets_its_reply_and_status(program, folder):
    with serving(program, folder, len(DELIVERED) + 1) as server:
        for target, body, status, reply in DELIVERED:
            expect((body, server.ask(post(target, body))), (body, response(status, reply)))
        expect(len(REPORT), 202)
        expect(server.ask(get("/reports/2025-06-02")), response(200, REPORT, "text/plain"))
        server.end()


QUIET_REPORT = b"""DAY 2025-07-01 tue
SCHEDULE R101-DAY quiet
00:00:00.00         1600
POINT R101-SET                                2100 15
POINT LIGHT                                      0  0
"""
HOLIDAY_REPORT = b"""DAY 2025-12-25 thu
SCHEDULE R101-DAY active
00:00:00.00         1500
POINT R101-SET                                1800  0
POINT LIGHT                                      0  0
"""


def a_day_is_reported(program, folder):
    with serving(program, folder, 1) as server:
        expect(server.ask(get("/reports/2025-12-25")), response(200, HOLIDAY_REPORT, "text/plain"))
        server.end()


def a_quiet_schedule_is_reported(program, folder):
    named = 'name = "R101-DAY"\n'
    (folder / "building.toml").write_text(tables.WORKED.replace(named, named + 'period = "2025-06-01..2025-06-30"\n'))
    with serving(program, folder, 3) as server:
        expect(server.ask(post("/tick", b'{"at":175126320000}')), response(200, b'{"answer":"tick","writes":1}'))
        expect(server.ask(post("/tick", b'{"at":175132080000}')), response(200, b'{"answer":"tick","writes":0}'))
        expect(server.ask(get("/reports/2025-07-01")), response(200, QUIET_REPORT, "text/plain"))
        server.end()


def a_repeat_after_a_kill_gets_the_first_answer(program, folder):
    with serving(program, folder, 10) as server:
        expect(server.ask(REQUEST), RESPONSE)
    with serving(program, folder, 2) as server:
        expect(server.ask(REQUEST), RESPONSE)
        expect(server.ask(get("/points/R101-SET")), response(200, POINT))
        server.end()


LAST = [
    ("P1", b'{"number":1000000000001,"point":"LIGHT","priority":8,"value":1}', '{"answer":"bad_number"}'),
    ("P1", b'{"number":1000000000000,"point":"LIGHT","priority":8,"value":1}', '{"answer":"done","number":1000000000000,"present":1,"priority":8}'),
    ("P1", b'{"number":1000000000000,"point":"LIGHT","priority":8,"value":1}', '{"answer":"done","number":1000000000000,"present":1,"priority":8}'),
    ("P1", b'{"number":1000000000001,"point":"LIGHT","priority":8,"value":1}', '{"answer":"bad_number"}'),
    ("P1", b'{"upto":1000000000001}', '{"answer":"skip","next":1000000000001}'),
    ("P1", b'{"upto":1000000000002}', '{"answer":"bad_number"}'),
    ("P2", b'{"upto":1000000000001}', '{"answer":"skip","next":1000000000001}'),
    ("P2", b'{"number":1000000000000,"point":"R101-SET","priority":9,"value":2000}', '{"answer":"skipped","number":1000000000000}'),
    ("P2", b'{"number":999999999000,"point":"R101-SET","priority":9,"value":2000}', '{"answer":"forgotten","number":999999999000}'),
    ("P2", b'{"number":999999999001,"point":"R101-SET","priority":9,"value":2000}', '{"answer":"skipped","number":999999999001}'),
]


def the_last_number_is_like_any_other(program, folder):
    """Over a database in which both panels have used all numbers but the last."""
    with serving(program, folder, 1) as server:
        expect(server.ask(get("/points/NOPE")), NO_POINT)
        server.end()
    with contextlib.closing(sqlite3.connect(folder / "desk.db")) as connection, connection:
        connection.execute("INSERT INTO panel VALUES ('P1', 1000000000000), ('P2', 1000000000000)")
    table = [(post(f"/panels/{panel}/{'skip' if b'upto' in body else 'commands'}", body), answered(reply)) for panel, body, reply in LAST]
    each_of_these_gets(program, folder, table)
    expect(rows(folder, "SELECT * FROM panel ORDER BY name"), [("P1", 1000000000001), ("P2", 1000000000001)])


# Tables of version 1, in which P1 switched LIGHT on at 8 under the numbers from 1 to 1,001.
VERSION_1 = databases.SCHEMA + """
INSERT INTO desk VALUES (1, 1, NULL);
INSERT INTO place VALUES ('LIGHT', 8, 1);
INSERT INTO panel VALUES ('P1', 1002);
WITH RECURSIVE numbers(number) AS (SELECT 1 UNION ALL SELECT number + 1 FROM numbers WHERE number < 1001)
INSERT INTO command SELECT 'P1', number, 'LIGHT', 8, 1, 1, 1, 8 FROM numbers;
"""
COMMANDS = "SELECT min(number), max(number), count(*) FROM command"


def answers_of_version_1_are_kept_for_1000_numbers(program, folder):
    with contextlib.closing(sqlite3.connect(folder / "desk.db")) as connection:
        connection.executescript(VERSION_1)
    expect(rows(folder, COMMANDS), [(1, 1001, 1001)])
    replies = ['{"answer":"forgotten","number":1}', *(f'{{"answer":"done","number":{number},"present":1,"priority":8}}' for number in range(2, 1002))]
    bodies = [LIGHT.replace(b":1,", b":%d," % number, 1) for number in range(1, 1002)]
    each_of_these_gets(program, folder, [(post("/panels/P1/commands", body), answered(reply)) for body, reply in zip(bodies, replies)])
    expect(rows(folder, "SELECT version, last FROM desk"), [(2, None)])
    expect(rows(folder, COMMANDS), [(2, 1001, 1000)])
    expect(rows(folder, "SELECT * FROM panel"), [("P1", 1002)])


def a_tick_of_the_clock_comes_before_each_request(program, folder):
    before = int(time.time() * 100)
    with serving(program, folder, 1, "--clock") as server:
        expect(server.ask(get("/points/LIGHT"))[:15], b"HTTP/1.1 200 OK")
        server.end()
    (last,), = rows(folder, "SELECT last FROM desk")
    if not before - 100 <= last <= int(time.time() * 100) + 100:
        raise AssertionError(f"the last tick is {last}")


# ---- who holds the desk up

def no_client_holds_the_desk(program, folder):
    """One client stalls in the head, one in the body, one doesn't take its reply, and one sends a byte now and then."""
    with serving(program, folder, 5) as server, contextlib.ExitStack() as open_ones:
        stalled = [open_ones.enter_context(server.connect()) for _ in range(4)]
        stalled[0].sendall(REQUEST[:20])
        stalled[1].sendall(REQUEST[:-1])
        stalled[2].sendall(get("/points/NOPE"))
        slow = stalled[3]
        for byte in REQUEST[:8]:
            slow.sendall(bytes([byte]))
            time.sleep(0.2)
        begun = time.monotonic()
        expect(server.ask(REQUEST), RESPONSE)
        spent = time.monotonic() - begun
        if spent > PATIENCE:
            raise AssertionError(f"the next client waited {spent:.1f} seconds")
        server.end()


def a_client_that_leaves_ends_nothing(program, folder):
    with serving(program, folder, 7) as server:
        server.connect().close()
        with server.connect() as connection:
            connection.sendall(REQUEST)
            connection.setsockopt(socket.SOL_SOCKET, socket.SO_LINGER, b"\1\0\0\0\0\0\0\0")
        with server.connect() as connection:
            connection.sendall(REQUEST[:40])
        for sent in (b"", REQUEST[:40], REQUEST[:-1]):
            with server.connect() as connection:
                connection.sendall(sent)
                connection.setsockopt(socket.SOL_SOCKET, socket.SO_LINGER, b"\1\0\0\0\0\0\0\0")
        expect(server.ask(REQUEST), RESPONSE)
        server.end()


def broken(rng):
    """A request with some bytes changed, taken out, put in or cut off."""
    request = bytearray(rng.choice([REQUEST, *(request for request, _ in ASKED)]))
    for _ in range(rng.randint(1, 4)):
        place = rng.randrange(len(request) + 1)
        request[place:place + rng.randint(0, 3)] = rng.choice([b"", b"\r\n", b"\0", b" ", bytes([rng.randrange(256)])])
    return bytes(request[:rng.choice([len(request), rng.randrange(len(request) + 1)])])


def broken_requests_end_nothing(program, folder):
    rng = random.Random(random.randrange(10**9))
    with serving(program, folder, BROKEN + 1) as server:
        for number in range(BROKEN):
            reported = server.ask(broken(rng))
            if reported and not reported.startswith(b"HTTP/1.1 "):
                raise AssertionError(f"request {number} got {reported!r}")
        expect(server.ask(get("/points/NOPE")), response(404, b'{"answer":"no_point"}'))
        server.end()


# ---- the words, and curl

def an_address_that_is_taken_is_reported(program, folder):
    with socket.create_server(("127.0.0.1", 0)) as taken:
        address = f"127.0.0.1:{taken.getsockname()[1]}"
        for word in (address, "nowhere"):
            words = [program, "serve", "building.toml", "desk.db", word, "--requests", "1"]
            ran = subprocess.run(words, cwd=folder, capture_output=True, timeout=SECONDS)
            expect((ran.returncode, ran.stdout, ran.stderr), (1, b"", f"desk: cannot listen on {word}\n".encode()))


def a_number_of_requests_out_of_range_is_reported(program, folder):
    for more in (["--requests", "0"], ["--requests", "1000001"], ["--requests", "x"], ["--requests", "1", "--clock=1"]):
        words = [program, "serve", "building.toml", "desk.db", "127.0.0.1:0", *more]
        ran = subprocess.run(words, cwd=folder, capture_output=True, timeout=SECONDS)
        expect((more, ran.returncode, ran.stdout), (more, 2, b""))


def curl(server, *words):
    ran = subprocess.run(["curl", "-s", "-w", " %{http_code}", *words], capture_output=True, timeout=SECONDS)
    expect(ran.returncode, 0)
    return ran.stdout


def curl_gets_each_route(program, folder):
    if not shutil.which("curl"):
        raise Missing("curl")
    (folder / "holidays.csv").write_bytes(b"calendar,entry\nHOLIDAYS,2025-06-09\n")
    with serving(program, folder, 6) as server:
        base = f"http://{server.address}"
        expect(curl(server, "--data", COMMAND.decode(), f"{base}/panels/P1/commands"), b'{"answer":"done","number":1,"present":2150,"priority":8} 200')
        expect(curl(server, "--data", '{"upto":4}', f"{base}/panels/P1/skip"), b'{"answer":"skip","next":4} 200')
        expect(curl(server, "--data", '{"at":174884400000}', f"{base}/tick"), b'{"answer":"tick","writes":1} 200')
        expect(curl(server, "--data-binary", f"@{folder}/holidays.csv", f"{base}/imports"), b'{"added":1,"answer":"import","known":0,"writes":0} 200')
        expect(curl(server, f"{base}/points/LIGHT")[-40:], b'"point":"LIGHT","present":0,"priority":0} 200'[-40:])
        expect(curl(server, f"{base}/reports/2025-12-25").splitlines()[0], b"DAY 2025-12-25 thu")
        server.end()


TESTS = [tables.in_worked(test) for test in (
    a_request_is_answered_however_it_is_cut,
    cut_each,
    each_request_gets_its_answer,
    each_head_gets_its_answer,
    each_target_has_its_route,
    each_body_has_its_limit,
    each_delivery_gets_its_reply_and_status,
    a_day_is_reported,
    a_quiet_schedule_is_reported,
    a_repeat_after_a_kill_gets_the_first_answer,
    the_last_number_is_like_any_other,
    answers_of_version_1_are_kept_for_1000_numbers,
    a_tick_of_the_clock_comes_before_each_request,
    a_client_that_leaves_ends_nothing,
    broken_requests_end_nothing,
    an_address_that_is_taken_is_reported,
    a_number_of_requests_out_of_range_is_reported,
    curl_gets_each_route,
    no_client_holds_the_desk,
)]
