"""Tries the record that `desk serve`, `tick` and `import` keep with `--record PATH`.

A list that is served stands in the record as it came, and what delivers nothing leaves no line. A record that can't be
written ends the run, and so does a file that ends as no line of a record begins, which is left as it is. The page of C
`disk_trouble.c` stops a run at each call that changes the record or the database, or has the call fail: what got a reply
stands in the record, a delivery whose line failed is not made, and the next run with the record leaves the tables of its
list. What is wanted is what the plain slow program tells.
"""
import json
import random
import re
import shutil
import signal
import socket
import subprocess
import time

from helpers import databases, random_lists, recorded, shims, tables
from helpers.deliveries import deliver, deliveries_at, may_be_words, members_of, request_of
from helpers.runs import asked, words_of
from helpers.serving import SECONDS, answered, get, post, response, rows, serving
from helpers.trying import ROOT, expect
from helpers.worked import BUILDING, EACH_KIND, HOLIDAY, OTHER, REFUSED, command, light
from helpers.worked_requests import ASKED, COMMAND, HEADS, REQUEST, RESPONSE, ROUTES, SKIP, request
from oracle.slow_desk import Import, Skip, Tick, run_of, straight_list

DOCUMENT = ROOT / "docs" / "RECORDS.md"
LISTS = 60
RECORDS = 40
LINE = b'{"number":1,"panel":"P1","point":"R101-SET","priority":8,"value":2150}\n'
REFUSED_IMPORTS = [b"calendar,entry\nNOSUCH,2025-06-09\n", b"calendar\n", b"", b"calendar,entry\nHOLIDAYS,2025-13-01\n"]
UNKNOWN = [post("/panels/P9/commands", COMMAND), post("/panels/skip/skip", SKIP)]
STORE_FAULT = b"desk: store fault S2\n"
OTHERWISE = b"desk: with this building file the record makes other values: "
NOT_MADE = response(500, b'{"answer":"store"}')
# The last line of the record, which the database lacks, and what is sent then.
PENDING = command("P2", 3, "R101-SET", 15, 2300)
TICK, IMPORT = Tick(174890160000), Import((("HOLIDAYS", "2025-06-02"), ("HOLIDAYS", "2025-06-09")))
SENT = (light(5), light(5), TICK, IMPORT, Skip("P1", 9))
# What a stop may leave of a line, and what no record ends with.
TORN = b'{"panel":"P'
BEGUN = (b"", b"{", b'{"n', TORN, b'{"import":"calendar,entry', b'{"tick":1748844')
NO_LINES = (b"hello", b"[", b'{"torn":', b"\0\0\0", LINE[1:-1])


# ---- what stands in the record

def cut(rng, deliveries):
    """A list in parts, each for a run of its own."""
    rest = list(deliveries)
    while rest:
        size = rng.choice([1, 1, 3, len(rest)])
        yield rest[:size]
        rest = rest[size:]


def by_words(program, folder, delivery, reply):
    """A run of `tick` or `import` makes the delivery."""
    words = [program, *words_of(delivery, folder), *recorded.KEPT]
    ran = subprocess.run(words, cwd=folder, capture_output=True, timeout=SECONDS)
    expect((ran.returncode, ran.stdout, ran.stderr), (0, reply.encode() + b"\n", b""))


def random_list_is_recorded(program, folder, rng, number):
    building = random_lists.some_building(rng)
    deliveries = deliveries_at(number + 1)(rng, building)
    if not deliveries:
        # no run is made, so there is no database
        return
    replies = run_of(building, deliveries)[0]
    (folder / "building.toml").write_text(random_lists.toml_of(building))
    for part in cut(rng, list(zip(deliveries, replies))):
        if len(part) == 1 and may_be_words(*part[0]):
            by_words(program, folder, *part[0])
            continue
        with serving(program, folder, len(part) + rng.randint(0, 1), *recorded.KEPT) as server:
            deliver(server, [(request_of(members_of(delivery)), reply) for delivery, reply in part])
    recorded.in_step(folder, building, [each for each in deliveries if recorded.reaches_the_desk(building, each)])


def random_lists_are_recorded_as_they_came(program, folder):
    """Repeats, what is out of turn and what is refused too; by servers, some of them killed, and by `tick` and `import`."""
    seed = random.randrange(10**9)
    for number in range(LISTS):
        room = folder / str(number)
        room.mkdir()
        try:
            random_list_is_recorded(program, room, random.Random(f"{seed} {number}"), number)
        except AssertionError as error:
            raise AssertionError(f"list {number}, {(room / 'building.toml').read_text()}: {error}") from error
        shutil.rmtree(room)


def what_delivers_nothing_leaves_no_line(program, folder):
    """Also under a name that no panel can have. What a panel sends that the building lacks is a delivery (below)."""
    nothing = [each for each, _ in [*ASKED, *HEADS]] + [request(method, target, body) for method, target, body, _ in ROUTES]
    nothing += [get("/reports/2025-06-02")] + [post("/imports", body) for body in REFUSED_IMPORTS]
    nothing = [each for each in nothing if each not in UNKNOWN]
    with serving(program, folder, len(nothing) + 2, *recorded.KEPT) as server:
        expect(server.ask(REQUEST), RESPONSE)
        for each in nothing:
            server.ask(each)
            expect((each[:90], recorded.bytes_of(folder)), (each[:90], LINE))
        expect(server.ask(REQUEST), RESPONSE)
        server.end()
    expect(recorded.bytes_of(folder), LINE * 2)


def what_a_panel_sends_that_the_building_lacks_is_recorded(program, folder):
    """It reaches the desk, which answers `no_panel`."""
    with serving(program, folder, len(UNKNOWN), *recorded.KEPT) as server:
        for each in UNKNOWN:
            expect(server.ask(each), answered('{"answer":"no_panel"}'))
        server.end()
    lines = [b'{"number":1,"panel":"P9","point":"R101-SET","priority":8,"value":2150}\n', b'{"panel":"skip","skip":4}\n']
    expect(recorded.bytes_of(folder), b"".join(lines))


def ticks_of_the_clock_are_recorded(program, folder):
    """Each before its connection's request, also one that delivers nothing."""
    before = int(time.time() * 100)
    with serving(program, folder, 3, "--clock", *recorded.KEPT) as server:
        expect(server.ask(REQUEST), RESPONSE)
        expect(server.ask(get("/points/NOPE")), response(404, b'{"answer":"no_point"}'))
        expect(server.ask(REQUEST), RESPONSE)
        server.end()
    lines = recorded.bytes_of(folder).splitlines(keepends=True)
    reported = [json.loads(line) for line in lines]
    expect([sorted(each)[0] for each in reported], ["tick", "number", "tick", "tick", "number"])
    expect([line for line in lines if b"tick" not in line], [LINE] * 2)
    moments = [each["tick"] for each in reported if "tick" in each]
    expect(moments, sorted(moments))
    if not before - 100 <= moments[0] <= moments[-1] <= int(time.time() * 100) + 100:
        raise AssertionError(f"ticks at {moments}")
    expect(rows(folder, "SELECT last FROM desk"), [(moments[-1],)])


def without_its_words_no_record_is_kept(program, folder):
    (folder / recorded.NAME).write_bytes(LINE + b"{")
    with serving(program, folder, 1) as server:
        expect(server.ask(post("/tick", b'{"at":174884399999}')), answered('{"answer":"tick","writes":1}'))
        server.end()
    expect(recorded.bytes_of(folder), LINE + b"{")
    expect(rows(folder, "SELECT * FROM place"), [("R101-SET", 15, 1600)])


def the_record_of_the_document_is_what_a_reader_gets(program, folder):
    """The list that docs/RECORDS.md shows is the record of a desk that was served it, and tells what is shown there."""
    text = DOCUMENT.read_text()
    section = text[text.index("## The record\n"):text.index("## Keeping a record\n")]
    listed, asked_now, *commands = re.findall(r"^```\n(.*?)^```$", section, re.S | re.M)
    lines = [json.loads(line) for line in listed.splitlines()]
    question, reported = asked_now.splitlines()
    (folder / "examples").mkdir()
    shutil.copy(folder / "building.toml", folder / "examples")
    with serving(program, folder, len(lines) + 1, *recorded.KEPT) as server:
        for line in lines:
            server.ask(request_of(line))
        expect(recorded.bytes_of(folder), listed.encode())
        for shown in commands:
            words, printed = shown.split("\n", 1)
            ran = subprocess.run([program, *words.split()[2:]], cwd=folder, capture_output=True, timeout=SECONDS)
            expect((words, ran.returncode, ran.stdout, ran.stderr), (words, 0, printed.encode(), b""))
        expect(len(commands), 3)
        found = server.ask(get("/points/" + question.rpartition("/points/")[2]))
        expect(found, response(200, reported.encode()))
        server.end()


def a_record_is_begun_anew_as_the_document_tells(program, folder):
    """From its straight list, once a run has made its last delivery, which the database lacks. What comes then is answered
    as after the old record."""
    put_down(folder)
    (folder / recorded.NAME).write_bytes(recorded.lines_of([*EACH_KIND, PENDING]))
    by_words(program, folder, TICK, '{"answer":"tick","writes":1}')
    whole = [*EACH_KIND, PENDING, TICK]
    recorded.in_step(folder, BUILDING, whole)
    words = [program, "straighten", "building.toml", recorded.NAME]
    straight = subprocess.run(words, cwd=folder, capture_output=True, timeout=SECONDS, check=True).stdout
    listed = sum(straight_list(BUILDING, whole), [])
    expect(straight, recorded.lines_of(listed))
    (folder / recorded.NAME).write_bytes(straight)
    asks = [light(2), light(5), light(7), Skip("P1", 9), OTHER, REFUSED, HOLIDAY]
    replies = run_of(BUILDING, [*whole, *asks])[0][len(whole):]
    with serving(program, folder, len(asks), *recorded.KEPT) as server:
        deliver(server, [(request_of(members_of(delivery)), reply) for delivery, reply in zip(asks, replies)])
        server.end()
    recorded.in_step(folder, BUILDING, [*listed, *asks])
    expect(databases.held(folder), databases.tables_after(BUILDING, [*whole, *asks]))


# ---- a record that can't be written

def put_down(folder, deliveries=EACH_KIND):
    """The worked building, and a database with the tables of a list."""
    (folder / "building.toml").write_text(random_lists.toml_of(BUILDING))
    databases.make(folder, databases.tables_after(BUILDING, deliveries))


def asks_over(database):
    """Each run that delivers, over a database of this name."""
    return (["tick", "building.toml", database, "174890160000"], ["import", "building.toml", database, "holidays.csv"],
            ["serve", "building.toml", database, "127.0.0.1:0", "--requests", "1"])


def a_record_that_can_not_be_opened_ends_the_run(program, folder):
    """One that is no plain file is not read, and one in a folder that is missing can't be written."""
    put_down(folder)
    (folder / "folder").mkdir()
    (folder / "holidays.csv").write_text("calendar,entry\nHOLIDAYS,2025-06-09\n")
    before = databases.held(folder)
    for path, database, status, reported in (("/dev/full", "desk.db", 1, "cannot read"), ("folder", "desk.db", 1, "cannot read"),
                                             ("missing/record.jsonl", "new.db", 3, "cannot write")):
        for words in asks_over(database):
            ran = subprocess.run([program, *words, "--record", path], cwd=folder, capture_output=True, timeout=SECONDS)
            expect((words, ran.returncode, ran.stdout, ran.stderr), (words, status, b"", f"desk: {reported} {path}\n".encode()))
            expect(databases.held(folder), before)


def a_record_that_another_desk_keeps_is_not_taken(program, folder):
    with serving(program, folder, 1, *recorded.KEPT) as server:
        words = [program, "tick", "building.toml", "other.db", "174884399999", *recorded.KEPT]
        ran = subprocess.run(words, cwd=folder, capture_output=True, timeout=SECONDS)
        expect((ran.returncode, ran.stdout, ran.stderr), (3, b"", recorded.FAILED))
        expect(server.ask(REQUEST), RESPONSE)
        server.end()
    expect(recorded.bytes_of(folder), LINE)


# ---- a file that is no record

def a_file_that_ends_as_no_line_is_left_as_it_is(program, folder):
    """Whether or not whole lines stand before, which are then those of the database. Nothing is delivered."""
    put_down(folder)
    (folder / "holidays.csv").write_text("calendar,entry\nHOLIDAYS,2025-06-09\n")
    before = databases.held(folder)
    for lines, database in ((b"", "new.db"), (recorded.lines_of(EACH_KIND), "desk.db")):
        for text, words in ((lines + end, words) for end in NO_LINES for words in asks_over(database)):
            (folder / recorded.NAME).write_bytes(text)
            ran = subprocess.run([program, *words, *recorded.KEPT], cwd=folder, capture_output=True, timeout=SECONDS)
            reported = f"desk: the last line of {recorded.NAME} is not a delivery\n".encode()
            expect((text, words, ran.returncode, ran.stdout, ran.stderr), (text, words, 1, b"", reported))
            expect((recorded.bytes_of(folder), databases.held(folder)), (text, before))


def edited(building):
    """The building with other rules: a panel without its priorities, and a schedule with another list."""
    text = random_lists.toml_of(building)
    return re.sub(r"^priorities = .*$", "priorities = [16]", text, flags=re.M)


def only_its_own_record_is_taken(program, folder):
    """Of a database with the tables of a list the list is the record, and the list with one delivery more, which is still
    to be made; any other list is refused, at the first difference in a panel's numbers, what it sent, or the last tick. A
    building whose rules were edited changes none of that. Where the record makes another value, that is told."""
    rng = random.Random(72)
    for number in range(RECORDS):
        room = folder / str(number)
        room.mkdir()
        building = random_lists.some_building(rng)
        deliveries = [each for each in deliveries_at(number % 7 + 1)(rng, building) if recorded.reaches_the_desk(building, each)]
        (room / "building.toml").write_text(edited(building) if number % 2 else random_lists.toml_of(building))
        databases.make(room, databases.tables_after(building, deliveries))
        databases.keep(room, room / "kept")
        before = databases.held(room)
        for listed in other_lists(rng, deliveries):
            databases.put_back(room / "kept", room)
            (room / recorded.NAME).write_bytes(recorded.lines_of(listed))
            words = [program, "tick", "building.toml", databases.NAME, str(TICK.at), *recorded.KEPT]
            ran = subprocess.run(words, cwd=room, capture_output=True, timeout=SECONDS)
            if is_own(building, deliveries, listed):
                told = ran.stderr.startswith(OTHERWISE)
                expect((listed, ran.returncode, told or ran.stderr == b""), (listed, 0, True))
                # what an edited building makes is not reckoned here
                if number % 2 == 0:
                    expect((listed, told), (listed, makes_otherwise(building, deliveries, listed)))
                continue
            expect((listed, ran.returncode, ran.stdout), (listed, 1, b""))
            expect(ran.stderr.startswith(f"desk: {recorded.NAME} is not the record of {databases.NAME}: ".encode()), True)
            expect((recorded.bytes_of(room), databases.held(room)), (recorded.lines_of(listed), before))
        shutil.rmtree(room)


def other_lists(rng, deliveries):
    """The list itself, without its last delivery or another one, with one more, and with one said otherwise."""
    yield deliveries
    yield deliveries[:-1]
    yield [*deliveries, Tick(174890160000 + rng.randrange(10**6))]
    if deliveries:
        at = rng.randrange(len(deliveries))
        yield deliveries[:at] + deliveries[at + 1:]
        yield deliveries[at:] + deliveries[:at]


def numbers_of(tables):
    """What no rule of a building decides of some tables: next numbers, what was sent, and the last tick."""
    return tables["panel"], [row[:5] for row in tables["command"]], tables["desk"]


def own_tables(building, held, listed):
    """The tables of a list, or of all but its last delivery, if by them the record of the list is that of a database."""
    lists = [listed] + ([listed[:-1]] if listed else [])
    return [each for each in (databases.tables_after(building, it) for it in lists) if numbers_of(each) == numbers_of(held)]


def is_own(building, deliveries, listed):
    return own_tables(building, databases.tables_after(building, deliveries), listed) != []


def makes_otherwise(building, deliveries, listed):
    """Whether none of them leaves each point the values that it has in the database."""
    held = databases.tables_after(building, deliveries)
    return all(each["place"] != held["place"] for each in own_tables(building, held, listed))


def what_a_stop_left_of_a_line_is_taken_off(program, folder):
    put_down(folder)
    listed = [*EACH_KIND]
    for number, end in enumerate(BEGUN):
        (folder / recorded.NAME).write_bytes(recorded.lines_of(listed) + end)
        tick = Tick(TICK.at + number)
        reply = run_of(BUILDING, [*listed, tick])[0][-1]
        by_words(program, folder, tick, reply)
        listed.append(tick)
        recorded.in_step(folder, BUILDING, listed)


# ---- trouble at each call

class Trial:
    """A database with the tables of a list, a record of one more delivery, and what is sent to a desk of both.

    A run that meets trouble leaves in the record what got a reply, and the tables with it; the next run leaves those of the
    record's list.
    """

    def __init__(self, program, folder, sent, is_served):
        self.program, self.folder, self.sent, self.is_served = program, folder, list(sent), is_served
        self.listed = [*EACH_KIND, PENDING]
        (folder / "making").mkdir()
        put_down(folder / "making")
        (folder / "building.toml").write_text(random_lists.toml_of(BUILDING))
        databases.keep(folder / "making", folder / "kept")
        self.replies = run_of(BUILDING, [*self.listed, *self.sent])[0][len(self.listed):]
        self.tables = [databases.tables_after(BUILDING, [*self.listed, *self.sent][:count])
                       for count in range(len(self.listed) - 1, len(self.listed) + len(self.sent) + 1)]

    def begin(self):
        databases.put_back(self.folder / "kept", self.folder)
        (self.folder / recorded.NAME).write_bytes(recorded.lines_of(self.listed) + TORN)

    def run(self, environment):
        """What a run that makes each delivery in turn got before it ended: how many whole replies, what came after them, and
        how it ended. Of a server it also says whether it listened."""
        if not self.is_served:
            words = [self.program, *words_of(self.sent[0], self.folder), *recorded.KEPT]
            ran = subprocess.run(words, cwd=self.folder, env=environment, capture_output=True, timeout=SECONDS)
            is_answered = ran.stdout == self.replies[0].encode() + b"\n"
            return int(is_answered), b"" if is_answered else ran.stdout, (ran.returncode, ran.stderr), True
        with socket.create_server(("127.0.0.1", 0)) as free:
            port = free.getsockname()[1]
        words = [self.program, "serve", "building.toml", databases.NAME, f"127.0.0.1:{port}", "--requests", str(len(self.sent))]
        how = {"cwd": self.folder, "env": environment, "stdout": subprocess.PIPE, "stderr": subprocess.PIPE}
        with subprocess.Popen([*words, *recorded.KEPT], **how) as ran:
            try:
                listened = ran.stdout.readline() == f"listening 127.0.0.1:{port}\n".encode()
                count, last = self.send(port) if listened else (0, b"")
                _, reported = ran.communicate(timeout=SECONDS)
            finally:
                ran.kill()
        return count, last, (ran.returncode, reported), listened

    def send(self, port):
        for count, (delivery, reply) in enumerate(zip(self.sent, self.replies)):
            found = asked(port, request_of(members_of(delivery)))
            if found != answered(reply):
                return count, found
        return len(self.sent), b""

    def left(self, count, exactly):
        """The list of the record after a run in which so many deliveries got replies. The tables are those of the record's
        list, or where it is not said that they are exactly those with what was answered, also those with one less."""
        unanswered = self.sent[count] if count < len(self.sent) else None
        made = [*self.listed, *self.sent[:count]]
        found = recorded.found_after(self.folder, made, unanswered, TORN if count == 0 else b"")
        held = databases.held(self.folder)
        wanted = [self.tables[count + 1]]
        if not exactly:
            wanted += [self.tables[count + 2]] if unanswered and len(found) > len(made) else []
            wanted += [self.tables[0]] if count == 0 else []
        if held not in wanted:
            raise AssertionError(f"the tables hold {held!r}, wanted one of {wanted!r}")
        return found

    def again(self, found, rng):
        """The next run with the record, which makes one more delivery."""
        delivery = rng.choice([*self.sent, light(9), Tick(TICK.at + 1)])
        whole = [*found, delivery]
        reply = run_of(BUILDING, whole)[0][-1]
        if may_be_words(delivery, reply) and rng.random() < 0.5:
            by_words(self.program, self.folder, delivery, reply)
        else:
            with serving(self.program, self.folder, 1, *recorded.KEPT) as server:
                deliver(server, [(request_of(members_of(delivery)), reply)])
                server.end()
        recorded.in_step(self.folder, BUILDING, whole)


def expected_end(trial, trouble, path, how, found):
    """A run with trouble ended as it has to. Whether the tables then are exactly those with what was answered."""
    count, last, ended, listened = found
    is_whole = count == len(trial.sent)
    if not trouble.met():
        expect((is_whole, last, ended), (True, b"", (0, b"")))
        return True
    if "error" not in how:
        expect((last, ended), (b"", (-signal.SIGKILL, b"")))
        return False
    if path == recorded.NAME:
        expect((is_whole, last, ended), (False, NOT_MADE if trial.is_served and listened else b"", (3, recorded.FAILED)))
        return listened and trial.is_served
    if is_whole:
        # its log could not be copied as it ended, or such a copy before failed and a later one did not
        expect((last, ended in ((3, STORE_FAULT), (0, b""))), (b"", True))
        return True
    wanted = (NOT_MADE, (3, b"")) if trial.is_served and listened else (b"", (3, STORE_FAULT))
    expect((last, ended), wanted)
    return False


def each_call(trial, path, how, rng):
    """Has each call in turn that changes the file meet trouble, up to a run that makes fewer. How many there are."""
    at, met = 0, True
    while met:
        at += 1
        trouble = shims.Trouble(trial.folder, at, path=path, **how)
        trial.begin()
        try:
            found = trial.run(trouble.environment)
            met = trouble.met()
            exactly = expected_end(trial, trouble, path, how, found)
            trial.again(trial.left(found[0], exactly), rng)
        except AssertionError as error:
            raise AssertionError(f"{path}, {trouble.text}: {error}") from error
    return at - 1


def try_trouble(program, folder, sent, is_served, path, least):
    trial, seed = Trial(program, folder, sent, is_served), random.randrange(10**9)
    # of the calls of the database alone, the suite `stops` tries the rest
    for how in (shims.STOPS[1], *shims.FAULTS[1:3]) if path == databases.NAME else (*shims.STOPS, *shims.FAULTS):
        calls = each_call(trial, path, how, random.Random(seed))
        if calls < least:
            raise AssertionError(f"only {calls} calls changed {path}, wanted {least}")


def a_served_record_meets_trouble(program, folder):
    """A start cuts its record and syncs it, and each delivery puts a line and syncs it."""
    try_trouble(program, folder, SENT, True, recorded.NAME, 2 + 2 * len(SENT))


def a_recorded_tick_meets_trouble(program, folder):
    try_trouble(program, folder, [TICK], False, recorded.NAME, 4)


def a_recorded_import_meets_trouble(program, folder):
    try_trouble(program, folder, [IMPORT], False, recorded.NAME, 4)


def the_database_of_a_served_record_meets_trouble(program, folder):
    try_trouble(program, folder, (light(5), TICK), True, databases.NAME, 6)


def the_database_of_a_recorded_tick_meets_trouble(program, folder):
    try_trouble(program, folder, [TICK], False, databases.NAME, 4)


TESTS = [tables.in_worked(test) for test in (
    what_delivers_nothing_leaves_no_line,
    what_a_panel_sends_that_the_building_lacks_is_recorded,
    ticks_of_the_clock_are_recorded,
    without_its_words_no_record_is_kept,
    the_record_of_the_document_is_what_a_reader_gets,
    a_record_is_begun_anew_as_the_document_tells,
    a_record_that_another_desk_keeps_is_not_taken,
    a_record_that_can_not_be_opened_ends_the_run,
    a_file_that_ends_as_no_line_is_left_as_it_is,
    only_its_own_record_is_taken,
    what_a_stop_left_of_a_line_is_taken_off,
    a_served_record_meets_trouble,
    a_recorded_tick_meets_trouble,
    a_recorded_import_meets_trouble,
    the_database_of_a_served_record_meets_trouble,
    the_database_of_a_recorded_tick_meets_trouble,
    random_lists_are_recorded_as_they_came,
)]
