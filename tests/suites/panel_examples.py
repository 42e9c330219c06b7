"""Tries the panels' ends of examples/panels, in Node and Java, over the loopback: no press is swallowed, none is done
twice, and what goes wrong is told with a status. The statuses, the file and the numbers are those of docs/PANELS.md."""
import atexit
import contextlib
import functools
import http.server
import json
import shutil
import socket
import subprocess
import tempfile
import threading

from helpers import tables
from helpers.serving import SECONDS, get, response, serving
from helpers.trying import ROOT, Missing, expect, named

EXAMPLES = ROOT / "examples" / "panels"
SAMPLES = {"node": ["node", str(EXAMPLES / "press.mjs")], "java": ["java", str(EXAMPLES / "Press.java")]}
# Words that are wrong in their place, counted from the end: the address, the panel, the point, the priority and the value.
WRONG_WORDS = [(-6, "127.0.0.1:8080"), (-6, "ftp://127.0.0.1"), (-5, "P!"), (-3, "R 101"), (-2, "17"), (-1, "abc"),
               (-1, "21.5"), (-1, ""), (-1, "9223372036854775808")]
# Files that are refused, and a part of what is told.
WRONG_FILES = [("P2 65 answered R101-SET 8 2100\n", "P2"), ("P1 65 answered R101-", "damaged")]
LAST_NUMBER = 1_000_000_000_000
TOO_FAR = '{"answer":"too_far","next":%d,"number":1000000000000}'
UNREADABLE = '{"answer":"bad_request","fault":"H6"}'


def done(number, value, priority=8):
    return {"answer": "done", "number": number, "present": value, "priority": priority}


@functools.lru_cache(maxsize=None)
def begin_of(sample):
    """The first words of a run. Java would translate its page for each run, so that is done once."""
    if sample == "node":
        return SAMPLES[sample]
    folder = tempfile.mkdtemp(prefix="desk-press-")
    atexit.register(shutil.rmtree, folder, ignore_errors=True)
    subprocess.run(["javac", "-d", folder, EXAMPLES / "Press.java"], check=True)
    return ["java", "-cp", folder, "Press"]


def words_of(sample, address, value, priority=8, panel="P1"):
    return [*begin_of(sample), f"http://{address}", panel, "state", "R101-SET", str(priority), str(value)]


def run(folder, words):
    return subprocess.run(words, cwd=folder, capture_output=True, text=True, timeout=SECONDS)


def expect_end(ran, status, answers, told=""):
    """The status, the answers that were printed, and a part of what was told on the standard error, or nothing."""
    expect((ran.returncode, [json.loads(line) for line in ran.stdout.splitlines()]), (status, answers))
    if told not in ran.stderr or bool(ran.stderr) != bool(told):
        raise AssertionError(f"{ran.stderr!r} was told, wanted {told!r}")


def press(sample, folder, address, value, *answers, status=0, told="", **more):
    expect_end(run(folder, words_of(sample, address, value, **more)), status, list(answers), told)


def expect_present(server, value):
    """The desk has this value at R101-SET."""
    _, body = server.ask(get("/points/R101-SET")).split(b"\r\n\r\n")
    expect(json.loads(body)["present"], value)


def presses_are_answered(program, folder, sample):
    """The first number lies 64 behind the desk's next one. Number 68 is left by a stop."""
    with serving(program, folder, 8) as server:
        press(sample, folder, server.address, 2100, status=8, told="no_panel", panel="P9")
        press(sample, folder, server.address, 2100, done(65, 2100))
        press(sample, folder, server.address, 2200, {"answer": "refused", "number": 66, "rule": "X5"}, priority=4, status=3, told="66")
        press(sample, folder, server.address, "null", done(67, 1800, 0))
        (folder / "state").write_text("P1 68 waits R101-SET 8 2300\n")
        press(sample, folder, server.address, 2400, done(68, 2300), done(69, 2400))
        server.end()


def a_lost_file_swallows_no_press(program, folder, sample):
    with serving(program, folder, 8) as server:
        press(sample, folder, server.address, 2100, done(65, 2100))
        press(sample, folder, server.address, 2200, done(66, 2200))
        (folder / "state").unlink()
        press(sample, folder, server.address, 2100, done(131, 2100))
        expect_present(server, 2100)
        server.end()


def an_older_file_swallows_no_press(program, folder, sample):
    """Number 66 was used for 2200, so the next press is told to differ, and the one after it has a new number."""
    with serving(program, folder, 9) as server:
        press(sample, folder, server.address, 2100, done(65, 2100))
        older = (folder / "state").read_text()
        press(sample, folder, server.address, 2200, done(66, 2200))
        (folder / "state").write_text(older)
        press(sample, folder, server.address, 2300, {"answer": "differs", "number": 66}, status=5, told="press it again")
        press(sample, folder, server.address, 2300, done(131, 2300))
        expect_present(server, 2300)
        server.end()


def a_restored_desk_is_caught_up_with(program, folder, sample):
    """The backup has no number after 65, so those up to 67 are given up."""
    with serving(program, folder, 3) as server:
        press(sample, folder, server.address, 2100, done(65, 2100))
        server.end()
    shutil.copy(folder / "desk.db", folder / "backup.db")
    with serving(program, folder, 2) as server:
        press(sample, folder, server.address, 2200, done(66, 2200))
        press(sample, folder, server.address, 2300, done(67, 2300))
        server.end()
    shutil.copy(folder / "backup.db", folder / "desk.db")
    with serving(program, folder, 4) as server:
        press(sample, folder, server.address, 2400, done(68, 2400), told="restored")
        expect_present(server, 2400)
        server.end()


def wrong_words_keep_no_number(_program, folder, sample):
    before = sorted(folder.iterdir())
    expect_end(run(folder, SAMPLES[sample]), 2, [], "usage: ")
    with socket.create_server(("127.0.0.1", 0)) as listener:
        right = words_of(sample, f"127.0.0.1:{listener.getsockname()[1]}", 2100)
        for place, word in WRONG_WORDS:
            wrong = list(right)
            wrong[place] = word
            expect_end(run(folder, wrong), 2, [], "press: ")
        expect_end(run(folder, right[:-1]), 2, [], "usage: ")
        listener.setblocking(False)
        with contextlib.suppress(BlockingIOError):
            raise AssertionError(f"{listener.accept()} was sent to")
    expect(sorted(folder.iterdir()), before)


def a_wrong_file_stays_as_it_is(_program, folder, sample):
    for text, told in WRONG_FILES:
        (folder / "state").write_text(text)
        press(sample, folder, "127.0.0.1:9", 2100, status=7, told=told)
        expect((folder / "state").read_text(), text)


@contextlib.contextmanager
def waiting(folder, words):
    """A run that has told that no desk answers."""
    with subprocess.Popen(words, cwd=folder, stdout=subprocess.PIPE, stderr=subprocess.PIPE, text=True) as running:
        try:
            expect(running.stderr.readline()[:7], "press: ")
            yield running
        finally:
            running.kill()


def a_run_waits_for_its_desk_and_has_its_file_alone(program, folder, sample):
    """A run that is killed leaves no lock behind."""
    with socket.create_server(("127.0.0.1", 0)) as free:
        address = f"127.0.0.1:{free.getsockname()[1]}"
    words = words_of(sample, address, 2100)
    with waiting(folder, words) as first:
        press(sample, folder, address, 2200, status=6, told="another run")
        first.kill()
    with waiting(folder, words) as second:
        served = [program, "serve", "building.toml", "desk.db", address, "--requests", "3"]
        with subprocess.Popen(served, cwd=folder, stdout=subprocess.DEVNULL) as desk:
            try:
                expect(json.loads(second.communicate(timeout=SECONDS)[0]), done(65, 2100))
                expect((second.returncode, desk.wait(SECONDS)), (0, 0))
            finally:
                desk.kill()


class Answering(http.server.BaseHTTPRequestHandler):
    """Gives the answers of a list one after another, whatever is asked, and the last one again; and notes what was asked."""

    def do_POST(self):
        body = self.rfile.read(int(self.headers["Content-Length"]))
        self.server.asked.append((self.path.rsplit("/", 1)[1], json.loads(body)))
        answers = self.server.answers
        self.wfile.write(response(200, (answers.pop(0) if answers[1:] else answers[0]).encode()))

    def log_message(self, *_):
        pass


@contextlib.contextmanager
def answering(*answers):
    with http.server.HTTPServer(("127.0.0.1", 0), Answering) as server:
        server.answers, server.asked = list(answers), []
        server.address = f"127.0.0.1:{server.server_port}"
        threading.Thread(target=server.serve_forever, args=(0.01,), daemon=True).start()
        try:
            yield server
        finally:
            server.shutdown()


def an_unreadable_command_gives_its_number_up(_program, folder, sample):
    (folder / "state").write_text("P1 65 waits LIGHT 8 1\n")
    with answering("<html>no desk</html>", UNREADABLE, '{"answer":"skip","next":66}', json.dumps(done(66, 2100))) as server:
        press(sample, folder, server.address, 2100, json.loads(UNREADABLE), done(66, 2100), told="number 65")
        expect([asked.get("upto", asked.get("number")) for _, asked in server.asked], [65, 65, 66, 66])
        expect([route for route, _ in server.asked], ["commands", "commands", "skip", "commands"])


def used_up_numbers_are_told(_program, folder, sample):
    """Behind a next number of 10^12 - 63 there is none 64 further; one of 10^12 - 64 leaves the last one."""
    for answer in (f'{{"answer":"differs","number":{LAST_NUMBER}}}', TOO_FAR % (LAST_NUMBER - 63)):
        with answering(answer) as server:
            press(sample, folder, server.address, 2100, status=9, told="used up")
            expect([asked["number"] for _, asked in server.asked], [LAST_NUMBER])
    last = json.dumps(done(LAST_NUMBER, 2100))
    with answering(TOO_FAR % (LAST_NUMBER - 64), f'{{"answer":"skip","next":{LAST_NUMBER}}}', last) as server:
        press(sample, folder, server.address, 2100, json.loads(last))
        press(sample, folder, server.address, 2100, status=9, told="used up")


CASES = [
    presses_are_answered,
    a_lost_file_swallows_no_press,
    an_older_file_swallows_no_press,
    a_restored_desk_is_caught_up_with,
    wrong_words_keep_no_number,
    a_wrong_file_stays_as_it_is,
    a_run_waits_for_its_desk_and_has_its_file_alone,
    an_unreadable_command_gives_its_number_up,
    used_up_numbers_are_told,
]


def in_language(case, sample):
    """The case as a test of a program and a folder."""
    def test(program, folder):
        if not shutil.which(sample):
            raise Missing(sample)
        case(program, folder, sample)
    return named(f"{case.__name__}_in_{sample}", test)


TESTS = [tables.in_worked(in_language(case, sample)) for sample in SAMPLES for case in CASES]
