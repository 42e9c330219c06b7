"""Tries `panel send` against `desk serve` through a proxy that loses, cuts, repeats and reorders, while both are killed.

First some runs follow one another over one desk, each with its status, output and fault. Then two panels press lists
of commands. Each run of `panel send` is killed at a random moment and started again over its journal with the lines
that the journal does not have, and the desk is killed and started again too. When the seconds are over each panel gets
its last answers; then what was pressed is what the desk's tables hold under each number, each answer that was printed
is the one kept there, and each place holds what its panel pressed last. The program of the panels is build/panel.
"""
import contextlib
import json
import random
import signal
import socket
import sqlite3
import subprocess
import threading
import time

from helpers.trying import ROOT, Missing, expect, expect_none, named

BUILDING = """zone = "UTC0"
[[point]]
name = "SET"
kind = "analog"
low = 0
high = 1000000
default = 0
[[point]]
name = "LIGHT"
kind = "binary"
default = 0
[[panel]]
name = "P1"
points = ["SET", "LIGHT"]
priorities = [8]
[[panel]]
name = "P2"
points = ["SET"]
priorities = [9]
"""
PANEL = ROOT / "build" / "panel"
SECONDS = 40
PRIORITIES = {"P1": 8, "P2": 9}
PAGE = b"HTTP/1.1 502 Bad Gateway\r\nContent-Length: 20\r\n\r\n<html>no desk</html>"
PATIENCE = 60
# Of how many numbers below the next one the desk keeps the answers.
KEPT = 1_000
# More lines than the panels get through.
LINES_A_SECOND = 400
# What the proxy does with a request, and how often.
TROUBLES = {"pass": 60, "lose": 10, "lose the reply": 10, "cut": 6, "repeat": 6, "hold": 6, "page": 2}


class Desk:
    """A desk that serves a database, and is killed and started again."""

    def __init__(self, program, folder):
        self.program, self.folder, self.lock, self.kills = program, folder, threading.Lock(), 0
        with socket.create_server(("127.0.0.1", 0)) as free:
            self.port = free.getsockname()[1]
        self.start()

    def start(self):
        words = [self.program, "serve", "building.toml", "desk.db", f"127.0.0.1:{self.port}", "--requests", "1000000"]
        end = time.monotonic() + PATIENCE
        while time.monotonic() < end:
            self.ran = subprocess.Popen(words, cwd=self.folder, stdout=subprocess.PIPE, stderr=subprocess.DEVNULL)
            if self.ran.stdout.readline():
                return
            self.ran.wait()
            time.sleep(0.02)
        raise AssertionError("the desk does not listen")

    def kill(self):
        self.ran.send_signal(signal.SIGKILL)
        self.ran.wait()
        self.ran.stdout.close()
        self.kills += 1

    def ask(self, request):
        """The response to a request: what came of it, where the desk was killed."""
        found = b""
        with contextlib.suppress(OSError), socket.create_connection(("127.0.0.1", self.port), 6) as there:
            there.sendall(request)
            while block := there.recv(4096):
                found += block
        return found


class Proxy(threading.Thread):
    """Stands before the desk, and does to each request what the seed says."""

    def __init__(self, desk, seed):
        super().__init__(daemon=True)
        self.desk, self.random, self.held, self.lock = desk, random.Random(seed), [], threading.Lock()
        self.socket = socket.create_server(("127.0.0.1", 0), backlog=64)
        self.address = "127.0.0.1:%d" % self.socket.getsockname()[1]
        self.start()

    def run(self):
        while True:
            there, _ = self.socket.accept()
            threading.Thread(target=self.answer, args=(there,), daemon=True).start()

    def request(self, there):
        found = b""
        while b"\r\n\r\n" not in found:
            block = there.recv(4096)
            if not block:
                return found
            found += block
        head, _, body = found.partition(b"\r\n\r\n")
        size = int(head.partition(b"Content-Length: ")[2].partition(b"\r\n")[0])
        while len(body) < size:
            block = there.recv(4096)
            if not block:
                break
            body += block
        return head + b"\r\n\r\n" + body

    def answer(self, there):
        with there, contextlib.suppress(OSError):
            there.settimeout(6)
            request = self.request(there)
            with self.lock:
                trouble = self.random.choices(list(TROUBLES), list(TROUBLES.values()))[0]
                late = self.held.pop(self.random.randrange(len(self.held))) if self.held and self.random.random() < 0.3 else None
                cut = self.random.random()
                if trouble == "hold":
                    self.held.append(request)
            there.sendall(self.response(trouble, request, cut))
        if late:
            self.desk.ask(late)

    def response(self, trouble, request, cut):
        if trouble in ("lose", "hold"):
            return b""
        if trouble == "page":
            return PAGE
        response = self.desk.ask(request)
        if trouble == "repeat":
            response = self.desk.ask(request)
        if trouble == "lose the reply":
            return b""
        return response[:int(cut * len(response))] if trouble == "cut" else response


class Panel:
    """One panel's list, its journal, and the answers that its runs printed."""

    def __init__(self, program, folder, name, count, address):
        self.program, self.folder, self.name, self.address = program, folder, name, address
        priority = PRIORITIES[name]
        self.lines = [{"point": "SET", "priority": priority, "value": value} for value in range(1, count + 1)]
        self.answers, self.kills = {}, 0

    def pressed(self):
        """What the journal has of presses, in whole lines."""
        path = self.folder / f"{self.name}.journal"
        text = path.read_text() if path.exists() else ""
        entries = [json.loads(line) for line in text[:text.rfind("\n") + 1].splitlines()]
        return [entry for entry in entries if "point" in entry]

    def run_once(self, seconds):
        """One run of the program over what is left, killed after these seconds; true where it ended by itself."""
        left = self.lines[len(self.pressed()):]
        words = [self.program, "send", self.address, self.name, f"{self.name}.journal"]
        ran = subprocess.Popen(words, cwd=self.folder, stdin=subprocess.PIPE, stdout=subprocess.PIPE, stderr=subprocess.PIPE)
        text = "".join(json.dumps(line) + "\n" for line in left).encode()
        feeder = threading.Thread(target=self.feed, args=(ran, text), daemon=True)
        feeder.start()
        try:
            ran.wait(seconds)
        except subprocess.TimeoutExpired:
            ran.send_signal(signal.SIGKILL)
            ran.wait()
            self.kills += 1
        feeder.join()
        printed, reported = ran.stdout.read(), ran.stderr.read()
        for line in printed[:printed.rfind(b"\n") + 1].decode().splitlines():
            self.take(json.loads(line))
        if ran.returncode > 0:
            raise AssertionError((ran.returncode, reported))
        return ran.returncode == 0

    def feed(self, ran, text):
        with contextlib.suppress(OSError):
            ran.stdin.write(text)
        with contextlib.suppress(OSError):
            ran.stdin.close()

    def take(self, answer):
        """An answer that is printed again is the same."""
        number = answer["number"]
        expect(self.answers.setdefault(number, answer), answer)


def look(folder, panels):
    """What was pressed and answered is what the tables show."""
    with contextlib.closing(sqlite3.connect(folder / "desk.db")) as database:
        for panel in panels:
            pressed = panel.pressed()
            expect([{key: entry[key] for key in ("point", "priority", "value")} for entry in pressed], panel.lines)
            numbers = [entry["number"] for entry in pressed]
            expect(numbers, list(range(numbers[0], numbers[0] + len(numbers))))
            expect(sorted(panel.answers), numbers)
            wanted = [(entry["number"], entry["value"], 1, panel.answers[entry["number"]]["present"],
                       panel.answers[entry["number"]]["priority"]) for entry in pressed]
            held = database.execute("SELECT number, value, state, a, b FROM command WHERE panel = ? ORDER BY number",
                                    (panel.name,)).fetchall()
            expect(len(held), min(len(pressed), KEPT))
            expect(held, wanted[-len(held):])
            rows = database.execute("SELECT value FROM place WHERE point = 'SET' AND priority = ?", (PRIORITIES[panel.name],))
            expect(rows.fetchall(), [(panel.lines[-1]["value"],)])


# ---- single runs

SENT = """{"point":"SET","priority":8,"value":7}
{"point":"SET","priority":6,"value":7}
{"point":"LIGHT","value":null}
"""
ANSWERS = """{"answer":"done","number":65,"present":7,"priority":8}
{"answer":"refused","number":66,"rule":"X4"}
{"answer":"refused","number":67,"rule":"X5"}
"""
USAGE = """usage: panel send ADDRESS NAME JOURNAL
       panel skip ADDRESS NAME JOURNAL
       panel status NAME JOURNAL
       panel --version
"""


def run(program, folder, words, text=""):
    """The status, the output and the faults of one run."""
    ran = subprocess.run([program, *words], cwd=folder, input=text.encode(), capture_output=True, timeout=PATIENCE)
    return ran.returncode, ran.stdout.decode(), ran.stderr.decode()


def words_are_refused(program, folder, address):
    for words in ([], ["send"], ["send", address, "P1"], ["begin", address, "P1", "a.journal"]):
        expect(run(program, folder, words), (2, "", USAGE))
    expect(run(program, folder, ["send", address, "P 1", "a.journal"]), (2, "", "panel: the panel's name is malformed\n"))
    expect(run(program, folder, ["--version"]), (0, "panel 1.0.0\n", ""))


def lines_are_answered_in_order(program, folder, address):
    """The first number of a new journal lies past the window of the desk's next one, which is 1."""
    expect(run(program, folder, ["send", address, "P1", "a.journal"], SENT), (0, ANSWERS, ""))
    expect(run(program, folder, ["status", "P1", "a.journal"]), (0, "P1: the next number is 68, 0 in flight\n", ""))
    expect(run(program, folder, ["send", address, "P1", "a.journal"], '{"point":"SET","priority":8,"value":9}\n'),
           (0, '{"answer":"done","number":68,"present":9,"priority":8}\n', ""))


def a_line_that_is_no_command_ends_the_input(program, folder, address):
    text = '{"point":"SET","priority":8,"value":8}\nvalue\n{"point":"SET","priority":8,"value":1}\n'
    expect(run(program, folder, ["send", address, "P1", "a.journal"], text),
           (1, '{"answer":"done","number":69,"present":8,"priority":8}\n', "panel: line 2 of the input is no command\n"))


def what_is_given_up_is_reported(program, folder, address):
    """A press that was kept and never sent."""
    with open(folder / "a.journal", "a") as journal:
        journal.write('{"number":70,"point":"SET","priority":8,"value":5}\n{"number":71,"po')
    expect(run(program, folder, ["status", "P1", "a.journal"]), (0, "P1: the next number is 71, 1 in flight\n", ""))
    expect(run(program, folder, ["skip", address, "P1", "a.journal"]), (0, '{"answer":"skipped","number":70}\n', ""))
    expect(run(program, folder, ["skip", address, "P1", "a.journal"]), (0, "", ""))


def a_lost_journal_goes_on_past_the_window(program, folder, address):
    (folder / "a.journal").unlink()
    expect(run(program, folder, ["send", address, "P1", "a.journal"], '{"point":"SET","priority":8,"value":3}\n'),
           (0, '{"answer":"done","number":135,"present":3,"priority":8}\n', ""))


def a_journal_is_looked_over(program, folder, address):
    reported = "panel: line 1 of the journal is no entry in its place\n"
    for name, text in (("b.journal", "first\n"), ("c.journal", '{"answer":"skip","next":65}\n')):
        (folder / name).write_text(text)
        expect(run(program, folder, ["send", address, "P1", name]), (1, "", reported))
    expect(run(program, folder, ["send", address, "P2", "a.journal"]), (1, "", "panel: the journal is another panel's\n"))
    expect(run(program, folder, ["status", "P1", "d.journal"]), (0, "P1: no journal\n", ""))
    expect((folder / "d.journal").exists(), False)
    expect(run(program, folder, ["send", address, "P9", "e.journal"]), (1, "", "panel: the desk has no such panel\n"))


CASES = (words_are_refused, lines_are_answered_in_order, a_line_that_is_no_command_ends_the_input, what_is_given_up_is_reported,
         a_lost_journal_goes_on_past_the_window, a_journal_is_looked_over)


def panel_program():
    if not PANEL.exists():
        raise Missing("build/panel")
    return str(PANEL)


def after_those_before(place):
    """The case of this place as a test, over a desk on which those before it were tried."""
    def test(program, folder):
        (folder / "building.toml").write_text(BUILDING)
        panel, desk = panel_program(), Desk(program, folder)
        try:
            for case in CASES[:place + 1]:
                case(panel, folder, f"127.0.0.1:{desk.port}")
        finally:
            desk.kill()
    return named(CASES[place].__name__, test)


# ---- kills

def killing(desk, chance, ended):
    while not ended.wait(0.2 + chance.random()):
        desk.kill()
        desk.start()


def pressing(panel, chance, end, faults):
    try:
        while time.monotonic() < end and not panel.run_once(0.05 + chance.random() * 0.6):
            pass
        panel.lines = panel.lines[:len(panel.pressed())]
        expect(panel.run_once(PATIENCE), True)
    except Exception as fault:  # set by the main thread
        faults.append(fault)


def pressed_and_killed(desk, panels, seed):
    """Lets the panels press while all is killed, and returns what went wrong."""
    faults, ended, end = [], threading.Event(), time.monotonic() + SECONDS
    killer = threading.Thread(target=killing, args=(desk, random.Random(seed + 1), ended))
    killer.start()
    runs = [threading.Thread(target=pressing, args=(panel, random.Random(seed + 2 + place), end, faults))
            for place, panel in enumerate(panels)]
    for run in runs:
        run.start()
    for run in runs:
        run.join()
    ended.set()
    killer.join()
    return faults


def kills_lose_no_press_and_repeat_none(program, folder):
    (folder / "building.toml").write_text(BUILDING)
    panel, desk, seed = panel_program(), Desk(program, folder), random.randrange(1 << 32)
    try:
        address = Proxy(desk, seed).address
        panels = [Panel(panel, folder, name, SECONDS * LINES_A_SECOND, address) for name in PRIORITIES]
        faults = pressed_and_killed(desk, panels, seed)
    finally:
        desk.kill()
    expect_none("; ".join(map(repr, faults)))
    look(folder, panels)
    kills = desk.kills + sum(each.kills for each in panels)
    print(f"{kills} kills, {sum(len(each.answers) for each in panels)} commands answered", flush=True)


TESTS = [*map(after_those_before, range(len(CASES))), kills_lose_no_press_and_repeat_none]
