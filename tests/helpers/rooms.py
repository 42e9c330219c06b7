"""A folder with a desk that scripts stop and start, as systemd's units do, and a panel's end that sends it commands."""
import contextlib
import functools
import json
import os
import pathlib
import signal
import socket
import subprocess
import time

from helpers import random_lists, recorded
from helpers.serving import SECONDS, post, read_all
from helpers.trying import ROOT, expect
from helpers.worked import BUILDING, light

PANEL = "P1"
WINDOW = 64
DAYS = 30
NAMED = "record.conf"
# The desk that the scripts below stop and start. As the units do, it keeps the record that record.conf names, if there is one.
START = """#!/bin/sh
cd "$(dirname "$0")"
RECORD={record}
[ ! -f record.conf ] || . ./record.conf
{program} serve building.toml desk.db 127.0.0.1:{port} --requests 1000000 ${{RECORD:+--record "$RECORD"}} > listening 2> faults &
echo $! > pid
while ! grep -q listening listening 2> /dev/null; do kill -0 $(cat pid) || exit 1; sleep 0.01; done
"""
STOP = """#!/bin/sh
cd "$(dirname "$0")"
kill -TERM $(cat pid)
while ./runs; do sleep 0.01; done
"""
# A process that ended and has not been waited for does not run.
RUNS = """#!/bin/sh
grep -qs '^State:.[^Z]' /proc/$(cat "$(dirname "$0")/pid")/status
"""
# A program that finds each building well and no database.
NO_DATABASE = """#!/bin/sh
[ "$1" = check ]
"""


class Room:
    """A folder with a building, a desk that can be stopped and started, and a folder for backups."""

    def __init__(self, program, folder, record=recorded.NAME):
        self.folder, self.program, self.backups, self.record = folder, program, folder / "backups", record
        (folder / "building.toml").write_text(random_lists.toml_of(BUILDING))
        with socket.create_server(("127.0.0.1", 0)) as free:
            self.port = free.getsockname()[1]
        for name, text in (("start", START), ("stop", STOP), ("runs", RUNS), ("no-database", NO_DATABASE)):
            (folder / name).write_text(text.format(program=program, port=self.port, record=record) if name == "start" else text)
            (folder / name).chmod(0o755)

    def start(self):
        subprocess.run([self.folder / "start"], check=True, timeout=SECONDS)

    def stop(self):
        subprocess.run([self.folder / "stop"], check=True, timeout=SECONDS)

    def runs(self):
        return subprocess.run([self.folder / "runs"]).returncode == 0

    def process(self):
        return (self.folder / "pid").read_text()

    def end(self):
        with contextlib.suppress(OSError, ValueError):
            os.kill(int(self.process()), signal.SIGKILL)

    # ---- the scripts of deploy

    def environment(self, more):
        calls = {f"DESK_{name.upper()}": str(self.folder / name) for name in ("stop", "start", "runs")}
        return {**os.environ, "DESK": self.program} | calls | more

    def backup(self, database="desk.db", **more):
        words = [ROOT / "deploy" / "desk-backup", self.folder / "building.toml", self.folder / database, self.backups, str(DAYS)]
        if self.record:
            words.append(self.kept())
        return subprocess.run(words, env=self.environment(more), capture_output=True, text=True, timeout=SECONDS)

    def begin_anew(self, **more):
        return subprocess.run(self.words_anew(), env=self.environment(more), capture_output=True, text=True, timeout=SECONDS)

    def words_anew(self):
        return [ROOT / "deploy" / "desk-record", self.folder / "building.toml", self.folder / "desk.db"]

    def kept(self):
        """The path of the record that the desk keeps from its next start on."""
        named = self.folder / NAMED
        return pathlib.Path(named.read_text().strip().removeprefix("RECORD=")) if named.exists() else self.folder / self.record

    def check(self, record, database="desk.db"):
        """What a comparison of a database with a record prints."""
        words = [self.program, "check", "building.toml", database, "--record", record]
        ran = subprocess.run(words, cwd=self.folder, capture_output=True, text=True, timeout=SECONDS)
        return ran.stdout + ran.stderr

    # ---- what is asked of the desk

    def ask(self, target, members):
        """What the desk answers to a delivery, or None where no whole answer came."""
        with contextlib.suppress(OSError), socket.create_connection(("127.0.0.1", self.port), timeout=SECONDS) as connection:
            connection.sendall(post(target, json.dumps(members).encode()))
            body = read_all(connection).partition(b"\r\n\r\n")[2]
            with contextlib.suppress(ValueError):
                return json.loads(body)
        return None


class Panel:
    """A panel's end, as docs/PANELS.md tells it: it repeats each command up to its last answer."""

    def __init__(self, room):
        self.room, self.number, self.answers = room, 0, {}

    def deliver(self, target, members):
        end = time.monotonic() + SECONDS
        while time.monotonic() < end:
            reported = self.room.ask(f"/panels/{PANEL}/{target}", members)
            if reported:
                return reported
            time.sleep(0.02)
        raise AssertionError(f"no answer to {members}")

    def command(self):
        content = light(self.number).content
        return {"number": self.number, "point": content.point, "priority": content.priority, "value": self.number % 2}

    def press(self):
        """Sends a command under the next number, and gives up what the desk no longer has before it."""
        self.number += 1
        reported = self.deliver("commands", self.command())
        while reported["answer"] in ("too_far", "parked"):
            skipped = self.deliver("skip", {"upto": min(reported["next"] + WINDOW, self.number)})
            expect(skipped["answer"], "skip")
            reported = self.deliver("commands", self.command())
        expect((reported["answer"], reported["number"]), ("done", self.number))
        self.answers[self.number] = reported

    def presses(self, count):
        for _ in range(count):
            self.press()

    def repeat(self, number):
        """The command of a number once more."""
        now, self.number = self.number, number
        reported = self.deliver("commands", self.command())
        self.number = now
        return reported

    def expect_answers(self, *numbers):
        """These commands, sent once more, get their first answers."""
        expect([self.repeat(number) for number in numbers], [self.answers[number] for number in numbers])


def in_room(test, **how):
    """The test of a room as one of a program and a folder."""
    @functools.wraps(test)
    def tried(program, folder):
        room = Room(program, folder, **how)
        try:
            test(room)
        finally:
            room.end()
    return tried
