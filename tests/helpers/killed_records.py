"""Kills runs that keep a record, for the suite `kills`: servers, at their start, amid the deliveries of a random list and while
they wait; and `desk tick` and `desk import`.

After each kill the record has to hold what it held, then each delivery that got a reply, in order, and at most the one
that got none; what stands after its last line is a beginning of that one's. Then one more run begins with the record and
answers once, but now and then only after several kills: the tables have to be those of the record's list, by the plain
slow desk. Some records stand on a base.
"""
import contextlib
import pathlib
import select
import shutil
import socket
import subprocess
import tempfile
import threading
import time

from helpers import databases, random_lists, recorded
from helpers.deliveries import may_be_words, members_of, request_of
from helpers.runs import asked, words_of
from helpers.serving import answered
from oracle.slow_desk import run_of

LONGEST = 60
MOST_SENT = 6
PATIENCE = 60
LISTENING = b"listening "


@contextlib.contextmanager
def killed_after(ran, seconds):
    """A run, which is killed after so long."""
    timer = threading.Timer(seconds, ran.kill)
    timer.start()
    try:
        yield
    finally:
        timer.cancel()
        ran.kill()


class Trial:
    """Runs over one database with its record, of which most are killed."""

    def __init__(self, program, rng, room, each):
        self.program, self.rng, self.room, self.each = program, rng, room, each
        self.building = random_lists.some_building(rng)
        self.rest = random_lists.some_deliveries(rng, self.building, LONGEST)
        # What came before the record, its list, what stands after it, and how long a run takes that delivers once.
        self.earlier, self.listed, self.torn, self.start = [], [], b"", 10 * each
        (room / "building.toml").write_text(random_lists.toml_of(self.building))
        if rng.random() < 0.3:
            self.earlier = self.reaching(self.take(rng.randint(0, LONGEST // 2)))
        (room / "earlier.jsonl").write_bytes(recorded.lines_of(self.earlier))
        made = subprocess.run([program, "rebuild", "building.toml", "earlier.jsonl", databases.NAME], cwd=room, capture_output=True)
        if made.returncode != 0:
            raise AssertionError(f"no database was made: {made.stderr!r}")
        if self.earlier:
            shutil.copy(room / databases.NAME, room / f"{recorded.NAME}.base")

    def replies_to(self, sent):
        before = [*self.earlier, *self.listed]
        return run_of(self.building, [*before, *sent])[0][len(before):]

    def take(self, count):
        sent, self.rest = self.rest[:count], self.rest[count:]
        return sent

    # ---- runs

    def begin(self, words):
        how = {"cwd": self.room, "stdout": subprocess.PIPE, "stderr": subprocess.PIPE}
        return subprocess.Popen([self.program, *words, *recorded.KEPT], **how)

    def by_words(self, delivery, reply, seconds):
        """A run of `tick` or `import`, killed after so long, or as it prints where no time is given; whether it answered."""
        with self.begin(words_of(delivery, self.room)) as ran, killed_after(ran, PATIENCE if seconds is None else seconds):
            if seconds is None:
                select.select([ran.stdout], [], [], PATIENCE)
                ran.kill()
            printed, reported = ran.communicate(timeout=PATIENCE)
        if reported or not (reply.encode() + b"\n").startswith(printed) or (ran.returncode == 0 and not printed):
            raise AssertionError(f"{delivery} printed {printed!r} and the fault {reported!r}, wanted {reply!r}")
        return bool(printed)

    def by_server(self, sent, replies, start, after, requests):
        """A server, killed so long after it was begun, or so long after it listened; how many got replies, and whether it
        listened."""
        with socket.create_server(("127.0.0.1", 0)) as free:
            port = free.getsockname()[1]
        words = ["serve", "building.toml", databases.NAME, f"127.0.0.1:{port}", "--requests", str(requests)]
        with self.begin(words) as ran, killed_after(ran, start):
            listened = ran.stdout.readline().startswith(LISTENING)
            with killed_after(ran, after) if listened else contextlib.nullcontext():
                count = self.send(port, sent, replies) if listened else 0
                if requests == count:
                    ran.wait(PATIENCE)
            reported = ran.communicate(timeout=PATIENCE)[1]
        if reported or (requests == count and ran.returncode != 0):
            raise AssertionError(f"a server printed the fault {reported!r}, with status {ran.returncode}")
        return count, listened

    def send(self, port, sent, replies):
        """How many deliveries got a byte of their reply."""
        for count, (delivery, reply) in enumerate(zip(sent, replies)):
            begun = time.monotonic()
            found = asked(port, request_of(members_of(delivery)))
            if not answered(reply).startswith(found):
                raise AssertionError(f"{delivery} got {found!r}, wanted {reply!r}")
            if not found:
                return count
            self.each = 0.9 * self.each + 0.1 * (time.monotonic() - begun)
        return len(sent)

    # ---- a kill, and the run after it

    def kill(self):
        """Kills a run. Which end it had, and the delivery that got no reply, if there is one."""
        sent = self.take(self.rng.randint(1, MOST_SENT))
        replies, listened = self.replies_to(sent), True
        if may_be_words(sent[0], replies[0]) and self.rng.random() < 0.5:
            self.rest = sent[1:] + self.rest
            seconds = self.rng.choice([None, self.rng.uniform(0, 1.2 * self.start)])
            count, sent = int(self.by_words(sent[0], replies[0], seconds)), sent[:1]
        else:
            at_start = self.rng.random() < 0.3
            start = self.rng.uniform(0, 1.2 * self.start) if at_start else PATIENCE
            after = self.rng.uniform(0, 1.2 * self.each * len(sent))
            count, listened = self.by_server(sent, replies, start, after, len(sent) + 1)
        made = [*self.listed, *self.reaching(sent[:count])]
        unanswered = sent[count] if count < len(sent) else None
        begun = (self.reaching([unanswered]) or [None])[0] if listened and unanswered else None
        found = recorded.found_after(self.room, made, begun, self.torn)
        self.listed, self.torn = found, recorded.bytes_of(self.room).rpartition(b"\n")[2]
        self.rest = sent[count + 1:] + self.rest
        if unanswered is None:
            return "too late", None
        return "after it" if len(found) > len(made) else "before it" if listened else "at its start", unanswered

    def reaching(self, sent):
        return [each for each in sent if recorded.reaches_the_desk(self.building, each)]

    def answer_once(self, unanswered):
        """A run that is not killed answers once; a delivery that got no reply is now and then sent again."""
        if unanswered and self.rng.random() < 0.5:
            self.rest = [unanswered, *self.rest]
        sent = self.take(1)
        if not sent:
            return
        (reply,), begun = self.replies_to(sent), time.monotonic()
        if may_be_words(sent[0], reply) and self.rng.random() < 0.5:
            answers = self.by_words(sent[0], reply, PATIENCE)
        else:
            answers = self.by_server(sent, [reply], PATIENCE, PATIENCE, 1)[0] == 1
        if not answers:
            raise AssertionError(f"{sent[0]} got no reply, wanted {reply!r}")
        self.start = 0.5 * self.start + 0.5 * (time.monotonic() - begun)
        self.listed, self.torn = [*self.listed, *self.reaching(sent)], b""
        recorded.in_step(self.room, self.building, self.listed, self.earlier)


def try_file(program, rng, each, ends, goes_on):
    """Kills runs over one database with its record, and returns how long a delivery takes."""
    with tempfile.TemporaryDirectory(prefix="desk-kill-") as folder:
        trial = Trial(program, rng, pathlib.Path(folder), each)
        trial.answer_once(None)
        while trial.rest and goes_on():
            end, unanswered = trial.kill()
            ends[end] = ends.get(end, 0) + 1
            if rng.random() < 0.75:
                trial.answer_once(unanswered)
        trial.answer_once(None)
    return trial.each
