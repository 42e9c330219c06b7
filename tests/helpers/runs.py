"""Runs of the program over a database that deliver once, or ask once: by its words, or by one request to a server."""
import contextlib
import socket
import sqlite3
import subprocess
from dataclasses import dataclass

from helpers import databases, random_lists
from helpers.deliveries import members_of, request_of
from helpers.serving import SECONDS, answered, read_all
from helpers.trying import expect
from oracle.slow_desk import Tick, run_of


@dataclass(frozen=True)
class Ended:
    """What a run printed, or its request got; what it printed on the standard error; and its status."""

    printed: bytes
    reported: bytes
    status: int
    listened: bool = True


@dataclass(frozen=True)
class ByWords:
    """A run of these words, which prints an answer."""

    words: tuple
    answer: bytes

    def run(self, program, folder, environment=None):
        ran = subprocess.run([program, *self.words], cwd=folder, env=environment, capture_output=True, timeout=SECONDS)
        return Ended(ran.stdout, ran.stderr, ran.returncode)


@dataclass(frozen=True)
class ByRequest:
    """A run that serves one request, which gets an answer."""

    request: bytes
    answer: bytes

    def run(self, program, folder, environment=None):
        with socket.create_server(("127.0.0.1", 0)) as free:
            port = free.getsockname()[1]
        words = [program, "serve", "building.toml", databases.NAME, f"127.0.0.1:{port}", "--requests", "1"]
        how = {"cwd": folder, "env": environment, "stdout": subprocess.PIPE, "stderr": subprocess.PIPE}
        with subprocess.Popen(words, **how) as ran:
            try:
                listened = ran.stdout.readline() == f"listening 127.0.0.1:{port}\n".encode()
                printed = asked(port, self.request) if listened else b""
                _, reported = ran.communicate(timeout=SECONDS)
            finally:
                ran.kill()
        return Ended(printed, reported, ran.returncode, listened)


def asked(port, request):
    """What a request gets of a server that may end meanwhile."""
    found = b""
    with contextlib.suppress(OSError), socket.create_connection(("127.0.0.1", port), timeout=SECONDS) as connection:
        connection.sendall(request)
        found = read_all(connection)
    return found


def words_of(delivery, folder):
    """The words that deliver a tick or an import."""
    if isinstance(delivery, Tick):
        return "tick", "building.toml", databases.NAME, str(delivery.at)
    (folder / "holidays.csv").write_text(members_of(delivery)["import"])
    return "import", "building.toml", databases.NAME, "holidays.csv"


def delivering(delivery, reply, folder, by_request):
    """The run that makes a delivery and gets this reply."""
    if by_request:
        return ByRequest(request_of(members_of(delivery)), answered(reply))
    return ByWords(words_of(delivery, folder), reply.encode() + b"\n")


class Trial:
    """A delivery to a database that holds the tables of a list of deliveries, or to none where there is no list.

    A run of it that meets trouble leaves the tables before it or those with the delivery; then the delivery is made
    again, which gets its reply and leaves the tables with it.
    """

    def __init__(self, program, folder, building, earlier, delivery, by_request=False, version=2, page_size=512):
        self.program, self.folder, self.building = program, folder, building
        self.earlier, self.delivery, self.by_request = earlier, delivery, by_request
        (folder / "building.toml").write_text(random_lists.toml_of(building))
        before, whole = list(earlier or ()), [*(earlier or ()), delivery]
        self.before, self.after = (databases.tables_after(building, each) for each in (before, whole))
        self.replies = [run_of(building, each)[0][-1] for each in (whole, [*whole, delivery])]
        # What may stand before the delivery: no tables where there is no database, the old ones of version 1.
        self.least = [None, self.before] if earlier is None else [self.before]
        made = self.before
        if version == 1:
            made = databases.tables_after(building, before, version=1)
            self.least = [made, self.before]
        self.kept = folder / "kept"
        if earlier is None:
            self.kept.mkdir()
        else:
            (folder / "making").mkdir()
            databases.make(folder / "making", made, page_size)
            databases.keep(folder / "making", self.kept)

    def begin(self):
        """Puts the database back as it is before the delivery, and gives the run that delivers."""
        databases.put_back(self.kept, self.folder)
        return delivering(self.delivery, self.replies[0], self.folder, self.by_request)

    def found(self):
        """The tables of the database; of one that was being made, which another program need not take for one, or none."""
        try:
            return databases.held(self.folder)
        except sqlite3.DatabaseError:
            if None in self.least:
                return None
            raise

    def left(self, answered):
        """Whether the tables are those with the delivery, after a run that answered it or may not have."""
        found = self.found()
        if found == self.after:
            return True
        if answered or found not in self.least:
            wanted = [self.after] if answered else [*self.least, self.after]
            raise AssertionError(f"the tables hold {found!r}, wanted one of {wanted!r}")
        return False

    def again(self, is_delivered):
        """Makes the delivery again, which may have been made."""
        run = delivering(self.delivery, self.replies[is_delivered], self.folder, self.by_request)
        expect(run.run(self.program, self.folder), Ended(run.answer, b"", 0))
        expect(databases.held(self.folder), self.after)
