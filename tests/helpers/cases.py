"""The cases: files of tests/cases, each a transcript of commands and what is shown of them, with the files that they read.

A file begins with a line `-- NAME --`, or `-- NAME, without its last line end --`.
"""
import dataclasses
import re
import shlex

from helpers import tables
from helpers.trying import ROOT

CASES = ROOT / "tests" / "cases"
REPLAY = ["desk", "replay", "building.toml", "deliveries.jsonl"]
FILE = re.compile(rb"^-- (\S+?)(, without its last line end)? --\n", re.M)


@dataclasses.dataclass(frozen=True)
class Case:
    name: str
    transcript: str
    # what is in each file
    files: dict[str, bytes]

    def commands(self):
        """Each command of the transcript as it stands there, its words, and what is shown under it."""
        found = re.findall(r"^\$ (.*)\n((?:[^$].*\n)*)", self.transcript, re.M)
        return [(command, shlex.split(command), shown) for command, shown in found]

    def building(self):
        """The building: its own, or the worked one."""
        return self.files["building.toml"].decode() if "building.toml" in self.files else tables.WORKED


def read(path):
    transcript, *rest = FILE.split(path.read_bytes())
    files = {name.decode(): content[:-1] if is_open else content for name, is_open, content in zip(*[iter(rest)] * 3)}
    return Case(path.name, transcript.decode(), files)


def all_cases():
    return [read(path) for path in sorted(CASES.iterdir())]


def replays():
    """Each case that shows the replay of its list to its end, and what it shows of it."""
    for case in all_cases():
        for _, words, shown in case.commands():
            if words == REPLAY and not re.search(r"^status ", shown, re.M):
                yield case, shown
