"""The programs in `build`: whether each is that of these sources, what it takes to make them, and how they are put there."""
import dataclasses
import hashlib
import os
import pathlib
import re
import shutil
import subprocess
import sys
import tempfile
import time

ROOT = pathlib.Path(__file__).resolve().parent.parent
PARTS = ("src", "specs", "proofs")
# The prover walks a gigabyte or two of memory. Told so, its allocator asks for large pages, which saves a tenth of its time.
ENVIRONMENT = {**os.environ, "MIMALLOC_ALLOW_LARGE_OS_PAGES": "1"}
# The kit with the logic that the proofs rest on. It keeps what a run has proved for the next one.
TOOLCHAIN = "rattle-kit-13f logic dac8208d650f15bf"
LEAST_PYTHON = (3, 11)
# What `rt ci` says of a crate that ends.
ENDED = re.compile(r"rt: (\w+) (proved|is kept|NOT PROVED)\b")


def crates():
    """The crates of the repository, each with those of them that it stands on."""
    lines = [line.partition(":") for line in (ROOT / "crates.txt").read_text().splitlines() if line and not line.startswith("#")]
    names = {head.split()[0] for head, _, _ in lines}
    return {head.split()[0]: [it for it in below.split() if it in names] for head, _, below in lines}


@dataclasses.dataclass(frozen=True)
class Program:
    """A program by its word, and the crate that it is."""
    word: str
    crate: str

    @property
    def built(self):
        return ROOT / "build" / self.word

    @property
    def sum(self):
        """The sum of the sources that the program was made of."""
        return ROOT / "build" / f"{self.word}.sources"

    def below(self):
        """The crate and all that it stands on."""
        every, found, left = crates(), set(), [self.crate]
        while left:
            name = left.pop()
            if name not in found:
                found.add(name)
                left += every[name]
        return found

    def lines(self):
        """The lines of crates.txt of these crates."""
        wanted = self.below()
        return [line for line in (ROOT / "crates.txt").read_text().splitlines() if line.partition(":")[0] in wanted]

    def sources_sum(self):
        """A sum of all that the program is proved and built from, but for the toolchain."""
        found = hashlib.sha256()
        for name in sorted(self.below()):
            for part in PARTS:
                for path in sorted((ROOT / "crates" / name / part).rglob("*")):
                    if path.is_file():
                        found.update(repr((str(path.relative_to(ROOT)), path.read_bytes())).encode())
        found.update("\n".join(sorted(self.lines())).encode())
        return found.hexdigest()

    def is_current(self):
        """Whether the program was proved and built from these sources."""
        return os.access(self.built, os.X_OK) and self.sum.is_file() and self.sum.read_text().strip() == self.sources_sum()

    def keep(self, folder, sum):
        """Puts the program that the kit built in a copy of the sources of that sum where the others find it."""
        self.built.parent.mkdir(exist_ok=True)
        self.sum.unlink(missing_ok=True)
        new = self.built.with_name(self.word + ".new")
        shutil.copy2(folder / "crates" / self.crate / "out" / self.crate, new)
        os.replace(new, self.built)
        self.sum.write_text(sum + "\n")

    def cut_copy(self, to):
        """Copies what the program is proved from: no trials, tests of them or wrong bodies."""
        (to / ".git").mkdir(parents=True)
        for name in self.below():
            shutil.copytree(ROOT / "crates" / name, to / "crates" / name,
                            ignore=shutil.ignore_patterns("out", "must-fail", "wrong-bodies.edit"))
        (to / "crates.txt").write_text("\n".join(self.lines()) + "\n")
        shutil.copy2(ROOT / "HANDLES", to / "HANDLES")


DESK, PANEL = Program("desk", "desk_program"), Program("panel", "panel_program")


def run_ci(folder, count, log):
    """Runs `rt ci` in a folder of so many crates, tells each as it ends, and returns what it printed last, if it ended well.

    What the kit says goes to the log."""
    began, ended, last = time.monotonic(), set(), ""
    how = {"cwd": folder, "env": ENVIRONMENT, "stdout": subprocess.PIPE, "stderr": subprocess.STDOUT, "text": True, "errors": "replace"}
    with subprocess.Popen(["rt", "ci"], **how) as ran:
        for line in ran.stdout:
            print(line, end="", file=log, flush=True)
            last = line if line.strip() else last
            found = ENDED.match(line)
            if found and found[1] not in ended:
                ended.add(found[1])
                print(f"[{len(ended)}/{count}] {found[1]} {found[2]}, {(time.monotonic() - began) / 60:.0f} min", flush=True)
    return last, ran.returncode == 0


# ---- what a run needs

def toolchain():
    """What the toolchain says of itself."""
    return subprocess.run(["rt", "version"], capture_output=True, text=True).stdout.strip()


def free_memory():
    """The memory that is to be had, in bytes: the machine's, or what its control group leaves."""
    words = pathlib.Path("/proc/meminfo").read_text().split()
    found = [1024 * int(words[words.index("MemAvailable:") + 1])]
    try:
        group = pathlib.Path("/sys/fs/cgroup")
        found.append(int((group / "memory.max").read_text()) - int((group / "memory.current").read_text()))
    except (OSError, ValueError):
        pass
    return min(found)


def lacks(memory, disk):
    """What this machine lacks for a run that takes so many GB of memory and of the disk: a line for each."""
    found = []
    if sys.version_info < LEAST_PYTHON:
        found.append(f"Python 3.11 or later is needed, and this is {sys.version.split()[0]}")
    try:
        said = toolchain()
    except OSError:
        found.append("the command rt of the Rattle toolchain is not on the PATH")
    else:
        if said != TOOLCHAIN:
            found.append(f"the toolchain {TOOLCHAIN} is needed, and rt version says {said or 'nothing'}")
    gigabytes = free_memory() / 1e9
    if gigabytes < memory:
        found.append(f"{memory} GB of free memory are needed, and {gigabytes:.1f} are free")
    for place in {tempfile.gettempdir(), str(ROOT)}:
        gigabytes = shutil.disk_usage(place).free / 1e9
        if gigabytes < disk:
            found.append(f"{disk} GB of free disk are needed at {place}, and {gigabytes:.1f} are free")
    return found


def stop_where_lacking(memory, disk):
    """Ends the run with status 2 where this machine lacks something for it."""
    found = lacks(memory, disk)
    for line in found:
        print(f"desk: {line}", file=sys.stderr)
    if found:
        sys.exit(2)
