"""Tries what a newcomer meets: a missing toolchain, a build that is interrupted, and the commands over a built program.

A build that is interrupted is tried over a small repository of its own, whose crates no earlier run can have proved,
with the scripts of this one.
"""
import os
import pathlib
import re
import shutil
import signal
import subprocess
import sys
import time

from helpers.trying import ROOT, Missing, expect

sys.path.insert(0, str(ROOT / "scripts"))
import program as toolchain  # noqa: E402

ON_DISK = True
SECONDS = 600
EXAMPLE = """{"answer":"done","number":1,"present":2150,"priority":8}
{"answer":"done","number":1,"present":2150,"priority":8}
{"answer":"done","number":2,"present":1800,"priority":0}
POINT R101-SET                                1800  0
POINT LIGHT                                      0  0
"""


def make(target, folder, **environment):
    """Runs make in a folder."""
    given = {**without_make(), **environment}
    return subprocess.run(["make", target], cwd=folder, env=given, capture_output=True, text=True, timeout=SECONDS)


def without_make():
    """The environment as it is without a make above, which would have this one tell its folders."""
    return {name: value for name, value in os.environ.items() if name not in ("MAKELEVEL", "MAKEFLAGS", "MFLAGS")}


def path_without_toolchain(folder):
    """A PATH on which stand the commands that make wants, and no toolchain."""
    folder.mkdir()
    for name in ("make", "python3", "sh", "env"):
        (folder / name).symlink_to(shutil.which(name))
    return str(folder)


def copy_of_the_repository(to):
    shutil.copytree(ROOT, to, ignore=shutil.ignore_patterns(".git", "build", "out", "proofs", "must-fail", "wrong-bodies.edit"))
    return to


# ---- the cases

def a_missing_toolchain_is_reported_in_one_line(program, room):
    copy = copy_of_the_repository(room / "copy")
    path = path_without_toolchain(room / "bin")
    for target in ("run", "desk", "test"):
        ran = make(target, copy, PATH=path)
        lines = [line for line in ran.stderr.splitlines() if not line.startswith("make")]
        expect(lines, ["desk: the command rt of the Rattle toolchain is not on the PATH"], f"make {target} without the toolchain")
        expect((ran.returncode, ran.stdout), (2, ""), f"make {target} without the toolchain")


def a_missing_python_is_reported_in_one_line(program, room):
    copy = copy_of_the_repository(room / "copy")
    path = room / "bin"
    path_without_toolchain(path)
    (path / "python3").unlink()
    ran = make("run", copy, PATH=str(path))
    lines = [line for line in ran.stderr.splitlines() if not line.startswith("make")]
    expect(lines, ["desk: python3 (3.11 or later) is not on the PATH"], "make run without Python")


def a_built_program_runs_at_once(program, room):
    """Over a program that the gate has left, neither proves anything."""
    if pathlib.Path(program) != toolchain.DESK.built:
        raise Missing("build/desk as the program")
    began = time.monotonic()
    ran = make("run", ROOT)
    expect((ran.returncode, ran.stdout, ran.stderr), (0, EXAMPLE, ""), "make run over build/desk")
    ran = make("desk", ROOT)
    expect((ran.returncode, ran.stdout), (0, "build/desk is proved and up to date\n"), "make desk over build/desk")
    if time.monotonic() - began > 20:
        raise AssertionError(f"the two took {time.monotonic() - began:.0f} seconds")


def small_repository(to):
    """Two crates, one on the other, with the scripts and the Makefile of this repository; nobody has proved them before."""
    mark = os.urandom(8).hex()
    (to / "crates").mkdir(parents=True)
    shutil.copytree(ROOT / "scripts", to / "scripts", ignore=shutil.ignore_patterns("__pycache__"))
    for name in ("Makefile", "HANDLES"):
        shutil.copy2(ROOT / name, to / name)
    subprocess.run(["git", "init", "-q", str(to)], check=True)
    (to / "crates.txt").write_text("lowest:\n")
    low = to / "crates" / "lowest" / "src"
    low.mkdir(parents=True)
    (low / "lib.rt").write_text(f"//! The number {mark}.\n#![tactic(auto)]\n\nghost use Rattle.std.specs.Prelude.{{◌≡◌}};\n\n"
                                "/// Seven.\npub fn seven() -> u64\n    ensures { result ≡ 7 }\n{\n    7\n}\n")
    subprocess.run(["rt", "new", "crates/desk_program", "start_io"], cwd=to, check=True, capture_output=True)
    (to / "crates" / "desk_program" / "BUILD.bazel").unlink(missing_ok=True)
    main = to / "crates" / "desk_program" / "src" / "main.rt"
    main.write_text(f"// The number {mark}.\n" + main.read_text())
    (to / "crates.txt").write_text("lowest:\ndesk_program: lowest\n")
    return to


def an_interrupted_build_goes_on(program, room):
    """With a kit that keeps what it has proved, where it was; with any other, from its beginning."""
    if not shutil.which("rt"):
        raise Missing("rt")
    small = small_repository(room / "small")
    how = {"cwd": small, "env": without_make(), "stdout": subprocess.PIPE, "stderr": subprocess.PIPE, "start_new_session": True}
    began = subprocess.Popen(["make", "desk"], **how, text=True)
    for line in began.stdout:
        if line.startswith("[1/2] lowest proved, "):
            break
    else:
        raise AssertionError(f"no crate was proved: {began.stderr.read()}")
    os.killpg(began.pid, signal.SIGKILL)
    began.wait()
    if (small / "build" / "desk").exists():
        raise AssertionError("the build was not interrupted")
    ran = make("desk", small)
    lines = [re.sub(r"\d+(\.\d+)?", "N", line) for line in ran.stdout.splitlines()]
    wanted = ["proving N crates on N processors; from nothing some half an hour to an hour", "[N/N] lowest is kept, N min",
              "[N/N] desk_program proved, N min", "build/desk is proved and up to date, after N minutes"]
    expect((lines[:2], sorted(lines[2:])), (wanted[:2], wanted[2:]), "the second build")
    expect(ran.returncode, 0, "the second build")
    if not os.access(small / "build" / "desk", os.X_OK):
        raise AssertionError("the second build left no program")


TESTS = (
    a_missing_toolchain_is_reported_in_one_line,
    a_missing_python_is_reported_in_one_line,
    a_built_program_runs_at_once,
    an_interrupted_build_goes_on,
)


