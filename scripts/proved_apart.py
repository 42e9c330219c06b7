"""Builds a measuring program over the proved crates, in a copy of the repository.

Such a program is no part of the desk, and what it costs to prove would be paid at each gate. So its only file stands in
scripts/NAME/main.rattle, and it is proved in a copy below build/bench: some minutes the first time, seconds after that.
"""
import pathlib
import shutil
import subprocess
import sys

ROOT = pathlib.Path(__file__).resolve().parent.parent
FOLDER = ROOT / "build" / "bench"


def built(name, libraries):
    """The program of that name, which stands on these crates."""
    copy = FOLDER / name
    shutil.copytree(ROOT / "crates", copy / "crates", dirs_exist_ok=True)
    shutil.copy(ROOT / "HANDLES", copy / "HANDLES")
    (copy / "crates.txt").write_text((ROOT / "crates.txt").read_text() + f"{name}: {libraries}\n")
    crate = copy / "crates" / name
    (crate / "src").mkdir(parents=True, exist_ok=True)
    shutil.copy(ROOT / "scripts" / name / "main.rattle", crate / "src" / "main.rt")
    program = crate / "out" / name
    # without words it does nothing, and its status tells nothing
    subprocess.run(["rt", "run"], cwd=crate, capture_output=True)
    if not program.exists():
        sys.exit(f"the measuring program was not built: run `rt check` in build/bench/{name}/crates/{name}")
    return program
